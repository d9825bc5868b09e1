// derive_params.rs: recorded derivations, accepted and refused.
use super::corner::{word, Corner, LARGEST};
use super::Line;
use crate::colour::fill::{self, Texture, RANDOM, TEXTURES};
use crate::colour::window::{chroma_most, luma_most, Window, DIRECTIONS};
use crate::colour::{original, refusals};
use crate::random::Random;
use crate::spec::DEPTHS;

/// Accepted cases that are drawn.
const CASES: usize = 30;
/// Counts of lines above and at the left, in turn.
const LINES: [(usize, usize); 8] = [(2, 2), (2, 0), (0, 2), (3, 2), (1, 3), (256, 0), (2, 1), (1, 1)];

struct Case {
    window: Window,
    luma: Vec<i32>,
    chroma: Vec<i32>,
    params_len: usize,
    corner: Corner,
}

fn case(window: Window, lists: [Vec<i32>; 2], params_len: usize) -> Case {
    let corner = Corner { rows: window.ref_height, columns: window.ref_width };
    let [luma, chroma] = lists.map(|mut list| {
        corner.keep(&mut list);
        list
    });
    Case { window, luma, chroma, params_len, corner }
}

/// A small window: directions, depths, lines and textures take turns; chroma follows luma every other time.
fn accepted(random: &mut Random, turn: usize) -> Case {
    let (above_lines, left_lines) = LINES[turn % LINES.len()];
    let mut side = || random.within(3, if turn % 5 == 0 { 10 } else { 6 }) as usize;
    let (ref_width, ref_height) = (side(), side());
    let (direction, d) = (turn as u32 % DIRECTIONS, u32::from(DEPTHS[turn / 3 % DEPTHS.len()]));
    let window = Window { ref_width, ref_height, above_lines, left_lines, direction, d };
    let kind = if turn % 4 < 2 { RANDOM } else { turn / 4 % TEXTURES };
    let luma = Texture::new(random, kind, luma_most(d));
    let chroma = if turn % 2 == 0 { None } else { Some(random.below(TEXTURES)) };
    let lists = fill::window(random, &window, luma, chroma);
    case(window, lists, random.pick(&[3, 3, 5]))
}

/// The first sample that counts: every window that is refused has it.
const FIRST: usize = 257;

/// Faults, in the order in which they are found.
const FAULTS: [fn(&mut Case); 13] = [
    |case| case.window.d = 9,
    |case| case.window.d = 264,
    |case| case.window.direction = 3,
    |case| case.window.ref_width = 257,
    |case| case.window.ref_height = 257,
    |case| _ = case.luma.pop(),
    |case| case.chroma.clear(),
    |case| case.window.above_lines = 257,
    |case| case.window.left_lines = 65536,
    |case| case.params_len = 2,
    |case| case.luma[FIRST] = luma_most(case.window.d) + 1,
    |case| case.luma[case.window.beside(FIRST)] = LARGEST,
    |case| case.chroma[FIRST] = chroma_most(case.window.d) + 1,
];

fn print(case: &Case) {
    let Window { ref_width, ref_height, above_lines, left_lines, direction, d } = case.window;
    let answer = refusals::derivation(&case.window, &case.luma, &case.chroma, case.params_len);
    let mut params = vec![0; case.params_len];
    if answer == 0 {
        params[..3].copy_from_slice(&original::derive(&case.window, &case.luma, &case.chroma)[0]);
    }
    let head = [
        d as usize, direction as usize, ref_width, ref_height, above_lines, left_lines, case.luma.len(), case.chroma.len(),
        case.params_len, answer as usize, case.corner.rows, case.corner.columns,
    ];
    let mut line = Line::new('C', &head);
    case.corner.add(&mut line, &case.luma);
    case.corner.add(&mut line, &case.chroma);
    line.add(params.into_iter().map(word));
    line.print();
}

/// Each fault alone, and with the one that is found next; those of a sample more often, for the directions.
fn refused(random: &mut Random) {
    let none: fn(&mut Case) = |_| ();
    // Of the lines in turn, those that count the first sample.
    let counted = [0, 1, 2, 3, 4, 6];
    for (turn, fault) in FAULTS.into_iter().enumerate() {
        let more = if turn < 10 { 1 } else { 3 };
        for later in vec![none; more].iter().chain(FAULTS.get(turn + 1)) {
            let round = random.below(9);
            let mut case = accepted(random, counted[turn % 6] + 8 * (turn + round));
            later(&mut case);
            fault(&mut case);
            print(&case);
        }
    }
}

/// One sample whose second pivot is negative, and three with a pivot 0.
fn pivots() {
    for (samples, beside, centre, chroma) in [(1, 452, 1851, 18), (3, 733, 820, 89)] {
        let window = Window { ref_width: samples + 2, ref_height: 3, above_lines: 2, left_lines: 0, direction: 1, d: 8 };
        let mut lists = [vec![0; window.entries()], vec![0; window.entries()]];
        for place in window.counted() {
            (lists[0][window.beside(place)], lists[0][place], lists[1][place]) = (beside, centre, chroma);
        }
        print(&case(window, lists, 3));
    }
}

/// Document 01's case 15 at 12 bits: 128 samples, and 129.
fn case_15() {
    for ref_width in [130, 131] {
        let window = Window { ref_width, ref_height: 3, above_lines: 2, left_lines: 0, direction: 0, d: 12 };
        print(&case(window, [vec![32760; window.entries()], vec![0; window.entries()]], 3));
    }
}

pub fn all(random: &mut Random) {
    (0..CASES).for_each(|turn| print(&accepted(random, turn)));
    refused(random);
    pivots();
    case_15();
}
