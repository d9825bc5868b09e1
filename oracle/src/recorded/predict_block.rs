// predict_block.rs: recorded predictions, accepted and refused.
use super::corner::{word, Corner, LARGEST};
use super::Line;
use crate::colour::block::Block;
use crate::colour::fill::{self, Texture, RANDOM, TEXTURES};
use crate::colour::window::{luma_most, Window, DIRECTIONS};
use crate::colour::{original, params, refusals};
use crate::random::Random;
use crate::spec::DEPTHS;

/// Accepted cases that are drawn.
const CASES: usize = 40;
/// Kinds of parameters, in turn: those that bring samples inside 0..M come most.
const KINDS: [usize; 10] = [0, 5, 4, 5, 3, 5, 1, 5, 2, 5];

struct Case {
    block: Block,
    luma: Vec<i32>,
    out_len: usize,
    corner: Corner,
}

/// A small block: directions, depths, neighbours, textures and kinds of parameters take turns.
fn accepted(random: &mut Random, turn: usize) -> Case {
    let (width, height) = (random.within(1, 6) as usize, random.within(1, 6) as usize);
    let (have_top, have_left) = (turn % 4 < 2, turn % 2 == 0);
    let above_lines = random.pick(&[1, 1, 2]) * usize::from(have_top || random.once_in(2));
    let left_lines = random.pick(&[1, 1, 2]) * usize::from(have_left || random.once_in(2));
    let ref_height = above_lines + height + random.below(2);
    let (direction, d) = (turn as u32 % DIRECTIONS, u32::from(DEPTHS[turn / 3 % DEPTHS.len()]));
    let ref_width = random.pick(&[0, left_lines + width, 256]);
    let window = Window { ref_width, ref_height, above_lines, left_lines, direction, d };
    let mut block = Block { window, width, height, have_top, have_left, params: [0; 3] };
    let texture = Texture::new(random, if turn % 3 == 0 { RANDOM } else { turn / 3 % TEXTURES }, luma_most(d));
    let mut luma = fill::block(random, &block, texture);
    block.params = params::draw(random, KINDS[turn % KINDS.len()], &block, texture, &luma);
    let corner = Corner { rows: ref_height, columns: left_lines + width };
    corner.keep(&mut luma);
    Case { block, luma, out_len: block.samples() + random.pick(&[0, 0, 5]), corner }
}

/// Sets the first sample's own luma, and the direction's.
fn set_first(case: &mut Case, centre: i32, beside: i32) {
    let (own, other) = case.block.places().next().expect("a block has samples");
    case.luma[own] = centre;
    case.luma[other] = beside;
}

/// Faults, in the order in which they are found.
const FAULTS: [fn(&mut Case); 16] = [
    |case| case.block.window.d = 11,
    |case| case.block.window.direction = 3,
    |case| case.block.window.ref_width = 257,
    |case| case.block.window.ref_height = 257,
    |case| _ = case.luma.pop(),
    |case| case.block.window.above_lines = 257,
    |case| case.block.window.left_lines = 257 - case.block.width,
    |case| case.block.width = 0,
    |case| case.block.width = 129,
    |case| case.block.height = 129,
    |case| case.block.height = case.block.window.ref_height - case.block.window.above_lines + 1,
    |case| (case.block.window.above_lines, case.block.have_top) = (0, true),
    |case| (case.block.window.left_lines, case.block.have_left) = (0, true),
    |case| case.out_len = case.block.samples() - 1,
    |case| set_first(case, luma_most(case.block.window.d) + 1, 0),
    |case| set_first(case, 0, LARGEST),
];

fn print(case: &Case) {
    let Block { window: w, width, height, have_top, have_left, params } = case.block;
    let answer = refusals::prediction(&case.block, &case.luma, case.out_len);
    let mut out = vec![0; case.out_len];
    if answer == 0 {
        original::predict(&case.block, &case.luma, false, &mut out);
    }
    let head = [
        w.d as usize, w.direction as usize, w.ref_width, w.ref_height, w.above_lines, w.left_lines, width, height,
        have_top.into(), have_left.into(),
    ];
    let mut line = Line::new('B', &head);
    line.add(params.into_iter().map(word));
    line.add([case.luma.len(), case.out_len, answer as usize, case.corner.rows, case.corner.columns].map(|n| n as i64).into_iter());
    case.corner.add(&mut line, &case.luma);
    line.add(out.into_iter().map(word));
    line.print();
}

/// Each fault alone, and with the one that is found next, where the direction's neighbour is there.
fn refused(random: &mut Random) {
    let none: fn(&mut Case) = |_| ();
    for (turn, fault) in FAULTS.into_iter().enumerate() {
        for later in [none].iter().chain(FAULTS.get(turn + 1)) {
            let mut case = accepted(random, 12 * turn + [4, 8][turn % 2]);
            later(&mut case);
            fault(&mut case);
            print(&case);
        }
    }
}

/// Document 01's case 12 in a block of one sample: -32768 by 1 is -1, and the bias is 100.
fn case_12() {
    let window = Window { ref_width: 1, ref_height: 1, above_lines: 0, left_lines: 0, direction: 0, d: 8 };
    let block = Block { window, width: 1, height: 1, have_top: false, have_left: false, params: [-32768, 0, 51200] };
    let mut luma = vec![0; window.entries()];
    luma[0] = 8;
    print(&Case { block, luma, out_len: 1, corner: Corner { rows: 1, columns: 1 } });
}

pub fn all(random: &mut Random) {
    case_12();
    (0..CASES).for_each(|turn| print(&accepted(random, turn)));
    refused(random);
}
