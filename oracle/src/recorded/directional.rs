// directional.rs: recorded cases of directions, accepted and refused.
use super::Line;
use crate::inputs::{fill_edge, KINDS, RANDOM};
use crate::random::Random;
use crate::spec::{most, Mode, Words, ABOVE, DELTAS, DEPTHS, DIRECTIONS, EDGE_FILTER, LEFT, LUMA, SIZES, SMOOTH_NEIGHBOUR, ZONES};
use crate::{original, refusals};

/// Accepted cases of each size: the larger the block, the fewer.
const CASES: [usize; 5] = [72, 52, 24, 8, 3];
/// Room for an edge and for a block in the program that replays the list.
const EDGE_ROOM: usize = 128;
const BLOCK_ROOM: usize = 4096;
/// The largest entry that the list can hold.
const LARGEST: i32 = 65535;

struct Case {
    b: u16,
    d: u16,
    words: Words,
    corner: i32,
    above: Vec<i32>,
    left: Vec<i32>,
    out_len: usize,
}

/// Words of a zone. From round to round luma, the edge filter and the max words take turns; the angle is drawn, and after the
/// first round the neighbours are too.
fn words(random: &mut Random, b: u16, zone: usize, round: usize) -> Words {
    let luma = if (round + zone) % 2 == 0 { LUMA } else { 0 };
    let filter = if round % 3 == 1 { 0 } else { EDGE_FILTER };
    let max = |turn: usize| [b / 2, 0, b - 1, 1, b, b + 1, 2 * b, 65535][turn % 8];
    loop {
        let neighbours = if round == 0 { ABOVE | LEFT } else { random.pick(&[ABOVE | LEFT, ABOVE | LEFT, ABOVE, LEFT, 0]) };
        let words = Words {
            direction: random.below(DIRECTIONS.into()) as u16,
            delta: random.below(DELTAS.into()) as u16,
            flags: neighbours | luma | filter | random.pick(&[SMOOTH_NEIGHBOUR, 0]),
            max_width: max(round),
            max_height: max(round + zone),
        };
        if words.zone() == zone {
            return words;
        }
    }
}

/// An edge of 2B entries and a tail that is not looked at.
fn edge(random: &mut Random, kind: usize, b: u16, d: u16) -> Vec<i32> {
    let needed = 2 * usize::from(b);
    let mut entries = vec![LARGEST; EDGE_ROOM.min(needed + random.pick(&[0, 0, 3]))];
    fill_edge(random, kind, most(d), &mut entries[..needed]);
    entries
}

/// An accepted case: the zones in turn, with every depth; edges are drawn in one round and of any kind in the next.
fn accepted(random: &mut Random, b: u16, turn: usize) -> Case {
    let (d, zone, round) = (DEPTHS[turn % DEPTHS.len()], (turn + 1) % ZONES.len(), turn / ZONES.len());
    let mut kind = || if round % 2 == 0 { RANDOM } else { random.below(KINDS) };
    let kinds = [kind(), kind()];
    Case {
        b,
        d,
        words: words(random, b, zone, round),
        corner: if random.once_in(3) { random.pick(&[0, most(d)]) } else { random.within(0, most(d)) },
        above: edge(random, kinds[0], b, d),
        left: edge(random, kinds[1], b, d),
        out_len: BLOCK_ROOM.min(usize::from(b) * usize::from(b) + random.pick(&[0, 0, 5])),
    }
}

/// Faults, in the order in which they are found.
const FAULTS: [fn(&mut Case); 15] = [
    |case| case.b = 12,
    |case| case.b = 65535,
    |case| case.d = 9,
    |case| case.words.direction = 8,
    |case| case.words.delta = 7,
    |case| case.words.flags |= 32,
    |case| case.words.flags = 65535,
    |case| case.above.truncate(2 * usize::from(case.b) - 1),
    |case| case.left.clear(),
    |case| case.out_len = usize::from(case.b) * usize::from(case.b) - 1,
    |case| case.above[0] = most(case.d) + 1,
    |case| case.above[2 * usize::from(case.b) - 1] = most(case.d) + 1,
    |case| case.left[0] = LARGEST,
    |case| case.left[2 * usize::from(case.b) - 1] = most(case.d) + 1,
    |case| case.corner = most(case.d) + 1,
];

fn print(case: &Case) {
    let Words { direction, delta, flags, max_width, max_height } = case.words;
    let mode = Mode::Directional(case.words);
    let answer = refusals::direct(mode, case.b, case.d, &case.above, &case.left, case.corner, case.out_len);
    let mut out = vec![0f32; case.out_len];
    if answer == 0 {
        original::predict(mode, case.b, case.d, &case.above, &case.left, case.corner, &mut out);
    }
    let mut line = Line::new('D', &[case.b, case.d, direction, delta, flags, max_width, max_height].map(usize::from));
    let lens = [case.above.len(), case.left.len(), case.out_len].map(|len| len as i64);
    line.add([case.corner.into()].into_iter().chain(lens).chain([answer.into()]));
    line.add(case.above.iter().chain(&case.left).map(|&v| v.into()));
    line.add(out.iter().map(|&v| v as i64));
    line.print();
}

/// Each fault alone, and with one that is found later.
fn refused(random: &mut Random) {
    let none: fn(&mut Case) = |_| ();
    for (turn, fault) in FAULTS.into_iter().enumerate() {
        for later in [none].iter().chain(FAULTS.get(turn + 5)) {
            let mut case = accepted(random, SIZES[turn % 2], turn);
            later(&mut case);
            fault(&mut case);
            print(&case);
        }
    }
}

pub fn all(random: &mut Random) {
    for (b, cases) in SIZES.into_iter().zip(CASES) {
        (0..cases).for_each(|turn| print(&accepted(random, b, turn)));
    }
    refused(random);
}
