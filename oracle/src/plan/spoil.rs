// spoil.rs: makes a job one that is refused by a number from 1 to 7, or one that only just is not.
use crate::draw::any_word;
use crate::plan::row::{
    Row, AVAILABLE_ABOVE, AVAILABLE_LEFT, B, BASE, BOTTOM_LEFT, D, DELTA, DIRECTION, FLAGS, MODE, START, TOP_RIGHT, TURNED, X, Y,
};
use crate::random::Random;
use crate::spec::{most, ABOVE, DEPTHS, LEFT};

/// 4, and its limit: also where a sum in 16 bits turns over.
fn outside(random: &mut Random, row: &mut Row, width: usize, height: usize) {
    let (word, side) = random.pick(&[(X, width), (Y, height)]);
    let last = (side as u16).saturating_sub(row[B]);
    let turns = 0u16.wrapping_sub(row[B]).wrapping_add(random.below(4) as u16);
    row[word] = random.pick(&[last, last + 1, last + 2, side as u16, turns, turns, 65535]);
}

/// 5, and its limits.
fn no_neighbour(random: &mut Random, row: &mut Row, width: usize, height: usize) {
    let above = (ABOVE, Y, AVAILABLE_ABOVE, TOP_RIGHT, width, row[X]);
    let left = (LEFT, X, AVAILABLE_LEFT, BOTTOM_LEFT, height, row[Y]);
    let (flag, first, available, past, side, at) = random.pick(&[above, left]);
    row[FLAGS] |= flag;
    let room = side.saturating_sub(usize::from(at) + usize::from(row[B])) as u16;
    match random.below(4) {
        0 => row[first] = 0,
        1 => row[available] = random.pick(&[0, 0, 1]),
        _ => row[past] = random.pick(&[room, room + 1, room + 1, row[B], 65535]),
    }
}

/// Sets one thing that a number is about.
pub fn spoil(random: &mut Random, row: &mut Row, number: usize, width: usize, height: usize, differences: usize) {
    let any = any_word(random);
    match number {
        1 => row[B] = random.pick(&[0, 1, 2, 3, 5, 6, 12, 20, 24, 63, 65, 128, 65535, 260, any]),
        2 => row[D] = random.pick(&[0, 1, 7, 9, 11, 13, 14, 16, 65535, 264, any]),
        3 => match random.below(4) {
            0 => row[MODE] = random.pick(&[5, 6, 7, 8, 260, 65535, any]),
            1 => (row[MODE], row[DIRECTION]) = (TURNED, random.pick(&[7, 8, 9, 15, 65535, any])),
            2 => (row[MODE], row[DELTA]) = (TURNED, random.pick(&[6, 7, 8, 65535, any])),
            _ => row[FLAGS] |= random.pick(&[32, 64, 128, 256, 1 << 15, 96]),
        },
        4 => outside(random, row, width, height),
        5 => no_neighbour(random, row, width, height),
        6 => {
            let m = if DEPTHS.contains(&row[D]) { most(row[D]) as u16 } else { 255 };
            row[FLAGS] &= !(ABOVE | LEFT);
            row[BASE] = random.pick(&[0, 0, 1, m - 1, m, m, m + 1, 65535]);
        }
        _ => {
            let last = differences.saturating_sub(usize::from(row[B]).pow(2)) / 16;
            let last = last.min(65533) as u16;
            row[START] = random.pick(&[last, last + 1, last + 1, last + 2, 65535]);
        }
    }
}
