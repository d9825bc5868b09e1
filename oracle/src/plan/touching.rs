// touching.rs: two jobs, one of them at every place about the other: each of its reads is met and only just missed.
use crate::plan::hold::Comparison;
use crate::plan::row::{Row, AVAILABLE_ABOVE, AVAILABLE_LEFT, BASE, BOTTOM_LEFT, FLAGS, TOP_RIGHT, X, Y};
use crate::plan::{draw, job};
use crate::random::Random;
use crate::spec::{ABOVE, LEFT};

/// Sizes of the job that stays and of the one that goes round it.
const SIZES: [(u16, u16); 6] = [(4, 4), (4, 8), (8, 4), (16, 4), (4, 16), (8, 8)];
/// How often each place and pair of neighbours comes at scale 1, with other counts of samples.
const ROUNDS: f64 = 6.0;

/// A job with these neighbours there and counts drawn at and about their limits.
fn with_neighbours(random: &mut Random, side: usize, b: u16, at: (u16, u16), flags: u16) -> Row {
    let mut row = job::in_raster(random, side, side, b, 8, (1, 1));
    (row[X], row[Y]) = at;
    row[FLAGS] = row[FLAGS] & !(ABOVE | LEFT) | flags;
    row[BASE] = 128;
    for word in [TOP_RIGHT, BOTTOM_LEFT, AVAILABLE_ABOVE, AVAILABLE_LEFT] {
        row[word] = random.pick(&[1, 2, b - 1, b, b, b + 1, 65535]);
    }
    for word in [TOP_RIGHT, BOTTOM_LEFT] {
        row[word] = if random.once_in(4) { 0 } else { row[word] };
    }
    row
}

/// One job at every place about another, in both orders, with either of them first in the plan.
fn round(comparison: &mut Comparison, b: u16, other: u16, flags: u16) {
    let mut random = comparison.random();
    let (first, end) = (other + 2, 2 * other + 2 * b + 4);
    let side = usize::from(end + other);
    let row = job::in_raster(&mut random, side, side, b, 8, (0, 0));
    let mut plan = draw::plan(&mut random, side, side, 8, vec![row], 0);
    plan.differences = vec![3; 256];
    for (x, y) in (0..end).flat_map(|y| (0..end).map(move |x| (x, y))) {
        let stays = with_neighbours(&mut random, side, b, (first, first), flags);
        let goes = with_neighbours(&mut random, side, other, (x, y), 0);
        for pair in [[stays, goes], [goes, stays]] {
            plan.rows = pair.concat();
            comparison.every_order(&plan);
        }
    }
}

pub fn all(comparison: &mut Comparison, scale: f64) {
    comparison.about = "two jobs close together";
    for _ in 0..(ROUNDS * scale).ceil() as usize {
        for (b, other) in SIZES {
            (0..=ABOVE | LEFT).for_each(|flags| round(comparison, b, other, flags));
        }
    }
}
