// job.rs: draws a job's row: nearly always one that is done, with any word where a word is not looked at.
use crate::draw::{self, any_word};
use crate::plan::row::{
    Row, AVAILABLE_ABOVE, AVAILABLE_LEFT, B, BASE, BOTTOM_LEFT, D, DELTA, DIRECTION, FLAGS, MAX_HEIGHT, MAX_WIDTH, MODE, TOP_RIGHT,
    TURNED, WORDS, X, Y,
};
use crate::random::Random;
use crate::spec::{Spec, ABOVE, DELTAS, DIRECTIONS, EDGE_FILTER, LEFT, LUMA, SMOOTH_NEIGHBOUR};

/// A max word: 0, about B, or any.
fn max_word(random: &mut Random, b: u16) -> u16 {
    let any = any_word(random);
    let about = random.below(usize::from(b) + 2) as u16;
    random.pick(&[0, about, about, about, b, any])
}

/// The row of a block; its mode, its other flags and what the mode looks at are drawn, and its differences start at 0.
pub fn row(random: &mut Random, block: &Spec) -> Row {
    let mut row = [0; WORDS];
    (row[X], row[Y], row[B], row[D]) = (block.x, block.y, block.b, block.d);
    row[MODE] = random.below(8).min(4) as u16;
    row[DIRECTION] = random.below(DIRECTIONS.into()) as u16;
    row[DELTA] = random.below(DELTAS.into()) as u16;
    row[FLAGS] = if block.have_above { ABOVE } else { 0 } | if block.have_left { LEFT } else { 0 };
    row[FLAGS] |= random.word() & (LUMA | EDGE_FILTER | SMOOTH_NEIGHBOUR);
    (row[TOP_RIGHT], row[BOTTOM_LEFT]) = (block.top_right, block.bottom_left);
    (row[AVAILABLE_ABOVE], row[AVAILABLE_LEFT]) = (block.available_above, block.available_left);
    row[BASE] = block.base;
    row[MAX_WIDTH] = max_word(random, block.b);
    row[MAX_HEIGHT] = max_word(random, block.b);
    if random.once_in(2) {
        ignored(random, &mut row);
    }
    row
}

/// Sets every word that the job does not look at to any.
fn ignored(random: &mut Random, row: &mut Row) {
    let (above, left) = (row[FLAGS] & ABOVE != 0, row[FLAGS] & LEFT != 0);
    let groups: [(bool, &[usize]); 4] = [
        (row[MODE] < TURNED, &[DIRECTION, DELTA, MAX_WIDTH, MAX_HEIGHT]),
        (!above, &[TOP_RIGHT, AVAILABLE_ABOVE]),
        (!left, &[BOTTOM_LEFT, AVAILABLE_LEFT]),
        (above || left, &[BASE]),
    ];
    for &word in groups.iter().filter(|group| group.0).flat_map(|group| group.1) {
        row[word] = any_word(random);
    }
}

/// A job anywhere on a plane; its depth is mostly the plane's.
pub fn anywhere(random: &mut Random, width: usize, height: usize, depth: u16) -> Row {
    let d = random.pick(&[depth, depth, depth, depth, depth, depth, depth, 12, 10, 8]);
    let block = draw::block(random, width, height, d);
    row(random, &block)
}

/// The job of a decoder in raster order, at a column and a row of blocks: all neighbours that it has by then are there.
pub fn in_raster(random: &mut Random, width: usize, height: usize, b: u16, depth: u16, at: (u16, u16)) -> Row {
    let (x, y) = (at.0 * b, at.1 * b);
    let block = Spec {
        width, height, x, y, b, d: depth, have_above: y > 0, have_left: x > 0,
        top_right: if usize::from(x + 2 * b) <= width { b } else { 0 },
        bottom_left: 0, available_above: b, available_left: b, base: 1 << (depth - 1),
    };
    row(random, &block)
}
