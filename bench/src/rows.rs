// rows.rs: the plans that are timed: the blocks of a raster, and blocks that touch nothing of each other's; all of depth 10.
use crate::inputs::good_sample;
use crate::random::Random;
use crate::row::{
    Row, AVAILABLE_ABOVE, AVAILABLE_LEFT, B, BASE, D, DELTA, DIRECTION, FLAGS, MODE, START, TOP_RIGHT, WORDS, X, Y,
};
use crate::spec::{most, ABOVE, DELTAS, DIRECTIONS, EDGE_FILTER, LEFT, LUMA, SMOOTH_NEIGHBOUR};
use crate::touches::Touch;

pub const DEPTH: u16 = 10;
/// Blocks a side of a raster, and jobs of a plan.
pub const ACROSS: u16 = 32;
pub const JOBS: usize = 1024;

pub struct Plan {
    pub width: usize,
    pub height: usize,
    pub plane: Vec<f32>,
    pub rows: Vec<Row>,
    pub differences: Vec<i16>,
}

/// A job with any mode and angle; its neighbours are missing. So many jobs have differences of their own as a row's word can name.
pub fn job(random: &mut Random, b: u16, x: u16, y: u16, turn: usize) -> Row {
    let mut row = [0; WORDS];
    (row[X], row[Y], row[B], row[D]) = (x, y, b, DEPTH);
    row[MODE] = random.below(5) as u16;
    row[DIRECTION] = random.below(DIRECTIONS.into()) as u16;
    row[DELTA] = random.below(DELTAS.into()) as u16;
    row[FLAGS] = random.word() & (LUMA | EDGE_FILTER | SMOOTH_NEIGHBOUR);
    (row[AVAILABLE_ABOVE], row[AVAILABLE_LEFT], row[BASE]) = (b, b, 1 << (DEPTH - 1));
    let units = usize::from(b).pow(2) / 16;
    row[START] = (turn % (65536 / units) * units) as u16;
    row
}

/// A plan of jobs on a plane, with small differences.
pub fn plan(random: &mut Random, width: usize, height: usize, rows: Vec<Row>) -> Plan {
    let plane = (0..width * height).map(|_| good_sample(random, most(DEPTH))).collect();
    let end = rows.iter().map(|row| 16 * usize::from(row[START]) + usize::from(row[B]).pow(2)).max().unwrap_or(0);
    let differences = (0..end).map(|_| random.within(-6, 6) as i16).collect();
    Plan { width, height, plane, rows, differences }
}

/// The jobs of a decoder on a plane that just holds them: each has the neighbours that are done by then.
pub fn raster(random: &mut Random, b: u16) -> Plan {
    let mut rows = Vec::new();
    for (line, column) in (0..ACROSS).flat_map(|line| (0..ACROSS).map(move |column| (line, column))) {
        let mut row = job(random, b, column * b, line * b, rows.len());
        row[FLAGS] |= if line > 0 { ABOVE } else { 0 } | if column > 0 { LEFT } else { 0 };
        row[TOP_RIGHT] = if column + 1 < ACROSS { b } else { 0 };
        rows.push(row);
    }
    let side = usize::from(ACROSS * b);
    plan(random, side, side, rows)
}

/// Jobs with all neighbours, each with a margin of its own: no job touches another's samples.
pub fn apart(random: &mut Random, b: u16) -> Plan {
    let mut rows = Vec::new();
    for (line, column) in (0..ACROSS).flat_map(|line| (0..ACROSS).map(move |column| (line, column))) {
        let step = 2 * b + 2;
        let mut row = job(random, b, 1 + column * step, 1 + line * step, rows.len());
        row[FLAGS] |= ABOVE | LEFT;
        row[TOP_RIGHT] = b;
        rows.push(row);
    }
    let side = usize::from(ACROSS * (2 * b + 2));
    plan(random, side, side, rows)
}

/// A random order that turns no clashing pair round.
pub fn accepted(random: &mut Random, rows: &[Row]) -> Vec<u16> {
    let touches: Vec<Touch> = rows.iter().map(Touch::of).collect();
    let mut left: Vec<u16> = (0..rows.len() as u16).collect();
    let mut order = Vec::new();
    while !left.is_empty() {
        let free = |k: usize| left[..k].iter().all(|&i| !touches[usize::from(i)].clashes(&touches[usize::from(left[k])]));
        let ready: Vec<usize> = (0..left.len()).filter(|&k| free(k)).collect();
        order.push(left.remove(random.pick(&ready)));
    }
    order
}
