// checks.rs: a job's tests, for the plain runner: its row, and the samples that it reads.
use crate::original::IntraRefSpec;
use crate::row::{
    self, Row, AVAILABLE_ABOVE, AVAILABLE_LEFT, B, BASE, BOTTOM_LEFT, D, DELTA, DIRECTION, FLAGS, MODE, TOP_RIGHT, TURNED, X, Y,
};
use crate::spec::{most, ABOVE, DEPTHS, LEFT, SIZES};

/// 1 to 7, or 0.
pub fn refusal(row: &Row, width: usize, height: usize, differences: usize) -> u16 {
    if !SIZES.contains(&row[B]) {
        return 1;
    }
    if !DEPTHS.contains(&row[D]) {
        return 2;
    }
    let turned = row[MODE] == TURNED && (row[DIRECTION] > 7 || row[DELTA] > 6);
    if row[MODE] > TURNED || turned || row[FLAGS] > 31 {
        return 3;
    }
    let [x, y, b] = [X, Y, B].map(|word| usize::from(row[word]));
    if x + b > width || y + b > height {
        return 4;
    }
    let (above, left) = (row[FLAGS] & ABOVE != 0, row[FLAGS] & LEFT != 0);
    let past = |word: usize| usize::from(row[word]).min(b);
    if above && (y == 0 || row[AVAILABLE_ABOVE] == 0 || x + b + past(TOP_RIGHT) > width) {
        return 5;
    }
    if left && (x == 0 || row[AVAILABLE_LEFT] == 0 || y + b + past(BOTTOM_LEFT) > height) {
        return 5;
    }
    if !above && !left && !(1..most(row[D])).contains(&i32::from(row[BASE])) {
        return 6;
    }
    if row::start(row) + b * b > differences { 7 } else { 0 }
}

/// Whether every sample that a job reads, whose row has passed, is a number in 0..M.
pub fn reads_well(plane: &[f32], s: &IntraRefSpec, m: f32) -> bool {
    let (x, y, b) = (s.x, s.y, s.block_size);
    let good = |v: &f32| (0.0..=m).contains(v);
    let line = |from: usize, count: usize| plane[(y - 1) * s.stride + from..][..count.min(b)].iter().all(good);
    let column = |from: usize, count: usize| (from..from + count.min(b)).all(|row| good(&plane[row * s.stride + x - 1]));
    (!s.have_above || line(x, s.available_above) && line(x + b, s.top_right))
        && (!s.have_left || column(y, s.available_left) && column(y + b, s.bottom_left))
        && (!s.have_above || !s.have_left || line(x - 1, 1))
}
