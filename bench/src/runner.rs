// runner.rs: a plain runner of plans in Rust over the original's edges and predictors, with all tests of a run; its room is reused.
use crate::checks::{reads_well, refusal};
use crate::row::{self, Row, B, D, WORDS, X, Y};
use crate::spec::most;
use crate::touches::{turns_a_pair, Touch};
use crate::{original, rust};

/// "prediction plus difference, clipped to 0..M": one pass over the block. All of these are whole numbers below 2^24, exact in f32.
pub fn write_block(plane: &mut [f32], width: usize, row: &Row, block: &[f32], differences: &[i16]) {
    let [x, y, b] = [X, Y, B].map(|word| usize::from(row[word]));
    let m = most(row[D]) as f32;
    let lines = block.chunks_exact(b).zip(differences[row::start(row)..].chunks_exact(b));
    for ((predicted, own), line) in lines.take(b).zip(plane[y * width..].chunks_mut(width)) {
        for ((to, &p), &d) in line[x..x + b].iter_mut().zip(predicted).zip(own) {
            *to = (p + f32::from(d)).max(0.0).min(m);
        }
    }
}

pub struct Runner {
    times: Vec<u16>,
    before: Vec<u16>,
    touches: Vec<Touch>,
    block: Vec<f32>,
}

impl Runner {
    pub fn new() -> Runner {
        Runner { times: Vec::new(), before: Vec::new(), touches: Vec::new(), block: vec![0.0; 64 * 64] }
    }

    pub fn job(&mut self, plane: &mut [f32], width: usize, height: usize, row: &Row, differences: &[i16]) -> u16 {
        let number = refusal(row, width, height, differences.len());
        if number != 0 {
            return number;
        }
        let spec = original::ref_spec(&row::spec(row, width, height));
        if !reads_well(plane, &spec, most(row[D]) as f32) {
            return 8;
        }
        let (above, left, corner) = rust::build_refs(plane, &spec);
        let block = &mut self.block[..spec.block_size * spec.block_size];
        original::predict(row::mode(row), row[B], row[D], &above, &left, corner, block);
        write_block(plane, width, row, block, differences);
        0
    }

    pub fn each_once(&mut self, order: &[u16]) -> bool {
        self.times.clear();
        self.times.resize(order.len(), 0);
        order.iter().all(|&index| self.times.get_mut(usize::from(index)).is_some_and(|times| std::mem::replace(times, 1) == 0))
    }

    #[inline(never)]
    pub fn run(
        &mut self, plane: &mut [f32], width: usize, height: usize, plan: &[u16], order: &[u16], differences: &[i16], answers: &mut [u16],
    ) -> u32 {
        let sides = 4..=4096;
        if !sides.contains(&width) || !sides.contains(&height) || plane.len() != width * height {
            return 20;
        }
        let (rows, rest) = plan.as_chunks::<WORDS>();
        if !rest.is_empty() || rows.len() > 1024 || order.len() != rows.len() || answers.len() != rows.len() {
            return 21;
        }
        if !self.each_once(order) {
            return 22;
        }
        if !order.is_sorted() {
            let touch = |row| if refusal(row, width, height, differences.len()) == 0 { Touch::of(row) } else { Touch::default() };
            self.touches.clear();
            self.touches.extend(rows.iter().map(touch));
            let touches = &self.touches;
            if turns_a_pair(order, &mut self.before, |i, j| touches[i].clashes(&touches[j])) {
                return 23;
            }
        }
        for &index in order {
            answers[usize::from(index)] = self.job(plane, width, height, &rows[usize::from(index)], differences);
        }
        0
    }
}
