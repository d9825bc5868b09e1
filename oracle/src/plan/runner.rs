// runner.rs: a plain runner of jobs over the original Rust's edges and predictors.
// "Written sample: prediction plus difference, clipped to 0..M." "Job refusals go into the answer list (0 is done; entry i is plan row i)
// and the run continues."
use crate::plan::row::{self, Row};
use crate::plan::rules;
use crate::spec::most;
use crate::{original, refusals};

pub struct Runner {
    read: Vec<usize>,
    block: Vec<f32>,
}

impl Runner {
    pub fn new() -> Runner {
        Runner { read: Vec::new(), block: vec![0.0; 64 * 64] }
    }

    /// Does one job on a plane that 20 takes, or leaves it as it is; returns the job's answer.
    pub fn job(&mut self, plane: &mut [f32], width: usize, height: usize, row: &Row, differences: &[i16]) -> u32 {
        let due = rules::job(row, width, height, differences.len());
        if due != 0 {
            return due;
        }
        let block = row::spec(row, width, height);
        refusals::places(&block, &mut self.read);
        let due = refusals::samples(plane, block.d, &self.read, [128, 128, 1]);
        if due != 0 {
            return due;
        }
        let (above, left, corner) = original::edges(plane, &block);
        let side = usize::from(block.b);
        let predicted = &mut self.block[..side * side];
        original::predict(row::mode(row), block.b, block.d, &above, &left, corner, predicted);
        let own = &differences[row::start(row)..];
        for (i, sample) in predicted.iter().enumerate() {
            let place = (usize::from(block.y) + i / side) * width + usize::from(block.x) + i % side;
            plane[place] = (*sample as i32 + i32::from(own[i])).clamp(0, most(block.d)) as f32;
        }
        0
    }

    /// Does the jobs in the plan's own order; returns their answers.
    pub fn run(&mut self, plane: &mut [f32], width: usize, height: usize, rows: &[Row], differences: &[i16]) -> Vec<u16> {
        rows.iter().map(|row| self.job(plane, width, height, row, differences) as u16).collect()
    }
}
