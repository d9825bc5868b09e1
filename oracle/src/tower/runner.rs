// runner.rs: a plain runner of jobs over three planes: the first library's runner on the job's plane, and the original Rust's colour functions.
// "Mode 5 derives parameters from two windows of ref_width by ref_height and predicts with them: luma from plane 0 at luma x, y, each
// sample's reading times 8; chroma from the job's plane at x - left_lines, y - above_lines. It writes width by height samples at x, y
// without differences."
use crate::colour::original::{derive_params, predict_block, MhccpRefBuf};
use crate::colour::sums::{largest, LIMIT};
use crate::colour::window::STRIDE;
use crate::plan::row::{D, MODE, X, Y};
use crate::plan::runner;
use crate::spec::most;
use crate::tower::row::{self, Row, COLOUR, LUMA_X, LUMA_Y, PLANE};
use crate::tower::{rules, touches};

pub struct Runner {
    plain: runner::Runner,
    luma: MhccpRefBuf,
    chroma: MhccpRefBuf,
    block: Vec<i32>,
}

/// "v + 0.5 rounded once to f32, then its fraction dropped"
fn reading(sample: f32) -> i32 {
    (sample + 0.5) as i32
}

impl Runner {
    pub fn new() -> Runner {
        let window = || MhccpRefBuf::new(STRIDE, STRIDE, 0, 0, 0, 0, false);
        Runner { plain: runner::Runner::new(), luma: window(), chroma: window(), block: vec![0; 128 * 128] }
    }

    /// Does one job on planes that 20 takes, or leaves them as they are; returns the job's answer.
    pub fn job(&mut self, planes: &mut [&mut [f32]; 3], width: usize, height: usize, row: &Row, differences: &[i16]) -> u32 {
        let due = rules::job(row, width, height, differences.len());
        if due != 0 {
            return due;
        }
        if row[MODE] == COLOUR {
            return self.colour(planes, width, height, row);
        }
        let plane = &mut planes[usize::from(row[PLANE])];
        self.plain.job(plane, width, height, row.first_chunk().unwrap(), differences)
    }

    /// A colour job that nothing before 8 refuses.
    fn colour(&mut self, planes: &mut [&mut [f32]; 3], width: usize, height: usize, row: &Row) -> u32 {
        let (d, limit) = (i32::from(row[D]), most(row[D]) as f32);
        let area = width * height;
        let read = touches::of(row, width, height, 0).read;
        if !read.iter().all(|&place| (0.0..=limit).contains(&planes[place / area][place % area])) {
            return 8;
        }
        let block = row::block(row, row[D]);
        let w = block.window;
        let [x, y, luma_x, luma_y] = [X, Y, LUMA_X, LUMA_Y].map(|word| usize::from(row[word]));
        let own = usize::from(row[PLANE]);
        for (j, i) in (0..w.ref_height).flat_map(|j| (0..w.ref_width).map(move |i| (j, i))) {
            self.luma.set(i, j, 8 * reading(planes[0][(luma_y + j) * width + luma_x + i]));
        }
        for place in w.counted() {
            let (j, i) = (place / STRIDE, place % STRIDE);
            self.chroma.set(i, j, reading(planes[own][(y - w.above_lines + j) * width + x - w.left_lines + i]));
        }
        if largest(&w, &self.luma.data, &self.chroma.data) > LIMIT {
            return 14;
        }
        for window in [&mut self.luma, &mut self.chroma] {
            (window.ref_width, window.ref_height) = (w.ref_width, w.ref_height);
            (window.above_lines, window.left_lines) = (w.above_lines, w.left_lines);
            (window.width, window.height) = (block.width, block.height);
        }
        let params = derive_params(&self.luma, &self.chroma, w.direction as u8, d);
        predict_block(&self.luma, &params, w.direction as u8, block.have_top, block.have_left, d, &mut self.block);
        for (i, &sample) in self.block[..block.samples()].iter().enumerate() {
            planes[own][(y + i / block.width) * width + x + i % block.width] = sample as f32;
        }
        0
    }

    /// Does the jobs in the plan's own order; returns their answers.
    pub fn run(&mut self, planes: &mut [&mut [f32]; 3], width: usize, height: usize, rows: &[Row], differences: &[i16]) -> Vec<u16> {
        rows.iter().map(|row| self.job(planes, width, height, row, differences) as u16).collect()
    }
}
