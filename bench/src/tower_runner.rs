// tower_runner.rs: a plain runner of plans over three planes in Rust, over the first library's plain runner and the original's colour
// functions, with all tests of a run; its room is reused.
use crate::checks::refusal;
use crate::colour::original::MhccpRefBuf;
use crate::colour::sums::{largest, LIMIT};
use crate::colour::window::STRIDE;
use crate::row::{D, MODE, X, Y};
use crate::runner;
use crate::rust;
use crate::spec::{most, DEPTHS};
use crate::touches::turns_a_pair;
use crate::tower_row::{
    self, Row, ABOVE_LINES, COLOUR, HAVE_LEFT, HAVE_TOP, HEIGHT, LEFT_LINES, LUMA_X, LUMA_Y, PLANE, REF_HEIGHT, REF_WIDTH, SPARE, WIDTH, WORDS,
};
use crate::tower_touches::Touch;

/// What 3 says of the new words.
fn is_stray(row: &Row) -> bool {
    row[PLANE] > 2 || row[PLANE] == 0 && row[MODE] == COLOUR || row[HAVE_TOP] > 1 || row[HAVE_LEFT] > 1 || row[SPARE..] != [0; 4]
}

/// 2, 3, 4, 10, 11, 12 of a colour job, or 0.
fn colour_refusal(row: &Row, width: usize, height: usize) -> u16 {
    if !DEPTHS.contains(&row[D]) {
        return 2;
    }
    if is_stray(row) {
        return 3;
    }
    let word = |word: usize| usize::from(row[word]);
    let (x, y, w, h, above, left) = (word(X), word(Y), word(WIDTH), word(HEIGHT), word(ABOVE_LINES), word(LEFT_LINES));
    let (rw, rh) = (word(REF_WIDTH), word(REF_HEIGHT));
    let across = x + w > width || word(LUMA_X) + rw > width || x < left || x - left + rw > width;
    if across || y + h > height || word(LUMA_Y) + rh > height || y < above || y - above + rh > height {
        return 4;
    }
    if row[tower_row::COLOUR_DIRECTION] > 2 {
        return 10;
    }
    if rw > 256 || rh > 256 {
        return 11;
    }
    let sides = (1..=128).contains(&w) && (1..=128).contains(&h) && left + w <= rw && above + h <= rh;
    let there = (row[HAVE_TOP] == 0 || above > 0) && (row[HAVE_LEFT] == 0 || left > 0);
    if sides && there { 0 } else { 12 }
}

pub struct Runner {
    plain: runner::Runner,
    before: Vec<u16>,
    touches: Vec<Touch>,
    luma: MhccpRefBuf,
    chroma: MhccpRefBuf,
    block: Vec<i32>,
}

/// Reads a line of samples; whether all are numbers in 0..M.
#[inline]
fn read(samples: &[f32], m: f32, times: i32, to: &mut [i32]) -> bool {
    let mut good = true;
    for (to, &v) in to.iter_mut().zip(samples) {
        good &= v >= 0.0 && v <= m;
        *to = times * (v + 0.5) as i32;
    }
    good
}

impl Runner {
    pub fn new() -> Runner {
        let window = || MhccpRefBuf::new(STRIDE, STRIDE, 0, 0, 0, 0, false);
        let (plain, block) = (runner::Runner::new(), vec![0; 128 * 128]);
        Runner { plain, before: Vec::new(), touches: Vec::new(), luma: window(), chroma: window(), block }
    }

    /// Both windows of a job; whether its samples are numbers in 0..M. The second is how many samples count.
    fn windows(&mut self, planes: &[&mut [f32]; 3], width: usize, row: &Row) -> (bool, usize) {
        let word = |word: usize| usize::from(row[word]);
        let (rw, rh, above, left, m) = (word(REF_WIDTH), word(REF_HEIGHT), word(ABOVE_LINES), word(LEFT_LINES), most(row[D]) as f32);
        let (mut good, mut count) = (true, 0);
        for j in 0..rh {
            let from = (word(LUMA_Y) + j) * width + word(LUMA_X);
            good &= read(&planes[0][from..from + rw], m, 8, &mut self.luma.data[j * STRIDE..][..rw]);
        }
        for j in 1..rh.max(2) - 1 {
            let end = if j < above { rw.max(2) - 1 } else { left.clamp(1, rw.max(2) - 1) };
            let from = (word(Y) - above + j) * width + word(X) - left;
            good &= read(&planes[word(PLANE)][from + 1..from + end], m, 1, &mut self.chroma.data[j * STRIDE + 1..][..end - 1]);
            count += end - 1;
        }
        for window in [&mut self.luma, &mut self.chroma] {
            (window.ref_width, window.ref_height, window.above_lines, window.left_lines) = (rw, rh, above, left);
            (window.width, window.height) = (word(WIDTH), word(HEIGHT));
        }
        (good, count)
    }

    fn colour(&mut self, planes: &mut [&mut [f32]; 3], width: usize, height: usize, row: &Row) -> u16 {
        let number = colour_refusal(row, width, height);
        if number != 0 {
            return number;
        }
        let (good, count) = self.windows(planes, width, row);
        if !good {
            return 8;
        }
        let mut block = tower_row::block(row, row[D]);
        // no term is above M, and so few samples cannot pass the limit
        let few = count as i64 * i64::from(most(row[D])).pow(2) <= LIMIT;
        if !few && largest(&block.window, &self.luma.data, &self.chroma.data) > LIMIT {
            return 14;
        }
        block.params = rust::derive_params(&self.luma, &self.chroma, block.window.direction, block.window.d);
        rust::predict_block(&self.luma, &block, &mut self.block);
        let [x, y] = [X, Y].map(|word| usize::from(row[word]));
        let lines = planes[usize::from(row[PLANE])][y * width..].chunks_mut(width);
        for (line, predicted) in lines.zip(self.block[..block.samples()].chunks_exact(block.width)) {
            line[x..x + block.width].iter_mut().zip(predicted).for_each(|(to, &v)| *to = v as f32);
        }
        0
    }

    fn job(&mut self, planes: &mut [&mut [f32]; 3], width: usize, height: usize, row: &Row, differences: &[i16]) -> u16 {
        let first = row.first_chunk().unwrap();
        if row[MODE] == COLOUR {
            return self.colour(planes, width, height, row);
        }
        if is_stray(row) {
            let number = refusal(first, width, height, differences.len());
            return if number == 1 || number == 2 { number } else { 3 };
        }
        self.plain.job(planes[usize::from(row[PLANE])], width, height, first, differences)
    }

    /// What a row's job touches.
    fn touch(row: &Row, width: usize, height: usize, differences: usize) -> Touch {
        let number = match row[MODE] {
            COLOUR => colour_refusal(row, width, height),
            _ if is_stray(row) => 3,
            _ => refusal(row.first_chunk().unwrap(), width, height, differences),
        };
        if number == 0 { Touch::of(row) } else { Touch::default() }
    }

    #[inline(never)]
    pub fn run(
        &mut self, mut planes: [&mut [f32]; 3], width: usize, height: usize, plan: &[u16], order: &[u16], differences: &[i16],
        answers: &mut [u16],
    ) -> u32 {
        let sides = 4..=4096;
        if !sides.contains(&width) || !sides.contains(&height) || planes.iter().any(|plane| plane.len() != width * height) {
            return 20;
        }
        let (rows, rest) = plan.as_chunks::<WORDS>();
        if !rest.is_empty() || rows.len() > 1024 || order.len() != rows.len() || answers.len() != rows.len() {
            return 21;
        }
        if !self.plain.each_once(order) {
            return 22;
        }
        if !order.is_sorted() {
            self.touches.clear();
            self.touches.extend(rows.iter().map(|row| Runner::touch(row, width, height, differences.len())));
            let touches = &self.touches;
            if turns_a_pair(order, &mut self.before, |i, j| touches[i].clashes(&touches[j])) {
                return 23;
            }
        }
        for &index in order {
            answers[usize::from(index)] = self.job(&mut planes, width, height, &rows[usize::from(index)], differences);
        }
        0
    }
}
