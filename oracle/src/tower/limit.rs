// limit.rs: colour jobs whose largest sum lies at the limit of refusal 14 or next to it, alone and beside a job that they clash with or not.
use crate::colour::sums::{largest, LIMIT};
use crate::colour::window::{Window, STRIDE};
use crate::derive_params::limit;
use crate::inputs::bad_sample;
use crate::plan::row::{B, BASE, D, FLAGS, MODE, START, X, Y};
use crate::random::Random;
use crate::spec::{most, ABOVE, DEPTHS, LEFT};
use crate::tower::hold::Comparison;
use crate::tower::row::{
    Row, ABOVE_LINES, COLOUR_DIRECTION, HAVE_LEFT, HAVE_TOP, HEIGHT, LEFT_LINES, LUMA_X, LUMA_Y, PLANE, REF_HEIGHT, REF_WIDTH, WIDTH,
    WORDS,
};
use crate::tower::{job, Plan};

/// Jobs at scale 1 for each depth.
const JOBS: [f64; 3] = [4.0, 120.0, 1_500.0];

/// A colour job of a window, whose lines leave room for a block, and the starts of its luma and chroma windows.
fn row(random: &mut Random, w: &Window, luma: [usize; 2], chroma: [usize; 2]) -> Row {
    let mut row = job::colour(random, 4, 4, 4, w.d as u16);
    row[COLOUR_DIRECTION] = w.direction as u16;
    let sides = [
        ([X, LEFT_LINES, REF_WIDTH, WIDTH, LUMA_X, HAVE_LEFT], w.left_lines, w.ref_width, luma[0], chroma[0]),
        ([Y, ABOVE_LINES, REF_HEIGHT, HEIGHT, LUMA_Y, HAVE_TOP], w.above_lines, w.ref_height, luma[1], chroma[1]),
    ];
    for (words, lines, reference, luma, chroma) in sides {
        let size = 1 + random.below((reference - lines).min(128));
        let numbers = [chroma + lines, lines, reference, size, luma, random.below(2).min(lines)];
        words.into_iter().zip(numbers).for_each(|(word, number)| row[word] = number as u16);
    }
    row
}

/// The job whose largest sum is meant to be `LIMIT + past`, on planes whose other samples are bad, and how far its largest sum is past the limit.
fn plan(random: &mut Random, sum: limit::Sum, past: i64, d: u16) -> (Plan, i64) {
    let case = limit::window(random, sum, past, d.into());
    let past = largest(&case.window, &case.luma, &case.chroma) - LIMIT;
    let mut w = case.window;
    // lines past the window's last but one count no more samples, and leave the block no room
    (w.above_lines, w.left_lines) = (w.above_lines.min(w.ref_height - 1), w.left_lines.min(w.ref_width - 1));
    let mut start = |side: usize| (random.below(3), random.below(3), side.max(2) + 2);
    let ((a, b, width), (e, f, height)) = (start(w.ref_width), start(w.ref_height));
    let row = row(random, &w, [a, e], [b, f]);
    let mut planes = [(); 3].map(|_| (0..width * height).map(|_| bad_sample(random, most(d)).to_bits()).collect::<Vec<u32>>());
    for (j, i) in (0..w.ref_height).flat_map(|j| (0..w.ref_width).map(move |i| (j, i))) {
        planes[0][(e + j) * width + a + i] = ((case.luma[j * STRIDE + i] >> 3) as f32).to_bits();
    }
    for place in w.counted() {
        let at = (f + place / STRIDE) * width + b + place % STRIDE;
        planes[usize::from(row[PLANE])][at] = (case.chroma[place] as f32).to_bits();
    }
    (Plan { width, height, planes, rows: row.to_vec(), differences: vec![1; 16] }, past)
}

/// The job alone; with a bad sample at the end of its luma window, which 8 refuses first; and in all orders beside a block.
fn hold(comparison: &mut Comparison, random: &mut Random, plan: &mut Plan) {
    comparison.single(plan);
    let row: Row = *plan.rows.first_chunk().unwrap();
    let last = |at: usize, size: usize| usize::from(row[at] + row[size]) - 1;
    let place = last(LUMA_Y, REF_HEIGHT) * plan.width + last(LUMA_X, REF_WIDTH);
    let kept = std::mem::replace(&mut plan.planes[0][place], f32::NAN.to_bits());
    comparison.single(plan);
    plan.planes[0][place] = kept;
    let mut beside = job::plain(random, 4, 4, 8);
    (beside[X], beside[Y]) = (random.below(plan.width - 3) as u16, random.below(plan.height - 3) as u16);
    (beside[B], beside[D], beside[MODE], beside[START]) = (4, 8, 0, 0);
    (beside[FLAGS], beside[BASE]) = (beside[FLAGS] & !(ABOVE | LEFT), 99);
    let rows = if random.once_in(2) { [row, beside] } else { [beside, row] };
    plan.rows = rows.concat();
    comparison.every_order(plan);
    plan.rows.truncate(WORDS);
}

pub fn all(comparison: &mut Comparison, scale: f64) {
    comparison.about = "a sum at its limit";
    for (d, jobs) in DEPTHS.into_iter().zip(JOBS) {
        let sums = limit::reachable(d.into());
        for turn in 0..(jobs * scale).ceil() as usize {
            let mut random = comparison.random();
            let past = random.pick(&[-1, 0, 0, 1, 1]);
            let (mut plan, past) = plan(&mut random, sums[turn % sums.len()], past, d);
            if (-1..=1).contains(&past) {
                comparison.seen.limit[(past + 1) as usize] += 1;
            }
            hold(comparison, &mut random, &mut plan);
        }
    }
}
