// rules.rs: the refusals of plans and jobs over three planes: the number due for any input, in the order of checking.
// "Refusals: 21 for rows not 32 words; 3 for mode above 5, plane above 2, mode 5 on plane 0, have_top or have_left above 1, or a nonzero
// spare word; in mode 5 then 4 for a window or block outside its plane, 10, 11 (sizes alone), 12 (also for left_lines + width > ref_width),
// 8 in place of 13, and 14."
use crate::colour;
use crate::plan::clashes::Clashes;
use crate::plan::row::{D, MODE, X, Y};
use crate::plan::rules::{self, MOST_JOBS};
use crate::refusals;
use crate::spec::DEPTHS;
use crate::tower::row::{
    self, ABOVE_LINES, COLOUR, HAVE_LEFT, HAVE_TOP, HEIGHT, LEFT_LINES, LUMA_X, LUMA_Y, PLANE, PLANES, REF_HEIGHT, REF_WIDTH, SPARE,
    WIDTH, WORDS,
};
use crate::tower::Plan;

/// 20, and what 21 says of the plan itself.
pub fn shape(plan: &Plan) -> u32 {
    if plan.planes.iter().any(|plane| !refusals::is_plane(plane.len(), plan.width, plan.height)) {
        return 20;
    }
    if plan.rows.len() % WORDS != 0 || plan.rows.len() / WORDS > MOST_JOBS { 21 } else { 0 }
}

/// 20, 21, 22, 23: what a run answers. The clashes are those of a plan that `shape` takes.
pub fn run(plan: &Plan, order: &[u16], answers: usize, clashes: &Clashes) -> u32 {
    match shape(plan) {
        0 if order.len() != plan.jobs() || answers != plan.jobs() => 21,
        0 if !rules::each_once(order) => 22,
        0 if !clashes.allow(order) => 23,
        due => due,
    }
}

/// What 3 says of the new words, in every mode.
fn is_stray(row: &[u16]) -> bool {
    let flat = row[MODE] == COLOUR && row[PLANE] == 0;
    let spare = row[SPARE..WORDS].iter().any(|&word| word != 0);
    usize::from(row[PLANE]) >= PLANES || flat || row[HAVE_TOP] > 1 || row[HAVE_LEFT] > 1 || spare
}

/// 4 in mode 5, by these sums also where a size is 0.
fn is_outside(row: &[u16], width: usize, height: usize) -> bool {
    let side = |at: usize, size: usize, lines: usize, reference: usize, luma: usize, side: usize| {
        let [at, size, lines, reference, luma] = [at, size, lines, reference, luma].map(|word| i64::from(row[word]));
        let side = side as i64;
        at + size > side || luma + reference > side || at < lines || at - lines + reference > side
    };
    side(X, WIDTH, LEFT_LINES, REF_WIDTH, LUMA_X, width) || side(Y, HEIGHT, ABOVE_LINES, REF_HEIGHT, LUMA_Y, height)
}

/// 2, 3, 4, 10, 11, 12: what a colour job answers before its samples are looked at.
fn colour_job(row: &[u16], width: usize, height: usize) -> u32 {
    if !DEPTHS.contains(&row[D]) {
        return 2;
    }
    if is_stray(row) {
        return 3;
    }
    if is_outside(row, width, height) {
        return 4;
    }
    let block = row::block(row, row[D]);
    match colour::refusals::block_shape(&block, usize::MAX, usize::MAX) {
        0 if block.window.left_lines + block.width > block.window.ref_width => 12,
        due => due,
    }
}

/// What a job answers before its samples are looked at. The planes are such as 20 takes.
pub fn job(row: &[u16], width: usize, height: usize, differences: usize) -> u32 {
    if row[MODE] == COLOUR {
        return colour_job(row, width, height);
    }
    match rules::job(row, width, height, differences) {
        due @ (1 | 2 | 3) => due,
        _ if is_stray(row) => 3,
        due => due,
    }
}
