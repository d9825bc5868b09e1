// rules.rs: document 01's refusals of plans and jobs: the number due for any input, in the order of checking.
// "A run tests 20 to 23, then each job 1 to 7 and 8; a single job 20, 21, then the same."
use crate::plan::clashes::Clashes;
use crate::plan::row::{self, DELTA, DIRECTION, FLAGS, MODE, TURNED, WORDS};
use crate::plan::Plan;
use crate::refusals;

pub const MOST_JOBS: usize = 1024;

/// 20, and what 21 says of the plan itself.
pub fn shape(plan: &Plan) -> u32 {
    if !refusals::is_plane(plan.plane.len(), plan.width, plan.height) {
        return 20;
    }
    if plan.rows.len() % WORDS != 0 || plan.rows.len() / WORDS > MOST_JOBS { 21 } else { 0 }
}

/// "the order does not hold each job's index once"
pub fn each_once(order: &[u16]) -> bool {
    let mut times = vec![0; order.len()];
    for &index in order {
        match times.get_mut(usize::from(index)) {
            Some(count) => *count += 1,
            None => return false,
        }
    }
    times.iter().all(|&count| count == 1)
}

/// 20, 21, 22, 23: what a run answers. The clashes are those of a plan that `shape` takes.
pub fn run(plan: &Plan, order: &[u16], answers: usize, clashes: &Clashes) -> u32 {
    match shape(plan) {
        0 if order.len() != plan.jobs() || answers != plan.jobs() => 21,
        0 if !each_once(order) => 22,
        0 if !clashes.allow(order) => 23,
        due => due,
    }
}

/// "mode above 4, direction above 7, delta word above 6, a stray flag bit"; a direction and a delta only in mode 4.
fn is_stray(row: &[u16]) -> bool {
    let turned = row[MODE] == TURNED && (row[DIRECTION] > 7 || row[DELTA] > 6);
    row[MODE] > TURNED || turned || row[FLAGS] > 0b11111
}

/// 1 to 7: what a job answers before its samples are looked at. The plane is one that 20 takes.
pub fn job(row: &[u16], width: usize, height: usize, differences: usize) -> u32 {
    let block = row::spec(row, width, height);
    let side = usize::from(block.b);
    match refusals::geometry(width * height, &block) {
        due @ (1 | 2) => due,
        _ if is_stray(row) => 3,
        0 if row::start(row) + side * side > differences => 7,
        due => due,
    }
}
