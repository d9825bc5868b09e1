// job.rs: times latch_run_job against the calls that it is made of and one pass over the block.
use crate::calls;
use crate::plan::same;
use crate::row::{self, Row};
use crate::rows::{Plan, DEPTH, JOBS};
use crate::runner::write_block;
use crate::timing::{best, lent, print_named_ratios, print_times};
use std::hint::black_box;

/// The room that a job's parts are lent.
struct Parts {
    above: [i32; 128],
    left: [i32; 128],
    corner: [i32; 1],
    block: Vec<f32>,
}

impl Parts {
    /// A job by the calls that it is made of: edges, predictor, and one pass over the block.
    fn job(&mut self, plane: &mut [f32], width: usize, height: usize, row: &Row, own: &[i16]) -> u32 {
        let spec = row::spec(row, width, height);
        let edges = calls::build_refs(plane, &spec, &mut self.above, &mut self.left, &mut self.corner);
        let (mode, corner) = (row::mode(row), self.corner[0]);
        let predicted = calls::predict(mode, spec.b, DEPTH, &self.above, &self.left, corner, &mut self.block);
        write_block(plane, width, row, &self.block, own);
        edges | predicted
    }
}

/// The time of one job by its parts and by latch_run_job.
fn job_and_parts(plan: &Plan) -> [f64; 2] {
    let (width, height, own) = (plan.width, plan.height, &plan.differences);
    let (mut first, mut second) = (plan.plane.clone(), plan.plane.clone());
    let samples = usize::from(plan.rows[0][row::B]).pow(2);
    let mut parts = Parts { above: [0; 128], left: [0; 128], corner: [0], block: vec![0.0; samples] };
    for row in &plan.rows {
        assert!(parts.job(&mut first, width, height, row, own) == 0, "a part refuses");
        assert!(calls::run_job(&mut second, width, height, row, own) == 0, "a job is refused");
    }
    assert!(same(&first, &second), "the job differs from its parts");
    best(
        JOBS,
        [
            &mut |loops| {
                for row in (0..loops).flat_map(|_| &plan.rows) {
                    _ = black_box(parts.job(lent(&mut first), width, height, black_box(row), own))
                }
            },
            &mut |loops| {
                for row in (0..loops).flat_map(|_| &plan.rows) {
                    _ = black_box(calls::run_job(lent(&mut second), width, height, black_box(row), own))
                }
            },
        ],
    )
}

/// The jobs of one plan for each size.
pub fn run(plans: &[Plan; 5]) {
    let by_size = plans.each_ref().map(job_and_parts);
    let column = |way: usize| by_size.map(|ways| ways[way]);
    println!("run_job, in a raster:");
    print_times("parts edges_predictor_pass", &column(0));
    print_times("ours latch_run_job", &column(1));
    print_named_ratios("    job / parts", &by_size.map(|[parts, job]| job / parts));
}
