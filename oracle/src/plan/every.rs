// every.rs: all orders of small plans: the set of accepted orders is exactly what the clashes, found sample by sample, leave.
use crate::plan::hold::Comparison;
use crate::plan::{draw, job, Plan};
use crate::random::Random;
use crate::spec::DEPTHS;

/// Plans at scale 1 for each number of jobs.
const PLANS: [(usize, f64); 6] = [(1, 500.0), (2, 10_000.0), (3, 8_000.0), (4, 4_000.0), (5, 1_500.0), (6, 600.0)];

/// So many jobs on a small plane: close together or apart, in a raster or anywhere.
fn small(random: &mut Random, jobs: usize) -> Plan {
    if random.once_in(3) {
        let (b, columns) = (random.pick(&[4, 4, 8]), random.pick(&[2, 3]));
        let mut plan = draw::raster(random, b, columns, 3);
        plan.keep(random.below(plan.jobs() - jobs + 1), jobs);
        return plan;
    }
    let mut side = || random.pick(&[6, 9, 12, 16, 24, 40]);
    let (width, height) = (side(), side());
    let depth = random.pick(&DEPTHS);
    let rows = (0..jobs).map(|_| job::anywhere(random, width, height, depth)).collect();
    let spoiled = random.pick(&[0, 0, 12]);
    draw::plan(random, width, height, depth, rows, spoiled)
}

/// Runs small plans in each of their orders.
pub fn all(comparison: &mut Comparison, scale: f64) {
    comparison.about = "all orders of a small plan";
    for (jobs, plans) in PLANS {
        for _ in 0..(plans * scale).ceil() as usize {
            let plan = small(&mut comparison.random(), jobs);
            comparison.every_order(&plan);
        }
    }
}
