// every.rs: all orders of small plans over three planes: the accepted ones are exactly what the clashes, found sample by sample, leave.
use crate::random::Random;
use crate::spec::DEPTHS;
use crate::tower::hold::Comparison;
use crate::tower::{draw, job, Plan};

/// Plans at scale 1 for each number of jobs.
const PLANS: [(usize, f64); 4] = [(1, 500.0), (2, 8_000.0), (3, 4_000.0), (4, 1_500.0)];

/// So many jobs on small planes.
fn small(random: &mut Random, jobs: usize) -> Plan {
    let mut side = || random.pick(&[4, 6, 9, 12, 16]);
    let (width, height) = (side(), side());
    let depth = random.pick(&DEPTHS);
    let rows = (0..jobs).map(|_| job::anywhere(random, width, height, 8, depth)).collect();
    let spoiled = random.pick(&[0, 0, 12]);
    draw::plan(random, width, height, depth, rows, spoiled)
}

/// Runs small plans in each of their orders.
pub fn all(comparison: &mut Comparison, scale: f64) {
    comparison.about = "all orders of a small plan";
    for (jobs, plans) in PLANS {
        for _ in 0..(plans * scale).ceil() as usize {
            let plan = small(&mut comparison.random(), jobs);
            comparison.every_order(&plan);
        }
    }
}
