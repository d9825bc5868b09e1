// large.rs: the largest plans over three planes, one job more than they may have, the largest windows and the longest planes.
use crate::plan::row::{BASE, FLAGS, X, Y};
use crate::plan::rules::MOST_JOBS;
use crate::plan::{self, orders};
use crate::random::Random;
use crate::spec::{ABOVE, DEPTHS, LEFT};
use crate::tower::hold::Comparison;
use crate::tower::row::{Row, PLANE, WORDS};
use crate::tower::{draw, job, Plan};

/// Large plans of each kind at scale 1.
const PLANS: f64 = 6.0;
/// The longest planes, and some with room for the largest windows.
const PLANES: [(usize, usize); 5] = [(4096, 9), (9, 4096), (600, 300), (258, 256), (256, 256)];

/// Jobs on all planes that touch nothing of each other's: every order of theirs is accepted.
fn apart(random: &mut Random) -> Plan {
    let mut rows: Vec<Row> = Vec::new();
    for at in 0..MOST_JOBS as u16 {
        let first = plan::job::in_raster(random, 100, 100, 4, 8, (0, 0));
        let mut row = job::on_plane(random, &first);
        (row[X], row[Y], row[PLANE]) = (5 * (at % 20), 5 * (at / 20 % 20), at / 400);
        row[FLAGS] &= !(ABOVE | LEFT);
        row[BASE] = random.within(1, 254) as u16;
        rows.push(row);
    }
    draw::plan(random, 100, 100, 8, rows, 0)
}

/// So many jobs anywhere.
fn crowd(random: &mut Random, width: usize, height: usize, jobs: usize, most: usize) -> Plan {
    let depth = random.pick(&DEPTHS);
    let rows = (0..jobs).map(|_| job::anywhere(random, width, height, most, depth)).collect();
    draw::plan(random, width, height, depth, rows, 4)
}

/// Runs a plan in its own order, in reverse, in an accepted order, with a pair of it exchanged, with an index broken, and job by job.
fn hold(comparison: &mut Comparison, random: &mut Random, plan: &Plan) {
    let (jobs, due) = (plan.jobs(), comparison.due(plan));
    let mut order = orders::own(jobs);
    comparison.run(plan, &due, &order, jobs);
    order.reverse();
    comparison.run(plan, &due, &order, jobs);
    order = due.clashes.any_order(random);
    comparison.run(plan, &due, &order, jobs);
    orders::turn_beside(random, &due.clashes, &mut order);
    comparison.run(plan, &due, &order, jobs);
    orders::break_order(random, &mut order);
    comparison.run(plan, &due, &order, jobs);
    comparison.one_by_one(plan, &due);
}

/// The same plan with one job more than a plan may have.
fn one_more(comparison: &mut Comparison, plan: &Plan) {
    let mut longer = plan.clone();
    longer.rows.extend_from_within(..WORDS);
    let (jobs, due) = (longer.jobs(), comparison.due(&longer));
    assert_eq!(jobs, MOST_JOBS + 1);
    comparison.run(&longer, &due, &orders::own(jobs), jobs);
}

pub fn all(comparison: &mut Comparison, scale: f64) {
    comparison.about = "a large plan";
    for _ in 0..(PLANS * scale).ceil() as usize {
        let mut random = comparison.random();
        let plan = apart(&mut random);
        hold(comparison, &mut random, &plan);
        one_more(comparison, &plan);
        let plan = crowd(&mut random, 100, 80, MOST_JOBS, 12);
        hold(comparison, &mut random, &plan);
        for (width, height) in PLANES {
            let plan = crowd(&mut random, width, height, 12, 256);
            hold(comparison, &mut random, &plan);
        }
    }
}
