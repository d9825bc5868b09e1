// large.rs: the largest plans there are, one job more than they may have, and the largest planes.
use crate::plan::hold::Comparison;
use crate::plan::row::{Row, BASE, FLAGS, WORDS, X, Y};
use crate::plan::rules::MOST_JOBS;
use crate::plan::{draw, job, orders, Plan};
use crate::random::Random;
use crate::spec::{ABOVE, LEFT};

/// Large plans of each kind at scale 1.
const PLANS: f64 = 40.0;
/// How many jobs the plans on the largest plane have.
const LARGEST: [usize; 5] = [MOST_JOBS, 30, 60, 90, 120];

/// Jobs that touch nothing of each other's: every order of theirs is accepted.
fn apart(random: &mut Random, jobs: usize) -> Plan {
    let mut rows: Vec<Row> = Vec::new();
    for at in 0..jobs as u16 {
        let mut row = job::in_raster(random, 160, 160, 4, 8, (0, 0));
        (row[X], row[Y]) = (5 * (at % 32), 5 * (at / 32 % 32));
        row[FLAGS] &= !(ABOVE | LEFT);
        row[BASE] = random.within(1, 254) as u16;
        rows.push(row);
    }
    draw::plan(random, 165, 165, 8, rows, 0)
}

/// Many jobs anywhere.
fn crowd(random: &mut Random, jobs: usize) -> Plan {
    let mut side = || random.pick(&[16, 40, 100, 300]);
    let (width, height) = (side(), side());
    let rows = (0..jobs).map(|_| job::anywhere(random, width, height, 10)).collect();
    draw::plan(random, width, height, 10, rows, 4)
}

/// Runs a plan in its own order, in reverse, in an accepted order, with a pair of it exchanged, with an index broken, and job by job.
fn hold(comparison: &mut Comparison, random: &mut Random, plan: &Plan) {
    let (jobs, due) = (plan.jobs(), comparison.due(plan));
    let mut order = orders::own(jobs);
    comparison.run(plan, &due, &order, jobs);
    order.reverse();
    comparison.run(plan, &due, &order, jobs);
    order = due.clashes.any_order(random);
    comparison.run(plan, &due, &order, jobs);
    orders::turn_beside(random, &due.clashes, &mut order);
    comparison.run(plan, &due, &order, jobs);
    orders::break_order(random, &mut order);
    comparison.run(plan, &due, &order, jobs);
    comparison.one_by_one(plan, &due);
}

/// The same plan with one job more than a plan may have.
fn one_more(comparison: &mut Comparison, plan: &Plan) {
    let mut longer = plan.clone();
    longer.rows.extend_from_within(..WORDS);
    let (jobs, due) = (longer.jobs(), comparison.due(&longer));
    assert_eq!(jobs, MOST_JOBS + 1);
    comparison.run(&longer, &due, &orders::own(jobs), jobs);
}

/// Jobs on a plane of 4,096 samples a side: in its corners, along its borders and anywhere.
fn largest(comparison: &mut Comparison) {
    for jobs in LARGEST {
        let mut random = comparison.random();
        let rows = (0..jobs).map(|_| job::anywhere(&mut random, 4096, 4096, 12)).collect();
        let plan = draw::plan(&mut random, 4096, 4096, 12, rows, 4);
        hold(comparison, &mut random, &plan);
    }
}

pub fn all(comparison: &mut Comparison, scale: f64) {
    comparison.about = "a large plan";
    for _ in 0..(PLANS * scale).ceil() as usize {
        let mut random = comparison.random();
        let plan = apart(&mut random, MOST_JOBS);
        hold(comparison, &mut random, &plan);
        one_more(comparison, &plan);
        let plan = crowd(&mut random, MOST_JOBS);
        hold(comparison, &mut random, &plan);
        let mut plan = draw::raster(&mut random, 4, 32, 32);
        plan.keep(0, MOST_JOBS);
        hold(comparison, &mut random, &plan);
    }
    largest(comparison);
}
