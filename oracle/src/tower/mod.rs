// mod.rs: tower_run and tower_run_job on plans of all modes over three planes, in accepted orders and in others, against a plain runner.
pub mod calls;
mod draw;
mod every;
mod faults;
mod hold;
mod job;
mod kinds;
mod large;
mod limit;
mod pairs;
mod places;
pub mod row;
mod rules;
mod runner;
mod runs;
mod seen;
mod spoil;
mod touches;

use crate::plan::orders;
use crate::random::Random;
use hold::Comparison;
use row::{Row, WORDS};

/// Plans at scale 1, and how often each answer of a job and of a run comes at the least.
const DRAWN: f64 = 160_000.0;
const OFTEN: f64 = 1_500.0;

/// What a run is lent, but for its order and its answers; the planes as bits.
#[derive(Clone)]
pub struct Plan {
    pub width: usize,
    pub height: usize,
    pub planes: [Vec<u32>; 3],
    pub rows: Vec<u16>,
    pub differences: Vec<i16>,
}

impl Plan {
    /// How many whole rows there are.
    pub fn jobs(&self) -> usize {
        self.rows.len() / WORDS
    }

    pub fn list(&self) -> &[Row] {
        self.rows.as_chunks().0
    }

    fn print(&self) {
        let planes = self.planes.each_ref().map(Vec::len);
        let lens = [self.rows.len(), self.differences.len()];
        println!("{} x {}, lengths of planes {planes:?}, of plan and differences {lens:?}", self.width, self.height);
        self.list().iter().take(24).for_each(|row| println!("{row:?}"));
        for (number, plane) in self.planes.iter().enumerate().filter(|(_, plane)| plane.len() <= 400) {
            println!("plane {number} (bits): {plane:08x?}");
        }
    }
}

/// Runs a plan in an accepted order, in one that may be refused, at times with faults, and job by job.
fn hold(comparison: &mut Comparison, random: &mut Random, plan: &Plan) {
    let (jobs, due) = (plan.jobs(), comparison.due(plan));
    comparison.run(plan, &due, &orders::own(jobs), jobs);
    let mut order = due.clashes.any_order(random);
    comparison.run(plan, &due, &order, jobs);
    comparison.one_by_one(plan, &due);
    match random.below(4) {
        0 => orders::turn_pair(random, &due.clashes, &mut order),
        1 => orders::turn_beside(random, &due.clashes, &mut order),
        2 => orders::break_order(random, &mut order),
        _ => order = orders::shuffled(random, jobs),
    }
    comparison.run(plan, &due, &order, jobs);
    match random.below(6) {
        0 => faults::run(comparison, random, plan),
        1 => faults::single(comparison, random, plan),
        _ => (),
    }
}

/// Compares both calls; prints their counts and returns how many plans were compared.
pub fn compare(seed: u64, scale: f64) -> u64 {
    let mut comparison = Comparison::new(seed);
    places::all(&mut comparison, scale);
    limit::all(&mut comparison, scale);
    pairs::all(&mut comparison, scale);
    every::all(&mut comparison, scale);
    large::all(&mut comparison, scale);
    comparison.about = "a drawn plan";
    for _ in 0..(DRAWN * scale).ceil() as usize {
        let mut random = comparison.random();
        let plan = kinds::drawn(&mut random);
        hold(&mut comparison, &mut random, &plan);
    }
    let (least, whole, job) = ((OFTEN * scale).ceil() as u64, [0, 20, 21, 22, 23], [0, 1, 2, 3, 4, 5, 6, 7, 8, 10, 11, 12, 14]);
    comparison.runs.print("runs", &whole);
    comparison.runs.often(&whole, least);
    comparison.jobs.print("jobs done", &job);
    comparison.jobs.often(&job, least);
    comparison.singles.print("jobs done", &[&[20, 21], &job[..]].concat());
    comparison.singles.often(&[20, 21], least);
    comparison.seen.print();
    comparison.seen.plans
}
