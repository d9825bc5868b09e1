// mod.rs: latch_run and latch_run_job on plans of all kinds, in accepted orders and in others, against a plain runner.
pub mod clashes;
pub mod draw;
mod every;
mod faults;
pub mod guarded;
mod hold;
pub mod job;
mod kinds;
mod large;
pub mod orders;
mod paper;
pub mod row;
pub mod rules;
pub mod runner;
mod runs;
mod seen;
pub mod spoil;
mod touching;

use crate::random::Random;
use hold::Comparison;
use row::{Row, WORDS};

/// Plans at scale 1.
const DRAWN: f64 = 200_000.0;

/// What a run is lent, but for its order and its answers; the plane as bits.
#[derive(Clone)]
pub struct Plan {
    pub width: usize,
    pub height: usize,
    pub plane: Vec<u32>,
    pub rows: Vec<u16>,
    pub differences: Vec<i16>,
}

impl Plan {
    /// How many whole rows there are.
    pub fn jobs(&self) -> usize {
        self.rows.len() / WORDS
    }

    pub fn list(&self) -> &[Row] {
        self.rows.as_chunks().0
    }

    /// Keeps so many jobs from one on.
    fn keep(&mut self, first: usize, jobs: usize) {
        self.rows = self.rows[first * WORDS..(first + jobs) * WORDS].to_vec();
    }

    fn print(&self) {
        let lens = [self.plane.len(), self.rows.len(), self.differences.len()];
        println!("{} x {}, lengths of plane, plan and differences {lens:?}", self.width, self.height);
        self.list().iter().take(24).for_each(|row| println!("{row:?}"));
        if self.plane.len() <= 1024 {
            println!("plane (bits): {:08x?}", self.plane);
        }
    }
}

/// Runs a plan in an accepted order, in one that may be refused, at times with faults, and job by job.
fn hold(comparison: &mut Comparison, random: &mut Random, plan: &Plan) {
    let (jobs, due) = (plan.jobs(), comparison.due(plan));
    let mut order = if random.once_in(4) { orders::own(jobs) } else { due.clashes.any_order(random) };
    comparison.run(plan, &due, &order, jobs);
    comparison.one_by_one(plan, &due);
    match random.below(4) {
        0 => orders::turn_pair(random, &due.clashes, &mut order),
        1 => orders::turn_beside(random, &due.clashes, &mut order),
        2 => orders::break_order(random, &mut order),
        _ => order = orders::shuffled(random, jobs),
    }
    comparison.run(plan, &due, &order, jobs);
    match random.below(6) {
        0 => faults::run(comparison, random, plan),
        1 => faults::single(comparison, random, plan),
        _ => (),
    }
}

/// Compares both calls; prints their counts and returns how many plans were compared.
pub fn compare(seed: u64, scale: f64) -> u64 {
    let mut comparison = Comparison::new(seed);
    paper::backwards_on_touching_blocks(&mut comparison);
    touching::all(&mut comparison, scale);
    every::all(&mut comparison, scale);
    large::all(&mut comparison, scale);
    comparison.about = "a drawn plan";
    for _ in 0..(DRAWN * scale).ceil() as usize {
        let mut random = comparison.random();
        let plan = kinds::drawn(&mut random);
        hold(&mut comparison, &mut random, &plan);
    }
    comparison.runs.print("runs", &[0, 20, 21, 22, 23]);
    comparison.jobs.print("jobs done", &[0, 1, 2, 3, 4, 5, 6, 7, 8]);
    comparison.singles.print("jobs done", &[0, 20, 21, 1, 2, 3, 4, 5, 6, 7, 8]);
    comparison.seen.print();
    comparison.seen.plans
}
