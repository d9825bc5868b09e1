// hold.rs: what the comparison of plans keeps, and what is due of a plan: the plain runner's work in the plan's own order.
use crate::plan::clashes::{Clashes, Marks};
use crate::plan::guarded::Guarded;
use crate::plan::runner::Runner;
use crate::plan::seen::Seen;
use crate::plan::{rules, Plan};
use crate::random::Random;
use crate::tally::Tally;

/// What is due of a plan: its clashes, and the plane and the answers that its own order leaves. A plan that is refused has none.
pub struct Due {
    pub clashes: Clashes,
    pub plane: Vec<u32>,
    pub answers: Vec<u16>,
}

pub struct Comparison {
    seed: u64,
    number: u64,
    /// What is being tried.
    pub about: &'static str,
    marks: Marks,
    runner: Runner,
    pub plane: Guarded<u32>,
    pub rows: Guarded<u16>,
    pub order: Guarded<u16>,
    pub differences: Guarded<i16>,
    pub answers: Guarded<u16>,
    pub seen: Seen,
    /// What runs, the jobs of accepted plans, and single jobs answered.
    pub runs: Tally,
    pub jobs: Tally,
    pub singles: Tally,
}

impl Comparison {
    pub fn new(seed: u64) -> Comparison {
        let words = || Guarded::new(|i| 0xA5C3 ^ (i as u16).wrapping_mul(0x9E37));
        Comparison {
            seed,
            number: 8 << 40,
            about: "",
            marks: Marks::default(),
            runner: Runner::new(),
            plane: Guarded::new(|i| 0xFFA5_0000 ^ (i as u32).wrapping_mul(0x9E37_79B1)),
            rows: words(),
            order: words(),
            differences: Guarded::new(|i| 0x5A3C ^ (i as i16).wrapping_mul(0x1E37)),
            answers: words(),
            seen: Seen::default(),
            runs: Tally::new("latch_run"),
            jobs: Tally::new("its jobs"),
            singles: Tally::new("latch_run_job"),
        }
    }

    /// The generator of the next plan.
    pub fn random(&mut self) -> Random {
        self.number += 1;
        Random::new(self.seed, self.number)
    }

    /// Prints a plan with its order and ends the run.
    pub fn fail(&self, call: &str, plan: &Plan, order: &[u16], what: String) -> ! {
        println!("oracle: {call} differs (seed {}, plan {}, {}): {what}", self.seed, self.number, self.about);
        println!("order of {}: {:?}", order.len(), &order[..order.len().min(64)]);
        plan.print();
        std::process::exit(1);
    }

    /// Runs a plan plainly, in its own order.
    pub fn due(&mut self, plan: &Plan) -> Due {
        if rules::shape(plan) != 0 {
            return Due { clashes: Clashes::none(), plane: Vec::new(), answers: Vec::new() };
        }
        let (width, height, rows) = (plan.width, plan.height, plan.list());
        let clashes = Clashes::of(rows, width, height, plan.differences.len(), &mut self.marks);
        self.plane.lend(&plan.plane);
        let answers = self.runner.run(self.plane.floats(), width, height, rows, &plan.differences);
        Due { clashes, plane: self.plane.again().to_vec(), answers }
    }
}
