// hold.rs: what the comparison of plans over three planes keeps, and what is due of a plan: the plain runner's work in the plan's own order.
use crate::plan::clashes::{Clashes, Marks, Touched};
use crate::plan::guarded::Guarded;
use crate::random::Random;
use crate::tally::Tally;
use crate::tower::runner::Runner;
use crate::tower::seen::Seen;
use crate::tower::{rules, touches, Plan};

/// What is due of a plan: its clashes, and the planes and the answers that its own order leaves. A plan that is refused has none.
pub struct Due {
    pub clashes: Clashes,
    pub planes: [Vec<u32>; 3],
    pub answers: Vec<u16>,
}

pub struct Comparison {
    seed: u64,
    number: u64,
    /// What is being tried.
    pub about: &'static str,
    marks: Marks,
    runner: Runner,
    pub planes: [Guarded<u32>; 3],
    pub rows: Guarded<u16>,
    pub order: Guarded<u16>,
    pub differences: Guarded<i16>,
    pub answers: Guarded<u16>,
    pub seen: Seen,
    /// What runs, the jobs of accepted plans, and single jobs answered.
    pub runs: Tally,
    pub jobs: Tally,
    pub singles: Tally,
}

/// The three planes as samples.
pub fn floats(planes: &mut [Guarded<u32>; 3]) -> [&mut [f32]; 3] {
    planes.each_mut().map(|plane| plane.floats())
}

impl Comparison {
    pub fn new(seed: u64) -> Comparison {
        let words = || Guarded::new(|i| 0xA5C3 ^ (i as u16).wrapping_mul(0x9E37));
        Comparison {
            seed,
            number: 11 << 40,
            about: "",
            marks: Marks::default(),
            runner: Runner::new(),
            planes: [(); 3].map(|_| Guarded::new(|i| 0xFFA5_0000 ^ (i as u32).wrapping_mul(0x9E37_79B1))),
            rows: words(),
            order: words(),
            differences: Guarded::new(|i| 0x5A3C ^ (i as i16).wrapping_mul(0x1E37)),
            answers: words(),
            seen: Seen::default(),
            runs: Tally::new("tower_run"),
            jobs: Tally::new("its jobs"),
            singles: Tally::new("tower_run_job"),
        }
    }

    /// The generator of the next plan.
    pub fn random(&mut self) -> Random {
        self.number += 1;
        Random::new(self.seed, self.number)
    }

    /// Prints a plan with its order and ends the run.
    pub fn fail(&self, call: &str, plan: &Plan, order: &[u16], what: String) -> ! {
        println!("oracle: {call} differs (seed {}, plan {}, {}): {what}", self.seed, self.number, self.about);
        println!("order of {}: {:?}", order.len(), &order[..order.len().min(64)]);
        plan.print();
        std::process::exit(1);
    }

    /// Lends the three planes of a plan.
    pub fn lend_planes(&mut self, plan: &Plan) {
        for (lent, plane) in self.planes.iter_mut().zip(&plan.planes) {
            lent.lend(plane);
        }
    }

    /// Runs a plan plainly, in its own order.
    pub fn due(&mut self, plan: &Plan) -> Due {
        if rules::shape(plan) != 0 {
            return Due { clashes: Clashes::none(), planes: [(); 3].map(|_| Vec::new()), answers: Vec::new() };
        }
        let (width, height, rows) = (plan.width, plan.height, plan.list());
        let touched: Vec<Touched> = rows.iter().map(|row| touches::of(row, width, height, plan.differences.len())).collect();
        let clashes = Clashes::between(&touched, 3 * width * height, &mut self.marks);
        self.lend_planes(plan);
        let answers = self.runner.run(&mut floats(&mut self.planes), width, height, rows, &plan.differences);
        Due { clashes, planes: self.planes.each_mut().map(|plane| plane.again().to_vec()), answers }
    }
}
