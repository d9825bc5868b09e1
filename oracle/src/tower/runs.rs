// runs.rs: a run, its jobs one by one, and a single job, held against what is due: answers, planes, and all that was lent.
use crate::plan::orders;
use crate::tower::hold::{floats, Comparison, Due};
use crate::tower::row::WORDS;
use crate::tower::{calls, rules, Plan};

/// The answers that a run is lent: none of them is a number that it gives.
fn blank(answers: usize) -> Vec<u16> {
    (0..answers).map(|i| 0xB000 | i as u16).collect()
}

impl Comparison {
    /// Runs a plan in an order and holds the answer, the planes and the jobs' answers, with all around them, against what is due.
    pub fn run(&mut self, plan: &Plan, due: &Due, order: &[u16], answers: usize) -> u32 {
        let number = rules::run(plan, order, answers, &due.clashes);
        let blank = blank(answers);
        self.lend_planes(plan);
        let (rows, order_lent) = (self.rows.lend(&plan.rows), self.order.lend(order));
        let (differences, answers) = (self.differences.lend(&plan.differences), self.answers.lend(&blank));
        let got = calls::run(floats(&mut self.planes), plan.width, plan.height, rows, order_lent, differences, answers);
        if got != number {
            self.fail("tower_run", plan, order, format!("it answers {got}, due is {number}"));
        }
        let (planes, answers) = if number == 0 { (&due.planes, &due.answers) } else { (&plan.planes, &blank) };
        if let Some((place, is)) = self.answers.difference(answers) {
            self.fail("tower_run", plan, order, format!("answers[{place}] is {is}, due is {:?}", answers.get(place as usize)));
        }
        self.same_planes("tower_run", plan, order, planes);
        self.same_lists("tower_run", plan, order, &plan.rows);
        if let Some((place, is)) = self.order.difference(order) {
            self.fail("tower_run", plan, order, format!("it only reads the order, and order[{place}] is now {is}"));
        }
        self.runs.add(number);
        self.seen.order(number, order);
        number
    }

    /// Runs a plan in each of its orders, and job by job.
    pub fn every_order(&mut self, plan: &Plan) {
        let due = self.due(plan);
        orders::every(plan.jobs(), |order| {
            let number = self.run(plan, &due, order, order.len());
            self.seen.every[usize::from(number != 0)] += 1;
        });
        self.one_by_one(plan, &due);
    }

    /// Does a plan's jobs one by one, in its own order, and holds each answer and the planes that they leave against what is due.
    pub fn one_by_one(&mut self, plan: &Plan, due: &Due) {
        self.seen.plans += 1;
        self.lend_planes(plan);
        self.differences.lend(&plan.differences);
        for (i, row) in plan.list().iter().enumerate() {
            self.rows.lend(row);
            let (row_lent, differences) = (self.rows.again(), self.differences.again());
            let got = calls::run_job(floats(&mut self.planes), plan.width, plan.height, row_lent, differences);
            if got != u32::from(due.answers[i]) {
                self.fail("tower_run_job", plan, &[i as u16], format!("it answers {got}, due is {}", due.answers[i]));
            }
            self.same_lists("tower_run_job", plan, &[i as u16], row);
            self.singles.add(got);
            self.jobs.add(got);
            self.jobs.samples += self.seen.job(got, row);
        }
        self.same_planes("tower_run_job", plan, &[], &due.planes);
    }

    /// Calls `tower_run_job` with all words of a plan as its row, on planes or with a row that may be refused. Returns its answer.
    pub fn single(&mut self, plan: &Plan) -> u32 {
        let due = self.due(plan);
        let number = match rules::shape(plan) {
            20 => 20,
            _ if plan.rows.len() != WORDS => 21,
            _ => u32::from(due.answers[0]),
        };
        self.lend_planes(plan);
        let (row, differences) = (self.rows.lend(&plan.rows), self.differences.lend(&plan.differences));
        let got = calls::run_job(floats(&mut self.planes), plan.width, plan.height, row, differences);
        if got != number {
            self.fail("tower_run_job", plan, &[], format!("it answers {got}, due is {number}"));
        }
        self.same_planes("tower_run_job", plan, &[], if number == 0 { &due.planes } else { &plan.planes });
        self.same_lists("tower_run_job", plan, &[], &plan.rows);
        self.singles.add(number);
        number
    }

    fn same_planes(&self, call: &str, plan: &Plan, order: &[u16], due: &[Vec<u32>; 3]) {
        for (number, (lent, due)) in self.planes.iter().zip(due).enumerate() {
            if let Some((place, is)) = lent.difference(due) {
                let should = due.get(place as usize).copied().unwrap_or_default();
                let (f, g) = (f32::from_bits(is), f32::from_bits(should));
                let what = format!("plane {number} at {place} is {is:#010x} ({f}), due is {should:#010x} ({g})");
                self.fail(call, plan, order, what);
            }
        }
    }

    fn same_lists(&self, call: &str, plan: &Plan, order: &[u16], rows: &[u16]) {
        if let Some((place, is)) = self.rows.difference(rows) {
            self.fail(call, plan, order, format!("it only reads the rows, and word {place} is now {is}"));
        }
        if let Some((place, is)) = self.differences.difference(&plan.differences) {
            self.fail(call, plan, order, format!("it only reads differences, and differences[{place}] is now {is}"));
        }
    }
}
