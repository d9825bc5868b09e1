// draw.rs: small plans for the recorded list, each with an order.
use crate::plan::clashes::{Clashes, Marks};
use crate::plan::row::{self, Row, B, BASE, FLAGS, START};
use crate::plan::spoil::spoil;
use crate::plan::{job, orders, rules, Plan};
use crate::random::Random;
use crate::refusals;
use crate::spec::{most, DEPTHS, LEFT};

/// A run to be recorded: its plan, its order, and how many answers it is lent.
pub struct Case {
    pub plan: Plan,
    pub order: Vec<u16>,
    pub answers: usize,
}

pub fn clashes(plan: &Plan) -> Clashes {
    if rules::shape(plan) != 0 {
        return Clashes::none();
    }
    Clashes::of(plan.list(), plan.width, plan.height, plan.differences.len(), &mut Marks::default())
}

/// One list of differences, long enough for the largest block, in which each job has a start.
fn differences(random: &mut Random, rows: &mut [Row]) -> Vec<i16> {
    let samples = |row: &Row| usize::from(row[B]).pow(2);
    let len = rows.iter().map(samples).max().unwrap_or(0) + 16 * random.below(3);
    rows.iter_mut().for_each(|row| row[START] = random.below((len - samples(row)) / 16 + 1) as u16);
    let ends = random.once_in(4);
    (0..len).map(|_| if ends { random.pick(&[-32768, 32767, 0]) } else { random.within(-20, 20) as i16 }).collect()
}

/// Whole samples of a depth; at times one that a job reads is above M.
fn plane(random: &mut Random, plan: &mut Plan, depth: u16, spoiled: bool) {
    let (width, height) = (plan.width, plan.height);
    let mut samples: Vec<i32> = (0..width * height).map(|_| random.within(0, most(depth))).collect();
    let mut read = Vec::new();
    let row = random.pick(plan.list());
    if spoiled && rules::job(&row, width, height, plan.differences.len()) == 0 {
        refusals::places(&row::spec(&row, width, height), &mut read);
    }
    if !read.is_empty() {
        samples[random.pick(&read)] = most(row[row::D]) + 1;
    }
    plan.plane = samples.into_iter().map(|sample| (sample as f32).to_bits()).collect();
}

/// A plan of one to six jobs on a plane of 8 to 16 samples each way, in an order that keeps every clashing pair.
fn accepted(random: &mut Random, turn: usize, spoiled: bool) -> Case {
    let (width, height, depth) = (8 + random.below(9), 8 + random.below(9), DEPTHS[turn % DEPTHS.len()]);
    let mut rows: Vec<Row> = (0..1 + turn % 6).map(|_| job::anywhere(random, width, height, depth)).collect();
    let differences = differences(random, &mut rows);
    for (i, row) in rows.iter_mut().enumerate().filter(|_| spoiled) {
        if (turn + i) % 3 == 0 {
            spoil(random, row, 1 + (turn / 3 + i) % 7, width, height, differences.len());
        }
    }
    let mut plan = Plan { width, height, plane: Vec::new(), rows: rows.concat(), differences };
    plane(random, &mut plan, depth, spoiled);
    let order = clashes(&plan).any_order(random);
    Case { answers: plan.jobs(), plan, order }
}

/// The same, and not in the plan's own order, where it has two jobs or more.
pub fn reordered(random: &mut Random, turn: usize, spoiled: bool) -> Case {
    loop {
        let case = accepted(random, turn, spoiled);
        if case.answers < 2 || case.order != orders::own(case.answers) {
            return case;
        }
    }
}

/// Document 01's case: "two touching blocks, the right one reading the left", in the plan's own order.
pub fn touching(random: &mut Random, turn: usize) -> Case {
    let d = DEPTHS[turn % DEPTHS.len()];
    let mut rows = [0, 1].map(|column| job::in_raster(random, 8, 4, 4, d, (column, 0)));
    (rows[0][BASE], rows[1][FLAGS]) = (1 << (d - 1), rows[1][FLAGS] | LEFT);
    let differences = differences(random, &mut rows);
    let mut plan = Plan { width: 8, height: 4, plane: Vec::new(), rows: rows.concat(), differences };
    plane(random, &mut plan, d, false);
    Case { plan, order: vec![0, 1], answers: 2 }
}
