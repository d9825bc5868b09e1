// mod.rs: recorded runs of small plans: in accepted orders, with refused jobs, and refused whole.
mod draw;

use super::Line;
use crate::plan::runner::Runner;
use crate::plan::{rules, Plan};
use crate::random::Random;
use draw::{clashes, reordered, touching, Case};

/// Runs that are drawn in an accepted order; in the later half jobs have faults.
const CASES: usize = 36;
/// What the answer list holds before a run: no run gives it.
const UNANSWERED: u16 = 65535;

/// Faults of 20, 21, 22 and 23, in the order in which they are found, for a plan of two jobs that touch.
const FAULTS: [fn(&mut Case); 14] = [
    |case| case.plan.width = 3,
    |case| case.plan.height = 4097,
    |case| _ = case.plan.plane.pop(),
    |case| case.plan.plane.push(0),
    |case| _ = case.plan.rows.pop(),
    |case| case.plan.rows.push(0),
    |case| _ = case.order.pop(),
    |case| case.order.push(2),
    |case| case.answers -= 1,
    |case| case.answers += 1,
    |case| case.order = vec![1, 1],
    |case| case.order = vec![0, 2],
    |case| case.order = vec![65535, 0],
    |case| case.order = vec![1, 0],
];

fn print(case: &Case) {
    let Plan { width, height, plane, rows, differences } = &case.plan;
    let number = rules::run(&case.plan, &case.order, case.answers, &clashes(&case.plan));
    let mut due: Vec<f32> = plane.iter().map(|&bits| f32::from_bits(bits)).collect();
    let mut line = Line::new('J', &[*width, *height, plane.len(), rows.len(), case.order.len(), differences.len(), case.answers]);
    line.add([i64::from(number)].into_iter());
    line.add(due.iter().map(|&sample| sample as i64));
    line.add(rows.iter().chain(&case.order).map(|&word| word.into()));
    line.add(differences.iter().map(|&difference| (difference as u16).into()));
    let mut answers = vec![UNANSWERED; case.answers];
    if number == 0 {
        answers = Runner::new().run(&mut due, *width, *height, case.plan.list(), differences);
    }
    line.add(answers.iter().map(|&answer| answer.into()));
    line.add(due.iter().map(|&sample| sample as i64));
    line.print();
}

/// A drawn run, and at times one more, in the order turned round.
fn drawn(random: &mut Random, turn: usize) {
    let mut case = reordered(random, turn, 2 * turn >= CASES);
    print(&case);
    if turn % 4 == 3 {
        case.order.reverse();
        print(&case);
    }
}

/// An empty plan, drawn runs, and each fault alone and with the one that is found next.
pub fn all(random: &mut Random) {
    let none: fn(&mut Case) = |_| ();
    let mut empty = touching(random, 0);
    (empty.plan.rows, empty.order, empty.answers) = (Vec::new(), Vec::new(), 0);
    print(&empty);
    (0..CASES).for_each(|turn| drawn(random, turn));
    print(&touching(random, 0));
    for (turn, fault) in FAULTS.into_iter().enumerate() {
        for later in [none].iter().chain(FAULTS.get(turn + 1)) {
            let mut case = touching(random, turn);
            later(&mut case);
            fault(&mut case);
            print(&case);
        }
    }
}
