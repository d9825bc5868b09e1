// faults.rs: runs and single jobs over three planes that are refused whole, by one fault or by two, which shows the order of checking.
use crate::plan::orders;
use crate::random::Random;
use crate::tower::hold::Comparison;
use crate::tower::row::WORDS;
use crate::tower::Plan;

/// Planes that 20 does not take; a size exchanged for the other may be one that it does.
fn wrong_planes(random: &mut Random, plan: &mut Plan) {
    let (w, h) = (plan.width, plan.height);
    let side = |random: &mut Random, own: usize, other: usize| {
        let more = own.wrapping_add(random.pick(&[1, usize::MAX, 1 << 16, 1 << 32]));
        random.pick(&[0, 1, 3, other, 4097, usize::MAX, 1 << 63, more, more])
    };
    let plane = random.below(3);
    match random.below(6) {
        0 => plan.width = side(random, w, h),
        1 => plan.height = side(random, h, w),
        2 | 3 => _ = plan.planes[plane].pop(),
        4 => plan.planes[plane].push(0),
        _ => plan.planes[plane].clear(),
    }
}

/// Wrong planes whose lengths are width x height: only the range of a side is wrong.
fn wrong_sides(random: &mut Random, plan: &mut Plan) {
    (plan.width, plan.height) = random.pick(&[(3, 8), (8, 3), (4097, 4), (4, 4097), (0, 0), (0, 9), (4, 0), (1, 1)]);
    plan.planes = [(); 3].map(|_| vec![0; plan.width * plan.height]);
}

/// A length that 21 does not take, of the plan, the order or the answers.
fn wrong_length(random: &mut Random, plan: &mut Plan, order: &mut Vec<u16>, answers: &mut usize) {
    match random.below(7) {
        0 => plan.rows.truncate(random.below(plan.rows.len() + 1)),
        1 => plan.rows.extend(vec![4; random.pick(&[1, 15, 16, 31, 32])]),
        2 => plan.rows.truncate(plan.rows.len().saturating_sub(16)),
        3 => _ = order.pop(),
        4 => order.push(random.pick(&[0, order.len() as u16])),
        5 => *answers = answers.saturating_sub(1),
        _ => *answers += random.pick(&[1, 1, 2, 16]),
    }
}

/// Runs a plan with one or two faults of 20 to 23.
pub fn run(comparison: &mut Comparison, random: &mut Random, plan: &Plan) {
    let due = comparison.due(plan);
    let (mut wrong, mut order, mut answers) = (plan.clone(), due.clashes.any_order(random), plan.jobs());
    for _ in 0..random.within(1, 2) {
        match random.below(8) {
            0 => wrong_planes(random, &mut wrong),
            1 => wrong_sides(random, &mut wrong),
            2 | 3 => wrong_length(random, &mut wrong, &mut order, &mut answers),
            4 | 5 => orders::break_order(random, &mut order),
            _ => order.reverse(),
        }
    }
    let due = comparison.due(&wrong);
    if comparison.run(&wrong, &due, &order, answers) == 0 {
        comparison.one_by_one(&wrong, &due);
    }
}

/// Calls a single job with a row or planes that may be wrong, or both.
pub fn single(comparison: &mut Comparison, random: &mut Random, plan: &Plan) {
    let mut wrong = plan.clone();
    let row = random.below(plan.jobs().max(1)) * WORDS;
    let words = random.pick(&[32, 32, 32, 32, 32, 0, 1, 15, 16, 31, 33, 48, 64]);
    wrong.rows = plan.rows.iter().copied().skip(row).chain([4; 64]).take(words).collect();
    match random.below(5) {
        0 | 1 => wrong_planes(random, &mut wrong),
        2 => wrong_sides(random, &mut wrong),
        _ => (),
    }
    comparison.single(&wrong);
}
