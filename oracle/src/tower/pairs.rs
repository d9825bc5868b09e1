// pairs.rs: two jobs, one of them at every place of every plane about the other: each of its reads and writes is met and only just missed.
use crate::plan;
use crate::plan::row::{BASE, FLAGS, X, Y};
use crate::random::Random;
use crate::spec::{ABOVE, LEFT};
use crate::tower::hold::Comparison;
use crate::tower::row::{Row, ABOVE_LINES, HAVE_LEFT, HAVE_TOP, HEIGHT, LEFT_LINES, LUMA_X, LUMA_Y, PLANE, REF_HEIGHT, REF_WIDTH, WIDTH};
use crate::tower::{draw, job};

/// The planes' side, and how often a job is drawn at scale 1 that stays while another goes round.
const SIDE: usize = 13;
const ROUNDS: f64 = 36.0;

/// A colour job that reads one luma sample and writes one sample.
fn point(random: &mut Random, plane: usize, at: (usize, usize), luma: (usize, usize)) -> Row {
    let mut row = job::colour(random, SIDE, SIDE, 1, 8);
    row[PLANE] = plane as u16;
    (row[X], row[Y], row[LUMA_X], row[LUMA_Y]) = (at.0 as u16, at.1 as u16, luma.0 as u16, luma.1 as u16);
    (row[REF_WIDTH], row[REF_HEIGHT], row[WIDTH], row[HEIGHT]) = (1, 1, 1, 1);
    (row[ABOVE_LINES], row[LEFT_LINES], row[HAVE_TOP], row[HAVE_LEFT]) = (0, 0, 0, 0);
    row
}

/// A block of 4 without neighbours.
fn block(random: &mut Random, plane: usize, at: (usize, usize)) -> Row {
    let first = plan::job::in_raster(random, SIDE, SIDE, 4, 8, (0, 0));
    let mut row = job::on_plane(random, &first);
    (row[X], row[Y], row[PLANE]) = (at.0 as u16, at.1 as u16, plane as u16);
    (row[FLAGS], row[BASE]) = (row[FLAGS] & !(ABOVE | LEFT), 100);
    row
}

/// Runs two jobs in both orders, with either of them first in the plan, and job by job.
fn hold(comparison: &mut Comparison, plan: &mut crate::tower::Plan, stays: Row, goes: Row) {
    for pair in [[stays, goes], [goes, stays]] {
        plan.rows = pair.concat();
        let due = comparison.due(plan);
        comparison.run(plan, &due, &[0, 1], 2);
        let number = comparison.run(plan, &due, &[1, 0], 2);
        comparison.one_by_one(plan, &due);
        if stays[PLANE] != goes[PLANE] {
            comparison.seen.across[usize::from(number != 0)] += 1;
        }
    }
}

/// One job that stays, and every job that goes round it.
fn round(comparison: &mut Comparison, coloured: bool) {
    let mut random = comparison.random();
    let random = &mut random;
    let stays = if coloured { job::colour(random, SIDE, SIDE, 8, 8) } else { job::plain(random, SIDE, SIDE, 8) };
    let mut plan = draw::plan(random, SIDE, SIDE, 8, vec![stays], 0);
    plan.differences.resize(80, 3);
    let places = |most: usize| (0..most).flat_map(move |y| (0..most).map(move |x| (x, y)));
    let far = (random.below(SIDE), random.below(SIDE));
    for at in places(SIDE) {
        for plane in [1, 2] {
            let goes = point(random, plane, at, far);
            hold(comparison, &mut plan, stays, goes);
        }
        if !coloured {
            let goes = point(random, 1, far, at);
            hold(comparison, &mut plan, stays, goes);
        }
    }
    for (plane, at) in (0..3).flat_map(|plane| places(SIDE - 3).map(move |at| (plane, at))) {
        let goes = block(random, plane, at);
        hold(comparison, &mut plan, stays, goes);
    }
}

pub fn all(comparison: &mut Comparison, scale: f64) {
    comparison.about = "two jobs close together";
    for turn in 0..(ROUNDS * scale).ceil() as usize {
        round(comparison, turn % 3 != 2);
    }
}
