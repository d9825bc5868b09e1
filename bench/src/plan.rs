// plan.rs: times latch_run against the plain runner, and its test of orders against the jobs alone.
use crate::random::Random;
use crate::row;
use crate::rows::{accepted, apart, raster, Plan, JOBS};
use crate::runner::Runner;
use crate::spec::SIZES;
use crate::timing::{best, lent, print_ratios, print_times};
use crate::{calls, job};
use std::hint::black_box;

/// The size at which the test of orders is timed.
const B: u16 = 16;

pub fn same(first: &[f32], second: &[f32]) -> bool {
    first.iter().zip(second).all(|(p, q)| p.to_bits() == q.to_bits())
}

/// Sees that the ways agree, then times them for one job: the plain runner, latch_run, and latch_run_job on each job in the same order.
/// A plan that has been run leaves the same plane each time it is run again.
fn three_ways(plan: &Plan, order: &[u16]) -> [f64; 3] {
    let (words, own, width, height) = (plan.rows.concat(), &plan.differences, plan.width, plan.height);
    let (mut first, mut second, mut third) = (plan.plane.clone(), plan.plane.clone(), plan.plane.clone());
    let (mut runner, mut answers, mut due) = (Runner::new(), vec![99; JOBS], vec![99; JOBS]);
    assert!(runner.run(&mut first, width, height, &words, order, own, &mut due) == 0, "the plain runner refuses");
    assert!(calls::run(&mut second, width, height, &words, order, own, &mut answers) == 0, "latch_run refuses");
    let one = |plane: &mut [f32], index: u16| {
        let row = &plan.rows[usize::from(index)];
        calls::run_job(plane, width, height, black_box(row), own)
    };
    assert!(order.iter().all(|&index| one(&mut third, index) == 0), "a job is refused");
    assert!(answers == due && same(&first, &second) && same(&first, &third), "the runs differ at B {}", plan.rows[0][row::B]);
    best(
        JOBS,
        [
            &mut |loops| {
                for _ in 0..loops {
                    _ = black_box(runner.run(lent(&mut first), width, height, black_box(&words), order, own, lent(&mut due)))
                }
            },
            &mut |loops| {
                for _ in 0..loops {
                    _ = black_box(calls::run(lent(&mut second), width, height, black_box(&words), order, own, lent(&mut answers)))
                }
            },
            &mut |loops| {
                for _ in 0..loops {
                    order.iter().for_each(|&index| _ = black_box(one(lent(&mut third), index)))
                }
            },
        ],
    )
}

/// How much of a run's time is not its jobs'.
fn share([_, run, jobs]: [f64; 3]) -> f64 {
    1.0 - jobs / run
}

fn order_check(random: &mut Random) {
    let (touching, loose) = (raster(random, B), apart(random, B));
    let (own, other) = ((0..JOBS as u16).collect::<Vec<_>>(), accepted(random, &touching.rows));
    let reversed: Vec<u16> = own.iter().rev().copied().collect();
    let cases = [
        ("a raster in its own order", three_ways(&touching, &own)),
        ("a raster in another accepted order", three_ways(&touching, &other)),
        ("jobs apart, reversed", three_ways(&loose, &reversed)),
    ];
    println!("order check at B {B}, {JOBS} jobs; ns for one job, and the share of latch_run's time that is not its jobs':");
    for (name, times @ [rust, run, jobs]) in cases {
        println!("    {name}: Rust {rust:.1}, latch_run {run:.1}, latch_run_job {jobs:.1}; share {:.3}", share(times));
    }
}

pub fn run(seed: u64) {
    let mut random = Random::new(seed, 5000);
    let own: Vec<u16> = (0..JOBS as u16).collect();
    let plans = SIZES.map(|b| raster(&mut random, b));
    let by_size = plans.each_ref().map(|plan| three_ways(plan, &own));
    let column = |way: usize| by_size.map(|ways| ways[way]);
    println!("run, {JOBS} jobs in the plan's order:");
    print_times("Rust run", &column(0));
    print_times("ours latch_run", &column(1));
    print_ratios(&column(0), &column(1));
    order_check(&mut random);
    job::run(&plans);
}
