// tower.rs: times tower_run against the plain runner: plans of colour jobs at every size and depth, and of all modes in two orders.
use crate::random::Random;
use crate::spec::{DEPTHS, SIZES};
use crate::timing::{best, lent, print_ratios, print_sizes, print_times};
use crate::tower_calls as calls;
use crate::tower_row::Row;
use crate::tower_rows::{accepted, colours, mixed, Plan};
use crate::tower_runner::Runner;
use std::hint::black_box;

/// The depth of the plans of all modes.
const DEPTH: u16 = 10;

fn slices(planes: &mut [Vec<f32>; 3]) -> [&mut [f32]; 3] {
    planes.each_mut().map(|plane| lent(plane))
}

fn same(first: &[Vec<f32>; 3], second: &[Vec<f32>; 3]) -> bool {
    first.iter().flatten().zip(second.iter().flatten()).all(|(p, q)| p.to_bits() == q.to_bits())
}

/// Sees that both ways agree, on planes that a run has been over and on others, then times them for one job.
fn two_ways(plan: &Plan, order: &[u16]) -> [f64; 2] {
    let (words, own, width, height) = (plan.rows.concat(), &plan.differences, plan.width, plan.height);
    let (mut first, mut second) = (plan.planes.clone(), plan.planes.clone());
    let jobs = plan.rows.len();
    let (mut runner, mut answers, mut due) = (Runner::new(), vec![99; jobs], vec![99; jobs]);
    for _ in 0..3 {
        assert!(runner.run(slices(&mut first), width, height, &words, order, own, &mut due) == 0, "the plain runner refuses");
        assert!(calls::run(slices(&mut second), width, height, &words, order, own, &mut answers) == 0, "tower_run refuses");
        assert!(answers == due && same(&first, &second), "the runs differ at side {width}");
        assert!(due.iter().all(|&answer| answer == 0), "a job is refused at side {width}");
    }
    let times = best(
        jobs,
        [
            &mut |loops| {
                for _ in 0..loops {
                    _ = black_box(runner.run(slices(&mut first), width, height, black_box(&words), order, own, lent(&mut due)))
                }
            },
            &mut |loops| {
                for _ in 0..loops {
                    _ = black_box(calls::run(slices(&mut second), width, height, black_box(&words), order, own, lent(&mut answers)))
                }
            },
        ],
    );
    assert!(due.iter().chain(&answers).all(|&answer| answer == 0), "a job was refused while it was timed");
    times
}

fn print(name: &str, by_size: [[f64; 2]; 5]) {
    let column = |way: usize| by_size.map(|ways| ways[way]);
    println!("tower_run, {name}:");
    print_times("Rust run", &column(0));
    print_times("ours tower_run", &column(1));
    print_ratios(&column(0), &column(1));
}

fn in_order(rows: &[Row]) -> Vec<u16> {
    (0..rows.len() as u16).collect()
}

pub fn run(seed: u64) {
    let mut random = Random::new(seed, 7000);
    print_sizes("B", &SIZES.map(usize::from));
    for d in DEPTHS {
        let by_size = SIZES.map(|b| {
            let plan = colours(&mut random, b, d);
            two_ways(&plan, &in_order(&plan.rows))
        });
        print(&format!("colour jobs of side B, D {d}"), by_size);
    }
    let plans = SIZES.map(|b| mixed(&mut random, b, DEPTH));
    print("all modes in the plan's order", plans.each_ref().map(|plan| two_ways(plan, &in_order(&plan.rows))));
    print("all modes in another accepted order", plans.each_ref().map(|plan| two_ways(plan, &accepted(&mut random, &plan.rows))));
}
