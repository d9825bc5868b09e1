// radio.rs: times plans' files of 512-byte blocks, written and read, of sixteen words a row and of thirty-two: plain Rust, which the comparison has too,
// and the public calls.
use crate::block_calls::Calls;
use crate::plain::{self, Plan, Tower};
use crate::random::Random;
use crate::timing::{best, lent, print_ratios, print_sizes, print_times};
use std::hint::black_box;

/// Jobs of the plans: a row, a block of fifteen rows, one row more, and more blocks up to the most.
const JOBS: [usize; 6] = [1, 15, 16, 64, 256, 1024];

/// Writing by both ways, for one plan.
fn writing<F: Calls>(plan: &[u16], mut first: Vec<u8>, mut second: Vec<u8>) -> [f64; 2] {
    let mut length = [0];
    best(
        1,
        [
            &mut |loops| (0..loops).for_each(|_| _ = black_box(plain::write::<F>(black_box(plan), lent(&mut first)))),
            &mut |loops| (0..loops).for_each(|_| _ = black_box(F::write_plan(black_box(plan), lent(&mut second), lent(&mut length)))),
        ],
    )
}

/// Reading by both ways, for one file.
fn reading<F: Calls>(bytes: &[u8], mut first: Vec<u16>, mut second: Vec<u16>) -> [f64; 2] {
    let mut rows = [0];
    best(
        1,
        [
            &mut |loops| (0..loops).for_each(|_| _ = black_box(plain::read::<F>(black_box(bytes), lent(&mut first)))),
            &mut |loops| (0..loops).for_each(|_| _ = black_box(F::read_plan(black_box(bytes), lent(&mut second), lent(&mut rows)))),
        ],
    )
}

/// Sees that both ways agree, then times them: writing, and reading.
fn both<F: Calls>(random: &mut Random, jobs: usize) -> [[f64; 2]; 2] {
    let words = F::WORDS * jobs;
    let plan: Vec<u16> = (0..words).map(|_| random.below(65536) as u16).collect();
    let size = F::size(jobs);
    let (mut first, mut second, mut length) = (vec![1; size], vec![2; size], [0]);
    assert!(plain::write::<F>(&plan, &mut first) == Ok(size), "plain Rust refuses a plan");
    assert!(F::write_plan(&plan, &mut second, &mut length) == 0 && length == [size], "{} refuses a plan", F::WRITE);
    assert!(first == second, "the bytes of {jobs} jobs differ");
    let (mut due, mut got, mut rows) = (vec![1; words], vec![2; words], [0]);
    assert!(plain::read::<F>(&first, &mut due) == Ok(jobs), "plain Rust refuses a file");
    assert!(F::read_plan(&first, &mut got, &mut rows) == 0 && rows == [jobs], "{} refuses a file", F::READ);
    assert!(due == plan && got == plan, "the plan of {jobs} jobs reads back as another");
    [writing::<F>(&plan, second, first.clone()), reading::<F>(&first, due, got)]
}

/// Times one format; `words` tells its rows in the names of the groups.
fn time<F: Calls>(random: &mut Random, words: &str) {
    let by_jobs = JOBS.map(|jobs| both::<F>(random, jobs));
    for (part, (name, call)) in [("write_plan", F::WRITE), ("read_plan", F::READ)].into_iter().enumerate() {
        let column = |way: usize| by_jobs.map(|times| times[part][way]);
        println!("{name}{words}:");
        print_times(&format!("Rust {name}"), &column(0));
        print_times(&format!("ours {call}"), &column(1));
        print_ratios(&column(0), &column(1));
    }
}

pub fn run(seed: u64) {
    let mut random = Random::new(seed, 6000);
    print_sizes("plans of so many jobs", &JOBS);
    time::<Plan>(&mut random, "");
    time::<Tower>(&mut random, ", thirty-two words a row");
}
