// mod.rs: latch_derive_params on windows of all shapes, depths and directions, at the limit of its sums, and with any parameters.
mod cases;
pub mod hold;
pub mod limit;
mod paper;
mod places;

use crate::colour::count;
use crate::colour::fill::{self, Texture};
use crate::colour::window::{luma_most, Window, DIRECTIONS};
use crate::spec::DEPTHS;
use hold::{Case, Comparison};
pub use places::ends;

/// Windows at scale 1 with sides up to a number.
const DRAWN: [(usize, f64); 4] = [(24, 220_000.0), (48, 40_000.0), (130, 12_000.0), (256, 3_000.0)];
/// Sides of the windows of which every shape comes, and their lines.
const SMALL: usize = 7;
/// Windows at scale 1 about the limit of the sums, for each depth.
const NEAR_LIMIT: [f64; 3] = [60.0, 1_200.0, 16_000.0];
/// Calls with any parameters at scale 1.
const WILD: f64 = 120_000.0;

/// Every small shape, with every count of lines up to two past it.
fn every_small(comparison: &mut Comparison) {
    let numbers = |most: usize| 0..=most;
    for (ref_width, ref_height) in numbers(SMALL).flat_map(|w| numbers(SMALL).map(move |h| (w, h))) {
        for (above_lines, left_lines) in numbers(SMALL + 2).flat_map(|a| numbers(SMALL + 2).map(move |l| (a, l))) {
            for (direction, d) in (0..DIRECTIONS).flat_map(|direction| DEPTHS.map(|d| (direction, d.into()))) {
                let window = Window { ref_width, ref_height, above_lines, left_lines, direction, d };
                let case = cases::filled(&mut comparison.random(), window);
                comparison.hold(&case);
            }
        }
    }
}

/// Windows with each count of samples up to 270, and with those about each power of two: the sums' shift changes there.
fn counts(comparison: &mut Comparison) {
    let powers = (2..16).flat_map(|k| [(1 << k) - 1, 1 << k, (1 << k) + 1]);
    for samples in (1..=270).chain(powers).chain([count::MOST]) {
        for (direction, d) in (0..DIRECTIONS).flat_map(|direction| DEPTHS.map(|d| (direction, u32::from(d)))) {
            let mut random = comparison.random();
            let window = count::window(&mut random, samples, direction, d);
            assert_eq!(window.counted().count(), samples);
            let kind = if random.once_in(2) { fill::RANDOM } else { random.pick(&[1, 10, 12]) };
            let texture = Texture::new(&mut random, kind, luma_most(d));
            let case = Case::new(window, fill::window(&mut random, &window, texture, None));
            comparison.hold_near_limit(&case);
        }
    }
}

/// Windows about the limit of the sums; prints how many have their largest sum just below it, at it and just past it.
fn near_limit(comparison: &mut Comparison, scale: f64) {
    let mut seen = [0u64; 3];
    for (d, windows) in DEPTHS.into_iter().zip(NEAR_LIMIT) {
        let sums = limit::reachable(d.into());
        for turn in 0..(windows * scale).ceil() as usize {
            let mut random = comparison.random();
            let past = random.pick(&[-2, -1, 0, 0, 1, 1, 2]);
            let case = limit::window(&mut random, sums[turn % sums.len()], past, d.into());
            match comparison.hold_near_limit(&case) {
                past @ -1..=1 => seen[(past + 1) as usize] += 1,
                _ => (),
            }
        }
    }
    println!("{:<19} largest sum 2147483646: {}, 2147483647: {}, 2147483648: {}", "", seen[0], seen[1], seen[2]);
    if seen.contains(&0) {
        println!("oracle: a side of the sums' limit has no window: the cases are too few");
        std::process::exit(1);
    }
}

/// Compares the call; prints its counts and returns how many windows were accepted and compared.
pub fn compare(seed: u64, scale: f64) -> u64 {
    let mut comparison = Comparison::new(seed);
    paper::all(&mut comparison);
    every_small(&mut comparison);
    counts(&mut comparison);
    places::all(&mut comparison);
    near_limit(&mut comparison, scale);
    for _ in 0..(WILD * scale) as usize {
        let case = cases::wild(&mut comparison.random());
        comparison.hold(&case);
    }
    for (most, windows) in DRAWN {
        for _ in 0..(windows * scale) as usize {
            let mut random = comparison.random();
            let window = cases::drawn(&mut random, most);
            comparison.hold(&cases::filled(&mut random, window));
        }
    }
    comparison.tally.print("windows", &[0, 2, 10, 11, 12, 9, 13, 14]);
    comparison.tally.accepted()
}
