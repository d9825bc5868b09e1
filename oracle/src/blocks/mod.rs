// mod.rs: each format's write_plan and read_plan on plans and on images with faults of all kinds, against a plain writer and reader.
mod calls;
mod change;
mod draw;
mod hold;
mod large;
mod plain;

use crate::random::Random;
use calls::Calls;
use hold::Comparison;
use plain::{Format, Plan, Tower};

/// Images at scale 1, of request (iv)'s format and of request (v)'s.
const DRAWN: f64 = 1_000_000.0;
const DRAWN_TOWER: f64 = 400_000.0;
/// For so many images each answer comes at least once.
const ONCE_IN: f64 = 1_000.0;
/// Of so many images one is among the largest there are.
const LARGE: usize = 100;

/// The image of a plan that nothing refuses.
fn image_of<F: Format>(plan: &[u16]) -> Vec<u8> {
    let mut image = vec![0; F::size(plan.len() / F::WORDS)];
    plain::write::<F>(plan, &mut image).expect("a plan with room enough");
    image
}

/// Writes a plan with the room and the length of a call; at times with words that are no whole rows.
fn write<F: Calls>(comparison: &mut Comparison<F>, random: &mut Random, plan: &[u16]) {
    let needed = F::size(plan.len() / F::WORDS);
    let (room, entries) = (draw::room::<F>(random, needed), draw::entries(random));
    let words = if random.once_in(12) { plan.len().saturating_sub(1 + random.below(F::WORDS - 1)) } else { plan.len() };
    comparison.write(&plan[..words], room, entries);
}

/// Reads an image, with room for the rows that it says it has.
fn read<F: Calls>(comparison: &mut Comparison<F>, random: &mut Random, image: &[u8]) -> u32 {
    let used = |block: &[u8]| usize::from(block[4]).min(F::ROWS);
    let rows: usize = image.chunks_exact(change::BLOCK).map(used).sum();
    let (room, entries) = (draw::room::<F>(random, rows * F::WORDS), draw::entries(random));
    comparison.read(image, room, entries)
}

/// A small plan's image: whole, with one change or with several.
fn small<F: Calls>(comparison: &mut Comparison<F>, random: &mut Random) {
    comparison.about = "a small image";
    let rows = draw::rows::<F>(random);
    let plan = draw::words(random, rows * F::WORDS);
    write(comparison, random, &plan);
    let mut image = image_of::<F>(&plan);
    let changes = random.pick(&[0, 0, 0, 1, 1, 1, 1, 1, 1, 2, 2, 3]);
    (0..changes).for_each(|_| change::any::<F>(random, &mut image));
    read(comparison, random, &image);
}

/// Compares both calls of a format; prints their counts and returns how many images were read.
fn both<F: Calls>(seed: u64, first: u64, drawn: f64) -> u64 {
    let mut comparison = Comparison::<F>::new(seed, first);
    let mut seen = large::Seen::default();
    for turn in 0..drawn.ceil() as usize {
        let mut random = comparison.random();
        if turn % LARGE == 0 {
            large::one(&mut comparison, &mut random, &mut seen);
        } else {
            small(&mut comparison, &mut random);
        }
    }
    let least = (drawn / ONCE_IN).ceil() as u64;
    comparison.writes.print("plans written", &[0, 21, 45]);
    comparison.writes.often(&[0, 21, 45], least);
    comparison.reads.print("images read", &[0, 40, 41, 42, 43, 44, 45]);
    comparison.reads.often(&[0, 40, 41, 42, 43, 44, 45], least);
    seen.print();
    comparison.images
}

/// Compares the calls of both formats; returns how many images were read.
pub fn compare(seed: u64, scale: f64) -> u64 {
    both::<Plan>(seed, 9 << 40, DRAWN * scale) + both::<Tower>(seed, 10 << 40, DRAWN_TOWER * scale)
}
