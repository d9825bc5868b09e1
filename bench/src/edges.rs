// edges.rs: times build_refs: the Rust's function and the public call, on the same planes and blocks.
use crate::inputs::good_sample;
use crate::original::{ref_spec, IntraRefSpec};
use crate::random::Random;
use crate::spec::{most, Spec, SIZES};
use crate::timing::{best, lent, over, print_ratios, print_times};
use crate::{calls, draw, refusals, rust};
use std::hint::black_box;

const INPUTS: usize = 96;
const PLANES: usize = 4;
const SIDE: usize = 256;
const D: u16 = 10;

struct Block<'a> {
    plane: &'a [f32],
    spec: Spec,
    rust: IntraRefSpec,
}

/// A block with all its neighbours there and in full.
fn whole(random: &mut Random, b: u16) -> Spec {
    let mut at = || random.within(1, SIDE as i32 - 2 * i32::from(b)) as u16;
    Spec {
        width: SIDE, height: SIDE, x: at(), y: at(), b, d: D, have_above: true, have_left: true,
        top_right: b, bottom_left: b, available_above: b, available_left: b, base: 512,
    }
}

/// A block with any neighbours and availabilities that the call takes.
fn mixed(random: &mut Random, b: u16) -> Spec {
    loop {
        let spec = draw::block(random, SIDE, SIDE, D);
        if spec.b == b && refusals::geometry(SIDE * SIDE, &spec) == 0 {
            return spec;
        }
    }
}

/// Sees that both ways agree, then times them.
fn two_ways(blocks: &[Block]) -> [f64; 2] {
    let (mut above, mut left, mut corner) = ([-1; 128], [-1; 128], [-1]);
    for block in blocks {
        let answer = calls::build_refs(block.plane, &block.spec, &mut above, &mut left, &mut corner);
        assert!(answer == 0, "the public call refuses");
        assert!(rust::build_refs(block.plane, &block.rust) == (above, left, corner[0]), "the edges differ: {:?}", block.spec);
    }
    best(
        blocks.len(),
        [
            &mut |loops| over(blocks, loops, |k| _ = black_box(rust::build_refs(black_box(k.plane), black_box(&k.rust)))),
            &mut |loops| {
                over(blocks, loops, |k| {
                    let (above, left, corner) = (lent(&mut above), lent(&mut left), lent(&mut corner));
                    _ = black_box(calls::build_refs(black_box(k.plane), black_box(&k.spec), above, left, corner))
                })
            },
        ],
    )
}

pub fn run(seed: u64) {
    let mut random = Random::new(seed, 1000);
    let planes: Vec<Vec<f32>> =
        (0..PLANES).map(|_| (0..SIDE * SIDE).map(|_| good_sample(&mut random, most(D))).collect()).collect();
    let kinds: [(&str, fn(&mut Random, u16) -> Spec); 2] = [("all neighbours", whole), ("mixed", mixed)];
    for (name, draw) in kinds {
        let by_size = SIZES.map(|b| {
            let mut block = |i: usize| {
                let spec = draw(&mut random, b);
                Block { plane: &planes[i % PLANES], spec, rust: ref_spec(&spec) }
            };
            two_ways(&(0..INPUTS).map(&mut block).collect::<Vec<_>>())
        });
        let column = |way: usize| by_size.map(|ways| ways[way]);
        println!("build_refs, {name}:");
        print_times("Rust build_refs", &column(0));
        print_times("ours latch_build_refs", &column(1));
        print_ratios(&column(0), &column(1));
    }
}
