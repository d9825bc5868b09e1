// predict_block.rs: times predict_block: the Rust's function and the public call. Directions and depths are mixed.
use crate::colour::block::Block;
use crate::colour::draw;
use crate::colour::fill::{self, Texture, RANDOM, TEXTURES};
use crate::colour::original::{ref_buf, MhccpRefBuf};
use crate::colour::params::short_serves;
use crate::colour::window::{luma_most, Window, DIRECTIONS};
use crate::random::Random;
use crate::timing::{best, lent, over, print_ratios, print_sizes, print_times};
use crate::{calls, rust};
use std::hint::black_box;

const INPUTS: usize = 24;
const SIDES: [usize; 6] = [4, 8, 16, 32, 64, 128];
/// Parameters by their size: below the first power of two the short product serves for every sample, from the second on for few.
const PARAMS: [(&str, u32, u32); 2] = [("short product", 0, 17), ("long product", 26, 31)];

struct Input {
    block: Block,
    luma: MhccpRefBuf,
}

/// A parameter of either sign, from one power of two to below another.
fn param(random: &mut Random, from: u32, to: u32) -> i32 {
    let least = if from == 0 { 0 } else { 1i64 << from };
    let size = least + random.below(((1i64 << to) - least) as usize) as i64;
    (if random.once_in(2) { size } else { -size }) as i32
}

/// A square block with two lines above and at the left; one in four has a neighbour missing.
fn input(random: &mut Random, side: usize, from: u32, to: u32, turn: usize) -> Input {
    let (direction, d) = (turn as u32 % DIRECTIONS, draw::depth(random));
    let window = Window { ref_width: side + 2, ref_height: side + 2, above_lines: 2, left_lines: 2, direction, d };
    let params = [0; 3].map(|_| param(random, from, to));
    let (have_top, have_left) = (!random.once_in(8), !random.once_in(8));
    let block = Block { window, width: side, height: side, have_top, have_left, params };
    assert!(short_serves(&block) == (to <= 17));
    let kind = if turn % 4 == 0 { random.below(TEXTURES) } else { RANDOM };
    let texture = Texture::new(random, kind, luma_most(d));
    let luma = fill::block(random, &block, texture);
    Input { block, luma: ref_buf(&window, &luma, side, side, false) }
}

/// Sees that both ways agree, then times them.
fn two_ways(inputs: &[Input]) -> [f64; 2] {
    let n = inputs[0].block.samples();
    let (mut first, mut second) = (vec![-1; n], vec![-1; n]);
    for i in inputs {
        rust::predict_block(&i.luma, &i.block, &mut first);
        assert!(calls::predict_block(&i.block, &i.luma.data, &mut second) == 0, "the public call refuses");
        assert!(first == second, "the blocks differ: {:?}", i.block);
    }
    best(
        inputs.len(),
        [
            &mut |loops| {
                over(inputs, loops, |i| {
                    let i = black_box(i);
                    rust::predict_block(&i.luma, &i.block, lent(&mut first))
                })
            },
            &mut |loops| {
                over(inputs, loops, |i| {
                    let i = black_box(i);
                    _ = black_box(calls::predict_block(&i.block, &i.luma.data, lent(&mut second)))
                })
            },
        ],
    )
}

pub fn run(seed: u64) {
    let mut random = Random::new(seed, 4000);
    print_sizes("blocks of side", &SIDES);
    for (name, from, to) in PARAMS {
        let by_side = SIDES.map(|side| {
            let mut draw = |turn: usize| input(&mut random, side, from, to, turn);
            two_ways(&(0..INPUTS).map(&mut draw).collect::<Vec<_>>())
        });
        let column = |way: usize| by_side.map(|ways| ways[way]);
        println!("predict_block, {name}:");
        print_times("Rust predict_block", &column(0));
        print_times("ours latch_predict_block", &column(1));
        print_ratios(&column(0), &column(1));
    }
}
