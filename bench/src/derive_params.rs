// derive_params.rs: times derive_params: the Rust's function and the public call. Directions and depths are mixed.
use crate::colour::fill::{self, Texture, RANDOM, TEXTURES};
use crate::colour::original::{ref_buf, MhccpRefBuf};
use crate::colour::window::{luma_most, Window, DIRECTIONS};
use crate::colour::{draw, refusals};
use crate::random::Random;
use crate::timing::{best, lent, over, print_ratios, print_sizes, print_times};
use crate::{calls, rust};
use std::hint::black_box;

const INPUTS: usize = 24;
/// Sides of the windows, two more than those of the samples that can count.
const SIDES: [usize; 6] = [3, 6, 18, 34, 66, 130];
/// Windows by the lines that they have above and at the left; of one line no sample counts.
const LINES: [(&str, usize, usize); 6] = [
    ("nothing counted", 1, 1),
    ("a row and a column counted", 2, 2),
    ("two rows and two columns counted", 3, 3),
    ("a row counted", 2, 0),
    ("a column counted", 0, 2),
    ("all counted", 256, 256),
];

struct Input {
    window: Window,
    luma: MhccpRefBuf,
    chroma: MhccpRefBuf,
}

/// A window that is accepted: its depth is one at which its sums are not too large.
fn input(random: &mut Random, side: usize, above_lines: usize, left_lines: usize, turn: usize) -> Input {
    loop {
        let (direction, d) = (turn as u32 % DIRECTIONS, draw::depth(random));
        let window = Window { ref_width: side, ref_height: side, above_lines, left_lines, direction, d };
        let kind = if turn % 4 == 0 { random.below(TEXTURES) } else { RANDOM };
        let texture = Texture::new(random, kind, luma_most(d));
        let [luma, chroma] = fill::window(random, &window, texture, None);
        if refusals::derivation(&window, &luma, &chroma, 3) == 0 {
            let form = |list: &[i32]| ref_buf(&window, list, 0, 0, false);
            return Input { window, luma: form(&luma), chroma: form(&chroma) };
        }
    }
}

/// Sees that both ways agree, then times them.
fn two_ways(inputs: &[Input]) -> [f64; 2] {
    let mut params = [0; 3];
    for i in inputs {
        assert!(calls::derive_params(&i.window, &i.luma.data, &i.chroma.data, &mut params) == 0, "the public call refuses");
        let due = rust::derive_params(&i.luma, &i.chroma, i.window.direction, i.window.d);
        assert!(due == params, "the parameters differ: {:?}", i.window);
    }
    best(
        inputs.len(),
        [
            &mut |loops| {
                over(inputs, loops, |i| {
                    let i = black_box(i);
                    _ = black_box(rust::derive_params(&i.luma, &i.chroma, i.window.direction, i.window.d))
                })
            },
            &mut |loops| {
                over(inputs, loops, |i| {
                    let i = black_box(i);
                    _ = black_box(calls::derive_params(&i.window, &i.luma.data, &i.chroma.data, lent(&mut params)))
                })
            },
        ],
    )
}

pub fn run(seed: u64) {
    let mut random = Random::new(seed, 3000);
    print_sizes("windows of side", &SIDES);
    for (name, above_lines, left_lines) in LINES {
        let by_side = SIDES.map(|side| {
            let mut draw = |turn: usize| input(&mut random, side, above_lines, left_lines, turn);
            two_ways(&(0..INPUTS).map(&mut draw).collect::<Vec<_>>())
        });
        let column = |way: usize| by_side.map(|ways| ways[way]);
        println!("derive_params, {name}:");
        print_times("Rust derive_params", &column(0));
        print_times("ours latch_derive_params", &column(1));
        print_ratios(&column(0), &column(1));
    }
}
