// mod.rs: latch_predict_block on blocks of all shapes, depths and directions, by every kind of parameters, and with any at all.
mod hold;
mod places;

use crate::colour::fill::{self, Texture, TEXTURES};
use crate::colour::window::luma_most;
use crate::colour::{draw, params};
use crate::derive_params::ends;
use crate::random::Random;
use hold::{Case, Comparison};

/// Blocks at scale 1 with sides up to a number.
const DRAWN: [(usize, f64); 4] = [(4, 120_000.0), (16, 120_000.0), (64, 12_000.0), (128, 3_000.0)];
/// Calls with any parameters at scale 1.
const WILD: f64 = 120_000.0;

/// An accepted case; as `turn` counts up, every kind of parameters meets every texture.
fn plain(random: &mut Random, most: usize, turn: usize) -> Case {
    let mut block = draw::block(random, most, [0; 3]);
    let texture = Texture::new(random, turn / params::KINDS % TEXTURES, luma_most(block.window.d));
    let luma = fill::block(random, &block, texture);
    block.params = params::draw(random, turn % params::KINDS, &block, texture, &luma);
    let out_len = block.samples() + random.pick(&[0, 0, 0, 1, 9]);
    Case { block, luma, out_len }
}

/// A case with any parameters, values at the ends of what is taken, and lists too short or longer than needed.
fn wild(random: &mut Random) -> Case {
    let turn = random.below(params::KINDS * TEXTURES);
    let mut case = plain(random, 6, turn);
    let block = &mut case.block;
    if random.once_in(3) {
        draw::wild_window(random, &mut block.window);
    }
    if random.once_in(2) {
        match random.below(4) {
            0 => block.width = draw::wild(random, 128),
            1 => block.height = draw::wild(random, 128),
            2 => block.have_top = !block.have_top,
            _ => block.have_left = !block.have_left,
        }
    }
    if random.once_in(4) {
        let place = random.below(case.luma.len().max(1));
        let start = (block.window.above_lines % 256) * 256 + block.window.left_lines % 256;
        let near = (start + random.below(3)).saturating_sub(random.pick(&[0, 1, 256]));
        let value = random.pick(&ends(luma_most(8)));
        if let Some(entry) = case.luma.get_mut(random.pick(&[place, near, near, near])) {
            *entry = value;
        }
    }
    match random.below(12) {
        0 => _ = case.luma.pop(),
        1 => case.luma.clear(),
        2 => case.luma.resize(case.luma.len() + 256, -1),
        3 => case.out_len = case.out_len.saturating_sub(1),
        4 => case.out_len = 0,
        _ => (),
    }
    case
}

/// Compares the call; prints its counts and returns how many samples were compared.
pub fn compare(seed: u64, scale: f64) -> u64 {
    let mut comparison = Comparison::new(seed);
    places::all(&mut comparison);
    for _ in 0..(WILD * scale) as usize {
        let case = wild(&mut comparison.random());
        comparison.hold(&case);
    }
    for (most, blocks) in DRAWN {
        for turn in 0..(blocks * scale) as usize {
            let case = plain(&mut comparison.random(), most, turn);
            comparison.hold(&case);
        }
    }
    comparison.tally.print("blocks", &[0, 2, 10, 11, 12, 9, 13]);
    let Comparison { short, long, inside, .. } = comparison;
    println!("{:<19} short product: {short} samples, long product for some: {long}; inside 0..M: {inside}", "");
    comparison.tally.samples
}
