// places.rs: refusal 13 place by place: every luma value about small blocks is set to each end of what is taken.
use crate::colour::block::Block;
use crate::colour::fill::{self, Texture};
use crate::colour::window::{luma_most, Window, DIRECTIONS, STRIDE};
use crate::derive_params::ends;
use crate::predict_block::hold::{Case, Comparison};
use crate::spec::DEPTHS;

/// Width, height, above and left lines.
const SHAPES: [(usize, usize, usize, usize); 8] = [
    (1, 1, 0, 0), (1, 1, 1, 1), (2, 3, 1, 0), (3, 2, 0, 1), (2, 2, 2, 2), (3, 3, 1, 2), (1, 3, 2, 1), (3, 1, 1, 1),
];

fn every_place(comparison: &mut Comparison, block: Block) {
    let mut random = comparison.random();
    let texture = Texture::new(&mut random, fill::RANDOM, luma_most(block.window.d));
    let luma = fill::block(&mut random, &block, texture);
    let mut case = Case { block, luma, out_len: block.samples() };
    let columns = || (0..block.window.left_lines + block.width + 2).chain([STRIDE - 1]);
    for place in (0..block.window.ref_height).flat_map(|row| columns().map(move |column| row * STRIDE + column)) {
        for value in ends(luma_most(block.window.d)) {
            let kept = std::mem::replace(&mut case.luma[place], value);
            comparison.hold(&case);
            case.luma[place] = kept;
        }
    }
}

pub fn all(comparison: &mut Comparison) {
    for (direction, d) in (0..DIRECTIONS).flat_map(|direction| DEPTHS.map(|d| (direction, d.into()))) {
        for ((width, height, above_lines, left_lines), flags) in SHAPES.iter().flat_map(|&s| (0..4).map(move |f| (s, f))) {
            let (ref_width, ref_height) = (left_lines + width, above_lines + height + 1);
            let window = Window { ref_width, ref_height, above_lines, left_lines, direction, d };
            let (have_top, have_left) = (flags & 2 != 0 && above_lines > 0, flags & 1 != 0 && left_lines > 0);
            every_place(comparison, Block { window, width, height, have_top, have_left, params: [40_000, -9_000, 30_000] });
        }
    }
}
