// places.rs: refusal 13 place by place: every luma and chroma value of small windows is set to each end of what is taken.
use crate::colour::fill::{self, Texture};
use crate::colour::window::{chroma_most, luma_most, Window, DIRECTIONS, STRIDE};
use crate::derive_params::hold::{Case, Comparison};
use crate::spec::DEPTHS;

const SIDES: [(usize, usize); 5] = [(3, 3), (4, 6), (6, 4), (5, 5), (2, 4)];
const LINES: [(usize, usize); 8] = [(0, 0), (1, 1), (2, 0), (0, 2), (2, 2), (2, 1), (3, 2), (9, 0)];

/// The last value that is too small, the first and the last that are taken, and the first that is too large.
pub fn ends(most: i32) -> [i32; 4] {
    [-1, 0, most, most + 1]
}

fn every_place(comparison: &mut Comparison, window: Window) {
    let mut random = comparison.random();
    let texture = Texture::new(&mut random, fill::RANDOM, luma_most(window.d));
    let mut case = Case::new(window, fill::window(&mut random, &window, texture, Some(fill::RANDOM)));
    let columns = || (0..window.ref_width + 2).chain([STRIDE - 1]);
    for place in (0..window.ref_height).flat_map(|row| columns().map(move |column| row * STRIDE + column)) {
        for value in ends(luma_most(window.d)) {
            let kept = std::mem::replace(&mut case.luma[place], value);
            comparison.hold(&case);
            case.luma[place] = kept;
        }
        for value in ends(chroma_most(window.d)) {
            let kept = std::mem::replace(&mut case.chroma[place], value);
            comparison.hold(&case);
            case.chroma[place] = kept;
        }
    }
}

pub fn all(comparison: &mut Comparison) {
    for (direction, d) in (0..DIRECTIONS).flat_map(|direction| DEPTHS.map(|d| (direction, d.into()))) {
        for ((ref_width, ref_height), (above_lines, left_lines)) in SIDES.iter().flat_map(|&s| LINES.map(|l| (s, l))) {
            every_place(comparison, Window { ref_width, ref_height, above_lines, left_lines, direction, d });
        }
    }
}
