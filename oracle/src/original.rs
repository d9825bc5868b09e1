// original.rs: the original Rust, as oracle/open-source opens it, called with this project's parameters.
use crate::spec::{most, Mode, Spec, Words, ABOVE, EDGE_FILTER, LEFT, LUMA, SMOOTH_NEIGHBOUR};

#[allow(dead_code)]
mod intrapred {
    include!(concat!(env!("LATCH_OPENED"), "/intrapred.rs"));
}
#[allow(dead_code)]
mod directional {
    include!(concat!(env!("LATCH_OPENED"), "/directional.rs"));
}
#[allow(unused_imports)]
pub use directional::{directional_into, Dir, DirectionalSpec};
#[allow(unused_imports)]
pub use intrapred::{build_refs, paeth_into, smooth_h_into, smooth_into, smooth_v_into, IntraRefSpec};

/// The directions, each at its number.
const DIRS: [Dir; 8] = [Dir::V, Dir::H, Dir::D45, Dir::D135, Dir::D113, Dir::D157, Dir::D203, Dir::D67];

/// The Rust's own form of a direction's words. It does not know a max word 0, which stands for B.
pub fn directional_spec(words: &Words, b: u16, d: u16) -> (Dir, DirectionalSpec) {
    let max = |word: u16| i32::from(if word == 0 { b } else { word });
    let spec = DirectionalSpec {
        angle_delta: i32::from(words.delta) - 3,
        block_size: usize::from(b),
        is_luma: words.has(LUMA),
        have_top: words.has(ABOVE),
        have_left: words.has(LEFT),
        edge_filter: words.has(EDGE_FILTER),
        max_width: max(words.max_width),
        max_height: max(words.max_height),
        max_pixel: most(d),
        smooth_neighbour: words.has(SMOOTH_NEIGHBOUR),
    };
    (DIRS[usize::from(words.direction)], spec)
}

/// The block of one predictor, in `out[..b * b]`.
#[allow(dead_code)]
pub fn predict(mode: Mode, b: u16, d: u16, above: &[i32], left: &[i32], corner: i32, out: &mut [f32]) {
    let bs = usize::from(b);
    match mode {
        Mode::Paeth => paeth_into(bs, above, left, corner, out),
        Mode::Smooth => smooth_into(bs, above, left, out),
        Mode::SmoothV => smooth_v_into(bs, above, left, out),
        Mode::SmoothH => smooth_h_into(bs, above, left, out),
        Mode::Directional(words) => {
            let (dir, spec) = directional_spec(&words, b, d);
            directional_into(dir, above, left, corner, &spec, out)
        }
    }
}

/// The Rust's own form of a block's geometry.
pub fn ref_spec(spec: &Spec) -> IntraRefSpec {
    IntraRefSpec {
        stride: spec.width,
        y: usize::from(spec.y),
        x: usize::from(spec.x),
        block_size: usize::from(spec.b),
        have_above: spec.have_above,
        have_left: spec.have_left,
        top_right: usize::from(spec.top_right),
        bottom_left: usize::from(spec.bottom_left),
        neutral: f32::from(spec.base),
        available_above: usize::from(spec.available_above),
        available_left: usize::from(spec.available_left),
    }
}

/// The edges of a block: above, left and the corner.
#[allow(dead_code)]
pub fn edges(plane: &[f32], spec: &Spec) -> ([i32; 128], [i32; 128], i32) {
    build_refs(plane, &ref_spec(spec))
}
