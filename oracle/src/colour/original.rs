// original.rs: the original Rust's colour functions, as oracle/open-source opens them, called with this project's parameters.
use crate::colour::block::Block;
use crate::colour::window::Window;

#[allow(dead_code)]
mod mhccp {
    include!(concat!(env!("LATCH_OPENED"), "/mhccp.rs"));
}
#[allow(unused_imports)]
pub use mhccp::{derive_params, division_scale_shift, gauss_elimination, mul_fixed32_adapt, predict_block, MhccpRefBuf};

/// The Rust's own form of a window over a list; `is_top_sb_boundary` is no parameter of ours, and moves no read.
pub fn ref_buf(w: &Window, data: &[i32], width: usize, height: usize, is_top_sb_boundary: bool) -> MhccpRefBuf {
    MhccpRefBuf {
        data: data.to_vec(),
        ref_width: w.ref_width,
        ref_height: w.ref_height,
        above_lines: w.above_lines,
        left_lines: w.left_lines,
        width,
        height,
        is_top_sb_boundary,
    }
}

/// The parameters of a window, without and with `is_top_sb_boundary`.
pub fn derive(w: &Window, luma: &[i32], chroma: &[i32]) -> [[i32; 3]; 2] {
    let mut l = ref_buf(w, luma, 0, 0, false);
    let mut c = ref_buf(w, chroma, 0, 0, false);
    let first = derive_params(&l, &c, w.direction as u8, w.d as i32);
    (l.is_top_sb_boundary, c.is_top_sb_boundary) = (true, true);
    [first, derive_params(&l, &c, w.direction as u8, w.d as i32)]
}

/// The block, in `out[..width * height]`.
pub fn predict(b: &Block, luma: &[i32], is_top_sb_boundary: bool, out: &mut [i32]) {
    let l = ref_buf(&b.window, luma, b.width, b.height, is_top_sb_boundary);
    predict_block(&l, &b.params, b.window.direction as u8, b.have_top, b.have_left, b.window.d as i32, out);
}
