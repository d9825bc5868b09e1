// rust.rs: the original functions, each behind one call that is not inlined, as the library's are.
use crate::colour::block::Block;
use crate::colour::original::{self as colour, MhccpRefBuf};
use crate::original::{self, Dir, DirectionalSpec, IntraRefSpec};

#[inline(never)]
pub fn paeth_into(bs: usize, above: &[i32], left: &[i32], corner: i32, out: &mut [f32]) {
    original::paeth_into(bs, above, left, corner, out)
}

#[inline(never)]
pub fn smooth_into(bs: usize, above: &[i32], left: &[i32], out: &mut [f32]) {
    original::smooth_into(bs, above, left, out)
}

#[inline(never)]
pub fn smooth_v_into(bs: usize, above: &[i32], left: &[i32], out: &mut [f32]) {
    original::smooth_v_into(bs, above, left, out)
}

#[inline(never)]
pub fn smooth_h_into(bs: usize, above: &[i32], left: &[i32], out: &mut [f32]) {
    original::smooth_h_into(bs, above, left, out)
}

#[inline(never)]
pub fn directional_into(dir: Dir, above: &[i32], left: &[i32], corner: i32, spec: &DirectionalSpec, out: &mut [f32]) {
    original::directional_into(dir, above, left, corner, spec, out)
}

#[inline(never)]
pub fn build_refs(plane: &[f32], spec: &IntraRefSpec) -> ([i32; 128], [i32; 128], i32) {
    original::build_refs(plane, spec)
}

#[inline(never)]
pub fn derive_params(luma: &MhccpRefBuf, chroma: &MhccpRefBuf, direction: u32, d: u32) -> [i32; 3] {
    colour::derive_params(luma, chroma, direction as u8, d as i32)
}

#[inline(never)]
pub fn predict_block(luma: &MhccpRefBuf, b: &Block, out: &mut [i32]) {
    colour::predict_block(luma, &b.params, b.window.direction as u8, b.have_top, b.have_left, b.window.d as i32, out)
}
