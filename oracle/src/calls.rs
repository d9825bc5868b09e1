// calls.rs: the library's C functions, declared, and safe ways to call them.
use crate::colour::block::Block;
use crate::colour::window::Window;
use crate::spec::{Mode, Spec, Words};

type Predictor =
    unsafe extern "C" fn(u16, u16, *const i32, usize, *const i32, usize, i32, *mut f32, usize) -> u32;

macro_rules! predictors {
    ($($name:ident),*) => {
        extern "C" {
            $(fn $name(
                b: u16, d: u16, above: *const i32, above_len: usize, left: *const i32, left_len: usize,
                corner: i32, out: *mut f32, out_len: usize,
            ) -> u32;)*
        }
    };
}
predictors!(latch_paeth, latch_smooth, latch_smooth_v, latch_smooth_h);

extern "C" {
    fn latch_directional(
        b: u16, d: u16, direction: u16, delta: u16, flags: u16, max_width: u16, max_height: u16,
        above: *const i32, above_len: usize, left: *const i32, left_len: usize, corner: i32, out: *mut f32, out_len: usize,
    ) -> u32;

    fn latch_build_refs(
        plane: *const f32, plane_len: usize, width: usize, height: usize, x: u16, y: u16, b: u16, d: u16,
        have_above: bool, have_left: bool, top_right: u16, bottom_left: u16, available_above: u16, available_left: u16,
        base: u16, above: *mut i32, above_len: usize, left: *mut i32, left_len: usize,
        corner: *mut i32, corner_len: usize,
    ) -> u32;

    fn latch_derive_params(
        luma: *const i32, luma_len: usize, chroma: *const i32, chroma_len: usize, ref_width: usize, ref_height: usize,
        above_lines: usize, left_lines: usize, direction: u32, d: u32, params: *mut i32, params_len: usize,
    ) -> u32;

    fn latch_predict_block(
        luma: *const i32, luma_len: usize, ref_width: usize, ref_height: usize, above_lines: usize, left_lines: usize,
        width: usize, height: usize, have_top: bool, have_left: bool, direction: u32, d: u32,
        p0: i32, p1: i32, p2: i32, out: *mut i32, out_len: usize,
    ) -> u32;

    fn latch_run_job(
        plane: *mut f32, plane_len: usize, width: usize, height: usize, row: *const u16, row_len: usize,
        differences: *const i16, differences_len: usize,
    ) -> u32;

    fn latch_run(
        plane: *mut f32, plane_len: usize, width: usize, height: usize, plan: *const u16, plan_len: usize,
        order: *const u16, order_len: usize, differences: *const i16, differences_len: usize,
        answers: *mut u16, answers_len: usize,
    ) -> u32;
}

/// The name of a mode's C function.
#[allow(dead_code)]
pub fn name(mode: Mode) -> &'static str {
    match mode {
        Mode::Paeth => "latch_paeth",
        Mode::Smooth => "latch_smooth",
        Mode::SmoothV => "latch_smooth_v",
        Mode::SmoothH => "latch_smooth_h",
        Mode::Directional(_) => "latch_directional",
    }
}

/// Calls a mode's C function.
#[inline]
pub fn predict(mode: Mode, b: u16, d: u16, above: &[i32], left: &[i32], corner: i32, out: &mut [f32]) -> u32 {
    let function: Predictor = match mode {
        Mode::Paeth => latch_paeth,
        Mode::Smooth => latch_smooth,
        Mode::SmoothV => latch_smooth_v,
        Mode::SmoothH => latch_smooth_h,
        Mode::Directional(words) => return directional(words, b, d, above, left, corner, out),
    };
    // The slices are live and do not overlap: `out` is borrowed alone.
    unsafe {
        function(b, d, above.as_ptr(), above.len(), left.as_ptr(), left.len(), corner, out.as_mut_ptr(), out.len())
    }
}

/// Calls `latch_directional`.
#[inline]
pub fn directional(w: Words, b: u16, d: u16, above: &[i32], left: &[i32], corner: i32, out: &mut [f32]) -> u32 {
    // The slices are live and do not overlap: `out` is borrowed alone.
    unsafe {
        latch_directional(
            b, d, w.direction, w.delta, w.flags, w.max_width, w.max_height,
            above.as_ptr(), above.len(), left.as_ptr(), left.len(), corner, out.as_mut_ptr(), out.len(),
        )
    }
}

/// Calls `latch_build_refs`.
#[inline]
pub fn build_refs(plane: &[f32], spec: &Spec, above: &mut [i32], left: &mut [i32], corner: &mut [i32]) -> u32 {
    // The slices are live and do not overlap: each output is borrowed alone.
    unsafe {
        latch_build_refs(
            plane.as_ptr(), plane.len(), spec.width, spec.height, spec.x, spec.y, spec.b, spec.d,
            spec.have_above, spec.have_left, spec.top_right, spec.bottom_left,
            spec.available_above, spec.available_left, spec.base,
            above.as_mut_ptr(), above.len(), left.as_mut_ptr(), left.len(), corner.as_mut_ptr(), corner.len(),
        )
    }
}

/// Calls `latch_derive_params`.
#[inline]
pub fn derive_params(w: &Window, luma: &[i32], chroma: &[i32], params: &mut [i32]) -> u32 {
    // The slices are live and do not overlap: `params` is borrowed alone.
    unsafe {
        latch_derive_params(
            luma.as_ptr(), luma.len(), chroma.as_ptr(), chroma.len(), w.ref_width, w.ref_height,
            w.above_lines, w.left_lines, w.direction, w.d, params.as_mut_ptr(), params.len(),
        )
    }
}

/// Calls `latch_predict_block`.
#[inline]
pub fn predict_block(b: &Block, luma: &[i32], out: &mut [i32]) -> u32 {
    let (w, [p0, p1, p2]) = (&b.window, b.params);
    // The slices are live and do not overlap: `out` is borrowed alone.
    unsafe {
        latch_predict_block(
            luma.as_ptr(), luma.len(), w.ref_width, w.ref_height, w.above_lines, w.left_lines,
            b.width, b.height, b.have_top, b.have_left, w.direction, w.d, p0, p1, p2, out.as_mut_ptr(), out.len(),
        )
    }
}

/// Calls `latch_run_job`.
#[inline]
pub fn run_job(plane: &mut [f32], width: usize, height: usize, row: &[u16], differences: &[i16]) -> u32 {
    // The slices are live and do not overlap: `plane` is borrowed alone.
    unsafe {
        latch_run_job(
            plane.as_mut_ptr(), plane.len(), width, height, row.as_ptr(), row.len(), differences.as_ptr(), differences.len(),
        )
    }
}

/// Calls `latch_run`.
#[inline]
pub fn run(
    plane: &mut [f32], width: usize, height: usize, plan: &[u16], order: &[u16], differences: &[i16], answers: &mut [u16],
) -> u32 {
    // The slices are live and do not overlap: `plane` and `answers` are borrowed alone.
    unsafe {
        latch_run(
            plane.as_mut_ptr(), plane.len(), width, height, plan.as_ptr(), plan.len(), order.as_ptr(), order.len(),
            differences.as_ptr(), differences.len(), answers.as_mut_ptr(), answers.len(),
        )
    }
}
