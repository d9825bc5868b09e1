// refusals.rs: document 01's table of refusals for the colour calls, read on its own: 2, 10, 11, 12, 9, 13, 14.
use crate::colour::block::Block;
use crate::colour::sums::{largest, LIMIT};
use crate::colour::window::Window;

/// 2, 10, 11 for a window and the lengths of the lists that hold its samples.
fn window(w: &Window, lens: &[usize]) -> u32 {
    if w.d != 8 && w.d != 10 && w.d != 12 {
        return 2;
    }
    if w.direction > 2 {
        return 10;
    }
    let needed = w.ref_height as u128 * 256;
    if w.ref_width > 256 || w.ref_height > 256 || lens.iter().any(|&len| (len as u128) < needed) {
        return 11;
    }
    0
}

/// What `latch_derive_params` answers before it looks at samples.
pub fn shape(w: &Window, lens: [usize; 2], params_len: usize) -> u32 {
    match window(w, &lens) {
        0 if w.above_lines > 256 || w.left_lines > 256 => 12,
        0 if params_len < 3 => 9,
        number => number,
    }
}

/// What `latch_predict_block` answers before it looks at samples.
pub fn block_shape(b: &Block, luma_len: usize, out_len: usize) -> u32 {
    let w = &b.window;
    match window(w, &[luma_len]) {
        0 => (),
        number => return number,
    }
    let side = |n: usize| (1..=128).contains(&n);
    let right = w.left_lines as u128 + b.width as u128;
    let bottom = w.above_lines as u128 + b.height as u128;
    if w.above_lines > 256 || w.left_lines > 256 || !side(b.width) || !side(b.height) || right > 256
        || bottom > w.ref_height as u128 || (b.have_top && w.above_lines == 0) || (b.have_left && w.left_lines == 0)
    {
        return 12;
    }
    if out_len < b.width * b.height { 9 } else { 0 }
}

/// Whether a value is in 0..8M+7, or in 0..M for chroma.
fn good_luma(value: i32, d: u32) -> bool {
    value >= 0 && i64::from(value) < 8 * 2i64.pow(d)
}

fn good_chroma(value: i32, d: u32) -> bool {
    value >= 0 && i64::from(value) < 2i64.pow(d)
}

/// What `latch_derive_params` answers.
pub fn derivation(w: &Window, luma: &[i32], chroma: &[i32], params_len: usize) -> u32 {
    let number = shape(w, [luma.len(), chroma.len()], params_len);
    if number != 0 {
        return number;
    }
    let good = |k: usize| good_luma(luma[k], w.d) && good_luma(luma[w.beside(k)], w.d) && good_chroma(chroma[k], w.d);
    if !w.counted().all(good) {
        return 13;
    }
    if largest(w, luma, chroma) > LIMIT { 14 } else { 0 }
}

/// What `latch_predict_block` answers.
pub fn prediction(b: &Block, luma: &[i32], out_len: usize) -> u32 {
    let number = block_shape(b, luma.len(), out_len);
    if number != 0 {
        return number;
    }
    let d = b.window.d;
    if b.places().all(|(centre, beside)| good_luma(luma[centre], d) && good_luma(luma[beside], d)) { 0 } else { 13 }
}
