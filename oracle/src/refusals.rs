// refusals.rs: document 01's table of refusals, read on its own: the number due for any input, in each call's order.
use crate::spec::{Mode, Spec};

fn is_size(b: u16) -> bool {
    b == 4 || b == 8 || b == 16 || b == 32 || b == 64
}

fn is_depth(d: u16) -> bool {
    d == 8 || d == 10 || d == 12
}

/// 1, 2, 3, 9, 8: what a direct predictor call answers. Only a direction has words that 3 looks at.
pub fn direct(mode: Mode, b: u16, d: u16, above: &[i32], left: &[i32], corner: i32, out_len: usize) -> u32 {
    if !is_size(b) {
        return 1;
    }
    if !is_depth(d) {
        return 2;
    }
    if let Mode::Directional(words) = mode {
        if words.direction > 7 || words.delta > 6 || words.flags > 0b11111 {
            return 3;
        }
    }
    let side = b as usize;
    if above.len() < 2 * side || left.len() < 2 * side || out_len < side * side {
        return 9;
    }
    let limit = 2i64.pow(d as u32);
    let outside = |v: &i32| i64::from(*v) < 0 || i64::from(*v) >= limit;
    if above[..2 * side].iter().any(outside) || left[..2 * side].iter().any(outside) || outside(&corner) {
        return 8;
    }
    0
}

/// Whether 20 takes a plane.
pub fn is_plane(plane_len: usize, width: usize, height: usize) -> bool {
    let (w, h) = (width as i128, height as i128);
    w >= 4 && w <= 4096 && h >= 4 && h <= 4096 && plane_len as i128 == w * h
}

/// 20, 1, 2, 4, 5, 6: what `build_refs` answers before it looks at lists and samples.
pub fn geometry(plane_len: usize, s: &Spec) -> u32 {
    if !is_plane(plane_len, s.width, s.height) {
        return 20;
    }
    let (w, h) = (s.width as i128, s.height as i128);
    if !is_size(s.b) {
        return 1;
    }
    if !is_depth(s.d) {
        return 2;
    }
    let (x, y, b) = (i128::from(s.x), i128::from(s.y), i128::from(s.b));
    if x + b > w || y + b > h {
        return 4;
    }
    let right = x + b + i128::from(s.top_right).min(b);
    let bottom = y + b + i128::from(s.bottom_left).min(b);
    let above_wrong = s.have_above && (y == 0 || s.available_above == 0 || right > w);
    let left_wrong = s.have_left && (x == 0 || s.available_left == 0 || bottom > h);
    if above_wrong || left_wrong {
        return 5;
    }
    let base = i64::from(s.base);
    if !s.have_above && !s.have_left && (base < 1 || base > 2i64.pow(u32::from(s.d)) - 2) {
        return 6;
    }
    0
}

/// The places of the plane that are read, for parameters that `geometry` takes.
pub fn places(s: &Spec, read: &mut Vec<usize>) {
    read.clear();
    let (x, y, b) = (usize::from(s.x), usize::from(s.y), usize::from(s.b));
    let mut at = |row: usize, column: usize| read.push(row * s.width + column);
    if s.have_above {
        (0..b.min(s.available_above.into())).for_each(|c| at(y - 1, x + c));
        (0..b.min(s.top_right.into())).for_each(|c| at(y - 1, x + b + c));
    }
    if s.have_left {
        (0..b.min(s.available_left.into())).for_each(|r| at(y + r, x - 1));
        (0..b.min(s.bottom_left.into())).for_each(|r| at(y + b + r, x - 1));
    }
    if s.have_above && s.have_left {
        at(y - 1, x - 1);
    }
}

/// 9, 8: what `build_refs` answers for parameters that `geometry` takes. `read` holds the places that are read.
pub fn samples(plane: &[f32], d: u16, read: &[usize], lens: [usize; 3]) -> u32 {
    if lens[0] < 128 || lens[1] < 128 || lens[2] < 1 {
        return 9;
    }
    let top = (2i64.pow(u32::from(d)) - 1) as f64;
    let good = |v: f64| v >= 0.0 && v <= top;
    if read.iter().all(|&place| good(f64::from(plane[place]))) { 0 } else { 8 }
}
