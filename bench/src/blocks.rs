// blocks.rs: the proved block functions, exported from a copy of their crates, and safe ways to call them.
// Their edges hold entries in 0..M and are long enough: the block functions test nothing.
use crate::spec::{Words, ABOVE, EDGE_FILTER, LEFT, LUMA, SMOOTH_NEIGHBOUR};

extern "C" {
    #[link_name = "paeth_into"]
    fn paeth_c(
        bs: usize, above: *const i32, above_len: usize, left: *const i32, left_len: usize, corner: i32,
        out: *mut f32, out_len: usize,
    );
}

#[inline]
pub fn paeth_into(bs: usize, above: &[i32], left: &[i32], corner: i32, out: &mut [f32]) {
    debug_assert!(above.len() >= 2 * bs && left.len() >= 2 * bs && out.len() >= bs * bs);
    unsafe { paeth_c(bs, above.as_ptr(), above.len(), left.as_ptr(), left.len(), corner, out.as_mut_ptr(), out.len()) }
}

macro_rules! smooth {
    ($name:ident, $raw:ident, $symbol:literal) => {
        extern "C" {
            #[link_name = $symbol]
            fn $raw(
                bs: usize, above: *const i32, above_len: usize, left: *const i32, left_len: usize,
                out: *mut f32, out_len: usize,
            );
        }

        #[inline]
        pub fn $name(bs: usize, above: &[i32], left: &[i32], out: &mut [f32]) {
            debug_assert!(above.len() >= 2 * bs && left.len() >= 2 * bs && out.len() >= bs * bs);
            unsafe { $raw(bs, above.as_ptr(), above.len(), left.as_ptr(), left.len(), out.as_mut_ptr(), out.len()) }
        }
    };
}
smooth!(smooth_into, smooth_c, "smooth_into");
smooth!(smooth_v_into, smooth_v_c, "smooth_v_into");
smooth!(smooth_h_into, smooth_h_c, "smooth_h_into");

#[repr(C)]
struct Flags {
    above: bool,
    left: bool,
    luma: bool,
    edge_filter: bool,
    smooth_neighbour: bool,
}

#[repr(C)]
struct Setting {
    angle: usize,
    flags: Flags,
    max_width: u16,
    max_height: u16,
}

extern "C" {
    #[link_name = "directional_into"]
    fn directional_c(
        bs: usize, setting: Setting, m: i32, above: *const i32, above_len: usize, left: *const i32, left_len: usize, corner: i32,
        out: *mut f32, out_len: usize,
    );
}

/// The max words are those that stand for something: none is 0.
#[inline]
pub fn directional_into(bs: usize, words: &Words, m: i32, above: &[i32], left: &[i32], corner: i32, out: &mut [f32]) {
    debug_assert!(above.len() >= 2 * bs && left.len() >= 2 * bs && out.len() >= bs * bs);
    let flags = Flags {
        above: words.has(ABOVE),
        left: words.has(LEFT),
        luma: words.has(LUMA),
        edge_filter: words.has(EDGE_FILTER),
        smooth_neighbour: words.has(SMOOTH_NEIGHBOUR),
    };
    let setting = Setting { angle: words.angle() as usize, flags, max_width: words.max_width, max_height: words.max_height };
    unsafe {
        directional_c(
            bs, setting, m, above.as_ptr(), above.len(), left.as_ptr(), left.len(), corner, out.as_mut_ptr(), out.len(),
        )
    }
}
