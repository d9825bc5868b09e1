// window.rs: a reference window: the parameters that both colour calls take, and the samples that count in a derivation.
use crate::spec::most;

/// Entries from one row of a window to the next, and the most of each size and line count.
pub const STRIDE: usize = 256;
/// The direction's luma: 0 the centre, 1 the one above it, 2 the one left of it.
pub const DIRECTIONS: u32 = 3;

#[derive(Clone, Copy, Debug)]
pub struct Window {
    pub ref_width: usize,
    pub ref_height: usize,
    pub above_lines: usize,
    pub left_lines: usize,
    pub direction: u32,
    pub d: u32,
}

impl Window {
    /// The entries that the window's lists need.
    pub fn entries(&self) -> usize {
        self.ref_height * STRIDE
    }

    /// The places of the samples that count, row by row: index 1 to dimension - 2, inside the above or the left lines.
    pub fn counted(&self) -> impl Iterator<Item = usize> + '_ {
        let inner = |dimension: usize| 1..dimension.max(2) - 1;
        inner(self.ref_height).flat_map(move |row| {
            let in_lines = move |column: &usize| row < self.above_lines || *column < self.left_lines;
            inner(self.ref_width).filter(in_lines).map(move |column| row * STRIDE + column)
        })
    }

    /// The place of the direction's luma for the sample at a place.
    pub fn beside(&self, place: usize) -> usize {
        match self.direction {
            1 => place - STRIDE,
            2 => place - 1,
            _ => place,
        }
    }
}

/// M, the largest chroma value of a depth.
pub fn chroma_most(d: u32) -> i32 {
    most(d as u16)
}

/// 8M+7, the largest luma value of a depth.
pub fn luma_most(d: u32) -> i32 {
    8 * most(d as u16) + 7
}
