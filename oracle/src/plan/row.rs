// row.rs: a job's row of sixteen words, and what its words say.
// "A job is a row of sixteen 16-bit words: 0 x, 1 y, 2 B, 3 D, 4 mode, 5 direction, 6 delta + 3, 7 flags, 8 top-right, 9 bottom-left,
// 10 available-above, 11 available-left, 12 base, 13 max-width, 14 max-height, 15 start of the differences in units of 16."
use crate::spec::{Mode, Spec, Words, ABOVE, LEFT, MODES};

pub const WORDS: usize = 16;
pub type Row = [u16; WORDS];

pub const X: usize = 0;
pub const Y: usize = 1;
pub const B: usize = 2;
pub const D: usize = 3;
pub const MODE: usize = 4;
pub const DIRECTION: usize = 5;
pub const DELTA: usize = 6;
pub const FLAGS: usize = 7;
pub const TOP_RIGHT: usize = 8;
pub const BOTTOM_LEFT: usize = 9;
pub const AVAILABLE_ABOVE: usize = 10;
pub const AVAILABLE_LEFT: usize = 11;
pub const BASE: usize = 12;
pub const MAX_WIDTH: usize = 13;
pub const MAX_HEIGHT: usize = 14;
pub const START: usize = 15;

/// The mode that is a direction with its delta.
pub const TURNED: u16 = 4;

/// The block of a row, as `build_refs` takes it.
pub fn spec(row: &[u16], width: usize, height: usize) -> Spec {
    Spec {
        width,
        height,
        x: row[X],
        y: row[Y],
        b: row[B],
        d: row[D],
        have_above: row[FLAGS] & ABOVE != 0,
        have_left: row[FLAGS] & LEFT != 0,
        top_right: row[TOP_RIGHT],
        bottom_left: row[BOTTOM_LEFT],
        available_above: row[AVAILABLE_ABOVE],
        available_left: row[AVAILABLE_LEFT],
        base: row[BASE],
    }
}

/// The mode of a row whose mode word is at most 4.
pub fn mode(row: &[u16]) -> Mode {
    if row[MODE] < TURNED {
        return MODES[usize::from(row[MODE])];
    }
    Mode::Directional(Words {
        direction: row[DIRECTION],
        delta: row[DELTA],
        flags: row[FLAGS],
        max_width: row[MAX_WIDTH],
        max_height: row[MAX_HEIGHT],
    })
}

/// Where a row's differences start.
pub fn start(row: &[u16]) -> usize {
    16 * usize::from(row[START])
}
