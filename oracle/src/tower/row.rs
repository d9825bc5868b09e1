// row.rs: a row of thirty-two words: sixteen as in the first library, and then those of the plane and of a colour job.
// "The job row gains sixteen words: plane number, colour direction, above_lines, left_lines, ref_width, ref_height, width, height, luma x
// and y, have_top and have_left, four zero."
use crate::colour::block::Block;
use crate::colour::window::Window;

pub const WORDS: usize = 32;
pub type Row = [u16; WORDS];

pub const PLANE: usize = 16;
pub const COLOUR_DIRECTION: usize = 17;
pub const ABOVE_LINES: usize = 18;
pub const LEFT_LINES: usize = 19;
pub const REF_WIDTH: usize = 20;
pub const REF_HEIGHT: usize = 21;
pub const WIDTH: usize = 22;
pub const HEIGHT: usize = 23;
pub const LUMA_X: usize = 24;
pub const LUMA_Y: usize = 25;
pub const HAVE_TOP: usize = 26;
pub const HAVE_LEFT: usize = 27;
/// The first of the words that are zero.
pub const SPARE: usize = 28;

/// The mode of a colour job.
pub const COLOUR: u16 = 5;
/// How many planes there are: luma, and two of chroma.
pub const PLANES: usize = 3;

/// The colour block of a row of a depth, without parameters.
pub fn block(row: &[u16], d: u16) -> Block {
    let word = |word: usize| usize::from(row[word]);
    let window = Window {
        ref_width: word(REF_WIDTH),
        ref_height: word(REF_HEIGHT),
        above_lines: word(ABOVE_LINES),
        left_lines: word(LEFT_LINES),
        direction: row[COLOUR_DIRECTION].into(),
        d: d.into(),
    };
    let (have_top, have_left) = (row[HAVE_TOP] == 1, row[HAVE_LEFT] == 1);
    Block { window, width: word(WIDTH), height: word(HEIGHT), have_top, have_left, params: [0; 3] }
}
