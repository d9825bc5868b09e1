// tower_touches.rs: what a job over three planes reads and writes, as rectangles, for the plain runner.
use crate::row::{MODE, X, Y};
use crate::touches::{self, Rect};
use crate::tower_row::{
    Row, ABOVE_LINES, COLOUR, HEIGHT, LEFT_LINES, LUMA_X, LUMA_Y, PLANE, REF_HEIGHT, REF_WIDTH, WIDTH,
};

/// What a job touches on its own plane, and the luma window of a colour job, which is empty for any other.
#[derive(Clone, Copy, Default)]
pub struct Touch {
    plane: u16,
    own: touches::Touch,
    luma: Rect,
}

impl Touch {
    /// What a job touches that nothing before 8 refuses; the default is what any other touches.
    pub fn of(row: &Row) -> Touch {
        let plane = row[PLANE];
        if row[MODE] != COLOUR {
            return Touch { plane, own: touches::Touch::of(row.first_chunk().unwrap()), luma: Rect::default() };
        }
        let word = |word: usize| i32::from(row[word]);
        let (width, height, above, left) = (word(REF_WIDTH), word(REF_HEIGHT), word(ABOVE_LINES), word(LEFT_LINES));
        let (x, y) = (word(X) - left, word(Y) - above);
        let below = above.min(height - 1).max(1);
        let mut own = touches::Touch { block: Rect::new(word(X), word(Y), word(WIDTH), word(HEIGHT)), ..Default::default() };
        own.reads[0] = Rect::new(x + 1, y + 1, width - 2, below - 1);
        own.reads[1] = Rect::new(x + 1, y + below, left.min(width - 1) - 1, height - 1 - below);
        own.around = Rect::new(x, y, width, height);
        Touch { plane, own, luma: Rect::new(word(LUMA_X), word(LUMA_Y), width, height) }
    }

    /// Whether one's writes meet the other's reads or writes.
    #[inline]
    pub fn clashes(&self, other: &Touch) -> bool {
        (self.plane == other.plane && self.own.clashes(&other.own))
            || (self.plane == 0 && other.luma.meets(&self.own.block))
            || (other.plane == 0 && self.luma.meets(&other.own.block))
    }
}
