// touches.rs: what a job reads and writes, as rectangles, and the test of an order over its inverted pairs alone, for the plain runner.
use crate::row::{Row, AVAILABLE_ABOVE, AVAILABLE_LEFT, B, BOTTOM_LEFT, FLAGS, TOP_RIGHT, X, Y};
use crate::spec::{ABOVE, LEFT};

/// The columns from x to before x_end, the rows from y to before y_end.
#[derive(Clone, Copy, Default)]
pub struct Rect {
    x: i32,
    y: i32,
    x_end: i32,
    y_end: i32,
}

impl Rect {
    pub fn new(x: i32, y: i32, width: i32, height: i32) -> Rect {
        Rect { x, y, x_end: x + width, y_end: y + height }
    }

    /// Whether both have a sample in common.
    #[inline]
    pub fn meets(&self, other: &Rect) -> bool {
        self.x.max(other.x) < self.x_end.min(other.x_end) && self.y.max(other.y) < self.y_end.min(other.y_end)
    }
}

/// A job's block, its reads, of which an empty one meets nothing, and a rectangle round all of them.
#[derive(Clone, Copy, Default)]
pub struct Touch {
    pub block: Rect,
    pub reads: [Rect; 5],
    pub around: Rect,
}

impl Touch {
    /// What a job touches that passes 1 to 7; the default is what any other touches.
    pub fn of(row: &Row) -> Touch {
        let [x, y, b] = [X, Y, B].map(|word| i32::from(row[word]));
        let count = |word: usize| i32::from(row[word]).min(b);
        let (mut reads, mut around) = ([Rect::default(); 5], Rect::new(x, y, b, b));
        let (above, left) = (row[FLAGS] & ABOVE != 0, row[FLAGS] & LEFT != 0);
        if above {
            reads[0] = Rect::new(x, y - 1, count(AVAILABLE_ABOVE), 1);
            reads[1] = Rect::new(x + b, y - 1, count(TOP_RIGHT), 1);
            (around.y, around.x_end) = (y - 1, x + b + count(TOP_RIGHT));
        }
        if left {
            reads[2] = Rect::new(x - 1, y, 1, count(AVAILABLE_LEFT));
            reads[3] = Rect::new(x - 1, y + b, 1, count(BOTTOM_LEFT));
            (around.x, around.y_end) = (x - 1, y + b + count(BOTTOM_LEFT));
        }
        if above && left {
            reads[4] = Rect::new(x - 1, y - 1, 1, 1);
        }
        Touch { block: Rect::new(x, y, b, b), reads, around }
    }

    /// Whether one's writes meet the other's reads or writes.
    #[inline]
    pub fn clashes(&self, other: &Touch) -> bool {
        (self.around.meets(&other.block) || other.around.meets(&self.block)) && self.meets_within(other)
    }

    fn meets_within(&self, other: &Touch) -> bool {
        self.block.meets(&other.block)
            || self.reads.iter().any(|read| read.meets(&other.block))
            || other.reads.iter().any(|read| read.meets(&self.block))
    }
}

/// Whether an order, which holds each index once, turns a pair round that clashes. `before` is room for the indices met so far,
/// smallest first: those above a job's index make the inverted pairs with it, and no other pair is looked at.
pub fn turns_a_pair(order: &[u16], before: &mut Vec<u16>, clash: impl Fn(usize, usize) -> bool) -> bool {
    before.clear();
    for &index in order {
        let mut place = before.len();
        while place > 0 && before[place - 1] > index {
            if clash(usize::from(index), usize::from(before[place - 1])) {
                return true;
            }
            place -= 1;
        }
        before.insert(place, index);
    }
    false
}
