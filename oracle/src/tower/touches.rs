// touches.rs: what a job reads and writes. "A sample is now a plane number with a place": here a place in the three planes laid end to end.
// "It reads its whole luma window and the chroma samples that count." "Jobs that 8 or 14 refuse still count for clashes; other refused jobs
// touch nothing."
use crate::colour::window::STRIDE;
use crate::plan::clashes::Touched;
use crate::plan::row::{D, MODE, X, Y};
use crate::tower::row::{self, Row, COLOUR, LUMA_X, LUMA_Y, PLANE};
use crate::tower::rules;

/// The places of a rectangle of the first plane of a width.
fn rectangle(width: usize, [x, y]: [usize; 2], across: usize, down: usize) -> impl Iterator<Item = usize> {
    (y..y + down).flat_map(move |row| (x..x + across).map(move |column| row * width + column))
}

/// The places of a colour job that nothing before 8 refuses.
fn colour(row: &Row, width: usize, plane: usize) -> Touched {
    let block = row::block(row, row[D]);
    let w = block.window;
    let [x, y, luma_x, luma_y] = [X, Y, LUMA_X, LUMA_Y].map(|word| usize::from(row[word]));
    let [left, top] = [x - w.left_lines, y - w.above_lines];
    let mut touched = Touched::default();
    touched.read.extend(rectangle(width, [luma_x, luma_y], w.ref_width, w.ref_height));
    touched.read.extend(w.counted().map(|place| plane + (top + place / STRIDE) * width + left + place % STRIDE));
    touched.written.extend(rectangle(width, [x, y], block.width, block.height).map(|place| plane + place));
    touched
}

pub fn of(row: &Row, width: usize, height: usize, differences: usize) -> Touched {
    if rules::job(row, width, height, differences) != 0 {
        return Touched::default();
    }
    let plane = usize::from(row[PLANE]) * width * height;
    if row[MODE] == COLOUR {
        return colour(row, width, plane);
    }
    let mut touched = Touched::of(row.first_chunk().unwrap(), width, height, differences);
    touched.read.iter_mut().chain(&mut touched.written).for_each(|place| *place += plane);
    touched
}
