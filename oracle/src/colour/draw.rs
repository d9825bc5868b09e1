// draw.rs: draws the shapes of windows and blocks: small and large, at the ends of their ranges, with every count of lines.
use crate::colour::block::Block;
use crate::colour::window::{Window, DIRECTIONS};
use crate::random::Random;
use crate::spec::DEPTHS;

pub fn depth(random: &mut Random) -> u32 {
    random.pick(&DEPTHS).into()
}

pub fn direction(random: &mut Random) -> u32 {
    random.below(DIRECTIONS as usize) as u32
}

/// A side in 0..=most, at times one of its ends.
fn side(random: &mut Random, most: usize) -> usize {
    if random.once_in(10) { random.pick(&[0, 1, 2, 3, 4, most]) } else { random.below(most + 1) }
}

/// A count of lines for a side: few, about the side, or any.
fn lines(random: &mut Random, side: usize) -> usize {
    let (within, any) = (random.below(side + 1), random.below(257));
    random.pick(&[0, 0, 1, 2, 2, 3, side.saturating_sub(1), side, (side + 1).min(256), within, within, any, 256])
}

/// A window with sides in 0..=most.
pub fn window(random: &mut Random, most: usize) -> Window {
    let (ref_width, ref_height) = (side(random, most), side(random, most));
    let (above_lines, left_lines) = (lines(random, ref_height), lines(random, ref_width));
    Window { ref_width, ref_height, above_lines, left_lines, direction: direction(random), d: depth(random) }
}

/// Where a block of a side starts, with 0 to `room` entries before it: mostly near the start.
fn start(random: &mut Random, room: usize) -> usize {
    let any = random.below(room + 1);
    random.pick(&[0, 1, 1, 2, 2, 3, 5, any, room]).min(room)
}

/// A block that is accepted, with sides in 1..=most.
pub fn block(random: &mut Random, most: usize, params: [i32; 3]) -> Block {
    let (width, height) = (side(random, most).max(1), side(random, most).max(1));
    let room = if random.once_in(8) { 256 } else { most.max(height) + 8 };
    let (above_lines, left_lines) = (start(random, room.min(256) - height), start(random, 256 - width));
    let last = above_lines + height;
    let ref_height = random.pick(&[last, last, (last + 1).min(256), (last + 3).min(256)]);
    let any = random.below(257);
    let ref_width = random.pick(&[0, 2, left_lines + width, 256, any]);
    let (direction, d) = (direction(random), depth(random));
    Block {
        window: Window { ref_width, ref_height, above_lines, left_lines, direction, d },
        width,
        height,
        have_top: above_lines > 0 && random.once_in(2),
        have_left: left_lines > 0 && random.once_in(2),
        params,
    }
}

/// A number that may be up to `most`: often the last that is taken, the first that is not, or far out.
pub fn wild(random: &mut Random, most: usize) -> usize {
    let (within, any) = (random.below(most + 1), random.next() as usize);
    random.pick(&[within, within, most, most + 1, most + 2, 0, any, usize::MAX, 1 << 63, 1 << 56])
}

/// A window with up to three parameters made any number at all.
pub fn wild_window(random: &mut Random, window: &mut Window) {
    for _ in 0..random.within(1, 3) {
        match random.below(6) {
            0 => window.ref_width = wild(random, 256),
            1 => window.ref_height = wild(random, 256),
            2 => window.above_lines = wild(random, 256),
            3 => window.left_lines = wild(random, 256),
            4 => window.direction = random.pick(&[0, 1, 2, 3, 4, 255, 256, 258, u32::MAX, 1 << 31]),
            _ => window.d = random.pick(&[0, 7, 8, 9, 10, 11, 12, 13, 16, 264, 65544, u32::MAX]),
        }
    }
}
