// spoil.rs: makes a job over three planes one that is refused, or one that only just is not.
use crate::draw::any_word;
use crate::plan;
use crate::plan::row::{MODE, X, Y};
use crate::random::Random;
use crate::tower::row::{
    Row, ABOVE_LINES, COLOUR, COLOUR_DIRECTION, HAVE_LEFT, HAVE_TOP, HEIGHT, LEFT_LINES, LUMA_X, LUMA_Y, PLANE, REF_HEIGHT, REF_WIDTH,
    SPARE, WIDTH,
};

/// The words of one side of a colour job: its start, its size, its lines, the window's size and the luma window's start.
type Words = [usize; 5];
const ACROSS: Words = [X, WIDTH, LEFT_LINES, REF_WIDTH, LUMA_X];
const DOWN: Words = [Y, HEIGHT, ABOVE_LINES, REF_HEIGHT, LUMA_Y];

/// 3 by the new words, and their limits.
fn stray(random: &mut Random, row: &mut Row) {
    let any = any_word(random);
    match random.below(5) {
        0 => row[MODE] = random.pick(&[5, 6, 7, 261, 65535, any]),
        1 => row[PLANE] = random.pick(&[0, 1, 2, 3, 4, 256, 257, 65535, any]),
        2 => row[HAVE_TOP] = random.pick(&[1, 2, 3, 256, 257, 65535, any]),
        3 => row[HAVE_LEFT] = random.pick(&[1, 2, 3, 256, 257, 65535, any]),
        _ => row[SPARE + random.below(4)] = random.pick(&[0, 1, 256, 1 << 15, any]),
    }
}

/// 4, and its limits: also where a sum in 16 bits turns over.
fn outside(random: &mut Random, row: &mut Row, words: Words, side: usize) {
    let side = side as u16;
    let past = random.pick(&[0, 1, 1, 2]);
    let [at, size, lines, reference, luma] = words.map(|word| row[word]);
    let start = at.wrapping_sub(lines);
    let (word, to) = random.pick(&[
        (words[0], side.wrapping_sub(size)),
        (words[0], lines.wrapping_sub(2)),
        (words[0], 65534),
        (words[0], 0u16.wrapping_sub(size).wrapping_sub(1)),
        (words[0], side.wrapping_sub(reference).wrapping_add(lines)),
        (words[1], side.wrapping_sub(at)),
        (words[1], 0u16.wrapping_sub(at).wrapping_sub(1)),
        (words[2], at),
        (words[2], start),
        (words[3], side.wrapping_sub(start)),
        (words[3], side.wrapping_sub(luma)),
        (words[3], 0u16.wrapping_sub(luma).wrapping_sub(1)),
        (words[3], 0u16.wrapping_sub(start).wrapping_sub(1)),
        (words[4], side.wrapping_sub(reference)),
        (words[4], 65534),
        (words[4], 0u16.wrapping_sub(reference).wrapping_sub(1)),
    ]);
    row[word] = to.wrapping_add(past);
}

/// 11 where the plane is long enough, and its limit: the windows are moved into the plane.
fn reference(random: &mut Random, row: &mut Row, words: Words, side: usize) {
    let wanted = random.pick(&[256, 257, 257, 258, 300, 511, 512, side]).min(side);
    let lines = row[words[2]].min(200);
    let last = (side - wanted) as u16;
    row[words[3]] = wanted as u16;
    row[words[2]] = lines;
    row[words[0]] = lines + random.pick(&[0, last]);
    row[words[4]] = random.pick(&[0, last]);
}

/// 12, and its limits.
fn lines(random: &mut Random, row: &mut Row, words: Words, side: usize) {
    let room = row[words[3]].wrapping_sub(row[words[2]]);
    match random.below(7) {
        0 => row[words[1]] = 0,
        1 => row[words[1]] = room.wrapping_add(random.pick(&[0, 1, 1, 2])),
        2 => row[words[1]] = random.pick(&[127, 128, 129, 130]),
        3 => row[words[2]] = row[words[2]].wrapping_add(random.pick(&[1, 1, 2])),
        4 => {
            let (start, flag) = (row[words[0]].wrapping_sub(row[words[2]]), if words == ACROSS { HAVE_LEFT } else { HAVE_TOP });
            (row[words[0]], row[words[2]], row[flag]) = (start, 0, 1);
        }
        5 => {
            // as many lines as there may be, or one more, in a plane that has them
            row[words[2]] = random.pick(&[255, 256, 257, 258]);
            row[words[0]] = row[words[2]].min(side as u16);
        }
        _ => {
            // a window of one and a block of none or of two
            (row[words[3]], row[words[2]]) = (1, 0);
            row[words[1]] = random.pick(&[0, 1, 2]);
        }
    }
}

/// Sets one thing that a number is about.
pub fn spoil(random: &mut Random, row: &mut Row, width: usize, height: usize, differences: usize) {
    let (words, side) = if random.once_in(2) { (ACROSS, width) } else { (DOWN, height) };
    if row[MODE] != COLOUR {
        if random.once_in(4) {
            return stray(random, row);
        }
        let number = random.pick(&[1, 2, 3, 3, 4, 4, 5, 5, 5, 6, 7]);
        return plan::spoil::spoil(random, row.first_chunk_mut().unwrap(), number, width, height, differences);
    }
    if width.max(height) > 256 && random.once_in(2) {
        let (words, side) = if width > height { (ACROSS, width) } else { (DOWN, height) };
        return reference(random, row, words, side);
    }
    match random.below(10) {
        0 => plan::spoil::spoil(random, row.first_chunk_mut().unwrap(), 2, width, height, differences),
        1 | 2 => stray(random, row),
        3 | 4 => outside(random, row, words, side),
        5 | 6 => {
            let any = any_word(random);
            row[COLOUR_DIRECTION] = random.pick(&[2, 3, 3, 4, 255, 256, 258, 65535, any]);
        }
        _ => lines(random, row, words, side),
    }
}
