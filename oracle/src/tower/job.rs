// job.rs: draws a row of thirty-two words: nearly always one that is done, with any word where a word is not looked at.
use crate::colour::window::DIRECTIONS;
use crate::draw::any_word;
use crate::plan;
use crate::plan::row::{D, MODE, X, Y};
use crate::random::Random;
use crate::tower::row::{
    Row, ABOVE_LINES, COLOUR, COLOUR_DIRECTION, HAVE_LEFT, HAVE_TOP, HEIGHT, LEFT_LINES, LUMA_X, LUMA_Y, PLANE, PLANES, REF_HEIGHT,
    REF_WIDTH, SPARE, WIDTH, WORDS,
};

/// A row of the first library on one of the planes; the words that it does not look at are any, at times.
pub fn on_plane(random: &mut Random, first: &plan::row::Row) -> Row {
    let mut row = [0; WORDS];
    row[..first.len()].copy_from_slice(first);
    if random.once_in(2) {
        row[COLOUR_DIRECTION..HAVE_TOP].fill_with(|| any_word(random));
    }
    row[PLANE] = random.below(PLANES) as u16;
    row[HAVE_TOP..SPARE].fill_with(|| random.below(2) as u16);
    row
}

/// A job of modes 0 to 4 anywhere.
pub fn plain(random: &mut Random, width: usize, height: usize, depth: u16) -> Row {
    let first = plan::job::anywhere(random, width, height, depth);
    on_plane(random, &first)
}

/// One side of a colour job: its lines, its window's side, its block's side, and where block and luma window start.
struct Side {
    lines: usize,
    reference: usize,
    size: usize,
    at: usize,
    luma: usize,
}

/// A side of a colour job along a plane's side, its window at most so long: often at the ends of what can be.
fn side(random: &mut Random, side: usize, most: usize) -> Side {
    let most = side.min(most).min(256);
    let any = 1 + random.below(most);
    let reference = random.pick(&[any, any, any, any, any, most, most, 1, 2, 3]).min(most);
    let any = random.below(reference);
    let lines = random.pick(&[any, any, any, 0, 1, 2, 3, 3, 4, reference - 1]).min(reference - 1);
    let room = (reference - lines).min(128);
    let any = 1 + random.below(room);
    let size = random.pick(&[any, any, room, room, 1]);
    let start = |random: &mut Random| {
        let any = random.below(side - reference + 1);
        random.pick(&[any, any, 0, side - reference])
    };
    let (first, second) = (start(random), start(random));
    Side { lines, reference, size, at: first + lines, luma: if random.once_in(2) { first } else { second } }
}

/// A colour job of a depth anywhere, its windows at most so long a side.
pub fn colour(random: &mut Random, width: usize, height: usize, most: usize, d: u16) -> Row {
    let mut row = [0; WORDS];
    if random.once_in(2) {
        row[..PLANE].fill_with(|| any_word(random));
    }
    let (across, down) = (side(random, width, most), side(random, height, most));
    for (words, side) in [([LEFT_LINES, REF_WIDTH, WIDTH, X, LUMA_X], across), ([ABOVE_LINES, REF_HEIGHT, HEIGHT, Y, LUMA_Y], down)] {
        let numbers = [side.lines, side.reference, side.size, side.at, side.luma];
        words.into_iter().zip(numbers).for_each(|(word, number)| row[word] = number as u16);
    }
    (row[D], row[MODE], row[PLANE]) = (d, COLOUR, 1 + random.below(2) as u16);
    row[COLOUR_DIRECTION] = random.below(DIRECTIONS as usize) as u16;
    row[HAVE_TOP] = u16::from(row[ABOVE_LINES] > 0 && random.once_in(2));
    row[HAVE_LEFT] = u16::from(row[LEFT_LINES] > 0 && random.once_in(2));
    row
}

/// A job of any mode anywhere; its depth is mostly the planes'. A colour job's windows are at most so long a side.
pub fn anywhere(random: &mut Random, width: usize, height: usize, most: usize, depth: u16) -> Row {
    if random.once_in(2) {
        return plain(random, width, height, depth);
    }
    let d = random.pick(&[depth, depth, depth, depth, depth, depth, depth, 12, 10, 8]);
    colour(random, width, height, most, d)
}
