// tower_rows.rs: the plans over three planes that are timed: colour jobs as an encoder has them, and jobs of all modes, plane by plane.
use crate::colour::fill::Texture;
use crate::colour::window::{DIRECTIONS, STRIDE};
use crate::random::Random;
use crate::row::{self, B, D, FLAGS, MODE, TOP_RIGHT, X, Y};
use crate::rows;
use crate::spec::{most, ABOVE, LEFT};
use crate::tower_row::{
    Row, ABOVE_LINES, COLOUR, COLOUR_DIRECTION, HAVE_LEFT, HAVE_TOP, HEIGHT, LEFT_LINES, LUMA_X, LUMA_Y, PLANE, REF_HEIGHT, REF_WIDTH, WIDTH,
    WORDS,
};
use crate::tower_touches::Touch;

/// Blocks a side of a plane: so many that a plane is of 64 samples a side or more, and the largest plans do not take too long.
fn across(b: u16) -> u16 {
    (256 / b).min(16)
}

pub struct Plan {
    pub width: usize,
    pub height: usize,
    pub planes: [Vec<f32>; 3],
    pub rows: Vec<Row>,
    pub differences: Vec<i16>,
}

/// The colour job of a block of a raster: two to four lines above and left of it where there are so many, and as many samples past it. More
/// than two lines of the largest blocks could make a sum too large at 12 bits.
fn colour(random: &mut Random, b: u16, d: u16, at: (u16, u16), plane: u16) -> Row {
    let mut row = [0; WORDS];
    let (x, y, side) = (at.0 * b, at.1 * b, across(b) * b);
    let lines = if d == 12 && b == 64 { 2 } else { random.within(2, 4) as u16 };
    let (above, left) = (lines.min(y), lines.min(x));
    (row[X], row[Y], row[D], row[MODE], row[PLANE]) = (x, y, d, COLOUR, plane);
    row[COLOUR_DIRECTION] = random.below(DIRECTIONS as usize) as u16;
    (row[ABOVE_LINES], row[LEFT_LINES], row[WIDTH], row[HEIGHT]) = (above, left, b, b);
    (row[REF_WIDTH], row[REF_HEIGHT]) = (left + b + lines.min(side - x - b), above + b + lines.min(side - y - b));
    (row[LUMA_X], row[LUMA_Y]) = (x - left, y - above);
    (row[HAVE_TOP], row[HAVE_LEFT]) = (u16::from(above > 0), u16::from(left > 0));
    row
}

/// The job of a block of a raster in modes 0 to 4, with the neighbours that are done by then.
fn plain(random: &mut Random, b: u16, d: u16, at: (u16, u16), plane: u16, turn: usize) -> Row {
    let mut first = rows::job(random, b, at.0 * b, at.1 * b, turn);
    first[D] = d;
    first[FLAGS] |= if at.1 > 0 { ABOVE } else { 0 } | if at.0 > 0 { LEFT } else { 0 };
    first[TOP_RIGHT] = if at.0 + 1 < across(b) { b } else { 0 };
    let mut row = [0; WORDS];
    row[..first.len()].copy_from_slice(&first);
    row[PLANE] = plane;
    row
}

/// A plan on planes of smooth luma, with chroma that follows it, and small differences. Samples go up to half of M, for the sums' sake.
fn plan(random: &mut Random, b: u16, d: u16, rows: Vec<Row>) -> Plan {
    let (side, limit) = (usize::from(across(b) * b), most(d) / 2);
    let texture = Texture::new(random, 12, limit);
    let luma: Vec<i32> = (0..side * side).map(|i| texture.at(random, i / side * STRIDE + i % side % STRIDE)).collect();
    let noise = limit / 64;
    let mut follows = |slope: i32| -> Vec<f32> {
        luma.iter().map(|v| (limit / 3 + v * slope / 8 + random.within(-noise, noise)).clamp(0, limit) as f32).collect()
    };
    let (first, second) = (follows(3), follows(-2));
    let end = rows.iter().filter(|row| row[MODE] != COLOUR).map(|row| row::start(row) + usize::from(row[B]).pow(2)).max();
    let differences = (0..end.unwrap_or(0)).map(|_| random.within(-6, 6) as i16).collect();
    Plan { width: side, height: side, planes: [luma.iter().map(|&v| v as f32).collect(), first, second], rows, differences }
}

fn places(across: u16) -> impl Iterator<Item = (u16, u16)> {
    (0..across).flat_map(move |line| (0..across).map(move |column| (column, line)))
}

/// Colour jobs alone, on planes 1 and 2, block after block.
pub fn colours(random: &mut Random, b: u16, d: u16) -> Plan {
    let mut rows = Vec::new();
    for at in places(across(b)) {
        (1..3).for_each(|plane| rows.push(colour(random, b, d, at, plane)));
    }
    plan(random, b, d, rows)
}

/// Block after block a job of modes 0 to 4 on luma, and on each chroma plane a colour job or, one in four, one of modes 0 to 4.
pub fn mixed(random: &mut Random, b: u16, d: u16) -> Plan {
    let mut rows: Vec<Row> = Vec::new();
    for at in places(across(b)) {
        for plane in 0..3 {
            let turn = rows.len();
            let told = plane > 0 && !random.once_in(4);
            rows.push(if told { colour(random, b, d, at, plane) } else { plain(random, b, d, at, plane, turn) });
        }
    }
    plan(random, b, d, rows)
}

/// A random order that turns no clashing pair round.
pub fn accepted(random: &mut Random, rows: &[Row]) -> Vec<u16> {
    let touches: Vec<Touch> = rows.iter().map(Touch::of).collect();
    let mut left: Vec<u16> = (0..rows.len() as u16).collect();
    let mut order = Vec::new();
    while !left.is_empty() {
        let free = |k: usize| left[..k].iter().all(|&i| !touches[usize::from(i)].clashes(&touches[usize::from(left[k])]));
        let ready: Vec<usize> = (0..left.len()).filter(|&k| free(k)).collect();
        order.push(left.remove(random.pick(&ready)));
    }
    order
}
