// kinds.rs: the plans of the usual run: small and dense, on long planes, with large windows, and as a decoder has them.
use crate::draw::plane_size;
use crate::plan;
use crate::plan::row::{X, Y};
use crate::random::Random;
use crate::spec::DEPTHS;
use crate::tower::row::{ABOVE_LINES, HAVE_LEFT, HAVE_TOP, HEIGHT, LEFT_LINES, LUMA_X, LUMA_Y, PLANE, REF_HEIGHT, REF_WIDTH, WIDTH};
use crate::tower::{draw, job, Plan};

/// The jobs of a decoder, block after block: luma first, and then each chroma plane, often told from the luma at its place.
fn raster(random: &mut Random, b: u16, columns: u16, lines: u16) -> Plan {
    let depth = random.pick(&DEPTHS);
    let (width, height) = (usize::from(b * columns) + random.below(3), usize::from(b * lines) + random.below(3));
    let mut rows = Vec::new();
    for at in (0..lines).flat_map(|line| (0..columns).map(move |column| (column, line))) {
        for plane in 0..3 {
            let first = plan::job::in_raster(random, width, height, b, depth, at);
            let mut row = job::on_plane(random, &first);
            if plane > 0 && !random.once_in(4) {
                row = job::colour(random, width, height, 4, depth);
                let (above, left) = (random.pick(&[2, 3, 4]).min(at.1 * b), random.pick(&[2, 3, 4]).min(at.0 * b));
                (row[X], row[Y], row[WIDTH], row[HEIGHT]) = (at.0 * b, at.1 * b, b, b);
                (row[ABOVE_LINES], row[LEFT_LINES]) = (above, left);
                (row[LUMA_X], row[LUMA_Y]) = (row[X] - left, row[Y] - above);
                let more = |random: &mut Random, room: usize| random.pick(&[0, 0, 1, 2]).min(room) as u16;
                row[REF_WIDTH] = left + b + more(random, width - usize::from(row[X] + b));
                row[REF_HEIGHT] = above + b + more(random, height - usize::from(row[Y] + b));
                (row[HAVE_TOP], row[HAVE_LEFT]) = (u16::from(above > 0), u16::from(left > 0));
            }
            row[PLANE] = plane;
            rows.push(row);
        }
    }
    let spoiled = random.pick(&[0, 0, 4]);
    draw::plan(random, width, height, depth, rows, spoiled)
}

/// A plan of one of the kinds.
pub fn drawn(random: &mut Random) -> Plan {
    match random.below(16) {
        0..=6 => {
            let mut side = || 4 + random.below(18);
            let (width, height) = (side(), side());
            draw::anywhere(random, width, height, 9, 12, 10)
        }
        7..=9 => {
            let b = random.pick(&[4, 4, 4, 8]);
            let (columns, lines) = (1 + random.below(3) as u16, 1 + random.below(3) as u16);
            raster(random, b, columns, lines)
        }
        10 | 11 => {
            // long enough for a window of 256 and for one that is too long
            let (long, short) = (250 + random.below(60), 4 + random.below(4));
            let (width, height) = if random.once_in(2) { (long, short) } else { (short, long) };
            draw::anywhere(random, width, height, 6, 300, 24)
        }
        12 => {
            let mut side = || 24 + random.below(16);
            let (width, height) = (side(), side());
            let rows = (0..1 + random.below(5)).map(|_| job::colour(random, width, height, 40, 12)).collect();
            draw::plan(random, width, height, 12, rows, 4)
        }
        13 => {
            let (width, height) = plane_size(random);
            draw::anywhere(random, width.min(300), height.min(100), 4, 20, 10)
        }
        _ => {
            let mut side = || 12 + random.below(24);
            let (width, height) = (side(), side());
            draw::anywhere(random, width, height, 12, 16, 10)
        }
    }
}
