// kinds.rs: the plans of the usual run: dense, in a raster, of many sizes, on long planes and far apart.
use crate::draw::plane_size;
use crate::plan::{draw, Plan};
use crate::random::Random;

/// A plan of one of the kinds.
pub fn drawn(random: &mut Random) -> Plan {
    match random.below(8) {
        0..=2 => {
            let mut side = || 4 + random.below(30);
            let (width, height) = (side(), side());
            draw::anywhere(random, width, height, 12)
        }
        3 | 4 => {
            let b = random.pick(&[4, 4, 4, 8, 8, 16, 32]);
            let most = 1 + 48 / usize::from(b);
            let (columns, lines) = (1 + random.below(most) as u16, 1 + random.below(most.min(5)) as u16);
            draw::raster(random, b, columns.min(8), lines)
        }
        5 => {
            let mut side = || 64 + random.below(80);
            let (width, height) = (side(), side());
            draw::anywhere(random, width, height, 10)
        }
        6 => {
            let (width, height) = plane_size(random);
            draw::anywhere(random, width, height, 6)
        }
        _ => {
            let mut side = || 12 + random.below(90);
            let (width, height) = (side(), side());
            draw::anywhere(random, width, height, 20)
        }
    }
}
