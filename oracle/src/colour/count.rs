// count.rs: windows in which a given number of samples counts.
use crate::colour::window::Window;
use crate::random::Random;

/// The most samples that can count along a side, and in a window.
pub const SIDE: usize = 254;
pub const MOST: usize = SIDE * SIDE;

/// The lines that leave `spared` of the inner rows or columns out.
fn lines(random: &mut Random, inner: usize, spared: usize) -> usize {
    match inner - spared {
        0 => random.below(2),
        within => within + 1,
    }
}

/// A window with `count` samples, 1 to MOST: a whole inner rectangle, or one without its last rows and columns.
pub fn window(random: &mut Random, count: usize, direction: u32, d: u32) -> Window {
    loop {
        let least = count.div_ceil(SIDE);
        let more = if random.once_in(16) { SIDE } else { 24 };
        let rows = least + random.below(more.min(SIDE + 1 - least));
        let fewest = count.div_ceil(rows);
        let columns = fewest + random.below((SIDE - fewest + 1).min(1 + fewest / 4 + 4));
        let spare = rows * columns - count;
        let fits = |q: &usize| spare % q == 0 && spare / q <= rows;
        let corner: Vec<usize> = (1..=columns.min(spare)).filter(fits).collect();
        let (above_lines, left_lines) = if spare == 0 {
            let enough = random.within(rows as i32 + 1, 256) as usize;
            (enough, random.below(257))
        } else if corner.is_empty() {
            continue;
        } else {
            let q = random.pick(&corner);
            (lines(random, rows, spare / q), lines(random, columns, q))
        };
        return Window { ref_width: columns + 2, ref_height: rows + 2, above_lines, left_lines, direction, d };
    }
}
