// large.rs: the largest images: 1,024 jobs and one more, and the most blocks, one more and two more.
use crate::blocks::calls::Calls;
use crate::blocks::hold::Comparison;
use crate::blocks::plain::Format;
use crate::blocks::{change, draw, image_of, read, write};
use crate::random::Random;

const MOST_JOBS: usize = 1024;

/// How often an image of 1,024 jobs was read, one that says 1,025 refused by 43, and one of too many blocks by 40.
#[derive(Default)]
pub struct Seen([u64; 3]);

impl Seen {
    /// Prints the counts; ends the run if one of them is 0.
    pub fn print(&self) {
        let [most, over, blocks] = self.0;
        println!("{:<19} 1024 jobs: {most} read; 1025 jobs: {over} refused; one or two blocks too many: {blocks} refused", "");
        if self.0.contains(&0) {
            println!("oracle: one of these never came: the cases are too few");
            std::process::exit(1);
        }
    }
}

/// An image whose last block says that it has so many rows more, which are zero.
fn more_rows(image: &mut [u8], rows: u8) {
    let last = image.len() - change::BLOCK;
    image[last + 4] += rows;
    change::mend(&mut image[last..]);
}

/// The rows of an image of 1,024 jobs that stand in full blocks.
const fn full_rows<F: Format>() -> usize {
    (F::MOST - 1) * F::ROWS
}

/// A full image of so many blocks, with all rows used in each, or in each but the last.
fn full<F: Format>(random: &mut Random, blocks: usize) -> Vec<u8> {
    let mut image = image_of::<F>(&draw::words(random, F::ROWS * F::WORDS)).repeat(blocks);
    if random.once_in(2) {
        let last = image.len() - change::BLOCK;
        image[last + 4] = 1 + random.below(MOST_JOBS - full_rows::<F>()) as u8;
        image[last + F::LEAD + 2 * F::WORDS..].fill(0);
    }
    change::renumber(&mut image);
    image
}

/// Writes and reads a plan of about 1,024 rows, as it is or changed.
pub fn one<F: Calls>(comparison: &mut Comparison<F>, random: &mut Random, seen: &mut Seen) {
    comparison.about = "a large image";
    let (fewer, near) = (random.below(MOST_JOBS), full_rows::<F>());
    let rows = random.pick(&[MOST_JOBS, MOST_JOBS, MOST_JOBS + 1, MOST_JOBS + 1, near, near + 1, fewer]);
    let plan = draw::words(random, rows * F::WORDS);
    write(comparison, random, &plan);
    let mut image = image_of::<F>(&plan[..rows.min(MOST_JOBS) * F::WORDS]);
    let said = match random.below(6) {
        0 | 1 => rows.min(MOST_JOBS),
        2 if rows >= MOST_JOBS => {
            more_rows(&mut image, 1);
            MOST_JOBS + 1
        }
        3 => {
            let blocks = random.pick(&[F::MOST, F::MOST + 1, F::MOST + 2]);
            image = full::<F>(random, blocks);
            0
        }
        _ => {
            change::any::<F>(random, &mut image);
            0
        }
    };
    let blocks = image.len() / change::BLOCK;
    match read(comparison, random, &image) {
        0 if said == MOST_JOBS => seen.0[0] += 1,
        43 if said > MOST_JOBS => seen.0[1] += 1,
        40 if blocks > F::MOST => seen.0[2] += 1,
        _ => (),
    }
}
