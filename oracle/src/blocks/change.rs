// change.rs: changes to a plan's file: its length, its blocks' order, and every part of a block, with its check mended or not.
use crate::blocks::plain::{self, Format};
use crate::random::Random;

pub const BLOCK: usize = 512;
const CHECK_AT: usize = 508;

fn put(block: &mut [u8], at: usize, word: u32) {
    block[at..at + 4].copy_from_slice(&word.to_le_bytes());
}

fn word(block: &[u8], at: usize) -> u32 {
    u32::from_le_bytes([block[at], block[at + 1], block[at + 2], block[at + 3]])
}

/// Makes a block's check right.
pub fn mend(block: &mut [u8]) {
    put(block, CHECK_AT, plain::check(block));
}

/// Gives every block its place as index, and makes all checks right.
pub fn renumber(image: &mut [u8]) {
    for (k, block) in image.chunks_exact_mut(BLOCK).enumerate() {
        put(block, 0, k as u32);
        mend(block);
    }
}

/// The index's or the count's word, changed: beside what it was, with its bytes turned round, a bit or all of it.
fn near(random: &mut Random, was: u32) -> u32 {
    let (any, bit) = (random.next() as u32, 1 << random.below(32));
    random.pick(&[was.wrapping_add(1), was.wrapping_sub(1), was.swap_bytes(), was ^ bit, was ^ bit, any])
}

/// Says how many rows a block uses: too few, too many, or another count that may be right.
fn use_rows<F: Format>(random: &mut Random, block: &mut [u8]) {
    let (other, full) = (near(random, word(block, 4)), F::ROWS as u32);
    let used = random.pick(&[other, other, 0, 1, full - 1, full, full + 1, full + 2, u32::MAX, 1 << 31]);
    put(block, 4, used);
    if (1..full).contains(&used) && random.once_in(2) {
        block[F::LEAD + 2 * F::WORDS * used as usize..CHECK_AT].fill(0);
    }
}

/// Changes a part of a block, but not its check.
fn part<F: Format>(random: &mut Random, block: &mut [u8]) {
    let any = 1 + random.below(255) as u8;
    let byte = random.pick(&[1, 128, 255, any]);
    match random.below(6) {
        0 => put(block, 0, near(random, word(block, 0))),
        1 => use_rows::<F>(random, block),
        2 => block[8 + random.below(F::ZEROS)] ^= byte,
        3 => {
            let unused = F::LEAD + 2 * F::WORDS * (word(block, 4) as usize).min(F::ROWS - 1);
            let any = unused + random.below(CHECK_AT - unused);
            block[random.pick(&[unused, unused + 2 * F::WORDS - 1, CHECK_AT - 1, any, any])] ^= byte;
        }
        4 => block[F::LEAD + random.below(CHECK_AT - F::LEAD)] ^= byte,
        _ => {
            // two words, whose sum stays
            let (one, two) = (4 * random.below(127), 4 * random.below(127));
            put(block, one, word(block, one).wrapping_add(u32::from(byte)));
            put(block, two, word(block, two).wrapping_sub(u32::from(byte)));
        }
    }
}

/// Any bytes, with a right index and count at times.
fn garbage<F: Format>(random: &mut Random, block: &mut [u8]) {
    let head = block[..F::LEAD].to_vec();
    block.chunks_exact_mut(8).for_each(|to| to.copy_from_slice(&random.next().to_le_bytes()));
    let kept = random.pick(&[0, 4, 8, F::LEAD]);
    block[..kept].copy_from_slice(&head[..kept]);
}

/// Another length: cut or longer, by bytes or by blocks.
fn resize(random: &mut Random, image: &mut Vec<u8>) {
    let len = image.len();
    match random.below(4) {
        0 => image.truncate(random.below(len + 1)),
        1 => image.truncate(len.saturating_sub(random.pick(&[1, 2, 4, 32, 511]))),
        2 => image.truncate(len.saturating_sub(BLOCK * (1 + random.below(2)))),
        _ => image.resize(len + random.pick(&[1, 4, 256, 511, BLOCK]), random.pick(&[0, 0, 255])),
    }
}

/// Blocks lost, exchanged or repeated; at times with the indices and checks made right again.
fn reorder(random: &mut Random, image: &mut Vec<u8>) {
    let blocks = image.len() / BLOCK;
    let (one, two) = (random.below(blocks), random.below(blocks));
    let copy = image[one * BLOCK..(one + 1) * BLOCK].to_vec();
    match random.below(3) {
        0 => _ = image.drain(one * BLOCK..(one + 1) * BLOCK),
        1 => {
            image.copy_within(two * BLOCK..(two + 1) * BLOCK, one * BLOCK);
            image[two * BLOCK..(two + 1) * BLOCK].copy_from_slice(&copy);
        }
        _ => _ = image.splice(two * BLOCK..two * BLOCK, copy),
    }
    if random.once_in(3) {
        renumber(image);
    }
}

/// One change of any kind.
pub fn any<F: Format>(random: &mut Random, image: &mut Vec<u8>) {
    let blocks = image.len() / BLOCK;
    let kind = random.below(16);
    if blocks == 0 || kind == 0 {
        return resize(random, image);
    }
    if kind < 4 {
        return reorder(random, image);
    }
    let at = random.below(blocks) * BLOCK;
    let block = &mut image[at..at + BLOCK];
    match kind {
        4 => block[random.below(BLOCK)] ^= 1 + random.below(255) as u8,
        5 => put(block, 4 * random.below(128), random.next() as u32),
        6 => garbage::<F>(random, block),
        _ => part::<F>(random, block),
    }
    if kind > 5 && !random.once_in(6) {
        mend(block);
    }
}
