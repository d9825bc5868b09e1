// draw.rs: draws plans of any words, and the room that a call is lent for what it writes.
use crate::blocks::plain::Format;
use crate::random::Random;

/// How many rows a plan has: most often few, and then often about whole blocks.
pub fn rows<F: Format>(random: &mut Random) -> usize {
    let (one, two) = (F::ROWS, 2 * F::ROWS);
    match random.below(16) {
        0 => 0,
        1..=3 => random.pick(&[one - 1, one, one + 1, two - 1, two, two + 1]),
        4 => 30 + random.below(70),
        _ => 1 + random.below(40),
    }
}

/// So many words: random ones, or all the same.
pub fn words(random: &mut Random, len: usize) -> Vec<u16> {
    match random.below(8) {
        0 => vec![0; len],
        1 => vec![65535; len],
        _ => {
            let mut words = vec![0; len];
            for four in words.chunks_mut(4) {
                let any = random.next();
                four.iter_mut().enumerate().for_each(|(i, word)| *word = (any >> (16 * i)) as u16);
            }
            words
        }
    }
}

/// Room for what needs `needed` entries: exact, short, longer or none.
pub fn room<F: Format>(random: &mut Random, needed: usize) -> usize {
    match random.below(16) {
        0 => needed.saturating_sub(1),
        1 => needed + random.pick(&[1, 1, 2, 16, 100]),
        2 => random.pick(&[0, needed / 2, needed.saturating_sub(F::WORDS)]),
        _ => needed,
    }
}

/// Entries for a count.
pub fn entries(random: &mut Random) -> usize {
    if random.once_in(16) { 0 } else { random.pick(&[1, 1, 1, 1, 2, 3]) }
}
