// directional.rs: latch_directional at every size, depth, angle and set of flags, with every pair of max words at each size.
use crate::direct::{plain, wild, Comparison};
use crate::inputs::{KINDS, RANDOM};
use crate::random::Random;
use crate::spec::{Mode, Words, DELTAS, DEPTHS, DIRECTIONS, FLAG_SETS, SIZES, ZONES};

/// How often each depth, angle and set of flags comes at scale 1, for each size; at any scale it comes once.
const ROUNDS: [f64; 5] = [64.0, 32.0, 16.0, 8.0, 4.0];
/// Calls with any parameters at scale 1.
const WILD: f64 = 200_000.0;

/// The depths, angles and sets of flags at one size: they are more than the pairs of max words.
const COMBINATIONS: usize = DEPTHS.len() * (DIRECTIONS * DELTAS * FLAG_SETS) as usize;
/// The max words that are tried: every one up to two past the largest block, and then large ones.
const SMALL: usize = 67;
const LARGE: [u16; 6] = [67, 100, 255, 4096, 32767, 65535];
const MAX_WORDS: usize = SMALL + LARGE.len();
const _: () = assert!(COMBINATIONS >= MAX_WORDS * MAX_WORDS);

fn max_word(place: usize) -> u16 {
    if place < SMALL { place as u16 } else { LARGE[place - SMALL] }
}

/// The max words of a block: pair after pair, so that the first round has them all, and then drawn, mostly those that matter.
fn max_words(random: &mut Random, turn: usize, b: u16) -> [u16; 2] {
    if turn < COMBINATIONS {
        return [turn, 7 * turn + turn / MAX_WORDS].map(|place| max_word(place % MAX_WORDS));
    }
    let mut draw = || if random.once_in(3) { random.below(MAX_WORDS) } else { random.below(usize::from(b) + 2) };
    [draw(), draw()].map(max_word)
}

/// The depth and the words of a block of size `b`: as `turn` counts up, every combination comes.
fn combination(random: &mut Random, turn: usize, b: u16) -> (u16, Words) {
    let mut rest = turn;
    let mut next = |count: u16| {
        let digit = rest % usize::from(count);
        rest /= usize::from(count);
        digit as u16
    };
    let (flags, delta, direction) = (next(FLAG_SETS), next(DELTAS), next(DIRECTIONS));
    let d = DEPTHS[usize::from(next(DEPTHS.len() as u16))];
    let [max_width, max_height] = max_words(random, turn, b);
    (d, Words { direction, delta, flags, max_width, max_height })
}

/// A word that may be up to `most`: often the last that is taken or the first that is not.
fn wild_word(random: &mut Random, most: u16) -> u16 {
    let within = random.below(usize::from(most) + 1) as u16;
    let any = random.word();
    random.pick(&[within, within, within, within, within, most, most + 1, any])
}

fn wild_words(random: &mut Random) -> Words {
    Words {
        direction: wild_word(random, DIRECTIONS - 1),
        delta: wild_word(random, DELTAS - 1),
        flags: wild_word(random, FLAG_SETS - 1),
        max_width: random.word(),
        max_height: wild_word(random, 64),
    }
}

/// Blocks and samples that were compared, for each zone.
struct Zones([(u64, u64); 4]);

impl Zones {
    /// Adds an accepted block; a refused one has no samples and no zone.
    fn add(&mut self, words: &Words, samples: u64) {
        if samples > 0 {
            let zone = &mut self.0[words.zone()];
            *zone = (zone.0 + 1, zone.1 + samples);
        }
    }

    fn print(&self) {
        let part = |(name, (blocks, samples))| format!("{name}: {blocks} blocks, {samples} samples");
        println!("{:<19} {}", "", ZONES.into_iter().zip(self.0).map(part).collect::<Vec<_>>().join("; "));
    }
}

/// Compares the call; prints its counts, in all and by zone, and returns how many samples were compared.
pub fn compare(seed: u64, scale: f64) -> u64 {
    let mut comparison = Comparison::new(seed, "latch_directional", 5);
    let mut zones = Zones([(0, 0); 4]);
    for (b, rounds) in SIZES.into_iter().zip(ROUNDS) {
        for turn in 0..(rounds * scale).ceil() as usize * COMBINATIONS {
            let mut random = comparison.random();
            let (d, words) = combination(&mut random, turn, b);
            let kind = if random.once_in(3) { RANDOM * KINDS + RANDOM } else { turn };
            zones.add(&words, comparison.hold(&plain(&mut random, Mode::Directional(words), b, d, kind)));
        }
    }
    for _ in 0..(WILD * scale) as usize {
        let mut random = comparison.random();
        let words = wild_words(&mut random);
        zones.add(&words, comparison.hold(&wild(&mut random, Mode::Directional(words))));
    }
    comparison.tally.print("blocks", &[0, 1, 2, 3, 9, 8]);
    zones.print();
    comparison.tally.samples
}
