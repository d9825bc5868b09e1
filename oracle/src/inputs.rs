// inputs.rs: edge entries and plane samples, random and saturated, good and bad.
use crate::random::Random;

/// How many ways there are to fill an edge.
#[allow(dead_code)]
pub const KINDS: usize = 13;
/// The way that draws every entry.
pub const RANDOM: usize = 10;

/// Fills an edge with entries in 0..M, in one of the ways.
pub fn fill_edge(random: &mut Random, kind: usize, most: i32, edge: &mut [i32]) {
    let n = edge.len() as i32;
    let start = random.within(0, most);
    let slope = random.within(1, 9);
    let turn = random.within(0, n);
    for (i, entry) in (0..n).zip(edge.iter_mut()) {
        *entry = match kind {
            0 => 0,
            1 => most,
            2 => random.pick(&[0, most]),
            3 => i * most / n.max(1),
            4 => most - i * most / n.max(1),
            5 => (start + i * slope).min(most),
            6 => (start - i * slope).max(0),
            7 => (start + random.within(-1, 1)).clamp(0, most),
            8 => start,
            9 => if i < turn { 0 } else { most },
            RANDOM => random.within(0, most),
            11 => (start + i) % 2 * most,
            _ => (start + i / slope) % 2 * most,
        };
    }
}

/// The entries that no call takes.
#[allow(dead_code)]
pub fn bad_entry(random: &mut Random, most: i32) -> i32 {
    let any = random.next() as i32;
    let outside = if (0..=most).contains(&any) { -1 } else { any };
    random.pick(&[-1, most + 1, i32::MIN, i32::MAX, outside, 65536, -most])
}

/// A plane sample in 0..M: whole numbers, fractions, halves and their neighbours, both zeros, the ends of the range.
pub fn good_sample(random: &mut Random, most: i32) -> f32 {
    let whole = random.within(0, most - 1) as f32;
    let half = whole + 0.5;
    let top = most as f32;
    match random.below(16) {
        0 => half,
        1 => f32::from_bits(half.to_bits() - 1),
        2 => f32::from_bits(half.to_bits() + 1),
        3 => -0.0,
        4 => f32::from_bits(0x3EFF_FFFF),
        5 => top,
        6 => f32::from_bits(top.to_bits() - 1),
        7 => random.pick(&[0.0, 0.5, f32::from_bits(1), f32::from_bits(0x3EFF_FFFE), f32::MIN_POSITIVE, 127.5, top - 0.5]),
        8..=10 => (random.next() >> 40) as f32 / 16_777_216.0 * top,
        11 => (random.next() >> 40) as f32 / 16_777_216.0,
        _ => whole,
    }
}

/// A plane sample that is no number in 0..M.
#[allow(dead_code)]
pub fn bad_sample(random: &mut Random, most: i32) -> f32 {
    let top = most as f32;
    random.pick(&[
        f32::NAN,
        f32::from_bits(0xFFC0_0001),
        f32::from_bits(0x7F80_0001),
        f32::INFINITY,
        f32::NEG_INFINITY,
        f32::from_bits(top.to_bits() + 1),
        top + 0.25,
        top + 0.5,
        top + 1.0,
        1e30,
        -1.0,
        -0.25,
        f32::from_bits(0x8000_0001),
        -1e30,
    ])
}
