// draw.rs: draws planes and blocks on them for the edges: inside and at each border, with every availability.
use crate::random::Random;
use crate::spec::{most, Spec, DEPTHS, SIZES};

/// A plane's width and height: tiny, small, and at times long.
pub fn plane_size(random: &mut Random) -> (usize, usize) {
    let mut side = || match random.below(8) {
        0 => 4,
        1 => 5 + random.below(4),
        2 => random.pick(&[8, 16, 32, 64, 128]),
        3 => 65 + random.below(3),
        4 => random.pick(&[129, 130, 192, 193]),
        _ => 4 + random.below(100),
    };
    let (w, h) = (side(), side());
    match random.below(40) {
        0 => (4096, h.min(70)),
        1 => (w.min(70), 4096),
        2 => (4 + random.below(4092), h.min(70)),
        _ => (w, h),
    }
}

/// A word anywhere in 16 bits, often a small one or one near the end, where a sum in 16 bits turns over.
pub fn any_word(random: &mut Random) -> u16 {
    match random.below(3) {
        0 => random.word(),
        1 => random.word() % 20,
        _ => 65535 - random.word() % 80,
    }
}

/// Where a block may start along a side of `length`: often at its ends.
fn start(random: &mut Random, length: usize, b: usize) -> u16 {
    let last = length - b;
    let at = match random.below(8) {
        0 => 0,
        1 => 1,
        2 => last,
        3 => last.saturating_sub(1),
        4 => last.saturating_sub(b),
        _ => random.below(last + 1),
    };
    at.min(last) as u16
}

/// How many samples lie past the block, with `room` of them in the plane.
fn past(random: &mut Random, b: u16, room: usize) -> u16 {
    let any = random.within(0, i32::from(b)) as u16;
    let n = random.pick(&[0, 1, b / 2, b - 1, b, b + 1, 64, 65535, any, any, any]);
    let over = usize::from(n.min(b)) > room;
    if over && !random.once_in(16) { random.below(room + 1) as u16 } else { n }
}

/// How many samples along the block are available.
fn available(random: &mut Random, b: u16) -> u16 {
    let any = random.within(1, i32::from(b)) as u16;
    if random.once_in(200) { 0 } else { random.pick(&[1, b / 2, b - 1, b, b + 1, 64, 65535, any, any, any]) }
}

fn base(random: &mut Random, limit: i32) -> u16 {
    let (limit, any) = (limit as u16, random.within(1, limit - 1) as u16);
    if random.once_in(40) { random.pick(&[0, limit, limit + 1, 65535]) } else { random.pick(&[1, limit - 1, limit / 2 + 1, any]) }
}

/// A block on a plane; nearly always one that is accepted.
pub fn block(random: &mut Random, width: usize, height: usize, d: u16) -> Spec {
    let fit = SIZES.iter().filter(|&&b| usize::from(b) <= width.min(height)).count();
    let b = random.pick(&SIZES[..fit]);
    let side = usize::from(b);
    let (x, y) = (start(random, width, side), start(random, height, side));
    let stray = random.once_in(64);
    Spec {
        width,
        height,
        x: if random.once_in(200) { any_word(random) } else { x },
        y: if random.once_in(200) { any_word(random) } else { y },
        b,
        d,
        have_above: random.once_in(2) && (y > 0 || stray),
        have_left: random.once_in(2) && (x > 0 || stray),
        top_right: past(random, b, width - usize::from(x) - side),
        bottom_left: past(random, b, height - usize::from(y) - side),
        available_above: available(random, b),
        available_left: available(random, b),
        base: base(random, most(d)),
    }
}

/// Any parameters at all, over a plane of width and height or not: most are refused.
pub fn wild(random: &mut Random, width: usize, height: usize) -> Spec {
    let mut spec = block(random, width, height, 8);
    spec.d = random.pick(&DEPTHS);
    for _ in 0..random.within(1, 3) {
        let word = any_word(random);
        match random.below(13) {
            0 => spec.width = random.pick(&[0, 3, height, width + 1, 4097, usize::MAX, 1 << 63, usize::from(word)]),
            1 => spec.height = random.pick(&[0, 3, width, height - 1, 4097, usize::MAX, 1 << 62, usize::from(word)]),
            2 => spec.x = word,
            3 => spec.y = word,
            4 => spec.b = random.pick(&[word, word, 0, 2, 12, 128, 4, 64]),
            5 => spec.d = random.pick(&[word, word, 0, 9, 11, 16, 10, 12]),
            6 => spec.have_above = !spec.have_above,
            7 => spec.have_left = !spec.have_left,
            8 => spec.top_right = word,
            9 => spec.bottom_left = word,
            10 => spec.available_above = word,
            11 => spec.available_left = word,
            _ => spec.base = word,
        }
    }
    spec
}
