// fill.rs: luma and chroma samples of windows and blocks: random, flat, saturated, ramps; and what stands where nothing is needed.
use crate::colour::block::Block;
use crate::colour::window::{chroma_most, luma_most, Window, STRIDE};
use crate::random::Random;

/// How many textures there are, and the one that draws every value.
pub const TEXTURES: usize = 13;
pub const RANDOM: usize = 0;

/// A way to give each place of a window a value in 0..most.
#[derive(Clone, Copy)]
pub struct Texture {
    kind: usize,
    most: i32,
    start: i32,
    across: i32,
    down: i32,
}

impl Texture {
    pub fn new(random: &mut Random, kind: usize, most: i32) -> Texture {
        let mut slope = || random.within(-most, most) / 32;
        let (across, down) = (slope(), slope());
        Texture { kind, most, start: random.within(0, most), across, down }
    }

    pub fn at(&self, random: &mut Random, place: usize) -> i32 {
        let (row, column) = ((place / STRIDE) as i32, (place % STRIDE) as i32);
        let most = self.most;
        match self.kind {
            1 => self.start,
            2 => most,
            3 => 0,
            4 => random.pick(&[0, most]),
            5 => (self.start + column * self.across).clamp(0, most),
            6 => (self.start + row * self.down).clamp(0, most),
            7 => (self.start + column * self.across + row * self.down).rem_euclid(most + 1),
            8 => (self.start + random.within(-9, 9)).clamp(0, most),
            9 => (row + column) % 2 * most,
            10 => random.within(0, most / 16),
            11 => most - random.within(0, most / 16),
            12 => {
                let ramp = self.start + (column * self.across + row * self.down) / 8;
                (ramp + random.within(-most / 64, most / 64)).clamp(0, most)
            }
            _ => random.within(0, most),
        }
    }
}

/// What stands at the places that no call needs, for values up to `most`: mostly a value that is refused where it is needed.
fn elsewhere(random: &mut Random, most: i32) -> i32 {
    let (any, good) = (random.next() as i32, random.within(0, most));
    random.pick(&[-1, most + 1, i32::MIN, i32::MAX, any, 0, most, good])
}

/// The luma and chroma lists of a window; chroma follows luma, with noise, where its texture is none.
pub fn window(random: &mut Random, w: &Window, luma: Texture, chroma: Option<usize>) -> [Vec<i32>; 2] {
    let m = chroma_most(w.d);
    let mut lists = [luma_most(w.d), m].map(|most| vec![elsewhere(random, most); w.entries()]);
    for place in w.counted() {
        lists[0][w.beside(place)] = luma.at(random, w.beside(place));
        lists[0][place] = luma.at(random, place);
    }
    let texture = Texture::new(random, chroma.unwrap_or(0), m);
    let (slope, noise) = (random.within(-12, 12), random.within(0, m / 32));
    for place in w.counted() {
        let follows = texture.start + (lists[0][place] >> 3) * slope / 8 + random.within(-noise, noise);
        lists[1][place] = if chroma.is_some() { texture.at(random, place) } else { follows.clamp(0, m) };
    }
    lists
}

/// The luma list of a block.
pub fn block(random: &mut Random, b: &Block, luma: Texture) -> Vec<i32> {
    let mut list = vec![elsewhere(random, luma_most(b.window.d)); b.window.entries()];
    for (centre, beside) in b.places() {
        list[beside] = luma.at(random, beside);
        list[centre] = luma.at(random, centre);
    }
    list
}
