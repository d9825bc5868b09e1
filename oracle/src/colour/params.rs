// params.rs: parameters for predictions: derived ones, any, extremes, and those about which the short product stops serving.
use crate::colour::block::Block;
use crate::colour::fill::{self, Texture};
use crate::colour::sums::{mid, square};
use crate::colour::window::{chroma_most, Window};
use crate::colour::{original, refusals};
use crate::random::Random;

/// How many ways there are to draw parameters.
pub const KINDS: usize = 6;

/// Parameters derived from a small window whose luma is of the block's texture.
fn derived(random: &mut Random, b: &Block, luma: Texture) -> [i32; 3] {
    let side = |random: &mut Random| random.within(3, 14) as usize;
    let (ref_width, ref_height) = (side(random), side(random));
    let w = Window { ref_width, ref_height, above_lines: 2, left_lines: random.below(3), ..b.window };
    let [luma, chroma] = fill::window(random, &w, luma, None);
    if refusals::derivation(&w, &luma, &chroma, 3) == 0 { original::derive(&w, &luma, &chroma)[0] } else { [0, 0, 65536] }
}

fn extreme(random: &mut Random) -> i32 {
    random.pick(&[
        i32::MIN, i32::MIN + 1, -65537, -65536, -32769, -32768, -32767, -1, 0, 1, 32767, 32768, 65535, 65536,
        i32::MAX - 1, i32::MAX,
    ])
}

/// About a power of two: a factor's width, and so the room that it leaves to the other, changes there.
fn at_width(random: &mut Random) -> i32 {
    let power = 1i64 << random.within(12, 31);
    let near = power + i64::from(random.within(-2, 1));
    (if random.once_in(2) { near } else { -near }).clamp(i32::MIN.into(), i32::MAX.into()) as i32
}

/// Any two, and a third that brings one sample of the block into 0..M where it can.
fn balanced(random: &mut Random, b: &Block, list: &[i32]) -> [i32; 3] {
    let mut any = || [at_width(random), extreme(random), random.next() as i32 >> random.within(0, 16)];
    let (first, second) = (any(), any());
    let p0 = random.pick(&first);
    let p1 = random.pick(&[second[0], second[2], 0, -p0.max(-i32::MAX)]);
    let d = b.window.d;
    let (centre, beside) = b.places().nth(random.below(b.samples())).expect("a block has samples");
    let term = |p: i32, v: i64| i64::from(original::mul_fixed32_adapt(p, v as i32, 16));
    let terms = term(p0, i64::from(list[beside] >> 3)) + term(p1, square(i64::from(list[centre] >> 3), d));
    let due = i64::from(random.within(0, chroma_most(d)));
    let p2 = ((due - terms) << 16) / mid(d);
    [p0, p1, p2.clamp(i32::MIN.into(), i32::MAX.into()) as i32]
}

/// Parameters for a block with this luma list.
pub fn draw(random: &mut Random, kind: usize, b: &Block, luma: Texture, list: &[i32]) -> [i32; 3] {
    match kind {
        0 => derived(random, b, luma),
        1 => [0; 3].map(|_| random.next() as i32),
        2 => [0; 3].map(|_| extreme(random)),
        3 => [0; 3].map(|_| at_width(random)),
        4 => [0; 3].map(|_| random.within(-262_144, 262_144)),
        _ => balanced(random, b, list),
    }
}

/// Whether the short product serves for every sample of the depth.
#[allow(dead_code)]
pub fn short_serves(b: &Block) -> bool {
    let width = |p: i32| 32 - p.unsigned_abs().max(1).leading_zeros();
    b.params[..2].iter().all(|&p| width(p) + b.window.d <= 29)
}
