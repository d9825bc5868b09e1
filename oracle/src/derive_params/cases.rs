// cases.rs: derivations on drawn windows, with samples of every texture, and with any parameters at all.
use crate::colour::draw;
use crate::colour::fill::{self, Texture, TEXTURES};
use crate::colour::window::{chroma_most, luma_most, Window};
use crate::derive_params::ends;
use crate::derive_params::hold::Case;
use crate::random::Random;

/// Samples for a window: a third drawn one by one, the rest of every texture; at times one that is needed is at an end.
pub fn filled(random: &mut Random, window: Window) -> Case {
    let kind = if random.once_in(3) { fill::RANDOM } else { random.below(TEXTURES) };
    let texture = Texture::new(random, kind, luma_most(window.d));
    let chroma = if random.once_in(3) { None } else { Some(random.below(TEXTURES)) };
    let mut case = Case::new(window, fill::window(random, &window, texture, chroma));
    if random.once_in(10) {
        let samples = window.counted().count();
        if let Some(place) = window.counted().nth(random.below(samples.max(1))) {
            match random.below(3) {
                0 => case.luma[place] = random.pick(&ends(luma_most(window.d))),
                1 => case.luma[window.beside(place)] = random.pick(&ends(luma_most(window.d))),
                _ => case.chroma[place] = random.pick(&ends(chroma_most(window.d))),
            }
        }
    }
    case
}

/// A window drawn with sides up to `most`; mostly of a depth at which its samples are not too many.
pub fn drawn(random: &mut Random, most: usize) -> Window {
    let mut window = draw::window(random, most);
    if !random.once_in(16) {
        window.d = match window.counted().count() {
            0..=150 => window.d,
            151..=2400 => random.pick(&[8, 10]),
            _ => 8,
        };
    }
    window
}

/// Calls with any parameters, and lists that are too short or longer than needed.
pub fn wild(random: &mut Random) -> Case {
    let good = draw::window(random, 9);
    let mut case = filled(random, good);
    if !random.once_in(3) {
        draw::wild_window(random, &mut case.window);
    }
    for list in [&mut case.luma, &mut case.chroma] {
        match random.below(12) {
            0 => _ = list.pop(),
            1 => list.clear(),
            2 => list.resize(list.len() + 1, -1),
            3 => list.resize(list.len() + 256, i32::MAX),
            _ => (),
        }
    }
    case.params_len = random.pick(&[3, 3, 3, 3, 3, 4, 5, 9, 0, 1, 2]);
    case
}
