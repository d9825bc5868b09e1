// predictors.rs: recorded cases of Paeth and the smooth family.
use super::Line;
use crate::inputs::{fill_edge, RANDOM};
use crate::original;
use crate::random::Random;
use crate::spec::{most, Mode, DEPTHS, MODES, SIZES};

fn predictor(random: &mut Random, mode: Mode, b: u16, d: u16, kinds: (usize, usize)) {
    let (side, limit) = (usize::from(b), most(d));
    let (mut above, mut left, mut out) = (vec![0; 2 * side], vec![0; 2 * side], vec![0f32; side * side]);
    fill_edge(random, kinds.0, limit, &mut above);
    fill_edge(random, kinds.1, limit, &mut left);
    let corner = if random.once_in(3) { random.pick(&[0, limit]) } else { random.within(0, limit) };
    original::predict(mode, b, d, &above, &left, corner, &mut out);
    let letter = match mode {
        Mode::Paeth => 'P',
        Mode::Smooth => 'S',
        Mode::SmoothV => 'V',
        Mode::SmoothH => 'H',
        Mode::Directional(_) => unreachable!("a direction has a line of its own"),
    };
    let mut line = Line::new(letter, &[side, d.into(), corner as usize]);
    line.add(above.iter().chain(&left).map(|&v| v.into()));
    line.add(out.iter().map(|&v| v as i64));
    line.print();
}

/// Every mode, size and depth; the larger the block, the fewer the cases.
pub fn all(random: &mut Random) {
    for (m, mode) in MODES.into_iter().enumerate() {
        for (s, b) in SIZES.into_iter().enumerate() {
            for (k, d) in DEPTHS.into_iter().enumerate() {
                let cases = [12, 5, 2, 1, usize::from(k == m % 3)][s];
                for case in 0..cases {
                    let any = |random: &mut Random| random.below(RANDOM + 1);
                    let kinds = if case % 2 == 0 { (RANDOM, RANDOM) } else { (any(random), any(random)) };
                    let saturated = b >= 32 && (m + k) % 2 == 0;
                    predictor(random, mode, b, d, if saturated { (2, 2) } else { kinds });
                }
            }
        }
    }
}
