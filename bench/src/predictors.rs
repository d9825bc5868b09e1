// predictors.rs: times Paeth and the smooth family: the Rust's block function, the public call and our block function.
use crate::inputs::{fill_edge, RANDOM};
use crate::random::Random;
use crate::spec::{most, Mode, MODES, SIZES};
use crate::ways::{print_ways, three_ways};
use crate::{blocks, calls, rust};

const INPUTS: usize = 96;
const D: u16 = 10;

struct Edges {
    above: Vec<i32>,
    left: Vec<i32>,
    corner: i32,
}

/// Edges for one size: one set in four is saturated, ramped or nearly flat.
fn inputs(seed: u64, b: u16) -> Vec<Edges> {
    let mut random = Random::new(seed, b.into());
    let mut edge = |i: usize| {
        let kind = if i % 4 == 0 { random.below(RANDOM + 1) } else { RANDOM };
        let mut entries = vec![0; 2 * usize::from(b)];
        fill_edge(&mut random, kind, most(D), &mut entries);
        entries
    };
    let edges = (0..INPUTS).map(|i| Edges { above: edge(i), left: edge(i), corner: (i * 37) as i32 % 1024 });
    edges.collect()
}

fn times(mode: Mode, seed: u64, b: u16) -> [f64; 3] {
    let (set, n) = (inputs(seed, b), usize::from(b));
    macro_rules! ways {
        ($mode:ident, $name:ident $(, $corner:ident)?) => {
            three_ways(
                b,
                &set,
                |e, out| rust::$name(n, &e.above, &e.left, $(e.$corner,)? out),
                |e, out| calls::predict(Mode::$mode, b, D, &e.above, &e.left, e.corner, out),
                |e, out| blocks::$name(n, &e.above, &e.left, $(e.$corner,)? out),
            )
        };
    }
    match mode {
        Mode::Paeth => ways!(Paeth, paeth_into, corner),
        Mode::Smooth => ways!(Smooth, smooth_into),
        Mode::SmoothV => ways!(SmoothV, smooth_v_into),
        Mode::SmoothH => ways!(SmoothH, smooth_h_into),
        Mode::Directional(_) => unreachable!("directions are timed apart"),
    }
}

pub fn run(seed: u64) {
    for mode in MODES {
        let public = calls::name(mode);
        let block = format!("{}_into", public.trim_start_matches("latch_"));
        print_ways(&block, public, &SIZES.map(|b| times(mode, seed, b)));
    }
}
