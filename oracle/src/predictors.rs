// predictors.rs: the four direct predictor calls that are plain names, at every size and depth.
use crate::calls;
use crate::direct::{plain, wild, Comparison};
use crate::inputs::KINDS;
use crate::spec::{DEPTHS, MODES, SIZES};

/// Samples for each mode, size and depth at scale 1.
const SAMPLES: f64 = 1_000_000.0;
/// Calls with any parameters for each mode at scale 1.
const WILD: f64 = 100_000.0;

/// Compares all four calls; prints a line for each and returns how many samples were compared.
pub fn compare(seed: u64, scale: f64) -> u64 {
    let mut samples = 0;
    for (call, mode) in (1..).zip(MODES) {
        let mut comparison = Comparison::new(seed, calls::name(mode), call);
        for (b, d) in SIZES.iter().flat_map(|&b| DEPTHS.map(|d| (b, d))) {
            let blocks = (SAMPLES * scale / f64::from(b * b)).ceil() as usize;
            for kind in 0..blocks.max(KINDS * KINDS) {
                let case = plain(&mut comparison.random(), mode, b, d, kind);
                comparison.hold(&case);
            }
        }
        for _ in 0..(WILD * scale) as usize {
            let case = wild(&mut comparison.random(), mode);
            comparison.hold(&case);
        }
        comparison.tally.print("blocks", &[0, 1, 2, 9, 8]);
        samples += comparison.tally.samples;
    }
    samples
}
