// places.rs: refusal 8 place by place: every sample of small planes is set, alone, to an end of what is taken or past it.
use crate::inputs::bad_sample;
use crate::spec::{most, DEPTHS};
use crate::tower::hold::Comparison;
use crate::tower::{draw, job};

/// Jobs at scale 1.
const JOBS: f64 = 72.0;

pub fn all(comparison: &mut Comparison, scale: f64) {
    comparison.about = "one sample set";
    for turn in 0..(JOBS * scale).ceil() as usize {
        let mut random = comparison.random();
        let (width, height, depth) = (4 + random.below(8), 4 + random.below(8), DEPTHS[turn % 3]);
        let row = job::colour(&mut random, width, height, 8, depth);
        let mut plan = draw::plan(&mut random, width, height, depth, vec![row], 0);
        let top = most(depth) as f32;
        for (plane, place) in (0..3).flat_map(|plane| (0..width * height).map(move |place| (plane, place))) {
            let bad = bad_sample(&mut random, most(depth));
            let ends = [-0.0, top, f32::from_bits(top.to_bits() + 1), 254.7, 255.00002];
            for sample in [bad, random.pick(&ends)] {
                let kept = std::mem::replace(&mut plan.planes[plane][place], sample.to_bits());
                comparison.single(&plan);
                plan.planes[plane][place] = kept;
            }
        }
    }
}
