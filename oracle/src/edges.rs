// edges.rs: latch_build_refs against the Rust's edges, and against the table of refusals.
use crate::guard::Lent;
use crate::inputs::{bad_sample, good_sample};
use crate::plane::Plane;
use crate::random::Random;
use crate::spec::{most, Spec, DEPTHS, SIZES};
use crate::tally::Tally;
use crate::{calls, draw, original, refusals};

/// Planes at scale 1, blocks on each, and calls with any parameters.
const PLANES: f64 = 18_000.0;
const BLOCKS: usize = 64;
const WILD: f64 = 400_000.0;

pub struct Comparison {
    seed: u64,
    number: u64,
    above: Lent,
    left: Lent,
    corner: Lent,
    read: Vec<usize>,
    tally: Tally,
    /// Accepted edge sets by size, depth and neighbours.
    seen: [u64; 60],
}

fn lengths(random: &mut Random) -> [usize; 3] {
    let mut edge = || random.pick(&[128, 128, 128, 129, 140]);
    let mut lens = [edge(), edge(), random.pick(&[1, 1, 2, 5])];
    if random.once_in(50) {
        let which = random.below(3);
        lens[which] = if which == 2 { 0 } else { random.pick(&[0, 8, 64, 127]) };
    }
    lens
}

impl Comparison {
    fn random(&mut self) -> Random {
        self.number += 1;
        Random::new(self.seed, self.number)
    }

    /// Prints a case whole and ends the run.
    fn fail(&self, plane: &Plane, spec: &Spec, lens: [usize; 3], what: String) -> ! {
        println!("oracle: latch_build_refs differs (seed {}, case {}): {what}", self.seed, self.number);
        println!("{spec:?}, plane of {}, lengths of above, left and corner {lens:?}", plane.floats().len());
        plane.print(&self.read);
        std::process::exit(1);
    }

    /// Makes one call and holds its answer, its outputs with all around them, and the plane against what is due.
    fn hold(&mut self, plane: &Plane, spec: &Spec, lens: [usize; 3]) {
        let floats = plane.floats();
        let mut due = refusals::geometry(floats.len(), spec);
        self.read.clear();
        if due == 0 {
            refusals::places(spec, &mut self.read);
            due = refusals::samples(floats, spec.d, &self.read, lens);
        }
        let (above, left, corner) = (self.above.ints(lens[0]), self.left.ints(lens[1]), self.corner.ints(lens[2]));
        let got = calls::build_refs(floats, spec, above, left, corner);
        if got != due {
            self.fail(plane, spec, lens, format!("it answers {got}, due is {due}"));
        }
        let edges = if due == 0 { original::edges(floats, spec) } else { ([0; 128], [0; 128], 0) };
        let n = if due == 0 { 128 } else { 0 };
        let lists = [
            ("above", &self.above, &edges.0[..n]),
            ("left", &self.left, &edges.1[..n]),
            ("corner", &self.corner, &[edges.2][..n.min(1)]),
        ];
        for (name, lent, entries) in lists {
            if let Some((place, is, should)) = lent.difference(entries.iter().map(|&v| v as u32)) {
                self.fail(plane, spec, lens, format!("{name}[{place}] is {}, due is {}", is as i32, should as i32));
            }
        }
        if let Some(place) = plane.changed() {
            self.fail(plane, spec, lens, format!("it changes the plane at {place}"));
        }
        self.tally.add(due);
        if due == 0 {
            let size = SIZES.iter().position(|&b| b == spec.b).unwrap();
            let depth = DEPTHS.iter().position(|&d| d == spec.d).unwrap();
            self.seen[(size * 3 + depth) * 4 + usize::from(spec.have_above) * 2 + usize::from(spec.have_left)] += 1;
        }
    }

    /// Blocks on a plane of good samples: as it is, with a bad sample anywhere, and with one at a place that is read.
    fn on_good_plane(&mut self, plane: &mut Plane, blocks: usize, d: u16) {
        for _ in 0..blocks {
            let mut random = self.random();
            let (spec, lens) = (draw::block(&mut random, plane.width, plane.height, d), lengths(&mut random));
            self.read.clear();
            if refusals::geometry(plane.floats().len(), &spec) == 0 {
                refusals::places(&spec, &mut self.read);
            }
            let place = match random.below(16) {
                0 if !self.read.is_empty() => random.pick(&self.read),
                0 | 1 => random.below(plane.floats().len()),
                _ => usize::MAX,
            };
            let kept = plane.set(place, bad_sample(&mut random, most(d)));
            self.hold(plane, &spec, lens);
            plane.set(place, kept);
        }
    }

    /// Blocks on a plane where every sample is bad, but for those that are read; at times one of these is bad too.
    fn on_bad_plane(&mut self, plane: &mut Plane, blocks: usize, d: u16) {
        let mut read = Vec::new();
        for _ in 0..blocks {
            let mut random = self.random();
            let (spec, lens) = (draw::block(&mut random, plane.width, plane.height, d), lengths(&mut random));
            read.clear();
            if refusals::geometry(plane.floats().len(), &spec) == 0 {
                refusals::places(&spec, &mut read);
            }
            let spared = if random.once_in(16) && !read.is_empty() { random.pick(&read) } else { usize::MAX };
            for &place in read.iter().filter(|&&place| place != spared) {
                plane.set(place, good_sample(&mut random, most(d)));
            }
            self.hold(plane, &spec, lens);
            for &place in &read {
                plane.set(place, bad_sample(&mut random, most(d)));
            }
        }
    }

    fn on_plane(&mut self, width: usize, height: usize, blocks: usize) {
        let mut random = self.random();
        let d = random.pick(&DEPTHS);
        let good = random.once_in(2);
        let sample = if good { good_sample } else { bad_sample };
        let mut plane = Plane::new(width, height, || sample(&mut random, most(d)));
        if good { self.on_good_plane(&mut plane, blocks, d) } else { self.on_bad_plane(&mut plane, blocks, d) }
    }

    /// Calls with any parameters.
    fn wild(&mut self, calls: usize) {
        let sizes = [(12, 9), (4, 4), (70, 66), (17, 130)];
        let mut planes = sizes.map(|(w, h)| {
            let mut random = self.random();
            Plane::new(w, h, || good_sample(&mut random, 255))
        });
        for _ in 0..calls {
            let mut random = self.random();
            let plane = &mut planes[random.below(4)];
            let spec = draw::wild(&mut random, plane.width, plane.height);
            let mut lens = lengths(&mut random);
            if random.once_in(6) {
                lens = [random.pick(&[0, 127, 128]), random.pick(&[0, 127, 128]), random.pick(&[0, 1])];
            }
            plane.lend_more(random.pick(&[0, 0, 0, 0, 0, 0, 0, 1, -1]));
            self.hold(plane, &spec, lens);
            plane.lend_more(0);
        }
    }
}

/// Compares the call; prints its line and returns how many edge sets were compared.
pub fn compare(seed: u64, scale: f64) -> u64 {
    let mut comparison = Comparison {
        seed,
        number: 1 << 48,
        above: Lent::new(160),
        left: Lent::new(160),
        corner: Lent::new(16),
        read: Vec::new(),
        tally: Tally::new("latch_build_refs"),
        seen: [0; 60],
    };
    for _ in 0..(PLANES * scale).ceil() as usize {
        let (width, height) = draw::plane_size(&mut comparison.random());
        comparison.on_plane(width, height, BLOCKS);
    }
    (0..4).for_each(|_| comparison.on_plane(4096, 4096, 6));
    comparison.wild((WILD * scale) as usize);
    comparison.tally.print("edge sets", &[0, 20, 1, 2, 4, 5, 6, 9, 8]);
    if comparison.seen.contains(&0) {
        println!("oracle: a size, depth and pair of neighbours has no edge set: the cases are too few");
        std::process::exit(1);
    }
    comparison.tally.accepted()
}
