// direct.rs: one direct predictor call of any mode, held against the Rust's block and against the table of refusals.
use crate::guard::Lent;
use crate::inputs::{bad_entry, fill_edge, KINDS, RANDOM};
use crate::random::Random;
use crate::spec::{most, Mode, DEPTHS, SIZES};
use crate::tally::Tally;
use crate::{calls, original, refusals};

#[derive(Debug)]
pub struct Case {
    mode: Mode,
    b: u16,
    d: u16,
    above: Vec<i32>,
    left: Vec<i32>,
    corner: i32,
    out_len: usize,
}

/// An edge of `needed` entries in 0..M and then a tail of entries that no call may look at.
fn edge(random: &mut Random, kind: usize, limit: i32, needed: usize, tail: usize) -> Vec<i32> {
    let mut entries = vec![0; needed + tail];
    fill_edge(random, kind, limit, &mut entries[..needed]);
    for entry in &mut entries[needed..] {
        *entry = bad_entry(random, limit);
    }
    entries
}

/// An accepted case; as `kind` counts up, every way to fill an edge meets every other.
pub fn plain(random: &mut Random, mode: Mode, b: u16, d: u16, kind: usize) -> Case {
    let (limit, side) = (most(d), usize::from(b));
    let tails = [random.pick(&[0, 0, 1, 7]), random.pick(&[0, 0, 1, 7]), random.pick(&[0, 0, 1, 9, 33])];
    Case {
        mode,
        b,
        d,
        above: edge(random, kind % KINDS, limit, 2 * side, tails[0]),
        left: edge(random, kind / KINDS % KINDS, limit, 2 * side, tails[1]),
        corner: if random.once_in(3) { random.pick(&[0, limit]) } else { random.within(0, limit) },
        out_len: side * side + tails[2],
    }
}

/// A case with any size, depth, lengths and entries: most are refused.
pub fn wild(random: &mut Random, mode: Mode) -> Case {
    let mut either = |good: &[u16], bad: &[u16]| {
        let word = if random.once_in(4) { random.pick(bad) } else { random.pick(good) };
        if random.once_in(12) { random.word() } else { word }
    };
    let b = either(&SIZES, &[0, 1, 2, 3, 5, 7, 9, 12, 15, 17, 24, 31, 33, 48, 63, 65, 128, 256]);
    let d = either(&DEPTHS, &[0, 7, 9, 11, 13, 14, 16, 32, 64, 264]);
    let limit = if d <= 12 { most(d).max(1) } else { 4095 };
    let side = usize::from(b.min(80));
    let mut length = |needed: usize| match random.below(12) {
        0 => needed.saturating_sub(1),
        1 => 0,
        2 => needed / 2 + 1,
        3 => needed + 1,
        _ => needed,
    };
    let lens = [length(2 * side), length(2 * side), length(side * side)];
    let mut case = Case {
        mode,
        b,
        d,
        above: edge(random, RANDOM, limit, lens[0], 0),
        left: edge(random, RANDOM, limit, lens[1], 0),
        corner: random.within(0, limit),
        out_len: lens[2],
    };
    for list in [&mut case.above, &mut case.left] {
        if random.once_in(5) && !list.is_empty() {
            let any = random.below(list.len());
            let place = random.pick(&[any, any, 0, list.len() - 1]);
            list[place] = bad_entry(random, limit);
        }
    }
    if random.once_in(8) {
        case.corner = bad_entry(random, limit);
    }
    case
}

/// Prints a case whole and ends the run.
fn fail(case: &Case, seed: u64, number: u64, what: String) -> ! {
    println!("oracle: {} differs (seed {seed}, case {number}): {what}", calls::name(case.mode));
    println!("{case:?}");
    std::process::exit(1);
}

pub struct Comparison {
    seed: u64,
    number: u64,
    above: Lent,
    left: Lent,
    out: Lent,
    due: Vec<f32>,
    pub tally: Tally,
}

impl Comparison {
    /// The comparison of one call, whose cases are numbered from `call << 40` on.
    pub fn new(seed: u64, name: &str, call: u64) -> Comparison {
        let (above, left, out) = (Lent::new(200), Lent::new(200), Lent::new(7000));
        Comparison { seed, number: call << 40, above, left, out, due: vec![0.0; 4096], tally: Tally::new(name) }
    }

    /// The generator of the next case.
    pub fn random(&mut self) -> Random {
        self.number += 1;
        Random::new(self.seed, self.number)
    }

    /// Makes one call and holds its answer, its output and its inputs, with all around them, against what is due.
    /// Returns how many samples it predicted: none where it is refused.
    pub fn hold(&mut self, case: &Case) -> u64 {
        let fail = |what: String| -> ! { fail(case, self.seed, self.number, what) };
        let (above, left) = (self.above.ints(case.above.len()), self.left.ints(case.left.len()));
        above.copy_from_slice(&case.above);
        left.copy_from_slice(&case.left);
        let got = calls::predict(case.mode, case.b, case.d, above, left, case.corner, self.out.floats(case.out_len));
        let due = refusals::direct(case.mode, case.b, case.d, &case.above, &case.left, case.corner, case.out_len);
        if got != due {
            fail(format!("it answers {got}, due is {due}"));
        }
        let side = if due == 0 { usize::from(case.b) } else { 0 };
        let block = &mut self.due[..side * side];
        if due == 0 {
            original::predict(case.mode, case.b, case.d, &case.above, &case.left, case.corner, block);
        }
        if let Some((place, is, should)) = self.out.difference(block.iter().map(|v| v.to_bits())) {
            let (f, g) = (f32::from_bits(is), f32::from_bits(should));
            fail(format!("out[{place}] is {is:#010x} ({f}), due is {should:#010x} ({g})"));
        }
        for (name, lent, entries) in [("above", &self.above, &case.above), ("left", &self.left, &case.left)] {
            if let Some((place, is, _)) = lent.difference(entries.iter().map(|&v| v as u32)) {
                fail(format!("it only reads {name}, and {name}[{place}] is now {}", is as i32));
            }
        }
        self.tally.add(due);
        self.tally.samples += (side * side) as u64;
        (side * side) as u64
    }
}
