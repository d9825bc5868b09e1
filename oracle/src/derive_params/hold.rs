// hold.rs: one call of latch_derive_params, held against the Rust's parameters and against the table of refusals.
use crate::calls;
use crate::colour::sums::{largest, LIMIT};
use crate::colour::window::Window;
use crate::colour::{original, refusals};
use crate::guard::Lent;
use crate::random::Random;
use crate::tally::Tally;
use std::panic::{catch_unwind, set_hook, take_hook};

pub struct Case {
    pub window: Window,
    pub luma: Vec<i32>,
    pub chroma: Vec<i32>,
    pub params_len: usize,
}

impl Case {
    /// A case whose list of parameters has the three entries that are needed.
    pub fn new(window: Window, [luma, chroma]: [Vec<i32>; 2]) -> Case {
        Case { window, luma, chroma, params_len: 3 }
    }
}

pub struct Comparison {
    seed: u64,
    number: u64,
    luma: Lent,
    chroma: Lent,
    params: Lent,
    pub tally: Tally,
}

/// Whether the Rust, which sums in 32 bits with overflow checks on, stops on a window.
fn overflows(case: &Case) -> bool {
    let hook = take_hook();
    set_hook(Box::new(|_| ()));
    let stopped = catch_unwind(|| original::derive(&case.window, &case.luma, &case.chroma)).is_err();
    set_hook(hook);
    stopped
}

impl Comparison {
    pub fn new(seed: u64) -> Comparison {
        let list = || Lent::new(256 * 256 + 300);
        let tally = Tally::new("latch_derive_params");
        Comparison { seed, number: 6 << 40, luma: list(), chroma: list(), params: Lent::new(16), tally }
    }

    /// The generator of the next case.
    pub fn random(&mut self) -> Random {
        self.number += 1;
        Random::new(self.seed, self.number)
    }

    /// Prints a case, with its first samples that count, and ends the run.
    fn fail(&self, case: &Case, what: String) -> ! {
        println!("oracle: latch_derive_params differs (seed {}, case {}): {what}", self.seed, self.number);
        let lens = [case.luma.len(), case.chroma.len(), case.params_len];
        println!("{:?}, lengths of luma, chroma and params {lens:?}", case.window);
        if refusals::shape(&case.window, [lens[0], lens[1]], lens[2]) == 0 {
            let sample = |k: usize| (k, case.luma[case.window.beside(k)], case.luma[k], case.chroma[k]);
            let samples: Vec<_> = case.window.counted().map(sample).take(64).collect();
            println!("{} samples count (place, direction's luma, centre, chroma): {samples:?}", case.window.counted().count());
        }
        std::process::exit(1);
    }

    /// Makes one call and holds its answer, its parameters and its inputs, with all around them, against what is due.
    pub fn hold(&mut self, case: &Case) -> u32 {
        let (luma, chroma) = (self.luma.ints(case.luma.len()), self.chroma.ints(case.chroma.len()));
        luma.copy_from_slice(&case.luma);
        chroma.copy_from_slice(&case.chroma);
        let got = calls::derive_params(&case.window, luma, chroma, self.params.ints(case.params_len));
        let due = refusals::derivation(&case.window, &case.luma, &case.chroma, case.params_len);
        if got != due {
            self.fail(case, format!("it answers {got}, due is {due}"));
        }
        let mut params = Vec::new();
        if due == 0 {
            let [first, second] = original::derive(&case.window, &case.luma, &case.chroma);
            if first != second {
                self.fail(case, format!("is_top_sb_boundary moves the Rust's {first:?} to {second:?}"));
            }
            params.extend(first);
        }
        if let Some((place, is, should)) = self.params.difference(params.iter().map(|&v| v as u32)) {
            self.fail(case, format!("params[{place}] is {}, due is {}", is as i32, should as i32));
        }
        for (name, lent, entries) in [("luma", &self.luma, &case.luma), ("chroma", &self.chroma, &case.chroma)] {
            if let Some((place, is)) = lent.changed(entries) {
                self.fail(case, format!("it only reads {name}, and {name}[{place}] is now {is}"));
            }
        }
        self.tally.add(due);
        self.tally.samples += if due == 0 { case.window.counted().count() as u64 } else { 0 };
        due
    }

    /// The same, and where a sum is too large, that the Rust stops on it; returns how far the largest sum is past the limit.
    pub fn hold_near_limit(&mut self, case: &Case) -> i64 {
        let due = self.hold(case);
        if due == 14 && !overflows(case) {
            self.fail(case, "14 is due, and the Rust's sums do not overflow".to_string());
        }
        largest(&case.window, &case.luma, &case.chroma) - LIMIT
    }
}
