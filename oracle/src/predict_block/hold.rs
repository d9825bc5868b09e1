// hold.rs: one call of latch_predict_block, held against the Rust's block and against the table of refusals.
use crate::calls;
use crate::colour::block::Block;
use crate::colour::params::short_serves;
use crate::colour::window::chroma_most;
use crate::colour::{original, refusals};
use crate::guard::Lent;
use crate::random::Random;
use crate::tally::Tally;

pub struct Case {
    pub block: Block,
    pub luma: Vec<i32>,
    pub out_len: usize,
}

pub struct Comparison {
    seed: u64,
    number: u64,
    luma: Lent,
    out: Lent,
    due: Vec<i32>,
    pub tally: Tally,
    /// Samples where the short product serves, those where it may not, and those that came out inside 0..M.
    pub short: u64,
    pub long: u64,
    pub inside: u64,
}

impl Comparison {
    pub fn new(seed: u64) -> Comparison {
        let (luma, out, due) = (Lent::new(256 * 256 + 300), Lent::new(128 * 128 + 300), vec![0; 128 * 128]);
        let tally = Tally::new("latch_predict_block");
        Comparison { seed, number: 7 << 40, luma, out, due, tally, short: 0, long: 0, inside: 0 }
    }

    /// The generator of the next case.
    pub fn random(&mut self) -> Random {
        self.number += 1;
        Random::new(self.seed, self.number)
    }

    /// Prints a case, with the luma of its first samples, and ends the run.
    fn fail(&self, case: &Case, what: String) -> ! {
        println!("oracle: latch_predict_block differs (seed {}, case {}): {what}", self.seed, self.number);
        println!("{:?}, lengths of luma and out {:?}", case.block, [case.luma.len(), case.out_len]);
        if refusals::block_shape(&case.block, case.luma.len(), case.out_len) == 0 {
            let sample = |(centre, beside): (usize, usize)| (centre, case.luma[beside], case.luma[centre]);
            println!("luma (place, direction's luma, centre): {:?}", case.block.places().map(sample).take(64).collect::<Vec<_>>());
        }
        std::process::exit(1);
    }

    /// Makes one call and holds its answer, its output and its input, with all around them, against what is due.
    pub fn hold(&mut self, case: &Case) {
        let luma = self.luma.ints(case.luma.len());
        luma.copy_from_slice(&case.luma);
        let got = calls::predict_block(&case.block, luma, self.out.ints(case.out_len));
        let due = refusals::prediction(&case.block, &case.luma, case.out_len);
        if got != due {
            self.fail(case, format!("it answers {got}, due is {due}"));
        }
        let samples = if due == 0 { case.block.samples() } else { 0 };
        if due == 0 {
            let is_top_sb_boundary = self.number % 2 == 0;
            original::predict(&case.block, &case.luma, is_top_sb_boundary, &mut self.due[..samples]);
        }
        if let Some((place, is, should)) = self.out.difference(self.due[..samples].iter().map(|&v| v as u32)) {
            self.fail(case, format!("out[{place}] is {}, due is {}", is as i32, should as i32));
        }
        if let Some((place, is)) = self.luma.changed(&case.luma) {
            self.fail(case, format!("it only reads luma, and luma[{place}] is now {is}"));
        }
        self.count(case, due, samples);
    }

    fn count(&mut self, case: &Case, due: u32, samples: usize) {
        self.tally.add(due);
        if due != 0 {
            return;
        }
        self.tally.samples += samples as u64;
        *(if short_serves(&case.block) { &mut self.short } else { &mut self.long }) += samples as u64;
        let within = |v: &&i32| **v > 0 && **v < chroma_most(case.block.window.d);
        self.inside += self.due[..samples].iter().filter(within).count() as u64;
    }
}
