// hold.rs: a write and a read of a plan's file, held against the plain ones: the answer, what is written, and all that was lent.
use crate::blocks::calls::Calls;
use crate::blocks::plain;
use crate::plan::guarded::Guarded;
use crate::random::Random;
use crate::tally::Tally;
use std::marker::PhantomData;

/// What a list for a count holds before a call.
const COUNTS: [usize; 3] = [0xA5C3_0001, usize::MAX, 0xA5C3_0003];

pub struct Comparison<F: Calls> {
    format: PhantomData<F>,
    seed: u64,
    number: u64,
    /// What is being tried.
    pub about: &'static str,
    plan: Guarded<u16>,
    bytes: Guarded<u8>,
    counts: Guarded<usize>,
    /// What lists for words and for bytes hold before a call.
    blank_words: Vec<u16>,
    blank_bytes: Vec<u8>,
    pub writes: Tally,
    pub reads: Tally,
    /// How many images were read.
    pub images: u64,
}

/// The lists of a call as they are due after it, and its answer.
struct Due<'a> {
    number: u32,
    plan: &'a [u16],
    bytes: &'a [u8],
    counts: &'a [usize],
}

/// What the plain call gives, once there is a list for the count; the number that is due, and the list.
fn counted(plain: Result<usize, u32>, entries: usize) -> (u32, Vec<usize>) {
    let mut counts = COUNTS[..entries].to_vec();
    match (plain, counts.first_mut()) {
        (Err(number), _) => (number, counts),
        (Ok(_), None) => (45, counts),
        (Ok(count), Some(first)) => {
            *first = count;
            (0, counts)
        }
    }
}

impl<F: Calls> Comparison<F> {
    /// Images are numbered from `first` on. The longest lists that are lent have the words and bytes of a file three blocks too long.
    pub fn new(seed: u64, first: u64) -> Comparison<F> {
        let blocks = F::MOST + 3;
        Comparison {
            format: PhantomData,
            seed,
            number: first,
            about: "",
            plan: Guarded::new(|i| 0xA5C3 ^ (i as u16).wrapping_mul(0x9E37)),
            bytes: Guarded::new(|i| 0xA5 ^ (i as u8).wrapping_mul(0x37)),
            counts: Guarded::new(|i| 0xA5C3_0000 ^ i.wrapping_mul(0x9E37_79B1)),
            blank_words: (0..blocks * F::ROWS * F::WORDS).map(|i| 0x5A3C ^ (i as u16).wrapping_mul(0x9E37)).collect(),
            blank_bytes: (0..blocks * 512).map(|i| 0x5A ^ (i as u8).wrapping_mul(0x9D)).collect(),
            writes: Tally::new(F::WRITE),
            reads: Tally::new(F::READ),
            images: 0,
        }
    }

    /// The generator of the next image.
    pub fn random(&mut self) -> Random {
        self.number += 1;
        Random::new(self.seed, self.number)
    }

    /// Writes a plan to `room` bytes, with so many entries for the length; the answer.
    pub fn write(&mut self, plan: &[u16], room: usize, entries: usize) -> u32 {
        let mut bytes = self.blank_bytes[..room].to_vec();
        let (number, counts) = counted(plain::write::<F>(plan, &mut bytes), entries);
        if number != 0 {
            bytes.copy_from_slice(&self.blank_bytes[..room]);
        }
        let (out, length) = (self.bytes.lend(&self.blank_bytes[..room]), self.counts.lend(&COUNTS[..entries]));
        let got = F::write_plan(self.plan.lend(plan), out, length);
        self.hold(F::WRITE, got, Due { number, plan, bytes: &bytes, counts: &counts });
        self.writes.add(number);
        number
    }

    /// Reads an image into `room` words, with so many entries for the rows; the answer. One that is taken is written again.
    pub fn read(&mut self, image: &[u8], room: usize, entries: usize) -> u32 {
        let mut plan = self.blank_words[..room].to_vec();
        let (number, counts) = counted(plain::read::<F>(image, &mut plan), entries);
        if number != 0 {
            plan.copy_from_slice(&self.blank_words[..room]);
        }
        let (words, rows) = (self.plan.lend(&self.blank_words[..room]), self.counts.lend(&COUNTS[..entries]));
        let got = F::read_plan(self.bytes.lend(image), words, rows);
        self.hold(F::READ, got, Due { number, plan: &plan, bytes: image, counts: &counts });
        self.reads.add(number);
        self.images += 1;
        if number == 0 {
            let read = self.plan.again()[..counts[0] * F::WORDS].to_vec();
            if self.write(&read, image.len(), 1) != 0 || self.bytes.again() != image {
                self.fail(F::WRITE, "what was read of an image is not written as that image".to_string());
            }
        }
        number
    }

    /// Holds a call's answer and all that it was lent against what is due.
    fn hold(&self, call: &str, got: u32, due: Due) {
        if got != due.number {
            self.fail(call, format!("it answers {got}, due is {}", due.number));
        }
        if let Some((place, is)) = self.plan.difference(due.plan) {
            self.fail(call, format!("answer {got}: word {place} is {is}, due is {:?}", due.plan.get(place as usize)));
        }
        if let Some((place, is)) = self.bytes.difference(due.bytes) {
            self.fail(call, format!("answer {got}: byte {place} is {is}, due is {:?}", due.bytes.get(place as usize)));
        }
        if let Some((place, is)) = self.counts.difference(due.counts) {
            self.fail(call, format!("answer {got}: count {place} is {is}, due is {:?}", due.counts.get(place as usize)));
        }
    }

    /// Prints what was tried and ends the run.
    fn fail(&self, call: &str, what: String) -> ! {
        println!("oracle: {call} differs (seed {}, image {}, {}): {what}", self.seed, self.number, self.about);
        std::process::exit(1);
    }
}
