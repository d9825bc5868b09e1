// clashes.rs: which jobs of a plan clash, found sample by sample, and the orders that turn none of these pairs round.
// Two jobs clash where one's writes meet the other's reads or writes. "A job that fails 1 to 7 reads and writes nothing; one that 8 would
// refuse still counts for clashes as reading and writing all of these."
use crate::plan::row::{self, Row};
use crate::plan::rules;
use crate::random::Random;
use crate::refusals;

/// Who writes and who reads each place of a plane, of 64 jobs at a time, one bit each; all zero between two uses.
#[derive(Default)]
pub struct Marks {
    writers: Vec<u64>,
    readers: Vec<u64>,
}

/// The places that a job reads and those that it writes; none of either where it fails 1 to 7.
#[derive(Default)]
pub struct Touched {
    pub read: Vec<usize>,
    pub written: Vec<usize>,
}

impl Touched {
    pub fn of(row: &Row, width: usize, height: usize, differences: usize) -> Touched {
        let mut touched = Touched::default();
        if rules::job(row, width, height, differences) == 0 {
            let block = row::spec(row, width, height);
            refusals::places(&block, &mut touched.read);
            let samples = (0..block.b).flat_map(|r| (0..block.b).map(move |c| (r, c)));
            touched.written.extend(samples.map(|(r, c)| usize::from(block.y + r) * width + usize::from(block.x + c)));
        }
        touched
    }
}

/// For each job a bit for each job that it clashes with.
pub struct Clashes {
    jobs: usize,
    bits: Vec<Vec<u64>>,
}

impl Clashes {
    pub fn none() -> Clashes {
        Clashes { jobs: 0, bits: Vec::new() }
    }

    pub fn of(rows: &[Row], width: usize, height: usize, differences: usize, marks: &mut Marks) -> Clashes {
        let touched: Vec<Touched> = rows.iter().map(|row| Touched::of(row, width, height, differences)).collect();
        Clashes::between(&touched, width * height, marks)
    }

    /// The clashes of jobs that touch places below a number.
    pub fn between(touched: &[Touched], places: usize, marks: &mut Marks) -> Clashes {
        if marks.writers.len() < places {
            *marks = Marks { writers: vec![0; places], readers: vec![0; places] };
        }
        let mut clashes = Clashes { jobs: touched.len(), bits: vec![Vec::new(); touched.len()] };
        for part in touched.chunks(64) {
            for (bit, job) in part.iter().enumerate() {
                job.written.iter().for_each(|&place| marks.writers[place] |= 1 << bit);
                job.read.iter().for_each(|&place| marks.readers[place] |= 1 << bit);
            }
            for (met, job) in clashes.bits.iter_mut().zip(touched) {
                let by_writes = job.written.iter().fold(0, |met, &place| met | marks.writers[place] | marks.readers[place]);
                met.push(job.read.iter().fold(by_writes, |met, &place| met | marks.writers[place]));
            }
            for job in part {
                job.written.iter().for_each(|&place| marks.writers[place] = 0);
                job.read.iter().for_each(|&place| marks.readers[place] = 0);
            }
        }
        clashes
    }

    /// Whether two different jobs clash.
    pub fn pair(&self, i: usize, j: usize) -> bool {
        self.bits[i][j / 64] >> (j % 64) & 1 == 1
    }

    /// The pairs that clash, the earlier row first.
    pub fn pairs(&self) -> Vec<(usize, usize)> {
        (0..self.jobs).flat_map(|j| (0..j).filter(move |&i| self.pair(i, j)).map(move |i| (i, j))).collect()
    }

    /// Whether an order, which holds each job's index once, keeps every clashing pair as the plan has it.
    pub fn allow(&self, order: &[u16]) -> bool {
        let mut done = vec![false; self.jobs];
        order.iter().map(|&index| usize::from(index)).all(|job| {
            done[job] = true;
            (0..job).all(|before| done[before] || !self.pair(before, job))
        })
    }

    /// A random order that keeps every clashing pair.
    pub fn any_order(&self, random: &mut Random) -> Vec<u16> {
        let mut waits: Vec<usize> = (0..self.jobs).map(|j| (0..j).filter(|&i| self.pair(i, j)).count()).collect();
        let mut ready: Vec<usize> = (0..self.jobs).filter(|&j| waits[j] == 0).collect();
        let mut order = Vec::new();
        while !ready.is_empty() {
            let job = ready.swap_remove(random.below(ready.len()));
            order.push(job as u16);
            for later in (job + 1..self.jobs).filter(|&later| self.pair(job, later)) {
                waits[later] -= 1;
                if waits[later] == 0 {
                    ready.push(later);
                }
            }
        }
        order
    }
}
