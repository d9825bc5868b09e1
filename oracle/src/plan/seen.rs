// seen.rs: what the comparison of plans has come across, so that it can say that its cases are enough.
use crate::plan::row::{B, D, DELTA, DIRECTION, FLAGS, MODE, TURNED};
use crate::spec::{ABOVE, DEPTHS, LEFT, SIZES};

#[derive(Default)]
pub struct Seen {
    /// Runs that were accepted in another order than the plan's own.
    pub turned: u64,
    /// Orders of small plans, of which all were tried: accepted and refused.
    pub every: [u64; 2],
    /// Plans that were drawn.
    pub plans: u64,
    /// Done jobs by mode, the directions with their deltas.
    modes: Vec<u64>,
    /// Done jobs by size, depth and neighbours.
    blocks: Vec<u64>,
}

impl Seen {
    /// Counts a run's order.
    pub fn order(&mut self, number: u32, order: &[u16]) {
        if number == 0 && !order.iter().enumerate().all(|(i, &index)| i == usize::from(index)) {
            self.turned += 1;
        }
    }

    /// Counts a job.
    pub fn job(&mut self, number: u32, row: &[u16]) {
        self.modes.resize(4 + 56, 0);
        self.blocks.resize(60, 0);
        if number != 0 {
            return;
        }
        let turned = usize::from(4 + row[DIRECTION].min(7) * 7 + row[DELTA].min(6));
        self.modes[if row[MODE] < TURNED { row[MODE].into() } else { turned }] += 1;
        let place = |list: &[u16], word: u16| list.iter().position(|&entry| entry == word).unwrap();
        let neighbours = usize::from(row[FLAGS] & (ABOVE | LEFT));
        self.blocks[(place(&SIZES, row[B]) * 3 + place(&DEPTHS, row[D])) * 4 + neighbours] += 1;
    }

    /// Prints the counts; ends the run if one of them is 0.
    pub fn print(&self) {
        let [accepted, refused] = self.every;
        let least = |list: &[u64]| list.iter().copied().min().unwrap_or_default();
        let [modes, blocks] = [least(&self.modes), least(&self.blocks)];
        println!("{:<19} {} plans; {} runs in another order than the plan's", "", self.plans, self.turned);
        println!("{:<19} all orders of plans of up to six jobs: {accepted} accepted, {refused} refused", "");
        println!("{:<19} done jobs: each mode and angle {modes} times or more, each size, depth and pair of neighbours {blocks}", "");
        if [self.plans, self.turned, accepted, refused, modes, blocks].contains(&0) {
            println!("oracle: one of these never came: the cases are too few");
            std::process::exit(1);
        }
    }
}
