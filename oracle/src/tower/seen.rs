// seen.rs: what the comparison of plans over three planes has come across, so that it can say that its cases are enough.
use crate::plan::row::{B, D, MODE};
use crate::spec::DEPTHS;
use crate::tower::row::{Row, COLOUR, COLOUR_DIRECTION, HAVE_LEFT, HAVE_TOP, HEIGHT, PLANE, WIDTH};

#[derive(Default)]
pub struct Seen {
    /// Runs that were accepted in another order than the plan's own.
    pub turned: u64,
    /// Orders of small plans, of which all were tried: accepted and refused.
    pub every: [u64; 2],
    /// Pairs of jobs that write to different planes, turned round: accepted and refused.
    pub across: [u64; 2],
    /// Windows whose largest sum is 2147483646, 2147483647 and 2147483648.
    pub limit: [u64; 3],
    /// Plans whose jobs were also done one by one.
    pub plans: u64,
    /// Done jobs of modes 0 to 4 by mode and plane.
    plain: Vec<u64>,
    /// Done colour jobs by depth, direction, plane and neighbours.
    colour: Vec<u64>,
}

impl Seen {
    /// Counts a run's order.
    pub fn order(&mut self, number: u32, order: &[u16]) {
        if number == 0 && !order.iter().enumerate().all(|(i, &index)| i == usize::from(index)) {
            self.turned += 1;
        }
    }

    /// Counts a job; returns how many samples it wrote.
    pub fn job(&mut self, number: u32, row: &Row) -> u64 {
        self.plain.resize(5 * 3, 0);
        self.colour.resize(3 * 3 * 2 * 4, 0);
        if number != 0 {
            return 0;
        }
        let word = |word: usize| usize::from(row[word]);
        if row[MODE] != COLOUR {
            self.plain[3 * word(MODE) + word(PLANE)] += 1;
            return u64::from(row[B]).pow(2);
        }
        let depth = DEPTHS.iter().position(|&d| d == row[D]).unwrap();
        let place = ((3 * depth + word(COLOUR_DIRECTION)) * 2 + word(PLANE) - 1) * 4 + 2 * word(HAVE_TOP) + word(HAVE_LEFT);
        self.colour[place] += 1;
        u64::from(row[WIDTH]) * u64::from(row[HEIGHT])
    }

    /// Prints the counts; ends the run if one of them is 0.
    pub fn print(&self) {
        let ([accepted, refused], [apart, across], [below, at, past]) = (self.every, self.across, self.limit);
        let least = |list: &[u64]| list.iter().copied().min().unwrap_or_default();
        let [plain, colour] = [least(&self.plain), least(&self.colour)];
        println!("{:<19} {} plans; {} runs in another order than the plan's", "", self.plans, self.turned);
        println!("{:<19} all orders of plans of up to four jobs: {accepted} accepted, {refused} refused", "");
        println!("{:<19} pairs on different planes, turned round: {apart} accepted, {across} refused", "");
        println!("{:<19} largest colour sum 2147483646: {below}, 2147483647: {at}, 2147483648: {past}", "");
        println!("{:<19} done jobs: each mode and plane {plain} times or more; colour, each depth, direction, plane, neighbours {colour}", "");
        if [self.plans, self.turned, accepted, refused, apart, across, below, at, past, plain, colour].contains(&0) {
            println!("oracle: one of these never came: the cases are too few");
            std::process::exit(1);
        }
    }
}
