// tally.rs: how many calls were made, and what they answered.

pub struct Tally {
    name: String,
    answers: [u64; 64],
    pub samples: u64,
}

impl Tally {
    pub fn new(name: &str) -> Tally {
        Tally { name: name.to_string(), answers: [0; 64], samples: 0 }
    }

    pub fn add(&mut self, number: u32) {
        self.answers[number as usize] += 1;
    }

    pub fn accepted(&self) -> u64 {
        self.answers[0]
    }

    /// Prints the counts; `unit` says what an accepted call made. Ends the run if one of the due numbers never came.
    pub fn print(&self, unit: &str, due: &[usize]) {
        let refused: Vec<String> =
            due.iter().filter(|&&n| n != 0).map(|&n| format!("{n}: {}", self.answers[n])).collect();
        let samples = if self.samples > 0 { format!(", {} samples", self.samples) } else { String::new() };
        println!("{:<19} {} {unit}{samples}; refused {}", self.name, self.accepted(), refused.join(", "));
        self.often(due, 1);
    }

    /// Ends the run if one of the due numbers came fewer times than `least`.
    pub fn often(&self, due: &[usize], least: u64) {
        if let Some(n) = due.iter().find(|&&n| self.answers[n] < least) {
            println!("oracle: {} answered {n} {} times, not {least}: the cases are too few", self.name, self.answers[*n]);
            std::process::exit(1);
        }
    }
}
