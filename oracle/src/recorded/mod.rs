// mod.rs: the cases of the recorded list, each printed as one line of text.
mod corner;
pub mod derive_params;
pub mod directional;
pub mod edges;
pub mod plans;
pub mod predict_block;
pub mod predictors;

use std::fmt::Write;

/// A case under way: its line, as far as it is written.
pub struct Line(String);

impl Line {
    pub fn new(letter: char, numbers: &[usize]) -> Line {
        let mut line = Line(letter.to_string());
        line.add(numbers.iter().map(|&n| n as i64));
        line
    }

    pub fn add(&mut self, numbers: impl Iterator<Item = i64>) {
        numbers.for_each(|n| write!(self.0, " {n}").expect("a string takes any text"));
    }

    pub fn print(&self) {
        println!("{}", self.0);
    }
}
