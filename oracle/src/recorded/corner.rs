// corner.rs: the part of a colour window's list that a line holds: the first columns of its first rows.
use super::Line;
use crate::colour::window::STRIDE;

/// The largest entry that the list can hold; it is refused where it is needed.
pub const LARGEST: i32 = 65535;

pub struct Corner {
    pub rows: usize,
    pub columns: usize,
}

impl Corner {
    /// Makes a list one that a line can hold: 0 outside the corner, and no entry that the line cannot hold.
    pub fn keep(&self, list: &mut [i32]) {
        for (place, entry) in list.iter_mut().enumerate() {
            let inside = place / STRIDE < self.rows && place % STRIDE < self.columns;
            *entry = match *entry {
                _ if !inside => 0,
                entry @ 0..=LARGEST => entry,
                _ => LARGEST,
            };
        }
    }

    /// Adds the corner's entries; those past the list's end are 0.
    pub fn add(&self, line: &mut Line, list: &[i32]) {
        let place = |k: usize| k / self.columns * STRIDE + k % self.columns;
        let entry = |k: usize| list.get(place(k)).copied().unwrap_or(0);
        line.add((0..self.rows * self.columns).map(|k| entry(k).into()));
    }
}

/// A 32-bit number modulo 2^32.
pub fn word(number: i32) -> i64 {
    (number as u32).into()
}
