// guarded.rs: a list that is lent with given entries between two guards, to see what a call changes.

const GUARD: usize = 24;

pub struct Guarded<T> {
    entries: Vec<T>,
    guard: fn(usize) -> T,
    len: usize,
}

impl<T: Copy + PartialEq> Guarded<T> {
    pub fn new(guard: fn(usize) -> T) -> Guarded<T> {
        Guarded { entries: Vec::new(), guard, len: 0 }
    }

    /// Lends these entries.
    pub fn lend(&mut self, entries: &[T]) -> &mut [T] {
        self.len = entries.len();
        let end = GUARD + self.len;
        if self.entries.len() < end + GUARD {
            self.entries.resize(end + GUARD, (self.guard)(0));
        }
        for i in 0..GUARD {
            self.entries[i] = (self.guard)(i);
            self.entries[end + i] = (self.guard)(GUARD + i);
        }
        self.entries[GUARD..end].copy_from_slice(entries);
        self.again()
    }

    /// Lends the list once more, as it is.
    pub fn again(&mut self) -> &mut [T] {
        &mut self.entries[GUARD..GUARD + self.len]
    }

    /// The first place, counted from the lent start, that is not the due entry or a guard, and what is there.
    pub fn difference(&self, due: &[T]) -> Option<(isize, T)> {
        let end = GUARD + self.len;
        let guards = (0..GUARD).all(|i| self.entries[i] == (self.guard)(i) && self.entries[end + i] == (self.guard)(GUARD + i));
        if guards && self.entries[GUARD..end] == *due {
            return None;
        }
        let at = |i: usize| match i {
            _ if i < GUARD => (self.guard)(i),
            _ if i < end => due[i - GUARD],
            _ => (self.guard)(i - self.len),
        };
        let place = (0..end + GUARD).find(|&i| self.entries[i] != at(i))?;
        Some((place as isize - GUARD as isize, self.entries[place]))
    }
}

impl Guarded<u32> {
    /// Lends the list once more, as samples.
    pub fn floats(&mut self) -> &mut [f32] {
        let words = self.again();
        // f32 and u32 have the same size and alignment, and every bit pattern is an f32.
        unsafe { std::slice::from_raw_parts_mut(words.as_mut_ptr().cast(), words.len()) }
    }
}
