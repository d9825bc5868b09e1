// guard.rs: memory that is lent between two guards, all of it a fixed pattern that shows what a call writes.

const GUARD: usize = 24;

pub struct Lent {
    words: Vec<u32>,
    pattern: Vec<u32>,
    len: usize,
}

impl Lent {
    /// Room for `most` entries of 32 bits.
    pub fn new(most: usize) -> Lent {
        let pattern: Vec<u32> = (0..(most + 2 * GUARD) as u32).map(|i| 0xFFA5_0000 ^ i.wrapping_mul(0x9E37_79B1)).collect();
        Lent { words: pattern.clone(), pattern, len: 0 }
    }

    /// Lends `len` entries of pattern, as whole numbers.
    pub fn ints(&mut self, len: usize) -> &mut [i32] {
        let words = self.lend(len);
        // i32 and u32 have the same size and alignment, and every bit pattern is an i32.
        unsafe { std::slice::from_raw_parts_mut(words.as_mut_ptr().cast(), len) }
    }

    /// Lends `len` entries of pattern, as samples.
    pub fn floats(&mut self, len: usize) -> &mut [f32] {
        let words = self.lend(len);
        // f32 and u32 have the same size and alignment, and every bit pattern is an f32.
        unsafe { std::slice::from_raw_parts_mut(words.as_mut_ptr().cast(), len) }
    }

    fn lend(&mut self, len: usize) -> &mut [u32] {
        self.len = len;
        let end = len + 2 * GUARD;
        self.words[..end].copy_from_slice(&self.pattern[..end]);
        &mut self.words[GUARD..GUARD + len]
    }

    /// The first place at which a list that was lent with these entries, or what is around it, is not as it was, and what is there.
    pub fn changed(&self, entries: &[i32]) -> Option<(isize, i32)> {
        let lent = &self.words[GUARD..GUARD + self.len];
        let same = lent.iter().zip(entries).fold(true, |same, (&word, &entry)| same & (word == entry as u32));
        let place = if same { None } else { (0..self.len).find(|&i| lent[i] != entries[i] as u32) };
        match place {
            Some(i) => Some((i as isize, lent[i] as i32)),
            None => {
                let around = self.kept(0..GUARD).or_else(|| self.kept(GUARD + self.len..self.len + 2 * GUARD));
                around.map(|(i, is, _)| (i, is as i32))
            }
        }
    }

    /// The first place of a range that is not the pattern: the place, what is there and what is due.
    fn kept(&self, range: std::ops::Range<usize>) -> Option<(isize, u32, u32)> {
        if self.words[range.clone()] == self.pattern[range.clone()] {
            return None;
        }
        let i = range.clone().find(|&i| self.words[i] != self.pattern[i])?;
        Some((i as isize - GUARD as isize, self.words[i], self.pattern[i]))
    }

    /// The first place, counted from the lent start, that is neither the due entry nor, past those, the pattern:
    /// the place, what is there and what is due.
    pub fn difference(&self, due: impl Iterator<Item = u32>) -> Option<(isize, u32, u32)> {
        let mut place = GUARD;
        for word in due {
            if self.words[place] != word {
                return Some((place as isize - GUARD as isize, self.words[place], word));
            }
            place += 1;
        }
        self.kept(0..GUARD).or_else(|| self.kept(place..self.len + 2 * GUARD))
    }
}
