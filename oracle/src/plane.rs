// plane.rs: a plane of samples that is lent to a call, with a copy to see that the call leaves it as it is.

pub struct Plane {
    pub width: usize,
    pub height: usize,
    lent: Vec<f32>,
    copy: Vec<u32>,
    len: usize,
}

impl Plane {
    pub fn new(width: usize, height: usize, mut sample: impl FnMut() -> f32) -> Plane {
        // One sample more than the plane has, for a call that is lent too many.
        let lent: Vec<f32> = (0..width * height + 1).map(|_| sample()).collect();
        let copy = lent.iter().map(|v| v.to_bits()).collect();
        Plane { width, height, lent, copy, len: width * height }
    }

    /// What is lent to a call.
    pub fn floats(&self) -> &[f32] {
        &self.lent[..self.len]
    }

    /// Lends one sample more or less than the plane has, or, for 0, the plane.
    pub fn lend_more(&mut self, more: isize) {
        self.len = (self.width * self.height).wrapping_add_signed(more);
    }

    /// Sets a sample and returns the one that stood there; a place outside is none.
    pub fn set(&mut self, place: usize, sample: f32) -> f32 {
        if place >= self.lent.len() {
            return sample;
        }
        self.copy[place] = sample.to_bits();
        std::mem::replace(&mut self.lent[place], sample)
    }

    /// The first place whose bits are not as they were.
    pub fn changed(&self) -> Option<usize> {
        // f32 and u32 have the same size and alignment, and every bit pattern is a u32.
        let now: &[u32] = unsafe { std::slice::from_raw_parts(self.lent.as_ptr().cast(), self.lent.len()) };
        if now == self.copy { None } else { (0..now.len()).find(|&i| now[i] != self.copy[i]) }
    }

    /// Prints the samples at the places that are read, and a small plane whole, as bits.
    pub fn print(&self, read: &[usize]) {
        let show = |i: usize| format!("{i}:{:08x}", self.copy[i]);
        println!("samples read (place:bits): {}", read.iter().map(|&i| show(i)).collect::<Vec<_>>().join(" "));
        if self.len <= 1024 {
            println!("plane (place:bits): {}", (0..self.len).map(show).collect::<Vec<_>>().join(" "));
        }
    }
}
