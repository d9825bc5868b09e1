// block.rs: a block to be predicted: the parameters of a prediction, and the luma places that it needs.
use crate::colour::window::{Window, STRIDE};

#[derive(Clone, Copy, Debug)]
pub struct Block {
    pub window: Window,
    pub width: usize,
    pub height: usize,
    pub have_top: bool,
    pub have_left: bool,
    pub params: [i32; 3],
}

impl Block {
    /// The samples that it has.
    pub fn samples(&self) -> usize {
        self.width * self.height
    }

    /// The places of the centre and of the direction's luma for each sample, row by row; a missing neighbour is the centre.
    pub fn places(&self) -> impl Iterator<Item = (usize, usize)> + '_ {
        (0..self.height).flat_map(move |row| {
            (0..self.width).map(move |column| {
                let centre = (self.window.above_lines + row) * STRIDE + self.window.left_lines + column;
                let there = match self.window.direction {
                    1 => row > 0 || self.have_top,
                    2 => column > 0 || self.have_left,
                    _ => false,
                };
                (centre, if there { self.window.beside(centre) } else { centre })
            })
        })
    }
}
