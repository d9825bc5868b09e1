// spec.rs: the parameters of the calls, and the sizes, depths and modes there are.

pub const SIZES: [u16; 5] = [4, 8, 16, 32, 64];
pub const DEPTHS: [u16; 3] = [8, 10, 12];

/// What a direct predictor call predicts by: a plain name, or the words of a direction.
#[derive(Clone, Copy, Debug, PartialEq)]
pub enum Mode {
    Paeth,
    Smooth,
    SmoothV,
    SmoothH,
    #[allow(dead_code)]
    Directional(Words),
}

/// The modes that are plain names.
pub const MODES: [Mode; 4] = [Mode::Paeth, Mode::Smooth, Mode::SmoothV, Mode::SmoothH];

/// The words that `latch_directional` alone takes; `delta` is delta + 3.
#[derive(Clone, Copy, Debug, PartialEq)]
pub struct Words {
    pub direction: u16,
    pub delta: u16,
    pub flags: u16,
    pub max_width: u16,
    pub max_height: u16,
}

pub const DIRECTIONS: u16 = 8;
pub const DELTAS: u16 = 7;
#[allow(dead_code)]
pub const FLAG_SETS: u16 = 32;

pub const ABOVE: u16 = 1;
pub const LEFT: u16 = 2;
pub const LUMA: u16 = 4;
pub const EDGE_FILTER: u16 = 8;
pub const SMOOTH_NEIGHBOUR: u16 = 16;

/// The names of what `Words::zone` tells apart.
#[allow(dead_code)]
pub const ZONES: [&str; 4] = ["copies", "zone 1", "zone 2", "zone 3"];

impl Words {
    pub fn has(&self, flag: u16) -> bool {
        self.flags & flag != 0
    }

    /// The direction's degrees plus 3 times delta.
    pub fn angle(&self) -> i32 {
        let degrees = [90, 180, 45, 135, 113, 157, 203, 67];
        degrees[usize::from(self.direction)] + 3 * (i32::from(self.delta) - 3)
    }

    /// The zone of the angle, or 0 where an edge is copied.
    #[allow(dead_code)]
    pub fn zone(&self) -> usize {
        match self.angle() {
            90 | 180 => 0,
            ..90 => usize::from(self.has(ABOVE)),
            ..180 => 2,
            _ => if self.has(LEFT) { 3 } else { 0 },
        }
    }
}

/// The parameters of `latch_build_refs`, but for its slices.
#[derive(Clone, Copy, Debug)]
pub struct Spec {
    pub width: usize,
    pub height: usize,
    pub x: u16,
    pub y: u16,
    pub b: u16,
    pub d: u16,
    pub have_above: bool,
    pub have_left: bool,
    pub top_right: u16,
    pub bottom_left: u16,
    pub available_above: u16,
    pub available_left: u16,
    pub base: u16,
}

/// M, the largest sample of a depth.
pub fn most(d: u16) -> i32 {
    (1 << d) - 1
}
