// util.rs: what the original Rust asks of the rest of its program: rounding the neutral value, which is whole here.

pub trait FastRound {
    fn fast_round(self) -> f32;
}

impl FastRound for f32 {
    fn fast_round(self) -> f32 {
        assert!(self.fract() == 0.0, "the neutral value is whole");
        self
    }
}
