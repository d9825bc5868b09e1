// mod.rs: what the colour calls are about: windows and blocks, their samples, the refusals due, the Rust's answers, and draws.
pub mod block;
pub mod count;
pub mod draw;
pub mod fill;
pub mod original;
pub mod params;
pub mod refusals;
pub mod sums;
pub mod window;
