// main.rs: times the proved library against the original Rust: the same inputs, one driver, ways interleaved, best of many rounds.
#[path = "../../oracle/src/blocks/calls.rs"]
mod block_calls;
#[path = "../../oracle/src/calls.rs"]
mod calls;
#[path = "../../oracle/src/colour/mod.rs"]
#[allow(dead_code)]
mod colour;
#[path = "../../oracle/src/draw.rs"]
#[allow(dead_code)]
mod draw;
#[path = "../../oracle/src/inputs.rs"]
mod inputs;
#[path = "../../oracle/src/original.rs"]
mod original;
#[path = "../../oracle/src/blocks/plain.rs"]
mod plain;
#[path = "../../oracle/src/random.rs"]
mod random;
#[path = "../../oracle/src/refusals.rs"]
#[allow(dead_code)]
mod refusals;
#[path = "../../oracle/src/plan/row.rs"]
mod row;
#[path = "../../oracle/src/spec.rs"]
mod spec;
#[path = "../../oracle/src/tower/calls.rs"]
#[allow(dead_code)]
mod tower_calls;
#[path = "../../oracle/src/tower/row.rs"]
#[allow(dead_code)]
mod tower_row;
#[path = "../../oracle/src/util.rs"]
mod util;

mod blocks;
mod checks;
mod derive_params;
mod directional;
mod edges;
mod job;
mod plan;
mod predict_block;
mod predictors;
mod radio;
mod rows;
mod runner;
mod rust;
mod timing;
mod touches;
mod tower;
mod tower_rows;
mod tower_runner;
mod tower_touches;
mod ways;

const SEED: u64 = 0x4C61_7463_6862_6E63;

fn main() {
    println!("seed {SEED}; ns for one block or window; the last column is the geometric mean of Rust / ours");
    timing::print_sizes("B", &spec::SIZES.map(usize::from));
    predictors::run(SEED);
    directional::run(SEED);
    edges::run(SEED);
    plan::run(SEED);
    derive_params::run(SEED);
    predict_block::run(SEED);
    radio::run(SEED);
    tower::run(SEED);
}
