// main.rs: holds the proved library against the original Rust, and on plans' files against plain Rust of our own. Two arguments: the scale, of
// which 1 is the usual run, and the project's root.
mod blocks;
mod calls;
mod colour;
mod derive_params;
mod direct;
mod directional;
mod draw;
mod edges;
mod elimination;
mod guard;
mod inputs;
mod original;
mod plan;
mod plane;
mod predict_block;
mod predictors;
mod random;
mod refusals;
mod spec;
mod still;
mod tally;
mod tower;
mod util;

const SEED: u64 = 0x4C61_7463_686F_7263;

fn main() {
    let word = std::env::args().nth(1).unwrap_or_default();
    let Some(scale) = word.parse::<f64>().ok().filter(|s| *s > 0.0) else {
        println!("oracle: the scale is a number above 0, not {word:?}");
        std::process::exit(2);
    };
    println!("oracle: seed {SEED}, scale {scale}");
    // plans take as long as all the rest, and share nothing with it
    let plans = std::thread::spawn(move || plan::compare(SEED, scale));
    let towers = std::thread::spawn(move || tower::compare(SEED, scale));
    let samples = predictors::compare(SEED, scale) + directional::compare(SEED, scale);
    let sets = edges::compare(SEED, scale);
    still::compare(&std::env::args().nth(2).unwrap_or_default());
    let windows = derive_params::compare(SEED, scale);
    let colour = predict_block::compare(SEED, scale);
    let solved = elimination::compare(SEED, scale);
    let images = blocks::compare(SEED, scale);
    let towers = towers.join().expect("the comparison of plans over three planes ends");
    let plans = plans.join().expect("the comparison of plans ends");
    print!("oracle: {samples} predicted samples, {sets} edge sets, ");
    print!("{windows} colour windows, {colour} colour samples, {solved} eliminations, ");
    println!("{plans} plans, {images} block images, {towers} plans over three planes, 0 differences");
}
