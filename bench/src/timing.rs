// timing.rs: times several ways to do the same work, interleaved, and prints the best of many rounds.
use std::hint::black_box;
use std::time::Instant;

const ROUNDS: usize = 400;
/// About how long one pass lasts, in nanoseconds.
const PASS: f64 = 200_000.0;

/// One way to do the work: called with how often it goes over all inputs.
pub type Pass<'a> = &'a mut dyn FnMut(usize);

/// The best time of each way, in nanoseconds for one input.
pub fn best<const N: usize>(inputs: usize, mut passes: [Pass; N]) -> [f64; N] {
    let time = |pass: &mut Pass, loops: usize| {
        let start = Instant::now();
        pass(loops);
        start.elapsed().as_nanos() as f64 / loops as f64
    };
    let slowest = passes.iter_mut().map(|pass| time(pass, 4).min(time(pass, 4))).fold(1.0, f64::max);
    let loops = (PASS / slowest).ceil() as usize;
    let mut best = [f64::MAX; N];
    for _ in 0..ROUNDS {
        for (least, pass) in best.iter_mut().zip(&mut passes) {
            *least = least.min(time(pass, loops) / inputs as f64);
        }
    }
    best
}

/// Goes over all inputs, `loops` times.
#[inline(always)]
pub fn over<T>(inputs: &[T], loops: usize, mut work: impl FnMut(&T)) {
    for _ in 0..loops {
        for input in inputs {
            work(input);
        }
    }
}

/// A list that the compiler knows nothing of. Only its owner's address is hidden: the two words of a slice, stored one by one and
/// read back at once, would make the call wait.
#[inline(always)]
pub fn lent<T, L: AsMut<[T]>>(list: &mut L) -> &mut [T] {
    black_box(list).as_mut()
}

/// The head of a table: its sizes.
pub fn print_sizes(name: &str, sizes: &[usize]) {
    let cells: String = sizes.iter().map(|size| format!("{size:>10}")).collect();
    println!("{name:<30}{cells}{:>10}", "mean");
}

/// A row of times, one for each size.
pub fn print_times(name: &str, times: &[f64]) {
    let cells: String = times.iter().map(|t| format!("{t:>10.1}")).collect();
    println!("{name:<30}{cells}");
}

/// A row of ratios, Rust / ours, with their geometric mean.
pub fn print_ratios(rust: &[f64], ours: &[f64]) {
    print_named_ratios("    Rust / ours", &rust.iter().zip(ours).map(|(r, o)| r / o).collect::<Vec<_>>());
}

/// A row of ratios with their geometric mean.
pub fn print_named_ratios(name: &str, ratios: &[f64]) {
    let cells: String = ratios.iter().map(|r| format!("{r:>10.2}")).collect();
    println!("{name:<30}{cells}{:>10.2}", mean(ratios));
}

/// The geometric mean.
pub fn mean(ratios: &[f64]) -> f64 {
    (ratios.iter().map(|r| r.ln()).sum::<f64>() / ratios.len() as f64).exp()
}
