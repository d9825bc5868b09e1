// paper.rs: document 01's numbers on paper for colour: cases 12 to 14 hold of the Rust, case 15 and its neighbours of the call.
use crate::colour::window::{chroma_most, Window};
use crate::colour::{count, original};
use crate::derive_params::hold::{Case, Comparison};

fn window(ref_width: usize, ref_height: usize, above_lines: usize, left_lines: usize, d: u32) -> Window {
    Window { ref_width, ref_height, above_lines, left_lines, direction: 0, d }
}

/// Holds a window of `samples` with all luma alike, at either end of chroma and in every direction, against one answer.
fn flat(comparison: &mut Comparison, window: Window, samples: usize, luma: i32, due: u32) {
    assert_eq!(window.counted().count(), samples);
    for (direction, chroma) in [(0, 0), (0, luma >> 3), (1, 0), (2, luma >> 3)] {
        let lists = [vec![luma; window.entries()], vec![chroma; window.entries()]];
        let case = Case::new(Window { direction, ..window }, lists);
        comparison.hold_near_limit(&case);
        let got = comparison.hold(&case);
        if got != due {
            println!("oracle: {samples} samples of luma {luma} at D {} get {got}, and {due} is due", window.d);
            std::process::exit(1);
        }
    }
}

/// Case 15 in the shapes that hold its counts, and the same turn of the sums at other depths and with all luma 0.
fn case_15(comparison: &mut Comparison) {
    let shapes = [
        (window(130, 3, 2, 0, 12), 128, 32760, 0),
        (window(131, 3, 2, 0, 12), 129, 32760, 14),
        (window(3, 130, 0, 2, 12), 128, 32767, 0),
        (window(3, 131, 0, 2, 12), 129, 32767, 14),
        (window(173, 14, 256, 0, 10), 2052, 8184, 0),
        (window(11, 231, 222, 9, 10), 2053, 8184, 14),
    ];
    for (window, samples, luma, due) in shapes {
        flat(comparison, window, samples, luma, due);
    }
    println!("paper case 15       accepted, refused (14): D 12, luma 32760: 128, 129 samples; D 10, luma 8184: 2052, 2053");
    for (d, samples, luma) in [(8, 33025, 8 * chroma_most(8)), (10, 8191, 0), (12, 511, 0)] {
        for (samples, due) in [(samples, 0), (samples + 1, 14)] {
            let window = count::window(&mut comparison.random(), samples, 0, d);
            flat(comparison, window, samples, luma, due);
        }
    }
    println!("its neighbours      the same: D 8, luma 2040: 33025, 33026; D 10, luma 0: 8191, 8192; D 12, luma 0: 511, 512");
}

/// Cases 12 to 14, of the Rust's own product and division.
fn cases_12_to_14() {
    let product = original::mul_fixed32_adapt;
    assert_eq!(product(-32768, 1, 16), -1, "paper case 12");
    assert_eq!(product(1_048_640, 1_048_576, 16), 16_778_240, "paper case 13");
    assert_eq!(product(1_048_576, 1_048_640, 16), 16_777_216, "paper case 13, factors exchanged");
    let (scale, _, shift) = original::division_scale_shift(1);
    assert_eq!((scale, shift), (65524, 0), "paper case 14");
    println!("paper cases 12 to 14 hold of the Rust's product and division");
}

pub fn all(comparison: &mut Comparison) {
    cases_12_to_14();
    case_15(comparison);
}
