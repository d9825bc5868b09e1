// ways.rs: the three ways to make a block: the Rust's function, the public call and our block function.
use crate::timing::{best, lent, over, print_ratios, print_times};
use std::hint::black_box;

/// Sees that the three ways agree bit for bit, then times them.
pub fn three_ways<T>(
    b: u16,
    set: &[T],
    rust: impl Fn(&T, &mut [f32]),
    public: impl Fn(&T, &mut [f32]) -> u32,
    block: impl Fn(&T, &mut [f32]),
) -> [f64; 3] {
    let n = usize::from(b) * usize::from(b);
    let (mut first, mut second, mut third) = (vec![-1f32; n], vec![-1f32; n], vec![-1f32; n]);
    for input in set {
        rust(input, &mut first);
        assert!(public(input, &mut second) == 0, "the public call refuses");
        block(input, &mut third);
        let same = |other: &[f32]| first.iter().zip(other).all(|(p, q)| p.to_bits() == q.to_bits());
        assert!(same(&second), "the public call differs at B {b}");
        assert!(same(&third), "the block function differs at B {b}");
    }
    best(
        set.len(),
        [
            &mut |loops| over(set, loops, |e| rust(black_box(e), lent(&mut first))),
            &mut |loops| over(set, loops, |e| _ = black_box(public(black_box(e), lent(&mut second)))),
            &mut |loops| over(set, loops, |e| block(black_box(e), lent(&mut third))),
        ],
    )
}

/// The rows of one predictor, a column for each size; `times` has the three ways of each.
pub fn print_ways(block: &str, public: &str, times: &[[f64; 3]; 5]) {
    let column = |way: usize| times.map(|ways| ways[way]);
    print_times(&format!("Rust {block}"), &column(0));
    print_times(&format!("ours {public}"), &column(1));
    print_ratios(&column(0), &column(1));
    print_times(&format!("ours {block}"), &column(2));
    print_ratios(&column(0), &column(2));
}
