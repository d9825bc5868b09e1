// sums.rs: the nine colour sums, in 64 bits, and the terms that they are made of.
use crate::colour::window::Window;

/// The largest sum that is taken.
pub const LIMIT: i64 = 2_147_483_647;

/// 2^(D-1), the third term.
pub fn mid(d: u32) -> i64 {
    2i64.pow(d - 1)
}

/// The second term, of the centre's luma.
pub fn square(centre: i64, d: u32) -> i64 {
    (centre * centre + mid(d)).div_euclid(2i64.pow(d))
}

/// The six sums of products of terms and the three with chroma.
pub fn sums(window: &Window, luma: &[i32], chroma: &[i32]) -> [i64; 9] {
    let mut sums = [0; 9];
    for place in window.counted() {
        let centre = i64::from(luma[place]).div_euclid(8);
        let first = i64::from(luma[window.beside(place)]).div_euclid(8);
        let (second, third, y) = (square(centre, window.d), mid(window.d), i64::from(chroma[place]));
        let products = [
            first * first, first * second, first * third, second * second, second * third, third * third,
            first * y, second * y, third * y,
        ];
        sums.iter_mut().zip(products).for_each(|(sum, product)| *sum += product);
    }
    sums
}

/// The largest of the nine.
pub fn largest(window: &Window, luma: &[i32], chroma: &[i32]) -> i64 {
    sums(window, luma, chroma).into_iter().fold(0, i64::max)
}
