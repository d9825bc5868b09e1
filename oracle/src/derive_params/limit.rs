// limit.rs: windows whose largest sum lies at the limit of refusal 14 or next to it, for each sum that can be the largest.
// A product of two terms is never larger than both squares, so these are the three sums of squares and the three with chroma.
use crate::colour::sums::{mid, square, LIMIT};
use crate::colour::window::{chroma_most, Window};
use crate::colour::{count, draw};
use crate::derive_params::hold::Case;
use crate::random::Random;

/// The sums: of the first, second and third term, each by itself and by chroma.
#[derive(Clone, Copy, PartialEq)]
pub enum Sum {
    First,
    Second,
    Third,
    FirstChroma,
    SecondChroma,
    ThirdChroma,
}

/// The sums that can reach the limit at a depth: at 8 bits only the largest products do; a second term that is larger than
/// the first needs neighbours that do not count, and those are few.
pub fn reachable(d: u32) -> &'static [Sum] {
    match d {
        8 => &[Sum::First, Sum::FirstChroma],
        10 => &[Sum::First, Sum::Third, Sum::FirstChroma, Sum::ThirdChroma],
        _ => &[Sum::First, Sum::Second, Sum::Third, Sum::FirstChroma, Sum::SecondChroma, Sum::ThirdChroma],
    }
}

/// Terms and chroma values whose products add up to `total`: large ones, then smaller and smaller ones. `term` gives the
/// largest term up to a number that there is; without a chroma value the products are squares.
fn products(total: i64, cap: i64, chroma: Option<i64>, term: impl Fn(i64) -> i64) -> Vec<(i64, i64)> {
    let mut rest = total;
    let mut pairs = Vec::new();
    while rest > 0 {
        let (v, y) = match chroma {
            Some(c) => (term((rest / c.min(rest)).min(cap)), c.min(rest)),
            None => (term(((rest as f64).sqrt() as i64).min(cap)), 0),
        };
        rest -= v * if chroma.is_some() { y } else { v };
        pairs.push((v, y));
    }
    pairs
}

/// The centre whose second term is the largest up to a number.
fn centre_of(v: i64, d: u32) -> i64 {
    let mut centre = (((v + 1) << d) as f64).sqrt() as i64;
    while square(centre, d) > v {
        centre -= 1;
    }
    centre.min(chroma_most(d).into())
}

/// The pairs of a sum that comes to `LIMIT + past`, or as near to it as the sum gets.
fn pairs(random: &mut Random, sum: Sum, past: i64, d: u32) -> Vec<(i64, i64)> {
    let (m, third) = (i64::from(chroma_most(d)), mid(d));
    let high = random.within((m * 19 / 20) as i32, m as i32).into();
    let nearest = (LIMIT + past.signum().max(0) * third) / third;
    match sum {
        Sum::First => products(LIMIT + past, high, None, |v| v),
        Sum::Second => products(LIMIT + past, high, None, |v| square(centre_of(v, d), d)),
        Sum::Third => vec![(0, 0); (LIMIT / (third * third) + i64::from(past > 0)) as usize],
        Sum::FirstChroma => products(LIMIT + past, high * 19 / 20, Some(m), |v| v),
        Sum::SecondChroma => products(LIMIT + past, high * 19 / 20, Some(m), |v| square(centre_of(v, d), d)),
        Sum::ThirdChroma => products(nearest, 1, Some(high), |v| v),
    }
}

/// A window for a number of samples; a second term larger than the first wants one row, or one column, of them.
fn shape(random: &mut Random, sum: Sum, samples: usize, d: u32) -> Window {
    if !matches!(sum, Sum::Second | Sum::SecondChroma) {
        let direction = draw::direction(random);
        return count::window(random, samples, direction, d);
    }
    let lines = random.within(2, 256) as usize;
    if random.once_in(2) {
        Window { ref_width: samples + 2, ref_height: 3, above_lines: lines, left_lines: 0, direction: 1, d }
    } else {
        Window { ref_width: 3, ref_height: samples + 2, above_lines: 0, left_lines: lines, direction: 2, d }
    }
}

/// A window whose largest sum is meant to be `LIMIT + past`.
pub fn window(random: &mut Random, sum: Sum, past: i64, d: u32) -> Case {
    let mut pairs = pairs(random, sum, past, d);
    if sum != Sum::Third {
        let room = if matches!(sum, Sum::Second | Sum::SecondChroma) { count::SIDE } else { count::MOST };
        let most = room.min((LIMIT / mid(d).pow(2)) as usize);
        let more = random.below(most - pairs.len() + 1).min(40);
        pairs.resize(pairs.len() + more, (0, 0));
    }
    for i in (1..pairs.len()).rev() {
        pairs.swap(i, random.below(i + 1));
    }
    let window = shape(random, sum, pairs.len(), d);
    let mut lists = [vec![0; window.entries()], vec![0; window.entries()]];
    for (place, (term, chroma)) in window.counted().zip(pairs) {
        let low = random.within(0, 7);
        match sum {
            Sum::Second | Sum::SecondChroma => lists[0][place] = centre_of(term, d) as i32 * 8 + low,
            Sum::ThirdChroma => lists[0][place] = low,
            _ => lists[0][window.beside(place)] = term as i32 * 8 + low,
        }
        lists[1][place] = chroma as i32;
    }
    Case::new(window, lists)
}
