// elimination.rs: the elimination alone, an inner function, on any nine sums in 0..2^22, also such as no window has.
use crate::colour::original;
use crate::random::Random;
use crate::spec::DEPTHS;

/// Eliminations at scale 1.
const DRAWN: f64 = 2_000_000.0;
const MOST: i32 = 1 << 22;

/// The nine sums as the crate `elimination` has them: the upper half of a matrix, row by row, and the right side.
#[repr(C)]
#[derive(Clone, Copy, Debug)]
struct Sums {
    a: [i32; 6],
    y: [i32; 3],
}

#[repr(C)]
struct Params {
    x: [i32; 3],
}

extern "C" {
    fn gauss_elimination(s: Sums, reg: i32) -> Params;
}

/// One sum: mostly any, and often one at which something turns: an end, a power of two, a number beside one, a small one.
fn sum(random: &mut Random) -> i32 {
    match random.below(8) {
        0 => random.pick(&[0, 1, MOST - 1, MOST]),
        1 => 1 << random.below(23),
        2 => ((1 << random.below(23)) + random.within(-1, 1)).min(MOST),
        3 => random.within(0, 40),
        _ => random.within(0, MOST),
    }
}

/// Nine sums; now and then rows that are alike or zero, whose pivots come out as 0, or negative.
fn sums(random: &mut Random) -> Sums {
    let mut s = Sums { a: [0; 6].map(|_| sum(random)), y: [0; 3].map(|_| sum(random)) };
    match random.below(6) {
        0 => s.a = [s.a[0]; 6],
        1 => (s.a[1], s.a[3], s.a[4]) = (s.a[0], s.a[0], s.a[2]),
        2 => (s.a[0], s.a[1], s.a[2]) = (0, 0, 0),
        _ => (),
    }
    s
}

/// Compares the function; prints its count and returns it.
pub fn compare(seed: u64, scale: f64) -> u64 {
    let turns = (DRAWN * scale).ceil() as u64;
    for turn in 0..turns {
        let mut random = Random::new(seed ^ 0x67, turn);
        let s = sums(&mut random);
        let d = i32::from(random.pick(&DEPTHS));
        let [a00, a01, a02, a11, a12, a22] = s.a;
        let mut due = [0; 3];
        original::gauss_elimination(&[[a00, a01, a02], [0, a11, a12], [0, 0, a22]], &s.y, d, &mut due);
        // SAFETY: the sums are in 0..2^22 and the regulariser is the depth's, which is all that the function asks for.
        let got = unsafe { gauss_elimination(s, 2 << (d - 8)) }.x;
        if got != due {
            println!("oracle: the elimination of {s:?} at D {d} gives {got:?}, and {due:?} is due");
            std::process::exit(1);
        }
    }
    println!("{:<19} {turns} systems", "gauss_elimination");
    turns
}
