// directional.rs: times directions, zone by zone: luma and chroma, with and without the edge filter. Angles and depths are mixed.
use crate::inputs::{fill_edge, KINDS, RANDOM};
use crate::original::{directional_spec, Dir, DirectionalSpec};
use crate::random::Random;
use crate::spec::{
    most, Words, ABOVE, DELTAS, DEPTHS, DIRECTIONS, EDGE_FILTER, LEFT, LUMA, SIZES, SMOOTH_NEIGHBOUR, ZONES,
};
use crate::timing::mean;
use crate::ways::{print_ways, three_ways};
use crate::{blocks, calls, rust};

const INPUTS: usize = 96;

/// The blocks that are told apart in a zone, and their flags.
const VARIANTS: [(&str, u16); 4] = [
    ("luma, edge filter", LUMA | EDGE_FILTER),
    ("luma", LUMA),
    ("chroma, edge filter", EDGE_FILTER),
    ("chroma", 0),
];

struct Input {
    d: u16,
    words: Words,
    rust: (Dir, DirectionalSpec),
    above: Vec<i32>,
    left: Vec<i32>,
    corner: i32,
}

/// Words of a zone, with both neighbours there and max words B; the angle and the smooth neighbour are drawn.
fn words(random: &mut Random, b: u16, zone: usize, flags: u16) -> Words {
    loop {
        let words = Words {
            direction: random.below(DIRECTIONS.into()) as u16,
            delta: random.below(DELTAS.into()) as u16,
            flags: flags | ABOVE | LEFT | random.pick(&[SMOOTH_NEIGHBOUR, 0]),
            max_width: b,
            max_height: b,
        };
        if words.zone() == zone {
            return words;
        }
    }
}

fn input(random: &mut Random, b: u16, zone: usize, flags: u16) -> Input {
    let d = random.pick(&DEPTHS);
    let words = words(random, b, zone, flags);
    let mut edge = || {
        let kind = if random.once_in(4) { random.below(KINDS) } else { RANDOM };
        let mut entries = vec![0; 2 * usize::from(b)];
        fill_edge(random, kind, most(d), &mut entries);
        entries
    };
    let (above, left) = (edge(), edge());
    Input { d, words, rust: directional_spec(&words, b, d), above, left, corner: random.within(0, most(d)) }
}

fn times(random: &mut Random, b: u16, zone: usize, flags: u16) -> [f64; 3] {
    let set: Vec<Input> = (0..INPUTS).map(|_| input(random, b, zone, flags)).collect();
    three_ways(
        b,
        &set,
        |i, out| rust::directional_into(i.rust.0, &i.above, &i.left, i.corner, &i.rust.1, out),
        |i, out| calls::directional(i.words, b, i.d, &i.above, &i.left, i.corner, out),
        |i, out| blocks::directional_into(b.into(), &i.words, most(i.d), &i.above, &i.left, i.corner, out),
    )
}

/// The geometric means of Rust / ours over many blocks' times: the public call's and the block function's.
fn print_means(name: &str, times: &[[f64; 3]]) {
    let of = |way: usize| mean(&times.iter().map(|ways| ways[0] / ways[way]).collect::<Vec<_>>());
    println!("{name}, mean of Rust / ours: latch_directional {:.2}, directional_into {:.2}", of(1), of(2));
}

pub fn run(seed: u64) {
    let mut random = Random::new(seed, 2000);
    let mut all = Vec::new();
    for (zone, name) in ZONES.into_iter().enumerate() {
        let first = all.len();
        for (variant, flags) in VARIANTS {
            println!("{name}, {variant}:");
            let by_size = SIZES.map(|b| times(&mut random, b, zone, flags));
            print_ways("directional_into", "latch_directional", &by_size);
            all.extend(by_size);
        }
        print_means(name, &all[first..]);
    }
    print_means("all directions", &all);
}
