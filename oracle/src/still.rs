// still.rs: the table and the map that the program `still` prints, worked out by the original Rust on the same picture.
use crate::original;
use crate::spec::{Mode, Spec, Words, ABOVE, DELTAS, DIRECTIONS, EDGE_FILTER, LEFT, LUMA, MODES};

const B: usize = 8;
const LETTERS: [char; 12] = ['P', 'S', 'V', 'H', 'a', 'b', 'c', 'd', 'e', 'f', 'g', 'h'];

/// What a page says of the search: for each letter the blocks and their error, and the map.
#[derive(Debug, PartialEq)]
struct Page {
    table: Vec<(String, u64, u64)>,
    map: Vec<String>,
}

struct Picture {
    samples: Vec<f32>,
    width: usize,
    height: usize,
    d: u16,
}

/// A plain greymap.
fn picture(text: &str) -> Picture {
    let lines = text.lines().map(|line| line.split('#').next().unwrap());
    let mut words = lines.flat_map(str::split_ascii_whitespace).skip(1).map(|w| w.parse::<u16>().expect("a number"));
    let (width, height) = (usize::from(words.next().unwrap()), usize::from(words.next().unwrap()));
    let d = 16 - words.next().unwrap().leading_zeros() as u16;
    let samples: Vec<f32> = words.map(f32::from).collect();
    assert_eq!(samples.len(), width * height);
    Picture { samples, width, height, d }
}

/// The predictors that are tried, each with its line of the table, in the order of their numbers.
fn candidates(flags: u16) -> Vec<(usize, Mode)> {
    let directed = |direction, delta| Mode::Directional(Words { direction, delta, flags, max_width: 0, max_height: 0 });
    let directions = (0..DIRECTIONS).flat_map(|k| (0..DELTAS).map(move |delta| (MODES.len() + usize::from(k), directed(k, delta))));
    MODES.into_iter().enumerate().chain(directions).collect()
}

/// The line of the predictor that comes nearest to the block at a column and a row, the first of them on a tie, and its error.
fn nearest(p: &Picture, x: usize, y: usize) -> (usize, u64) {
    let b = B as u16;
    let spec = Spec {
        width: p.width, height: p.height, x: x as u16, y: y as u16, b, d: p.d,
        have_above: y > 0, have_left: x > 0, top_right: if y > 0 && x + 2 * B <= p.width { b } else { 0 }, bottom_left: 0,
        available_above: b, available_left: b, base: 1 << (p.d - 1),
    };
    let flags = LUMA + EDGE_FILTER + if y > 0 { ABOVE } else { 0 } + if x > 0 { LEFT } else { 0 };
    let (above, left, corner) = original::edges(&p.samples, &spec);
    let error = |mode| {
        let mut out = [0f32; B * B];
        original::predict(mode, b, p.d, &above, &left, corner, &mut out);
        (0..B * B).map(|i| (out[i] - p.samples[(y + i / B) * p.width + x + i % B]).abs() as u64).sum::<u64>()
    };
    candidates(flags).into_iter().map(|(line, mode)| (line, error(mode))).min_by_key(|c| c.1).unwrap()
}

/// The Rust's page.
fn of_the_rust(p: &Picture) -> Page {
    let mut table: Vec<_> = LETTERS.iter().map(|letter| (letter.to_string(), 0, 0)).collect();
    let mut map = Vec::new();
    for y in (0..p.height).step_by(B) {
        let mut row = Vec::new();
        for x in (0..p.width).step_by(B) {
            let (line, error) = nearest(p, x, y);
            table[line].1 += 1;
            table[line].2 += error;
            row.push(LETTERS[line].to_string());
        }
        map.push(row.join(" "));
    }
    Page { table, map }
}

/// A stored page of a greymap: the table stands in its second part, the map in its last. The page of a colour still may follow it.
fn stored(text: &str) -> Page {
    let text = text.split("\n\nColour still").next().unwrap();
    let parts: Vec<Vec<&str>> = text.split("\n\n").map(|part| part.lines().map(str::trim).collect()).collect();
    let table = parts[1].iter().skip(1).map(|line| {
        let words: Vec<&str> = line.split_ascii_whitespace().collect();
        let number = |back: usize| words[words.len() - back].parse::<u64>().expect("a number");
        (words[0].to_string(), number(2), number(1))
    });
    Page { table: table.collect(), map: parts.last().unwrap().iter().map(|line| line.to_string()).collect() }
}

/// Whether the stored pages of the program `still` are the Rust's; it ends the run where one is not.
pub fn compare(root: &str) {
    let file = |name: &str| std::fs::read_to_string(format!("{root}/{name}")).expect(name);
    for (still, page) in [("finish", "crates/still/stdout"), ("bend", "tests/still/bend.txt"), ("field", "tests/still/field.txt")] {
        let ours = stored(&file(page));
        let rust = of_the_rust(&picture(&file(&format!("crates/still/data/{still}.pgm"))));
        if ours != rust {
            println!("oracle: {page} differs\nthe Rust: {rust:?}\nstored: {ours:?}");
            std::process::exit(1);
        }
    }
    println!("oracle: the tables and the maps of the sample are the Rust's");
}
