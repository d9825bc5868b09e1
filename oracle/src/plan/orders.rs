// orders.rs: orders to run a plan in: accepted ones, with pairs exchanged, broken ones, and all there are.
use crate::plan::clashes::Clashes;
use crate::random::Random;

pub fn own(jobs: usize) -> Vec<u16> {
    (0..jobs).map(|job| job as u16).collect()
}

/// Any order at all that holds each index once.
pub fn shuffled(random: &mut Random, jobs: usize) -> Vec<u16> {
    let mut order = own(jobs);
    (1..jobs).for_each(|i| order.swap(i, random.below(i + 1)));
    order
}

/// Exchanges a clashing pair, where there is one.
pub fn turn_pair(random: &mut Random, clashes: &Clashes, order: &mut [u16]) {
    let pairs = clashes.pairs();
    if pairs.is_empty() {
        return;
    }
    let (i, j) = random.pick(&pairs);
    let place = |job: usize| order.iter().position(|&index| usize::from(index) == job).unwrap();
    let (p, q) = (place(i), place(j));
    order.swap(p, q);
}

/// Exchanges two jobs that follow each other: mostly such as clash, so that one pair alone is turned.
pub fn turn_beside(random: &mut Random, clashes: &Clashes, order: &mut [u16]) {
    let clash = |i: usize| clashes.pair(order[i].into(), order[i + 1].into());
    let all: Vec<usize> = (0..order.len().saturating_sub(1)).collect();
    let clashing: Vec<usize> = all.iter().copied().filter(|&i| clash(i)).collect();
    let from = if clashing.is_empty() || random.once_in(3) { all } else { clashing };
    if !from.is_empty() {
        let i = random.pick(&from);
        order.swap(i, i + 1);
    }
}

/// Puts an index in a second time, or one that is out of range, also such as would be right modulo something.
pub fn break_order(random: &mut Random, order: &mut [u16]) {
    let jobs = order.len();
    if jobs == 0 {
        return;
    }
    let (place, other) = (random.below(jobs), random.below(jobs));
    let (index, jobs) = (order[place], jobs as u16);
    order[place] = match random.below(8) {
        0 | 1 => order[other],
        2 => jobs,
        3 => index.wrapping_add(jobs),
        4 => index.wrapping_add(1024),
        5 => index | random.pick(&[256, 2048, 0x8000]),
        6 => 65535,
        _ => random.word(),
    };
}

/// Hands on every order of so many jobs.
pub fn every(jobs: usize, mut each: impl FnMut(&[u16])) {
    let mut order = own(jobs);
    loop {
        each(&order);
        // the next in the order of a dictionary
        let Some(i) = (1..jobs).rev().find(|&i| order[i - 1] < order[i]) else { return };
        let j = (i..jobs).rev().find(|&j| order[j] > order[i - 1]).unwrap();
        order.swap(i - 1, j);
        order[i..].reverse();
    }
}
