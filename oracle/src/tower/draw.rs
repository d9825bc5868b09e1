// draw.rs: draws plans over three planes: their differences, their faults and their samples.
use crate::colour::fill::{Texture, TEXTURES};
use crate::colour::window::STRIDE;
use crate::inputs::{bad_sample, good_sample};
use crate::plan;
use crate::plan::draw::{lay_differences, SPECIAL};
use crate::random::Random;
use crate::spec::{most, DEPTHS};
use crate::tower::row::Row;
use crate::tower::spoil::spoil;
use crate::tower::{job, touches, Plan};

/// Samples of three planes: any, or luma of a texture with chroma that follows it.
fn samples(random: &mut Random, width: usize, height: usize, limit: i32) -> [Vec<f32>; 3] {
    if random.once_in(2) {
        return [(); 3].map(|_| (0..width * height).map(|_| good_sample(random, limit)).collect());
    }
    let kind = random.below(TEXTURES);
    let texture = Texture::new(random, kind, limit);
    let places = (0..width * height).map(|place| (place / width * STRIDE) + place % width % STRIDE);
    let luma: Vec<i32> = places.map(|place| texture.at(random, place)).collect();
    let noise = random.within(0, limit / 32);
    let mut chroma = || {
        let (slope, start) = (random.within(-12, 12), random.within(0, limit));
        let follows = |v: &i32| (start + v * slope / 8 + random.within(-noise, noise)).clamp(0, limit) as f32;
        luma.iter().map(follows).collect()
    };
    let (first, second) = (chroma(), chroma());
    [luma.iter().map(|&v| v as f32).collect(), first, second]
}

/// Planes for a plan. At times all samples are bad that no job reads; at times a few special ones are put in, often where a job reads.
fn planes(random: &mut Random, width: usize, height: usize, depth: u16, rows: &[Row], differences: usize) -> [Vec<u32>; 3] {
    let (limit, area) = (most(depth), width * height);
    let mut planes = samples(random, width, height, limit);
    let (spare, special) = (random.once_in(8), random.once_in(4));
    let mut read = Vec::new();
    if spare || special {
        rows.iter().for_each(|row| read.append(&mut touches::of(row, width, height, differences).read));
    }
    if spare {
        let kept: Vec<(usize, f32)> = read.iter().map(|&place| (place, planes[place / area][place % area])).collect();
        planes.iter_mut().for_each(|plane| plane.fill_with(|| bad_sample(random, limit)));
        kept.into_iter().for_each(|(place, sample)| planes[place / area][place % area] = sample);
    }
    for _ in 0..if special { random.within(1, 3) } else { 0 } {
        let anywhere = random.below(3 * area);
        let place = if read.is_empty() || random.once_in(3) { anywhere } else { random.pick(&read) };
        planes[place / area][place % area] = if random.once_in(3) { bad_sample(random, limit) } else { random.pick(&SPECIAL) };
    }
    planes.map(|plane| plane.into_iter().map(f32::to_bits).collect())
}

/// A plan of these jobs on planes of samples at a depth; `spoiled` says how many jobs in 64 have a fault or more.
pub fn plan(random: &mut Random, width: usize, height: usize, depth: u16, mut rows: Vec<Row>, spoiled: usize) -> Plan {
    let mut first: Vec<plan::row::Row> = rows.iter().map(|row| *row.first_chunk().unwrap()).collect();
    let differences = lay_differences(random, &mut first);
    rows.iter_mut().zip(&first).for_each(|(row, first)| row[..first.len()].copy_from_slice(first));
    for row in rows.iter_mut() {
        let faults = if random.below(64) < spoiled { random.pick(&[1, 1, 1, 2, 2, 3]) } else { 0 };
        (0..faults).for_each(|_| spoil(random, row, width, height, differences.len()));
    }
    let planes = planes(random, width, height, depth, &rows, differences.len());
    Plan { width, height, planes, rows: rows.concat(), differences }
}

/// Jobs of all modes anywhere on planes, at most `jobs` of them, with windows at most so long a side; so many in 64 have faults.
pub fn anywhere(random: &mut Random, width: usize, height: usize, jobs: usize, most: usize, spoiled: usize) -> Plan {
    let depth = random.pick(&DEPTHS);
    let jobs = random.below(jobs + 1);
    let rows = (0..jobs).map(|_| job::anywhere(random, width, height, most, depth)).collect();
    plan(random, width, height, depth, rows, spoiled)
}
