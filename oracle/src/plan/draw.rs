// draw.rs: draws plans: dense and sparse ones, rasters, of one size and of many, with refused jobs between, and their planes.
use crate::inputs::{bad_sample, good_sample};
use crate::plan::row::{self, Row, B, START};
use crate::plan::spoil::spoil;
use crate::plan::{job, rules, Plan};
use crate::random::Random;
use crate::refusals;
use crate::spec::{most, DEPTHS, SIZES};

/// Samples that a plane is tried with beside those of its depth; not all are refused at every depth.
pub const SPECIAL: [f32; 9] =
    [f32::NAN, f32::INFINITY, f32::NEG_INFINITY, -0.0, 254.7, 255.00002, 0.499_999_97, 1023.5, 4095.0];

/// A difference of one of five kinds: small, middling, at an end or about 0, any, 0.
fn difference(random: &mut Random, kind: usize) -> i16 {
    match kind {
        0 => random.within(-8, 8) as i16,
        1 => random.within(-300, 300) as i16,
        2 => random.pick(&[-32768, 32767, 0, 1, -1]),
        3 => random.word() as i16,
        _ => 0,
    }
}

/// Lays the jobs' differences out one after the other, or anywhere in one list, which may be too short for some of them.
pub fn lay_differences(random: &mut Random, rows: &mut [Row]) -> Vec<i16> {
    let samples = |row: &Row| if SIZES.contains(&row[B]) { usize::from(row[B]).pow(2) } else { 16 };
    let mut end = 0;
    for row in rows.iter_mut() {
        row[START] = (end / 16).min(65535) as u16;
        end = end.max(row::start(row) + samples(row));
    }
    if random.once_in(4) {
        let most = rows.iter().map(samples).max().unwrap_or(0);
        end = most + random.below(end - most + 1) / 16 * 16;
        rows.iter_mut().for_each(|row| row[START] = (random.below(end - samples(row) + 1) / 16) as u16);
    }
    let len = match random.below(24) {
        0 => end.saturating_sub(1),
        1 => end * 3 / 4,
        2 => random.below(end + 1),
        _ => end + random.pick(&[0, 0, 1, 15, 16]),
    };
    let kind = random.pick(&[0, 0, 0, 1, 2, 3, 4]);
    let ends = random.pick(&[0, 8]);
    (0..len).map(|_| if random.below(64) < ends { difference(random, 2) } else { difference(random, kind) }).collect()
}

/// Samples for a plane. At times all are bad that no job reads; at times a few special ones are put in, often where a job reads.
fn plane(random: &mut Random, width: usize, height: usize, depth: u16, rows: &[Row], differences: usize) -> Vec<u32> {
    let limit = most(depth);
    let (mut read, mut all) = (Vec::new(), Vec::new());
    for row in rows.iter().filter(|row| rules::job(*row, width, height, differences) == 0) {
        refusals::places(&row::spec(row, width, height), &mut read);
        all.append(&mut read);
    }
    let spare = random.once_in(8);
    let mut samples: Vec<f32> = if spare {
        (0..width * height).map(|_| bad_sample(random, limit)).collect()
    } else {
        (0..width * height).map(|_| good_sample(random, limit)).collect()
    };
    if spare {
        all.iter().for_each(|&place| samples[place] = good_sample(random, limit));
    }
    if random.once_in(4) {
        for _ in 0..random.within(1, 3) {
            let anywhere = random.below(samples.len());
            let place = if all.is_empty() || random.once_in(3) { anywhere } else { random.pick(&all) };
            samples[place] = if random.once_in(3) { bad_sample(random, limit) } else { random.pick(&SPECIAL) };
        }
    }
    samples.iter().map(|v| v.to_bits()).collect()
}

/// A plan of these jobs on a plane of samples at a depth; `spoiled` says how many jobs in 64 have a fault or more.
pub fn plan(random: &mut Random, width: usize, height: usize, depth: u16, mut rows: Vec<Row>, spoiled: usize) -> Plan {
    let differences = lay_differences(random, &mut rows);
    for row in rows.iter_mut() {
        let faults = if random.below(64) < spoiled { random.pick(&[1, 1, 1, 2, 2, 3]) } else { 0 };
        for _ in 0..faults {
            let number = random.pick(&[1, 2, 3, 3, 4, 4, 5, 5, 5, 6, 7]);
            spoil(random, row, number, width, height, differences.len());
        }
    }
    let plane = plane(random, width, height, depth, &rows, differences.len());
    Plan { width, height, plane, rows: rows.concat(), differences }
}

/// Jobs anywhere on a plane, at most `jobs` of them.
pub fn anywhere(random: &mut Random, width: usize, height: usize, jobs: usize) -> Plan {
    let depth = random.pick(&DEPTHS);
    let jobs = random.below(jobs + 1);
    let rows = (0..jobs).map(|_| job::anywhere(random, width, height, depth)).collect();
    plan(random, width, height, depth, rows, 8)
}

/// The jobs of a decoder, block after block; a few come in twice.
pub fn raster(random: &mut Random, b: u16, columns: u16, lines: u16) -> Plan {
    let depth = random.pick(&DEPTHS);
    let (width, height) = (usize::from(b * columns) + random.below(3), usize::from(b * lines) + random.below(3));
    let mut rows = Vec::new();
    for at in (0..lines).flat_map(|line| (0..columns).map(move |column| (column, line))) {
        let times = if random.once_in(16) { 2 } else { 1 };
        (0..times).for_each(|_| rows.push(job::in_raster(random, width, height, b, depth, at)));
    }
    let spoiled = random.pick(&[0, 0, 4]);
    plan(random, width, height, depth, rows, spoiled)
}
