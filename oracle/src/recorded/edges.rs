// edges.rs: recorded cases of build_refs.
use super::Line;
use crate::inputs::good_sample;
use crate::original;
use crate::random::Random;
use crate::spec::{most, Spec, DEPTHS, SIZES};

/// A block of `b` on a plane that holds little more than what is read.
fn block(random: &mut Random, b: u16, d: u16, neighbours: usize, room: usize) -> Spec {
    let (have_above, have_left) = (neighbours & 2 != 0, neighbours & 1 != 0);
    let (x, y) = (usize::from(have_left) + random.below(2), usize::from(have_above) + random.below(2));
    let (right, down) = (random.below(room + 1), random.below(room + 1));
    let past = |random: &mut Random, room: usize| {
        let n = random.pick(&[0, room / 2, room, room]) as u16;
        if usize::from(b) <= room && random.once_in(3) { random.pick(&[b, b + 1, 64, 65535]) } else { n }
    };
    let available = |random: &mut Random| random.pick(&[1, b / 2, b - 1, b, b + 1, 64, 65535]);
    Spec {
        width: x + usize::from(b) + right,
        height: y + usize::from(b) + down,
        x: x as u16,
        y: y as u16,
        b,
        d,
        have_above,
        have_left,
        top_right: past(random, right),
        bottom_left: past(random, down),
        available_above: available(random),
        available_left: available(random),
        base: random.pick(&[1, most(d) as u16 - 1, 1 << (d - 1), 77]),
    }
}

/// Whether a place is among those around the block: the row above it and the column left of it.
fn around(spec: &Spec, place: usize) -> bool {
    let (row, column) = (place / spec.width, place % spec.width);
    row + 1 == usize::from(spec.y) || column + 1 == usize::from(spec.x)
}

fn edges(random: &mut Random, spec: &Spec, case: usize) {
    let limit = most(spec.d);
    let known = [0x8000_0000, 0x3EFF_FFFF, 0x42FF_0000, 0x3F00_0000, 0x3EFF_FFFE, (limit as f32).to_bits(), 0x3FBF_FFFF, 0];
    let mut turn = case;
    // Places away from the block are not read: a plain 0 keeps the list short, and around small blocks they hold anything.
    let plane: Vec<f32> = (0..spec.width * spec.height)
        .map(|place| match (around(spec, place), case % 3) {
            (true, 0) => {
                turn += 1;
                f32::from_bits(known[turn % known.len()])
            }
            (true, _) => good_sample(random, limit),
            (false, 1) if spec.b == 4 => random.pick(&[f32::NAN, -1.0, 1e9, f32::INFINITY]),
            _ => 0.0,
        })
        .collect();
    let (above, left, corner) = original::edges(&plane, spec);
    let head = [
        spec.width, spec.height, spec.x.into(), spec.y.into(), spec.b.into(), spec.d.into(),
        spec.have_above.into(), spec.have_left.into(), spec.top_right.into(), spec.bottom_left.into(),
        spec.available_above.into(), spec.available_left.into(), spec.base.into(),
    ];
    let mut line = Line::new('R', &head);
    line.add(plane.iter().map(|v| v.to_bits().into()));
    line.add(above.iter().chain(&left).chain(&[corner]).map(|&v| v.into()));
    line.print();
}

/// Every size, depth and pair of neighbours; the larger the block, the fewer the cases.
pub fn all(random: &mut Random) {
    for (s, b) in SIZES.into_iter().enumerate() {
        for neighbours in 0..4 {
            for (k, d) in DEPTHS.into_iter().enumerate() {
                let cases = [4, 2, 1, usize::from(k == neighbours % 3), usize::from(k == (neighbours + 1) % 3)][s];
                for case in 0..cases {
                    let spec = block(random, b, d, neighbours, [6, 9, 17, 5, 2][s]);
                    edges(random, &spec, case + k);
                }
            }
        }
    }
}
