//! Jobs that are answered: every mode and K, radii of every kind, empty trees,
//! zeros and subnormals, item numbers at the ends of u32.

use super::{Told, NANS};
use crate::cases::KINDS;
use crate::grow;
use crate::points::Source;
use oracle::ask::{self, Ask, NEAREST};
use oracle::examples::{example, lot};
use oracle::lots::Lot;
use oracle::rng::Rng;

const MODES: [(u8, &str); 5] = [
    (0, "pairs"),
    (1, "pairs"),
    (2, "count"),
    (3, "count"),
    (NEAREST, "nearest"),
];

pub fn all(jobs: &mut Vec<Told>, rng: &mut Rng) {
    radii(jobs);
    empty_trees(jobs);
    zeros(jobs);
    for k in 1..=4 {
        for (mode, told) in MODES {
            let (_, kind) = KINDS[(k + mode as usize) % KINDS.len()];
            let source = Source::new(kind, rng);
            let mut tree = |sizes: &[usize], first| grow::tree(k, sizes, &source, first, rng);
            let left = tree(&[2, 0, 1], 0);
            let right = tree(&[1, 2], u32::MAX - 40);
            let radius = match mode {
                NEAREST => 0.0,
                _ => source.spacing() * source.spacing(),
            };
            jobs.push((told, ask::bytes(mode, radius, [&left, &right])));
        }
    }
}

/// Every NaN is a NaN; infinities, both zeros, the smallest and largest numbers.
fn radii(jobs: &mut Vec<Told>) {
    let others = [
        0x7ff0_0000_0000_0000,
        0xfff0_0000_0000_0000,
        0x7fef_ffff_ffff_ffff,
        0x0000_0000_0000_0000,
        0x8000_0000_0000_0000,
        0x0000_0000_0000_0001,
        0x8000_0000_0000_0001,
    ];
    for (turn, bits) in NANS.into_iter().chain(others).enumerate() {
        // Each of two modes, up to and under.
        for mode in [2 * (turn % 2), 3 - 2 * (turn % 2)] {
            let asked = Ask {
                mode: mode as u8,
                radius: f64::from_bits(bits),
                ..example("c1-pairs")
            };
            let told = MODES[mode].1;
            jobs.push((told, asked.bytes()));
        }
    }
}

/// No leaf, one empty leaf, several; on either side, or both.
fn empty_trees(jobs: &mut Vec<Told>) {
    let some = lot(1, &[0, 1, 2], &[0.0, 0.0], &[0, u32::MAX], &[-1.0, 1.0]);
    let none = [
        lot(1, &[0], &[], &[], &[]),
        lot(1, &[0, 0], &[], &[], &[]),
        lot(1, &[0; 4], &[f64::NAN, 0.0, -0.0, f64::INFINITY], &[], &[]),
    ];
    for empty in &none {
        for trees in [[empty, &some], [&some, empty], [empty, &none[0]]] {
            for mode in [0, 3, NEAREST] {
                let told = ["pairs 0\n", "", "", "count 0\n", "nearest 0\nvisits 0 "];
                jobs.push((told[mode as usize], ask::bytes(mode, 0.0, trees)));
            }
        }
    }
}

/// Both zeros and the smallest numbers, about pivots of both zeros: a zero is on
/// either side of either pivot.
fn zeros(jobs: &mut Vec<Told>) {
    let tiny = 5e-324;
    let points = [-tiny, -0.0, 0.0, -0.0, 0.0, tiny];
    let tree = |pivot: f64, items: &[u32]| -> Lot {
        lot(1, &[0, 3, 6], &[f64::NAN, pivot], items, &points)
    };
    let left = tree(0.0, &[0, u32::MAX, 1, 2, 3, 0]);
    let right = tree(-0.0, &[u32::MAX, 0, 7, 8, 9, u32::MAX]);
    for (mode, told) in MODES {
        jobs.push((told, ask::bytes(mode, 0.0, [&left, &right])));
    }
    jobs.push(("pairs 36\n", ask::bytes(1, tiny, [&left, &right])));
}
