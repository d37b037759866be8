//! Jobs refused for a tree: 4 to 7, on either side; trees that only seem damaged;
//! and such as have more than one thing wrong.

use super::{Told, NANS};
use crate::file::Case;
use crate::grow;
use crate::points::{Kind, Source};
use crate::refused::{sound, DAMAGES};
use oracle::ask::{self, changed};
use oracle::examples::{example, lot};
use oracle::lots::Lot;
use oracle::rng::Rng;

/// The rule that each of `DAMAGES` breaks, left and right.
const BROKEN: [[&str; 2]; 21] = {
    const FOUR: [&str; 2] = ["refused 4 0\n", "refused 4 1\n"];
    const FIVE: [&str; 2] = ["refused 5 0\n", "refused 5 1\n"];
    const SIX: [&str; 2] = ["refused 6 0\n", "refused 6 1\n"];
    const SEVEN: [&str; 2] = ["refused 7 0\n", "refused 7 1\n"];
    const NONE: [&str; 2] = ["", ""];
    [
        FOUR, FOUR, FOUR, FOUR, FOUR, FIVE, FIVE, FIVE, SIX, SIX, SIX, SEVEN, SEVEN, SEVEN, SEVEN,
        SEVEN, NONE, NONE, NONE, NONE, NONE,
    ]
};

pub fn all(jobs: &mut Vec<Told>, rng: &mut Rng) {
    for (number, damage) in DAMAGES.iter().enumerate() {
        let mut case = sound((number % 5) as u8, 1 + number / 2 % 2, rng);
        let side = number % 2;
        damage(side_of(&mut case, side), rng);
        jobs.push((BROKEN[number][side], bytes(&case)));
    }
    patterns(jobs);
    starts_alone(jobs);
    several(jobs, rng);
    leaf_over_the_limit(jobs, rng);
}

fn bytes(case: &Case) -> Vec<u8> {
    ask::bytes(case.mode, case.radius, [&case.left, &case.right])
}

fn side_of(case: &mut Case, side: usize) -> &mut Lot {
    match side {
        0 => &mut case.left,
        _ => &mut case.right,
    }
}

/// NaN of any sign and payload; the first and last that are none, infinities.
fn patterns(jobs: &mut Vec<Told>) {
    let infinite = [0x7ff0_0000_0000_0000, 0xfff0_0000_0000_0000];
    let a1 = |at, bits: u64| changed(example("a1").bytes(), at, &bits.to_le_bytes());
    for (turn, bits) in NANS.into_iter().chain(infinite).enumerate() {
        // Coordinates left and right, the first and the second axis.
        let at = [68 + 24, 156 + 8, 68 + 32, 156 + 24][turn % 4];
        jobs.push((["refused 5 0\n", "refused 5 1\n"][turn % 2], a1(at, bits)));
    }
    for bits in NANS {
        jobs.push(("refused 6 0\n", a1(44, bits)));
    }
    // The largest finite ones are coordinates, but to the wrong side here or there.
    for bits in [0x7fef_ffff_ffff_ffff, 0xffef_ffff_ffff_ffff] {
        jobs.push(("pairs", a1(156 + 8, bits)));
        jobs.push(("refused 7 0\n", a1(44, bits)));
    }
    // The unused stem.
    for bits in [NANS[2], NANS[6], infinite[0], infinite[1]] {
        jobs.push(("pairs 3\n", a1(36, bits)));
    }
}

/// Trees of no leaf have one start, and it is 0.
fn starts_alone(jobs: &mut Vec<Told>) {
    let none = |start| lot(1, &[start], &[], &[], &[]);
    let left_over = lot(1, &[0], &[], &[9], &[0.5]);
    for (told, left, right) in [
        ("refused 4 0\n", none(1), none(0)),
        ("refused 4 1\n", none(0), none(u32::MAX)),
        ("refused 4 0\n", left_over.clone(), none(0)),
        ("refused 4 1\n", none(0), left_over),
    ] {
        jobs.push((told, ask::bytes(4, 0.0, [&left, &right])));
    }
}

/// Number 4, 5, 6 or 7 of a side.
type Broken = (usize, usize);

/// The left wholly, then the right; within a tree the lowest number.
fn several(jobs: &mut Vec<Told>, rng: &mut Rng) {
    let list: [(&str, &[Broken]); 11] = [
        ("refused 7 0\n", &[(7, 0), (4, 1)]),
        ("refused 6 0\n", &[(6, 0), (5, 1)]),
        ("refused 5 0\n", &[(5, 0), (4, 1)]),
        ("refused 4 0\n", &[(4, 0), (7, 1)]),
        ("refused 4 0\n", &[(5, 0), (4, 0)]),
        ("refused 5 0\n", &[(6, 0), (5, 0)]),
        ("refused 6 0\n", &[(7, 0), (6, 0)]),
        ("refused 4 1\n", &[(4, 1), (5, 1)]),
        ("refused 5 1\n", &[(5, 1), (6, 1), (7, 1)]),
        ("refused 6 1\n", &[(6, 1), (7, 1)]),
        ("refused 4 0\n", &[(4, 0), (5, 0), (6, 0), (7, 0)]),
    ];
    for (told, broken) in list {
        let mut case = sound(rng.below(5) as u8, 1, rng);
        for (rule, side) in broken {
            let lot = side_of(&mut case, *side);
            match rule {
                4 => lot.starts[0] = 1,
                5 => lot.coords[2] = f64::NAN,
                6 => lot.stems[2] = f64::NAN,
                _ => lot.stems[1] = f64::INFINITY,
            }
        }
        jobs.push((told, bytes(&case)));
    }
}

/// A leaf of 1,025 points.
fn leaf_over_the_limit(jobs: &mut Vec<Told>, rng: &mut Rng) {
    let source = Source::new(Kind::Lattice(0.25), rng);
    let mut case = sound(2, 1, rng);
    case.right = grow::tree(1, &[1025], &source, 0, rng);
    jobs.push(("refused 4 1\n", bytes(&case)));
}
