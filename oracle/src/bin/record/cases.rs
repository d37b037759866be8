//! Joins of sound trees: every K and mode with every kind of coordinates,
//! shapes of trees, radii and rooms in turn; node pairs that are taken whole;
//! radii that are bounds; large leaves; empty trees.

use crate::count;
use crate::file::Case;
use crate::grow;
use crate::lots::Lot;
use crate::points::{Kind, Source, SPACINGS};
use oracle::rng::Rng;

pub fn all(cases: &mut Vec<Case>, rng: &mut Rng) {
    for round in 0..3 {
        for mode in 0..4 {
            for k in 1..=4 {
                usual(cases, round, mode, k, rng);
            }
        }
    }
    for mode in 0..4 {
        for k in 1..=4 {
            large_leaves(cases, mode, k, rng);
            empty_trees(cases, mode, k, rng);
            at_a_bound(cases, mode, k, rng);
        }
    }
    for (k, leaves, times) in [(1, 8, 20), (2, 16, 20), (3, 64, 4), (4, 256, 1)] {
        for time in 0..times {
            taken_whole(cases, 2 + time % 2, k, leaves, rng);
        }
    }
    largest_leaf(cases, rng);
}

pub const KINDS: [(&str, Kind); 6] = [
    ("planted rows", Kind::Lattice(1.0)),
    ("random", Kind::Random),
    ("ties", Kind::Duplicates),
    ("huge", Kind::Huge),
    ("subnormal", Kind::Subnormal),
    ("both zeros", Kind::Zeros),
];

fn usual(cases: &mut Vec<Case>, round: usize, mode: u8, k: usize, rng: &mut Rng) {
    for (name, kind) in KINDS {
        let kind = match kind {
            Kind::Lattice(_) => Kind::Lattice(rng.pick(&SPACINGS)),
            other => other,
        };
        // Two origins in every third round, so that lattices lie apart.
        let mine = Source::new(kind, rng);
        let other = Source::new(kind, rng);
        let right = if round % 3 == 2 { &other } else { &mine };
        let left = grow::tree(k, &sizes(rng), &mine, 100, rng);
        let right = grow::tree(k, &sizes(rng), right, 200, rng);
        let number = cases.len();
        let radius = radius(number, &left, &right, mine.spacing(), rng);
        push(cases, name, mode, radius, left, right, rng);
    }
}

/// Leaves of few points, some empty; leaf counts that are a power of two, and
/// such that are not.
pub fn sizes(rng: &mut Rng) -> Vec<usize> {
    let leaves = rng.pick(&[1, 1, 2, 2, 3, 3, 4, 4, 5, 5, 6, 7, 8, 9, 11]);
    let most = if leaves < 4 { 4 } else { 2 };
    (0..leaves).map(|_| rng.below(most + 1)).collect()
}

/// Radii in turn: distances that occur, gaps of pivots and points squared, each
/// with its neighbours one ulp beside; zeros, negative, NaN, infinities.
fn radius(turn: usize, left: &Lot, right: &Lot, spacing: f64, rng: &mut Rng) -> f64 {
    let near = match turn / 2 % 3 {
        0 => distance(left, right, rng),
        1 => gap(&left.stems, &right.stems, rng),
        _ => gap(&left.stems, &right.coords, rng),
    };
    let near = if near.is_finite() {
        near
    } else {
        spacing * spacing
    };
    let nan = [
        0x7ff8_0000_0000_0000,
        0xfff8_0000_0000_0001,
        0x7ff0_0000_0000_0001,
    ];
    match turn % 23 {
        0..=4 => near,
        5..=7 => near.next_up(),
        8..=10 => near.next_down(),
        11 | 12 => spacing * spacing,
        13 => 0.0,
        14 => -0.0,
        15 => -1.0,
        16 => f64::from_bits(rng.pick(&nan)),
        17 => f64::INFINITY,
        18 => f64::NEG_INFINITY,
        19 => rng.pick(&[f64::MAX, 5e-324, 1e-300, 1e300, -1e300]),
        _ => near * (2.0 * rng.unit()),
    }
}

fn distance(left: &Lot, right: &Lot, rng: &mut Rng) -> f64 {
    match (left.items.len(), right.items.len()) {
        (0, _) | (_, 0) => f64::NAN,
        (m, n) => count::distance(left, rng.below(m), right, rng.below(n)),
    }
}

fn gap(a: &[f64], b: &[f64], rng: &mut Rng) -> f64 {
    match (a.len(), b.len()) {
        (0, _) | (_, 0) => f64::NAN,
        (m, n) => {
            let gap = a[rng.below(m)] - b[rng.below(n)];
            gap * gap
        }
    }
}

/// Rooms in turn: exact, larger, one short, one, none, the largest.
fn push(
    cases: &mut Vec<Case>,
    kind: &'static str,
    mode: u8,
    radius: f64,
    left: Lot,
    right: Lot,
    rng: &mut Rng,
) {
    let under = mode % 2 == 1;
    let passing = |p, q| count::passes(count::distance(&left, p, &right, q), radius, under);
    let all = (0..left.items.len()).flat_map(|p| (0..right.items.len()).map(move |q| (p, q)));
    let found = all.filter(|(p, q)| passing(*p, *q)).count() as u32;
    let room = match rng.below(8) {
        0..=2 => found,
        3 => found + 1 + rng.below(5) as u32,
        4 => found.saturating_sub(1),
        5 => found / 2,
        6 => rng.pick(&[0, 1]),
        _ => 1024,
    };
    let room = if mode < 2 { room.min(1024) } else { 0 };
    cases.push(Case {
        kind,
        mode,
        radius,
        left,
        right,
        room,
        buffer: 0,
        lent: 0,
    });
}

/// Leaves that fill one tile of 32, and more than one.
fn large_leaves(cases: &mut Vec<Case>, mode: u8, k: usize, rng: &mut Rng) {
    let kind = rng.pick(&[
        Kind::Lattice(0.25),
        Kind::Lattice(0.1),
        Kind::Duplicates,
        Kind::Random,
    ]);
    let source = Source::new(kind, rng);
    let (m, n) = (rng.pick(&[31, 32, 33, 40]), rng.pick(&[32, 33, 64, 65]));
    let left = grow::tree(k, &[m], &source, 1000, rng);
    let sizes = rng.pick(&[[n, 0], [3, n - 3]]);
    let right = grow::tree(k, &sizes[..1 + rng.below(2)], &source, 2000, rng);
    let radius = match mode {
        0 | 1 => distance(&left, &right, rng) / 4.0,
        _ => distance(&left, &right, rng),
    };
    push(
        cases,
        "leaves of more than one tile",
        mode,
        radius,
        left,
        right,
        rng,
    );
    // Few pairs are kept, so that the record is small: the room is what is small.
    let last = cases.last_mut().unwrap();
    last.room = last.room.min(40);
}

/// Two levels or more on each axis, so that inner boxes have ends, and upper
/// bounds a value: the radius is one, or one ulp beside.
fn taken_whole(cases: &mut Vec<Case>, mode: u8, k: usize, leaves: usize, rng: &mut Rng) {
    // On a lattice the order of a sum seldom tells.
    let kind = match k {
        1 | 2 => Kind::Lattice(rng.pick(&SPACINGS)),
        _ => Kind::Random,
    };
    let source = Source::new(kind, rng);
    let mut side = |first, leaves| {
        let most = if leaves < 32 { 2 } else { 1 };
        let sizes: Vec<_> = (0..leaves).map(|_| rng.below(most + 1)).collect();
        grow::tree(k, &sizes, &source, first, rng)
    };
    let (left, right) = (side(100, leaves), side(200, leaves - leaves / 8));
    let (_, upper) = count::bounds(&left, &right);
    let Some(bound) = parting(upper, mode, rng) else {
        return;
    };
    let radius = match rng.below(4) {
        _ if k > 2 => bound,
        0 | 1 => bound,
        2 => bound.next_up(),
        _ => bound.next_down(),
    };
    push(cases, "inner boxes", mode, radius, left, right, rng);
}

/// A radius at one of the bounds met, given with their sums from the last axis:
/// where there are such, one of the two sums is beyond it and the other is not.
fn parting(met: Vec<[f64; 2]>, mode: u8, rng: &mut Rng) -> Option<f64> {
    let useful = |[a, b]: &[f64; 2]| *a > 0.0 && a.is_finite() && b.is_finite();
    let met: Vec<_> = met.into_iter().filter(useful).collect();
    let telling: Vec<_> = met.iter().filter(|[a, b]| a != b).copied().collect();
    let from = if telling.is_empty() { met } else { telling };
    if from.is_empty() {
        return None;
    }
    let [a, b] = rng.pick(&from);
    Some(if mode % 2 == 1 { a.max(b) } else { a.min(b) })
}

/// A radius that is a bound of the walk.
fn at_a_bound(cases: &mut Vec<Case>, mode: u8, k: usize, rng: &mut Rng) {
    let leaves = [4, 4, 8, 16][k - 1];
    let source = Source::new(Kind::Random, rng);
    for _ in 0..2 {
        let mut side = |first| {
            let sizes: Vec<_> = (0..leaves)
                .map(|_| 1 - usize::from(rng.one_in(8)))
                .collect();
            grow::tree(k, &sizes, &source, first, rng)
        };
        let (left, right) = (side(100), side(200));
        let (lower, _) = count::bounds(&left, &right);
        if let Some(radius) = parting(lower, mode, rng) {
            push(cases, "radius at a bound", mode, radius, left, right, rng);
        }
    }
}

/// No leaf, one empty leaf, several; on either side, or both.
fn empty_trees(cases: &mut Vec<Case>, mode: u8, k: usize, rng: &mut Rng) {
    let source = Source::new(Kind::Lattice(1.0), rng);
    let none: [&[usize]; 4] = [&[], &[0], &[0, 0], &[0, 0, 0]];
    let some: [&[usize]; 3] = [&[2], &[1, 0, 2], &[0, 2]];
    for which in 0..3 {
        let mut side = |empty: bool, first| {
            let sizes = if empty {
                rng.pick(&none)
            } else {
                rng.pick(&some)
            };
            grow::tree(k, sizes, &source, first, rng)
        };
        let (left, right) = (side(which != 1, 100), side(which != 0, 200));
        let radius = rng.pick(&[0.0, 1.0, f64::INFINITY, f64::NAN, -1.0]);
        push(cases, "empty tree", mode, radius, left, right, rng);
    }
}

/// A leaf of 1,024 points, as many as are allowed.
fn largest_leaf(cases: &mut Vec<Case>, rng: &mut Rng) {
    let source = Source::new(Kind::Lattice(0.25), rng);
    let left = grow::tree(1, &[1024], &source, 0, rng);
    let right = grow::tree(1, &[1], &source, 5000, rng);
    push(cases, "leaf of 1,024", 2, 0.25 * 0.25, left, right, rng);
}
