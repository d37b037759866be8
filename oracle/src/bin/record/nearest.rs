//! Nearest joins of sound trees: every K with every kind of coordinates, shapes
//! of trees and rooms in turn; trees in which the order of a sum tells; leaves of
//! more than one tile; empty trees; many answers.

use crate::cases::{sizes, KINDS};
use crate::count;
use crate::file::{Case, NEAREST};
use crate::grow;
use crate::lots::Lot;
use crate::points::{Kind, Source, SPACINGS};
use oracle::rng::Rng;

pub fn all(cases: &mut Vec<Case>, rng: &mut Rng) {
    for round in 0..3 {
        for k in 1..=4 {
            usual(cases, round, k, rng);
        }
    }
    for k in 1..=4 {
        deep(cases, k, rng);
        large_leaves(cases, k, rng);
        empty_trees(cases, k, rng);
    }
    for k in [3, 4] {
        order_of_a_sum(cases, k, rng);
    }
    for k in [1, 1, 1, 1, 1, 1, 2, 2] {
        sparse(cases, k, rng);
    }
    many_answers(cases, rng);
}

fn usual(cases: &mut Vec<Case>, round: usize, k: usize, rng: &mut Rng) {
    for (name, kind) in KINDS {
        let kind = match kind {
            Kind::Lattice(_) => Kind::Lattice(rng.pick(&SPACINGS)),
            other => other,
        };
        let mine = Source::new(kind, rng);
        let other = Source::new(kind, rng);
        // Two origins in one round, so that lattices lie apart.
        let right = if round == 1 { &other } else { &mine };
        let left = grow::tree(k, &sizes(rng), &mine, 100, rng);
        let right = grow::tree(k, &sizes(rng), right, 200, rng);
        push(cases, name, left, right, rng);
    }
}

/// Rooms in turn: exact, larger, one short, none, the largest.
fn push(cases: &mut Vec<Case>, kind: &'static str, left: Lot, right: Lot, rng: &mut Rng) {
    let number = left.items.len() as u32;
    let room = match rng.below(8) {
        0..=3 => number,
        4 => number + 1 + rng.below(5) as u32,
        5 => number.saturating_sub(1),
        6 => rng.pick(&[0, 1]),
        _ => 1024,
    };
    cases.push(Case {
        kind,
        mode: NEAREST,
        radius: 0.0,
        left,
        right,
        room,
        buffer: 0,
        lent: 0,
    });
}

/// Two levels or more on each axis, on lattices: many are equally near, so that
/// the order of the walk and of the points tells.
fn deep(cases: &mut Vec<Case>, k: usize, rng: &mut Rng) {
    for kind in [Kind::Lattice(1.0), Kind::Lattice(0.1), Kind::Duplicates] {
        let source = Source::new(kind, rng);
        let leaves = [8, 16, 16, 16][k - 1];
        let mut side = |first, leaves: usize| {
            let sizes: Vec<_> = (0..leaves).map(|_| rng.below(3)).collect();
            grow::tree(k, &sizes, &source, first, rng)
        };
        let (left, right) = (side(100, leaves), side(200, leaves - leaves / 8));
        push(cases, "ties in deep trees", left, right, rng);
    }
}

/// Bounds summed from the last axis would rule out other node pairs.
fn order_of_a_sum(cases: &mut Vec<Case>, k: usize, rng: &mut Rng) {
    let mut left_to_find = 3;
    for _ in 0..20_000 {
        let source = Source::new(rng.pick(&[Kind::Duplicates, Kind::Lattice(0.1)]), rng);
        let mut side = |first| grow::tree(k, &[1; 16], &source, first, rng);
        let (left, right) = (side(100), side(200));
        let [told, other] = [
            count::nearest(&left, &right, 0..k),
            count::nearest(&left, &right, (0..k).rev()),
        ];
        if told.0 != other.0 {
            push(cases, "the order of a sum", left, right, rng);
            cases.last_mut().unwrap().room = 16;
            left_to_find -= 1;
        }
        if left_to_find == 0 {
            return;
        }
    }
}

/// Most leaves are empty, so that pivots lie beyond the boxes.
fn sparse(cases: &mut Vec<Case>, k: usize, rng: &mut Rng) {
    let source = Source::new(rng.pick(&[Kind::Lattice(1.0), Kind::Random]), rng);
    let mut side = |first| {
        let sizes: Vec<_> = (0..16).map(|_| usize::from(rng.one_in(3))).collect();
        grow::tree(k, &sizes, &source, first, rng)
    };
    let (left, right) = (side(100), side(200));
    push(cases, "sparse trees", left, right, rng);
    cases.last_mut().unwrap().room = 16;
}

/// Leaves that fill one tile of 32, and more than one.
fn large_leaves(cases: &mut Vec<Case>, k: usize, rng: &mut Rng) {
    let kind = rng.pick(&[Kind::Lattice(0.25), Kind::Duplicates, Kind::Random]);
    let source = Source::new(kind, rng);
    let (m, n) = (rng.pick(&[31, 32, 33, 40]), rng.pick(&[32, 33, 64, 65]));
    let left = grow::tree(k, &[3, m], &source, 1000, rng);
    let right = grow::tree(k, &[n], &source, 2000, rng);
    push(cases, "leaves of more than one tile", left, right, rng);
    cases.last_mut().unwrap().room = m as u32 + 3;
}

/// No leaf, one empty leaf, several; on either side, or both.
fn empty_trees(cases: &mut Vec<Case>, k: usize, rng: &mut Rng) {
    let source = Source::new(Kind::Lattice(1.0), rng);
    let none: [&[usize]; 4] = [&[], &[0], &[0, 0], &[0, 0, 0]];
    let some: [&[usize]; 3] = [&[2], &[1, 0, 2], &[0, 2]];
    for which in 0..3 {
        let mut side = |empty: bool, first| {
            let sizes = match empty {
                true => rng.pick(&none),
                false => rng.pick(&some),
            };
            grow::tree(k, sizes, &source, first, rng)
        };
        let (left, right) = (side(which != 1, 100), side(which != 0, 200));
        push(cases, "empty tree", left, right, rng);
        if k == 1 {
            // Rule 8 is told of empty trees too.
            let last = cases.last_mut().unwrap();
            (last.room, last.buffer, last.lent) = (2, 10, which + 3);
        }
    }
}

/// A leaf of 8 tiles.
fn many_answers(cases: &mut Vec<Case>, rng: &mut Rng) {
    let source = Source::new(Kind::Lattice(0.25), rng);
    let left = grow::tree(1, &[256], &source, 5000, rng);
    let right = grow::tree(1, &[1, 2], &source, 0, rng);
    push(cases, "leaf of 256", left, right, rng);
    cases.last_mut().unwrap().room = 256;
}
