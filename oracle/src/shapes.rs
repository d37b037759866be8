//! How many leaves a tree has, of how many points; and what else is in it.

use crate::lots::{leaf_size, Lot};
use crate::report::Report;
use crate::rules::levels;
use crate::trees;
use oracle::rng::Rng;

/// The points of each leaf.
pub struct Shape(pub Vec<usize>);

impl Shape {
    pub fn small(report: &mut Report, rng: &mut Rng) -> Self {
        let (name, sizes) = match rng.below(20) {
            0 => ("no leaf", vec![]),
            1 => ("no point", vec![0; 1 + rng.below(20)]),
            2 => ("one leaf", vec![rng.below(70)]),
            3..=6 => ("leaves at the edges of tiles", tiles(rng)),
            7..=9 => ("about a power of two", about_a_power(rng)),
            _ => ("1 to 70 leaves", ragged(70, rng.pick(&[1, 3, 8]), rng)),
        };
        Self::drawn(name, sizes, report)
    }

    /// Deep enough for boxes closed on all axes.
    pub fn deep(report: &mut Report, rng: &mut Rng) -> Self {
        let leaves = 71 + rng.below(330);
        let sizes = (0..leaves).map(|_| rng.below(3)).collect();
        Self::drawn("71 to 400 leaves", sizes, report)
    }

    /// Up to the limits of leaves, of points, and of points in a leaf.
    pub fn large(report: &mut Report, rng: &mut Rng) -> Self {
        let (name, sizes) = match rng.below(6) {
            0 => ("4,096 leaves, 65,536 points", vec![16; 4096]),
            1 => ("64 leaves, 65,536 points", vec![1024; 64]),
            2 => (
                "4,096 leaves, ragged",
                (0..4096).map(|_| rng.below(9)).collect(),
            ),
            _ => ("up to 4,096 leaves", ragged(4096, 8, rng)),
        };
        Self::drawn(name, sizes, report)
    }

    /// 65,536 points in so many leaves.
    pub fn full(leaves: usize, report: &mut Report) -> Self {
        Self::drawn("65,536 points", vec![65_536 / leaves; leaves], report)
    }

    /// One too many leaves, items or points of a leaf, or just not.
    pub fn limits(report: &mut Report, rng: &mut Rng) -> Self {
        Self::drawn("at the limits", trees::limits(rng), report)
    }

    pub fn few(report: &mut Report, rng: &mut Rng) -> Self {
        Self::drawn("1 to 6 leaves", ragged(6, 5, rng), report)
    }

    fn drawn(name: &'static str, sizes: Vec<usize>, report: &mut Report) -> Self {
        report.draw("tree", name);
        Shape(sizes)
    }
}

fn ragged(most: usize, largest: usize, rng: &mut Rng) -> Vec<usize> {
    let leaves = 1 + rng.below(most);
    (0..leaves).map(|_| rng.below(largest + 1)).collect()
}

fn tiles(rng: &mut Rng) -> Vec<usize> {
    let leaves = 1 + rng.below(4);
    (0..leaves).map(|_| leaf_size(rng) as usize).collect()
}

fn about_a_power(rng: &mut Rng) -> Vec<usize> {
    let leaves = (2 << rng.below(6)) + rng.below(3) - 1;
    (0..leaves).map(|_| rng.below(5)).collect()
}

/// Puts anything where the rules allow anything.
pub fn garbage(lot: &mut Lot, rng: &mut Rng) {
    for place in lot.unused() {
        let any = f64::from_bits(rng.bits());
        let special = [f64::NAN, f64::INFINITY, f64::NEG_INFINITY, 0.0, any];
        lot.stems[place] = rng.pick(&special);
    }
}

/// Notes what a tree has that is rare or hard.
pub fn draw(lot: &Lot, report: &mut Report) {
    let unused = lot.unused();
    let infinite = |place: &usize| lot.stems[*place] == f64::INFINITY && !unused.contains(place);
    for (name, there) in [
        (
            "with an empty leaf",
            lot.starts.windows(2).any(|w| w[0] == w[1]),
        ),
        ("with a stem over no leaf", unused.len() > 1),
        (
            "with a pivot +inf over leaves",
            (0..lot.stems.len()).any(|place| infinite(&place)),
        ),
        ("with a point on a pivot", on_a_pivot(lot)),
    ] {
        if there {
            report.draw("tree", name);
        }
    }
}

fn on_a_pivot(lot: &Lot) -> bool {
    let levels = levels(lot.leaves());
    let on = |leaf: usize, level: u32| {
        let pivot = lot.stems[(1 << level) + (leaf >> (levels - level))];
        let column = (level % lot.k) as usize * lot.items.len();
        let (from, to) = (lot.starts[leaf] as usize, lot.starts[leaf + 1] as usize);
        lot.coords[column + from..column + to].contains(&pivot)
    };
    (0..lot.leaves()).any(|leaf| (0..levels).any(|level| on(leaf, level)))
}
