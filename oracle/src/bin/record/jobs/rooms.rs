//! Jobs at the limits: rooms of 1,024, just enough and one too few; the longest
//! job.

use super::Told;
use crate::grow;
use crate::points::{Kind, Source};
use oracle::ask::{self, NEAREST};
use oracle::examples::lot;
use oracle::job;
use oracle::lots::Lot;
use oracle::rng::Rng;

pub fn all(jobs: &mut Vec<Told>, rng: &mut Rng) {
    pairs(jobs);
    nearest(jobs, rng);
    longest(jobs, rng);
}

/// One leaf of so many points at 0, whose item numbers are the longest to print.
fn heap(points: usize) -> Lot {
    let (items, coords) = (vec![u32::MAX; points], vec![0.0; points]);
    lot(1, &[0, points as u32], &[], &items, &coords)
}

fn pairs(jobs: &mut Vec<Told>) {
    for (told, mode, m, n) in [
        ("pairs 1024\n", 0, 32, 32),
        ("refused 9 0\n", 0, 25, 41),
        ("refused 9 0\n", 1, 41, 25),
        ("count 1025\n", 2, 25, 41),
    ] {
        jobs.push((told, ask::bytes(mode, 1.0, [&heap(m), &heap(n)])));
    }
    // The tree is told first.
    let mut damaged = heap(41);
    damaged.coords[40] = f64::NAN;
    jobs.push(("refused 5 1\n", ask::bytes(0, 1.0, [&heap(25), &damaged])));
}

fn nearest(jobs: &mut Vec<Told>, rng: &mut Rng) {
    let source = Source::new(Kind::Lattice(0.25), rng);
    let left = grow::tree(1, &[1000, 25], &source, 0, rng);
    // 1,024 answers are asked of the longest job.
    for (told, right) in [("refused 9 0\n", 1), ("nearest 0\nvisits 0 ", 0)] {
        jobs.push((told, ask::bytes(NEAREST, 0.0, [&left, &heap(right)])));
    }
}

/// Of 16,384 bytes: as many points as two trees of two leaves can have, 1,024 of
/// them on the left; and as many leaves.
fn longest(jobs: &mut Vec<Told>, rng: &mut Rng) {
    let source = Source::new(Kind::Random, rng);
    let mut tree = |sizes: &[usize]| grow::tree(1, sizes, &source, 0, rng);
    let points = [tree(&[24, 1000]), tree(&[167, 167])];
    let leaves = [spread(169, 512), spread(169, 512)].map(|sizes| tree(&sizes));
    for (told, mode, trees) in [("nearest 1024\n", NEAREST, points), ("count", 2, leaves)] {
        let radius = if mode == NEAREST { 0.0 } else { 1e-4 };
        let job = ask::bytes(mode, radius, trees.each_ref());
        assert_eq!(job.len(), job::LIMIT);
        jobs.push((told, job));
    }
}

/// So many points, one in each of so many leaves or none.
fn spread(points: usize, leaves: usize) -> Vec<usize> {
    let upto = |leaf: usize| leaf * points / leaves;
    (0..leaves)
        .map(|leaf| upto(leaf + 1) - upto(leaf))
        .collect()
}
