//! The stand examples of the scope paper, run on the Rust: that the stand-ins
//! lend a tree as the paper means it. With `--features exact_query_stats` the
//! visits and the distances measured are compared too.

use oracle::api::{self, Pair, Tree};

const A_LEFT: Tree = Tree {
    starts: &[0, 2, 4],
    stems: &[0.0, 4.0],
    items: &[10, 11, 12, 13],
    coords: &[1.0, 4.0, 4.0, 7.0, 1.0, 2.0, 6.0, 1.0],
};
const A_RIGHT: Tree = Tree {
    starts: &[0, 2],
    stems: &[],
    items: &[20, 21],
    coords: &[1.0, 7.0, 5.0, 1.0],
};
const B_LEFT: Tree = Tree {
    starts: &[0, 1, 2],
    stems: &[0.0, 0.0],
    items: &[1, 2],
    coords: &[-5.0, 5.0],
};
const B_RIGHT: Tree = Tree {
    starts: &[0, 1, 2],
    stems: &[0.0, 3.0],
    items: &[3, 4],
    coords: &[-5.0, 5.0],
};

const UP_TO: bool = false;
const UNDER: bool = true;

/// Visits and distances measured, where the source counts them.
fn totals(visits: usize, measured: usize) {
    #[cfg(feature = "exact_query_stats")]
    {
        let stats = api::stats();
        assert_eq!((stats[0], stats[2]), (visits, measured));
    }
    let _ = (visits, measured);
}

fn a(under: bool, radius: f64) -> Vec<Pair> {
    api::walk_pairs(2, under, radius, A_LEFT, A_RIGHT)
}

fn b(under: bool, radius: f64) -> Vec<Pair> {
    api::walk_pairs(1, under, radius, B_LEFT, B_RIGHT)
}

#[test]
fn pairs_of_a() {
    let up_to_10 = [(11, 21, 10.0), (12, 20, 10.0), (13, 21, 0.0)];
    assert_eq!(a(UP_TO, 10.0), up_to_10);
    totals(3, 8);
    assert_eq!(a(UNDER, 10.0), [(13, 21, 0.0)]);
    totals(3, 8);
    assert_eq!(a(UNDER, 0.0), []);
    totals(1, 0);
    assert_eq!(a(UP_TO, f64::NAN), []);
    totals(3, 8);
    assert_eq!(a(UP_TO, -1.0), []);
    totals(1, 0);
}

#[test]
fn counts_of_a() {
    let count = |under| api::walk_count(2, under, f64::INFINITY, A_LEFT, A_RIGHT);
    assert_eq!(count(UP_TO), 8);
    totals(1, 0);
    assert_eq!(count(UNDER), 8);
    totals(3, 8);
}

#[test]
fn nearest_of_a() {
    let found = [
        (10, 20, 16.0),
        (11, 21, 10.0),
        (12, 20, 10.0),
        (13, 21, 0.0),
    ];
    assert_eq!(api::nearest(2, A_LEFT, A_RIGHT), found);
    nearest_did(2, A_LEFT, A_RIGHT, [3, 8]);
}

/// Visits and measured, told by the metric; the answers are the same.
fn nearest_did(k: u32, left: Tree, right: Tree, [visits, measured]: [u64; 2]) {
    let (found, walk) = api::nearest_counted(k, left, right);
    assert_eq!(found, api::nearest(k, left, right));
    assert_eq!((walk.visits, walk.measured), (visits, measured));
}

/// The right's near half is ruled out for the left's far one.
#[test]
fn nearest_of_b() {
    let found = [(1, 3, 0.0), (2, 4, 0.0)];
    assert_eq!(api::nearest(1, B_LEFT, B_RIGHT), found);
    nearest_did(1, B_LEFT, B_RIGHT, [7, 3]);
}

#[test]
fn pairs_of_b() {
    let found = [(1, 3, 0.0), (2, 4, 0.0)];
    for (under, radius, measured) in [(UP_TO, 1.0, 3), (UP_TO, 9.0, 4), (UNDER, 9.0, 3)] {
        assert_eq!(b(under, radius), found);
        totals(7, measured);
    }
}

/// One leaf, or one leaf for each point with the pivot between.
fn line<'a>(items: &'a [u32], coords: &'a [f64], pivot: &'a [f64]) -> Tree<'a> {
    let starts: &[u32] = if pivot.is_empty() {
        &[0, 1]
    } else {
        &[0, 1, 2]
    };
    Tree {
        starts,
        stems: pivot,
        items,
        coords,
    }
}

#[test]
fn examples_of_c() {
    let left = line(&[1], &[0.0], &[]);
    let right = line(&[5, 6], &[-1.0, 1.0], &[0.0, 0.0]);
    assert_eq!(api::nearest(1, left, right), [(1, 6, 1.0)]);
    nearest_did(1, left, right, [3, 2]);
    let pairs = api::walk_pairs(1, UP_TO, 1.0, left, right);
    assert_eq!(pairs, [(1, 5, 1.0), (1, 6, 1.0)]);

    let (far, away) = (line(&[1], &[-1e200], &[]), line(&[7], &[1e200], &[]));
    let inf = f64::INFINITY;
    assert_eq!(api::nearest(1, far, away), [(1, 0, inf)]);
    nearest_did(1, far, away, [1, 1]);
    assert_eq!(api::walk_pairs(1, UP_TO, inf, far, away), [(1, 7, inf)]);
    assert_eq!(api::walk_pairs(1, UNDER, inf, far, away), []);

    let tenth = line(&[2], &[0.1], &[]);
    assert_eq!(api::walk_pairs(1, UP_TO, 0.01, left, tenth), []);
}
