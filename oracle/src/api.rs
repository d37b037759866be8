//! The Rust over lent trees, with K and the edge given as values.

use crate::rust::{self, Answers, Lent, NearestWalk, Pairs};

/// The four buffers of a lent tree.
#[derive(Clone, Copy)]
pub struct Tree<'a> {
    pub starts: &'a [u32],
    pub stems: &'a [f64],
    pub items: &'a [u32],
    pub coords: &'a [f64],
}

impl Tree<'_> {
    fn lent<const K: usize>(&self) -> Lent<K> {
        Lent::new(self.starts, self.stems, self.items, self.coords)
    }
    fn point<const K: usize>(&self, place: usize) -> [f64; K] {
        std::array::from_fn(|d| self.coords[d * self.items.len() + place])
    }
}

/// A found pair: left item, right item, distance.
pub type Pair = (u32, u32, f64);

macro_rules! by_k {
    ($k:expr, $f:ident ( $($arg:expr),* )) => {
        match $k {
            1 => $f::<1>($($arg),*),
            2 => $f::<2>($($arg),*),
            3 => $f::<3>($($arg),*),
            4 => $f::<4>($($arg),*),
            other => panic!("K is 1 to 4, not {other}"),
        }
    };
}

/// The pairs of two leaves, in the Rust's order.
pub fn leaf_pairs(
    k: u32,
    under: bool,
    radius: f64,
    left: Tree,
    li: usize,
    right: Tree,
    ri: usize,
) -> Vec<Pair> {
    by_k!(k, leaf_pairs_k(under, radius, left, right, (li, ri)))
}

fn leaf_pairs_k<const K: usize>(
    under: bool,
    radius: f64,
    left: Tree,
    right: Tree,
    at: (usize, usize),
) -> Vec<Pair> {
    let (left, right) = (left.lent::<K>(), right.lent());
    let mut found = Pairs::with_capacity(0);
    if under {
        rust::leaf_pairs::<K, true>(&left, &right, at, radius, &mut found);
    } else {
        rust::leaf_pairs::<K, false>(&left, &right, at, radius, &mut found);
    }
    found.iter().collect()
}

/// How many pairs of two leaves pass.
pub fn leaf_count(
    k: u32,
    under: bool,
    radius: f64,
    left: Tree,
    li: usize,
    right: Tree,
    ri: usize,
) -> usize {
    by_k!(k, leaf_count_k(under, radius, left, right, (li, ri)))
}

fn leaf_count_k<const K: usize>(
    under: bool,
    radius: f64,
    left: Tree,
    right: Tree,
    at: (usize, usize),
) -> usize {
    let (left, right) = (left.lent::<K>(), right.lent());
    if under {
        rust::leaf_count::<K, true>(&left, &right, at, radius)
    } else {
        rust::leaf_count::<K, false>(&left, &right, at, radius)
    }
}

/// Updates one left leaf's answers, right item and distance for each place.
pub fn update_leaf(
    k: u32,
    left: Tree,
    li: usize,
    right: Tree,
    ri: usize,
    answers: &[(u32, f64)],
) -> Vec<(u32, f64)> {
    by_k!(k, update_leaf_k(left, right, (li, ri), answers))
}

fn update_leaf_k<const K: usize>(
    left: Tree,
    right: Tree,
    at: (usize, usize),
    answers: &[(u32, f64)],
) -> Vec<(u32, f64)> {
    let zeros = vec![0; left.starts.len()];
    let mut held = Answers::new(answers.iter().copied());
    rust::update_leaf::<K>(&left.lent(), &right.lent(), at, &zeros, &mut held);
    held.iter().collect()
}

/// The radius walk over whole trees, in the Rust's order.
pub fn walk_pairs(k: u32, under: bool, radius: f64, left: Tree, right: Tree) -> Vec<Pair> {
    by_k!(k, walk_pairs_k(under, radius, left, right))
}

fn walk_pairs_k<const K: usize>(under: bool, radius: f64, left: Tree, right: Tree) -> Vec<Pair> {
    let (left, right) = (left.lent::<K>(), right.lent());
    let mut found = Pairs::with_capacity(0);
    if under {
        rust::walk_pairs::<K, true>(&left, &right, radius, &mut found);
    } else {
        rust::walk_pairs::<K, false>(&left, &right, radius, &mut found);
    }
    found.iter().collect()
}

/// The counting radius walk over whole trees.
pub fn walk_count(k: u32, under: bool, radius: f64, left: Tree, right: Tree) -> usize {
    by_k!(k, walk_count_k(under, radius, left, right))
}

fn walk_count_k<const K: usize>(under: bool, radius: f64, left: Tree, right: Tree) -> usize {
    let (left, right) = (left.lent::<K>(), right.lent());
    if under {
        rust::walk_count::<K, true>(&left, &right, radius)
    } else {
        rust::walk_count::<K, false>(&left, &right, radius)
    }
}

/// The nearest walk over whole trees, in left place order.
pub fn nearest(k: u32, left: Tree, right: Tree) -> Vec<Pair> {
    by_k!(k, nearest_k(left, right))
}

fn nearest_k<const K: usize>(left: Tree, right: Tree) -> Vec<Pair> {
    rust::nearest::<K>(&left.lent(), &right.lent())
}

/// The same, with what the walk did: a metric that counts is asked.
pub fn nearest_counted(k: u32, left: Tree, right: Tree) -> (Vec<Pair>, NearestWalk) {
    by_k!(k, nearest_counted_k(left, right))
}

fn nearest_counted_k<const K: usize>(left: Tree, right: Tree) -> (Vec<Pair>, NearestWalk) {
    rust::nearest_counted::<K>(&left.lent(), &right.lent())
}

/// The distance of place `p` on the left and place `q` on the right.
pub fn distance(k: u32, left: Tree, p: usize, right: Tree, q: usize) -> f64 {
    by_k!(k, distance_k(left, p, right, q))
}

fn distance_k<const K: usize>(left: Tree, p: usize, right: Tree, q: usize) -> f64 {
    rust::distance::<K>(&left.point(p), &right.point(q))
}

/// Boxes are flat: the left's axis d at d, the right's at 4 + d.
pub fn lower(k: u32, min: &[f64; 8], max: &[f64; 8]) -> f64 {
    use rust::lower;
    by_k!(k, lower(min, max))
}

pub fn upper(k: u32, min: &[f64; 8], max: &[f64; 8]) -> f64 {
    use rust::upper;
    by_k!(k, upper(min, max))
}

/// Whether the radius walk rules a pair of boxes out.
pub fn rejected(k: u32, under: bool, radius: f64, min: &[f64; 8], max: &[f64; 8]) -> bool {
    by_k!(k, rejected_k(under, radius, min, max))
}

fn rejected_k<const K: usize>(under: bool, radius: f64, min: &[f64; 8], max: &[f64; 8]) -> bool {
    if under {
        rust::rejected::<K, true>(min, max, radius)
    } else {
        rust::rejected::<K, false>(min, max, radius)
    }
}

pub fn accepts(distance: f64, radius: f64, under: bool) -> bool {
    if under {
        rust::accepts::<true>(distance, radius)
    } else {
        rust::accepts::<false>(distance, radius)
    }
}

/// What the source recorded since the last call: node pairs, leaf pairs,
/// distances, matches, pairs taken whole, node pairs ruled out, spills.
#[cfg(feature = "exact_query_stats")]
pub fn stats() -> [usize; 7] {
    crate::kd_tree::query::tree::stats::take()
}
