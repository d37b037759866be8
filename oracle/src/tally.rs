//! What a radius walk counts, read plainly from the scope paper: a recursion
//! that hands each half boxes of its own, where the walk keeps one pair of boxes
//! and a stack.

use crate::lots::Lot;
use crate::rng::Rng;
use crate::rules::levels;
use std::ops::Range;

#[derive(Clone, Copy)]
pub struct Question<'a> {
    pub k: u32,
    pub radius: f64,
    pub under: bool,
    pub counting: bool,
    pub trees: [&'a Lot; 2],
}

/// Visits, those of them that end in each way, and the pairs of points under
/// these.
#[derive(Debug, Default, PartialEq)]
pub struct Tally {
    pub visits: u64,
    pub leaf_pairs: u64,
    pub measured: u64,
    pub rejected: u64,
    pub ruled_out: u64,
    pub accepted: u64,
    pub taken_whole: u64,
}

#[derive(Clone, Copy)]
pub struct Node {
    stem: usize,
    level: u32,
    levels_left: u32,
    first: usize,
    end: usize,
}

impl Node {
    pub fn span(&self) -> usize {
        self.end - self.first
    }
    pub fn is_leaf(&self) -> bool {
        self.levels_left == 0
    }
}

/// From and to, on each axis.
type Sides = [(f64, f64); 4];

/// A node of each tree and a box of each.
#[derive(Clone, Copy)]
pub struct At {
    pub nodes: [Node; 2],
    boxes: [Sides; 2],
}

pub struct Split {
    side: usize,
    axis: usize,
    /// Near, and far unless the pivot is +inf.
    pub halves: [Option<At>; 2],
}

pub fn tally(question: &Question) -> Tally {
    let mut tally = Tally::default();
    question.visit(question.roots(), &mut tally);
    tally
}

impl Question<'_> {
    pub fn roots(&self) -> At {
        let root = |tree: &Lot| Node {
            stem: 1,
            level: 0,
            levels_left: levels(tree.leaves()),
            first: 0,
            end: tree.leaves(),
        };
        At {
            nodes: self.trees.map(root),
            boxes: [[(f64::NEG_INFINITY, f64::INFINITY); 4]; 2],
        }
    }

    fn visit(&self, at: At, tally: &mut Tally) {
        tally.visits += 1;
        let area = self.points(at, 0) * self.points(at, 1);
        if at.nodes.iter().any(|node| node.span() == 0) || self.beyond(self.lower(at)) {
            tally.rejected += 1;
            tally.ruled_out += area;
        } else if self.counting && self.passes(self.upper(at)) {
            tally.accepted += 1;
            tally.taken_whole += area;
        } else if at.nodes.iter().all(Node::is_leaf) {
            tally.leaf_pairs += 1;
            tally.measured += area;
        } else {
            let halves = self.split(at).map(|split| split.halves);
            for half in halves.into_iter().flatten().flatten() {
                self.visit(half, tally);
            }
        }
    }

    fn points(&self, at: At, side: usize) -> u64 {
        self.places(at, side).len() as u64
    }

    /// The places under a node.
    pub fn places(&self, at: At, side: usize) -> Range<usize> {
        let (node, starts) = (at.nodes[side], &self.trees[side].starts);
        starts[node.first] as usize..starts[node.end] as usize
    }

    fn beyond(&self, bound: f64) -> bool {
        match self.under {
            true => bound >= self.radius,
            false => bound > self.radius,
        }
    }

    fn passes(&self, bound: f64) -> bool {
        match self.under {
            true => bound < self.radius,
            false => bound <= self.radius,
        }
    }

    pub fn lower(&self, at: At) -> f64 {
        let gap = |d: usize| {
            let (left, right) = (at.boxes[0][d], at.boxes[1][d]);
            match (left.1 < right.0, right.1 < left.0) {
                (true, _) => right.0 - left.1,
                (_, true) => left.0 - right.1,
                _ => 0.0,
            }
        };
        let squares = (0..self.k as usize).map(|d| gap(d) * gap(d));
        squares.fold(0.0, |sum, square| sum + square)
    }

    fn upper(&self, at: At) -> f64 {
        let axes = 0..self.k as usize;
        let side = |(from, to): (f64, f64)| from.is_finite() && to.is_finite();
        let finite = |d: usize| side(at.boxes[0][d]) && side(at.boxes[1][d]);
        if !axes.clone().all(finite) {
            return f64::INFINITY;
        }
        let reach = |d: usize| {
            let (left, right) = (at.boxes[0][d], at.boxes[1][d]);
            let (one, other) = (right.1 - left.0, left.1 - right.0);
            (one * one).max(other * other)
        };
        axes.map(reach).fold(0.0, |sum, square| sum + square)
    }

    /// The near and the far half of the side that is split, if a side is.
    pub fn split(&self, at: At) -> Option<Split> {
        let [left, right] = at.nodes;
        let side = match (left.is_leaf(), right.is_leaf()) {
            (true, true) => return None,
            (false, false) => usize::from(right.span() > left.span()),
            (left_is_leaf, _) => usize::from(left_is_leaf),
        };
        let node = at.nodes[side];
        let pivot = self.trees[side].stems[node.stem];
        let axis = (node.level % self.k) as usize;
        let mid = (node.first + (1 << (node.levels_left - 1))).min(node.end);
        let half = |far: usize, first: usize, end: usize| {
            let mut half = at;
            half.nodes[side] = Node {
                stem: 2 * node.stem + far,
                level: node.level + 1,
                levels_left: node.levels_left - 1,
                first,
                end,
            };
            half
        };
        let (mut near, mut far) = (half(0, node.first, mid), half(1, mid, node.end));
        let (from, to) = at.boxes[side][axis];
        near.boxes[side][axis] = (from, to.min(pivot));
        far.boxes[side][axis] = (from.max(pivot), to);
        let halves = [Some(near), (pivot != f64::INFINITY).then_some(far)];
        Some(Split { side, axis, halves })
    }

    /// Some node pair below the roots; `far` says which half is taken.
    fn somewhere(&self, rng: &mut Rng, far: impl Fn(&Split, &mut Rng) -> usize) -> At {
        let mut at = self.roots();
        while at.nodes.iter().all(|node| node.span() > 0) && !rng.one_in(12) {
            let half = self
                .split(at)
                .and_then(|split| split.halves[far(&split, rng)]);
            match half {
                Some(half) => at = half,
                None => break,
            }
        }
        at
    }

    /// The lower bound of some node pair whose nodes lie apart on most axes, so
    /// that the order in which gaps are summed shows.
    pub fn some_lower(&self, rng: &mut Rng) -> f64 {
        let corner = [(); 4].map(|_| rng.below(2));
        self.lower(self.somewhere(rng, |split, _| corner[split.axis] ^ split.side))
    }

    pub fn some_upper(&self, rng: &mut Rng) -> f64 {
        self.upper(self.somewhere(rng, |_, rng| rng.below(2)))
    }
}

#[cfg(test)]
mod tests {
    use super::*;

    fn lot(k: u32, starts: &[u32], stems: &[f64], coords: &[f64]) -> Lot {
        Lot {
            k,
            starts: starts.to_vec(),
            stems: stems.to_vec(),
            items: vec![0; coords.len() / k as usize],
            coords: coords.to_vec(),
        }
    }

    /// Visits, measured, ruled out, taken whole.
    fn totals(trees: [&Lot; 2], radius: f64, under: bool, counting: bool) -> [u64; 4] {
        let tally = tally(&Question {
            k: trees[0].k,
            radius,
            under,
            counting,
            trees,
        });
        [
            tally.visits,
            tally.measured,
            tally.ruled_out,
            tally.taken_whole,
        ]
    }

    #[test]
    fn stand_a() {
        let coords = [1.0, 4.0, 4.0, 7.0, 1.0, 2.0, 6.0, 1.0];
        let left = lot(2, &[0, 2, 4], &[0.0, 4.0], &coords);
        let right = lot(2, &[0, 2], &[], &[1.0, 7.0, 5.0, 1.0]);
        let trees = [&left, &right];
        assert_eq!(totals(trees, 10.0, false, false), [3, 8, 0, 0]);
        assert_eq!(totals(trees, 0.0, true, false), [1, 0, 8, 0]);
        assert_eq!(totals(trees, f64::NAN, false, false), [3, 8, 0, 0]);
        assert_eq!(totals(trees, f64::INFINITY, false, true), [1, 0, 0, 8]);
        assert_eq!(totals(trees, f64::INFINITY, true, true), [3, 8, 0, 0]);
    }

    #[test]
    fn stand_b() {
        let left = lot(1, &[0, 1, 2], &[0.0, 0.0], &[-5.0, 5.0]);
        let right = lot(1, &[0, 1, 2], &[0.0, 3.0], &[-5.0, 5.0]);
        let trees = [&left, &right];
        assert_eq!(totals(trees, 1.0, false, false), [7, 3, 1, 0]);
        assert_eq!(totals(trees, 9.0, false, false), [7, 4, 0, 0]);
        assert_eq!(totals(trees, 9.0, true, false), [7, 3, 1, 0]);
    }
}
