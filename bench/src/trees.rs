//! Whole trees for the joins, and a radius that goes with them.

use oracle::rng::Rng;
use oracle::rust::Lent;
use std::ops::Range;

/// How the points of both trees lie.
#[derive(Clone, Copy, PartialEq)]
pub enum Layout {
    /// Planted rows: a lattice, the same on both sides.
    Rows,
    /// Anywhere in the unit box, each side its own.
    Random,
}

const SPACING: f64 = 2.5;

impl Layout {
    pub const ALL: [Layout; 2] = [Layout::Rows, Layout::Random];

    pub fn name(self) -> &'static str {
        match self {
            Layout::Rows => "rows",
            Layout::Random => "random",
        }
    }

    pub fn points<const K: usize>(self, n: usize, rng: &mut Rng) -> Vec<[f64; K]> {
        let side = (1..).find(|side: &usize| side.pow(K as u32) >= n).unwrap();
        let planted = |i| std::array::from_fn(|d| SPACING * (i / side.pow(d as u32) % side) as f64);
        let mut points: Vec<[f64; K]> = match self {
            Layout::Rows => (0..n).map(planted).collect(),
            Layout::Random => (0..n).map(|_| [(); K].map(|()| rng.unit())).collect(),
        };
        rng.shuffle(&mut points);
        points
    }

    /// Rows: one spacing, so a point has itself and the next one on each axis
    /// both ways (5 with two axes, 7 with three, fewer at the border), these
    /// exactly at the edge. Random: a ball that holds 6 points on average away
    /// from the border.
    pub fn radius<const K: usize>(self, n: usize) -> f64 {
        use std::f64::consts::PI;
        let ball = [2.0, PI, PI * 4.0 / 3.0, PI * PI / 2.0][K - 1];
        let length = match self {
            Layout::Rows => SPACING,
            Layout::Random => (6.0 / (n as f64 * ball)).powf(1.0 / K as f64),
        };
        length * length
    }
}

/// A tree in the lent layout. Both sides read the same starts, items and
/// coordinates; of the stems each has a copy.
pub struct Tree<const K: usize> {
    lent: Lent<K>,
    stems: Vec<f64>,
}

impl<const K: usize> Tree<K> {
    /// Leaves of `leaf` points, the last one perhaps of fewer.
    pub fn new(mut points: Vec<[f64; K]>, leaf: usize) -> Self {
        let (n, m) = (points.len(), points.len().div_ceil(leaf));
        let levels = m.next_power_of_two().ilog2();
        let mut stems = vec![0.0; if m < 2 { 0 } else { 1 << levels }];
        let mut build = Build {
            leaf,
            stems: &mut stems,
        };
        build.node(1, 0, levels, 0..m, &mut points);
        let starts: Vec<u32> = (0..=m).map(|i| (i * leaf).min(n) as u32).collect();
        let items: Vec<u32> = (0..n as u32).collect();
        let coords: Vec<f64> = (0..K)
            .flat_map(|d| points.iter().map(move |point| point[d]))
            .collect();
        Tree {
            lent: Lent::new(&starts, &stems, &items, &coords),
            stems,
        }
    }
    pub fn lent(&self) -> &Lent<K> {
        &self.lent
    }
    pub fn starts(&self) -> &[u32] {
        self.lent.starts()
    }
    pub fn stems(&self) -> &[f64] {
        &self.stems
    }
    pub fn items(&self) -> &[u32] {
        self.lent.items()
    }
    pub fn coords(&self) -> &[f64] {
        self.lent.coords()
    }
}

struct Build<'a> {
    leaf: usize,
    stems: &'a mut [f64],
}

impl Build<'_> {
    /// Divides the points of a node at the place where its left half ends; the
    /// pivot is the first point of the right half.
    fn node<const K: usize>(
        &mut self,
        stem: usize,
        level: usize,
        left: u32,
        leaves: Range<usize>,
        points: &mut [[f64; K]],
    ) {
        if left == 0 {
            return;
        }
        let axis = level % K;
        let middle = (leaves.start + (1 << (left - 1))).min(leaves.end);
        let at = ((middle - leaves.start) * self.leaf).min(points.len());
        if at == points.len() {
            // No right half: kiddo's pivot is then +inf.
            self.stems[stem] = f64::INFINITY;
        } else {
            points.select_nth_unstable_by(at, |a, b| a[axis].total_cmp(&b[axis]));
            self.stems[stem] = points[at][axis];
        }
        let (near, far) = points.split_at_mut(at);
        self.node(2 * stem, level + 1, left - 1, leaves.start..middle, near);
        self.node(2 * stem + 1, level + 1, left - 1, middle..leaves.end, far);
    }
}
