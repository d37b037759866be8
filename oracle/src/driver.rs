//! Mounted as a child of the source's `query/tree/mod.rs`, where `leaf_pair`,
//! `walk`, `nearest::execute`, `Bounds` and `accepts` can be seen.

use super::leaf::leaf_pair;
use super::metric::driver::{take, Counting};
use super::metric::{self, Bounds, JoinMetric};
use super::traversal::{self, Counter, Sink};
use super::{nearest, Collector, PairQueryResult, TreeNearestQueryResult, WithDistances};
use crate::dist::{DistanceMetricScalar, SquaredEuclidean};
use crate::kd_tree::KdTreeAccessor;
use crate::leaf_strategy::FlatVec;
use crate::stem_strategy::Eytzinger;
use crate::KdTree;

pub use super::nearest::driver::{update_leaf, Answers};

type Metric = SquaredEuclidean<f64>;
const ALL_ROWS: [std::ops::Range<usize>; 2] = [0..usize::MAX, 0..usize::MAX];

/// A lent tree as the source's own tree type.
pub struct Lent<const K: usize>(
    pub(super) KdTree<f64, u32, Eytzinger, FlatVec<f64, u32, K, 32>, K, 32>,
);

impl<const K: usize> Lent<K> {
    pub fn new(starts: &[u32], stems: &[f64], items: &[u32], coords: &[f64]) -> Self {
        Lent(KdTree::lent(
            stems.to_vec(),
            FlatVec::new(starts, items, coords),
        ))
    }
    pub fn starts(&self) -> &[u32] {
        self.0.leaves().starts()
    }
    pub fn items(&self) -> &[u32] {
        self.0.leaves().items()
    }
    pub fn coords(&self) -> &[f64] {
        self.0.leaves().coords()
    }
}

/// Pairs in the order found, kept by the source's own collecting sink.
pub struct Pairs(Collector<u32, u32, f64, WithDistances>);

impl Pairs {
    pub fn with_capacity(capacity: usize) -> Self {
        Pairs(Collector(Vec::with_capacity(capacity)))
    }
    #[inline(always)]
    pub fn clear(&mut self) {
        self.0 .0.clear();
    }
    #[inline(always)]
    pub fn len(&self) -> usize {
        self.0 .0.len()
    }
    pub fn iter(&self) -> impl Iterator<Item = (u32, u32, f64)> + '_ {
        let tuple = |p: &PairQueryResult<u32, u32, f64>| (p.left_item, p.right_item, p.distance);
        self.0 .0.iter().map(tuple)
    }
}

/// Pairs in three plain buffers, as the Rattle library stores them: all
/// counted, those that fit stored.
pub struct Buffers<'a> {
    pub left: &'a mut [u32],
    pub right: &'a mut [u32],
    pub distance: &'a mut [f64],
    pub found: usize,
}

impl Sink<u32, u32, f64> for Buffers<'_> {
    const DISTANCES: bool = true;
    #[inline(always)]
    fn emit(&mut self, left: u32, right: u32, distance: f64) {
        if let Some(place) = self.left.get_mut(self.found) {
            *place = left;
            self.right[self.found] = right;
            self.distance[self.found] = distance;
        }
        self.found += 1;
    }
}

#[inline(never)]
pub fn leaf_pairs<const K: usize, const EX: bool>(
    left: &Lent<K>,
    right: &Lent<K>,
    (li, ri): (usize, usize),
    radius: f64,
    out: &mut Pairs,
) {
    leaf_pair::<_, _, Metric, _, K, EX>(&left.0, &right.0, li, ri, &ALL_ROWS, radius, &mut out.0);
}

#[inline(never)]
pub fn leaf_buffers<const K: usize, const EX: bool>(
    left: &Lent<K>,
    right: &Lent<K>,
    (li, ri): (usize, usize),
    radius: f64,
    out: &mut Buffers,
) {
    leaf_pair::<_, _, Metric, _, K, EX>(&left.0, &right.0, li, ri, &ALL_ROWS, radius, out);
}

#[inline(never)]
pub fn leaf_count<const K: usize, const EX: bool>(
    left: &Lent<K>,
    right: &Lent<K>,
    (li, ri): (usize, usize),
    radius: f64,
) -> usize {
    let mut sink = Counter::default();
    leaf_pair::<_, _, Metric, _, K, EX>(&left.0, &right.0, li, ri, &ALL_ROWS, radius, &mut sink);
    sink.0
}

fn walk<const K: usize, const EX: bool, S: Sink<u32, u32, f64>>(
    left: &Lent<K>,
    right: &Lent<K>,
    radius: f64,
    sink: &mut S,
) {
    let root = traversal::root(&left.0, &right.0);
    traversal::walk::<_, _, Metric, _, K, EX>(&left.0, &right.0, root, radius, sink);
}

/// The radius walk over whole trees, keeping pairs.
#[inline(never)]
pub fn walk_pairs<const K: usize, const EX: bool>(
    left: &Lent<K>,
    right: &Lent<K>,
    radius: f64,
    out: &mut Pairs,
) {
    walk::<K, EX, _>(left, right, radius, &mut out.0);
}

/// The radius walk over whole trees, counting only.
#[inline(never)]
pub fn walk_count<const K: usize, const EX: bool>(
    left: &Lent<K>,
    right: &Lent<K>,
    radius: f64,
) -> usize {
    let mut sink = Counter::default();
    walk::<K, EX, _>(left, right, radius, &mut sink);
    sink.0
}

/// What the source's nearest walk returns, as it stands.
pub struct Nearest(Vec<TreeNearestQueryResult<u32, u32, f64>>);

impl Nearest {
    /// Left item, right item, distance, in left place order.
    pub fn iter(&self) -> impl Iterator<Item = (u32, u32, f64)> + '_ {
        let tuple = |f: &TreeNearestQueryResult<_, _, _>| (f.left_item, f.right_item, f.distance);
        self.0.iter().map(tuple)
    }
    pub fn len(&self) -> usize {
        self.0.len()
    }
    pub fn is_empty(&self) -> bool {
        self.0.is_empty()
    }
}

fn nearest_by<const K: usize, D: JoinMetric<f64, Output = f64>>(
    left: &Lent<K>,
    right: &Lent<K>,
) -> Nearest {
    Nearest(nearest::execute::<_, _, D, K>(&left.0, &right.0))
}

/// The nearest walk over whole trees.
#[inline(never)]
pub fn walk_nearest<const K: usize>(left: &Lent<K>, right: &Lent<K>) -> Nearest {
    nearest_by::<K, Metric>(left, right)
}

/// The same, copied: left item, right item, distance.
pub fn nearest<const K: usize>(left: &Lent<K>, right: &Lent<K>) -> Vec<(u32, u32, f64)> {
    walk_nearest(left, right).iter().collect()
}

/// What the source's nearest walk did, told by the metric that it asked.
#[derive(Clone, Copy, Debug, PartialEq)]
pub struct NearestWalk {
    /// Node pairs visited; of these, those over leaves on both sides.
    pub visits: u64,
    pub bounded: u64,
    /// Pairs of points measured.
    pub measured: u64,
}

/// The same walk with a metric that counts.
pub fn nearest_counted<const K: usize>(
    left: &Lent<K>,
    right: &Lent<K>,
) -> (Vec<(u32, u32, f64)>, NearestWalk) {
    take();
    let found = nearest_by::<K, Counting>(left, right).iter().collect();
    let asked = take();
    let axes = K as u64;
    // The root, and every half put aside; an empty tree has no visit.
    let visits = match asked.bounds {
        0 => 0,
        _ => 1 + asked.halves,
    };
    let walk = NearestWalk {
        visits,
        bounded: asked.bounds / axes,
        measured: asked.distances / axes,
    };
    (found, walk)
}

/// The distance of two points.
pub fn distance<const K: usize>(left: &[f64; K], right: &[f64; K]) -> f64 {
    <Metric as DistanceMetricScalar<f64>>::dist(left, right)
}

/// Boxes given flat: the left's axis d at d, the right's at 4 + d.
fn bounds<const K: usize>(min: &[f64; 8], max: &[f64; 8]) -> Bounds<f64, K> {
    let sides = |flat: &[f64; 8]| [0, 4].map(|side| std::array::from_fn(|d| flat[side + d]));
    Bounds {
        min: sides(min),
        max: sides(max),
    }
}

pub fn lower<const K: usize>(min: &[f64; 8], max: &[f64; 8]) -> f64 {
    bounds::<K>(min, max).lower::<f64, Metric>()
}

pub fn upper<const K: usize>(min: &[f64; 8], max: &[f64; 8]) -> f64 {
    bounds::<K>(min, max).upper::<f64, Metric>()
}

pub fn rejected<const K: usize, const EX: bool>(
    min: &[f64; 8],
    max: &[f64; 8],
    radius: f64,
) -> bool {
    traversal::rejected::<f64, Metric, K, EX>(&bounds::<K>(min, max), radius)
}

pub fn accepts<const EX: bool>(distance: f64, radius: f64) -> bool {
    metric::accepts::<_, EX>(distance, radius)
}
