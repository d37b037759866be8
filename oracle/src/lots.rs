//! Lent trees as lists, and sound ones grown over leaves of given sizes.

use crate::api;
use crate::points::Source;
use crate::rng::Rng;
use crate::rules::levels;

/// The buffers of a lent tree, and K.
#[derive(Clone)]
pub struct Lot {
    pub k: u32,
    pub starts: Vec<u32>,
    pub stems: Vec<f64>,
    pub items: Vec<u32>,
    pub coords: Vec<f64>,
}

impl Lot {
    /// As the Rust takes it.
    pub fn rust(&self) -> api::Tree<'_> {
        api::Tree {
            starts: &self.starts,
            stems: &self.stems,
            items: &self.items,
            coords: &self.coords,
        }
    }
    /// As the Rattle library takes it.
    pub fn ours(&self) -> oulavisok::Tree<'_> {
        oulavisok::Tree {
            starts: &self.starts,
            stems: &self.stems,
            items: &self.items,
            coords: &self.coords,
        }
    }
    pub fn leaves(&self) -> usize {
        self.starts.len() - 1
    }
    /// The places in `stems` of nodes over no leaf, and the unused place 0.
    pub fn unused(&self) -> Vec<usize> {
        let levels = levels(self.leaves());
        let over_none = |&place: &usize| {
            let Some(level) = place.checked_ilog2() else {
                return true;
            };
            (place - (1 << level)) << (levels - level) >= self.leaves()
        };
        (0..self.stems.len()).filter(over_none).collect()
    }
}

/// Mostly each item once, so that an exchange of two shows.
pub fn items(n: usize, rng: &mut Rng) -> Vec<u32> {
    let few = rng.one_in(4);
    let one = |i: usize| match few {
        true => rng.pick(&[0, 1, 2, u32::MAX]),
        false => i as u32 * 7 + 3,
    };
    (0..n).map(one).collect()
}

/// Sizes at the edges of tiles of 32 as often as all others together.
pub fn leaf_size(rng: &mut Rng) -> u32 {
    if rng.one_in(2) {
        rng.pick(&[0, 1, 31, 32, 33, 63, 64, 65])
    } else {
        rng.below(101) as u32
    }
}

/// A sound tree (but for leaves or items over the limits) with leaves of the
/// given sizes.
pub fn grown(k: usize, source: &Source, sizes: &[usize], rng: &mut Rng) -> Lot {
    let n = sizes.iter().sum();
    let mut points: Vec<[f64; 4]> = (0..n).map(|_| [(); 4].map(|_| source.value(rng))).collect();
    let levels = levels(sizes.len());
    let mut stems = vec![f64::NAN; if levels == 0 { 0 } else { 1 << levels }];
    let mut grow = Grow {
        k,
        sizes,
        stems: &mut stems,
        rng,
    };
    grow.node(1, 0, levels, 0..sizes.len(), &mut points);
    let mut starts = vec![0];
    for size in sizes {
        starts.push(starts[starts.len() - 1] + *size as u32);
    }
    let axis = |d: usize| points.iter().map(move |point| point[d]);
    Lot {
        k: k as u32,
        starts,
        stems,
        items: (0..n as u32).collect(),
        coords: (0..k).flat_map(axis).collect(),
    }
}

struct Grow<'a> {
    k: usize,
    sizes: &'a [usize],
    stems: &'a mut [f64],
    rng: &'a mut Rng,
}

impl Grow<'_> {
    /// Sorts a node's points by its axis and parts them where its leaves part.
    /// Nodes over no leaf keep NaN: they may hold anything.
    fn node(
        &mut self,
        stem: usize,
        level: usize,
        left: u32,
        leaves: std::ops::Range<usize>,
        points: &mut [[f64; 4]],
    ) {
        if left == 0 || leaves.is_empty() {
            return;
        }
        let axis = level % self.k;
        let mid = (leaves.start + (1 << (left - 1))).min(leaves.end);
        points.sort_by(|a, b| a[axis].total_cmp(&b[axis]));
        let at = self.sizes[leaves.start..mid].iter().sum();
        let (near, far) = points.split_at_mut(at);
        let below = near.last().map(|point| point[axis]);
        let above = far.first().map(|point| point[axis]);
        self.stems[stem] = self.pivot(below, above);
        self.node(2 * stem, level + 1, left - 1, leaves.start..mid, near);
        self.node(2 * stem + 1, level + 1, left - 1, mid..leaves.end, far);
    }

    /// Any pivot that the rules allow: on the last point below, on the first
    /// above, or between; beyond all points where a half has none.
    fn pivot(&mut self, below: Option<f64>, above: Option<f64>) -> f64 {
        match (below, above) {
            (Some(a), Some(b)) => self.rng.pick(&[a, b, a / 2.0 + b / 2.0]).clamp(a, b),
            (Some(a), None) => self.rng.pick(&[a, a.next_up(), f64::MAX, f64::INFINITY]),
            (None, Some(b)) => self.rng.pick(&[b, b.next_down(), f64::MIN]),
            (None, None) => self
                .rng
                .pick(&[0.0, -0.0, f64::MAX, f64::MIN, f64::INFINITY]),
        }
    }
}
