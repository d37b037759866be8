//! Many different leaf pairs of two trees, so that no branch predictor learns
//! one of them by heart.

use oracle::ours::Leaf;
use oracle::rng::Rng;
use oracle::rust::{leaf_pairs, Lent, Pairs};

/// A left and a right leaf.
pub type At = (usize, usize);

pub struct Pool<const K: usize> {
    pub left: Lent<K>,
    pub right: Lent<K>,
    pub at: Vec<At>,
    pub size: usize,
}

const LEAVES: usize = 32;

impl<const K: usize> Pool<K> {
    /// Leaves of `size` points spread over the unit box: which pairs pass is
    /// then as unforeseeable as it can be.
    pub fn new(size: usize, rng: &mut Rng) -> Self {
        // Fewer pairs of large leaves, so that all stays in the second cache.
        let pairs = if size <= 32 { 256 } else { 64 };
        let mut at: Vec<At> = (0..LEAVES * LEAVES)
            .map(|i| (i / LEAVES, i % LEAVES))
            .collect();
        rng.shuffle(&mut at);
        at.truncate(pairs);
        Pool {
            left: tree(size, rng),
            right: tree(size, rng),
            at,
            size,
        }
    }

    /// Pairs of points in one pass over the pool.
    pub fn distances(&self) -> usize {
        self.at.len() * self.size * self.size
    }

    /// The same memory as the Rust reads, as ours is given it.
    #[inline(always)]
    pub fn leaves(&self, (li, ri): At) -> (Leaf<'_>, Leaf<'_>) {
        (leaf(&self.left, li), leaf(&self.right, ri))
    }

    /// A radius that all pairs of points pass, one that a quarter pass, and
    /// one that none does.
    pub fn radii(&self) -> [f64; 3] {
        let mut all = self.all_distances();
        let quarter = all.len() / 4;
        let (below, &mut at, above) = all.select_nth_unstable_by(quarter, f64::total_cmp);
        let least = below.iter().copied().fold(at, f64::min);
        let largest = above.iter().copied().fold(at, f64::max);
        [largest * 2.0, at, least / 2.0]
    }

    fn all_distances(&self) -> Vec<f64> {
        let mut all = Vec::with_capacity(self.distances());
        let mut found = Pairs::with_capacity(self.size * self.size);
        let (left, right) = (&self.left, &self.right);
        for &at in &self.at {
            found.clear();
            leaf_pairs::<K, false>(left, right, at, f64::INFINITY, &mut found);
            all.extend(found.iter().map(|(_, _, distance)| distance));
        }
        all
    }
}

fn tree<const K: usize>(size: usize, rng: &mut Rng) -> Lent<K> {
    let n = LEAVES * size;
    let starts: Vec<u32> = (0..=LEAVES).map(|leaf| (leaf * size) as u32).collect();
    let items: Vec<u32> = (0..n).map(|_| rng.bits() as u32).collect();
    let coords: Vec<f64> = (0..K * n).map(|_| rng.unit()).collect();
    // A leaf pair is measured without looking at stems.
    Lent::new(&starts, &[0.5; LEAVES], &items, &coords)
}

#[inline(always)]
fn leaf<const K: usize>(tree: &Lent<K>, leaf: usize) -> Leaf<'_> {
    Leaf {
        items: tree.items(),
        coords: tree.coords(),
        start: tree.starts()[leaf] as usize,
        end: tree.starts()[leaf + 1] as usize,
    }
}
