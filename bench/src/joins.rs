//! Whole joins: our public call, which checks both trees first, beside the
//! Rust's `walk` and `nearest::execute`.

use crate::calls;
use crate::contest::{Contest, Stored};
use crate::trees::Tree;
use oracle::rust;

/// What both sides are given. `EX`: the strict edge.
#[derive(Clone, Copy)]
pub struct Join<'a, const K: usize, const EX: bool> {
    pub left: &'a Tree<K>,
    pub right: &'a Tree<K>,
    pub radius: f64,
}

/// What is never found: a refused call counts as a wrong answer.
const REFUSED: u64 = u64::MAX;

impl<const K: usize, const EX: bool> Join<'_, K, EX> {
    pub fn rust_count(&self) -> u64 {
        let (left, right) = (self.left.lent(), self.right.lent());
        rust::walk_count::<K, EX>(left, right, self.radius) as u64
    }
}

/// Counts.
impl<const K: usize, const EX: bool> Contest for Join<'_, K, EX> {
    fn entries(&self) -> usize {
        1
    }
    fn reset(&mut self) {}
    fn ours(&mut self, _: &[usize]) -> u64 {
        calls::counts::<K, EX>(self.left, self.right, self.radius).unwrap_or(REFUSED)
    }
    fn rust(&mut self, _: &[usize]) -> u64 {
        self.rust_count()
    }
    fn agree(&mut self) -> bool {
        self.ours(&[]) == self.rust(&[])
    }
}

/// Pairs, with exactly the room they need.
pub struct PairsJoin<'a, const K: usize, const EX: bool> {
    join: Join<'a, K, EX>,
    ours: Stored,
    rust: rust::Pairs,
}

impl<'a, const K: usize, const EX: bool> PairsJoin<'a, K, EX> {
    pub fn new(join: Join<'a, K, EX>) -> Self {
        let room = join.rust_count() as usize;
        PairsJoin {
            join,
            ours: Stored::new(room),
            rust: rust::Pairs::with_capacity(room),
        }
    }
}

impl<const K: usize, const EX: bool> Contest for PairsJoin<'_, K, EX> {
    fn entries(&self) -> usize {
        1
    }
    fn reset(&mut self) {}
    fn ours(&mut self, _: &[usize]) -> u64 {
        let Join {
            left,
            right,
            radius,
        } = self.join;
        calls::pairs::<K, EX>(left, right, radius, self.ours.buffers()).unwrap_or(REFUSED)
    }
    fn rust(&mut self, _: &[usize]) -> u64 {
        let (left, right) = (self.join.left.lent(), self.join.right.lent());
        self.rust.clear();
        rust::walk_pairs::<K, EX>(left, right, self.join.radius, &mut self.rust);
        self.rust.len() as u64
    }
    fn agree(&mut self) -> bool {
        let (found, rust) = (self.ours(&[]), self.rust(&[]));
        let pairs = self.rust.iter().map(|(l, r, d)| (l, r, d.to_bits()));
        found == rust && self.ours.pairs(found).eq(pairs)
    }
}

/// Nearest. The Rust allocates its answers in each call, ours fills what is lent.
pub struct NearestJoin<'a, const K: usize> {
    left: &'a Tree<K>,
    right: &'a Tree<K>,
    items: Vec<u32>,
    dists: Vec<f64>,
}

impl<'a, const K: usize> NearestJoin<'a, K> {
    pub fn new(left: &'a Tree<K>, right: &'a Tree<K>) -> Self {
        let room = left.items().len();
        NearestJoin {
            left,
            right,
            items: vec![0; room],
            dists: vec![0.0; room],
        }
    }
}

impl<const K: usize> Contest for NearestJoin<'_, K> {
    fn entries(&self) -> usize {
        1
    }
    /// A round over large trees takes about a second.
    fn rounds(&self, asked: usize) -> usize {
        let few = (100_000 / self.items.len()).max(2);
        asked.min(few)
    }
    fn reset(&mut self) {}
    fn ours(&mut self, _: &[usize]) -> u64 {
        let (items, dists) = (&mut self.items, &mut self.dists);
        calls::nearest::<K>(self.left, self.right, items, dists).unwrap_or(REFUSED)
    }
    fn rust(&mut self, _: &[usize]) -> u64 {
        rust::walk_nearest::<K>(self.left.lent(), self.right.lent()).len() as u64
    }
    fn agree(&mut self) -> bool {
        let found = self.ours(&[]);
        let rust = rust::walk_nearest::<K>(self.left.lent(), self.right.lent());
        let answers = self.items.iter().zip(&self.dists);
        let ours = self.left.items().iter().zip(answers);
        let ours = ours.map(|(left, (right, d))| (*left, *right, d.to_bits()));
        found == rust.len() as u64 && ours.eq(rust.iter().map(|(l, r, d)| (l, r, d.to_bits())))
    }
}
