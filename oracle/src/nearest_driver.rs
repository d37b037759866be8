//! Mounted as a child of the source's `nearest.rs`, where its private
//! `update_leaf` and `Candidate` can be seen.

use super::Candidate;
use crate::dist::SquaredEuclidean;
use crate::kd_tree::query::tree::driver::Lent;

/// One leaf's stretch of the source's candidates.
pub struct Answers(Vec<Candidate<u32, u32, f64>>);

impl Answers {
    pub fn new(held: impl Iterator<Item = (u32, f64)>) -> Self {
        let candidate = |(right, distance)| Candidate {
            left: 0,
            right,
            distance,
        };
        Answers(held.map(candidate).collect())
    }
    /// Puts the same answer everywhere.
    pub fn fill(&mut self, right: u32, distance: f64) {
        for candidate in &mut self.0 {
            candidate.right = right;
            candidate.distance = distance;
        }
    }
    pub fn iter(&self) -> impl Iterator<Item = (u32, f64)> + '_ {
        self.0.iter().map(|c| (c.right, c.distance))
    }
}

/// The source finds a leaf's stretch at `starts[leaf]`; zeros there make
/// `answers` the stretch itself, so `zeros` needs a zero for each left leaf.
#[inline(never)]
pub fn update_leaf<const K: usize>(
    left: &Lent<K>,
    right: &Lent<K>,
    (li, ri): (usize, usize),
    zeros: &[usize],
    answers: &mut Answers,
) {
    super::update_leaf::<_, _, SquaredEuclidean<f64>, K>(
        &left.0,
        &right.0,
        li,
        ri,
        zeros,
        &mut answers.0,
    );
}
