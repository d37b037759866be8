//! Stands in for `kd_tree/mod.rs`: the tree with the fields the join reads, and
//! the names that the traits files mention.

pub mod query;
pub mod query_context;
pub mod query_stack;
mod stem_leaf_resolution;

pub use crate::traits::kd_tree::{KdTreeAccessor, StemLeafResolution};
pub use stem_leaf_resolution::OwnedStemLeafResolution;

use crate::{AVec, Axis, Content, LeafStrategy, StemStrategy};
use std::marker::PhantomData;

pub struct KdTree<A, T, SS, LS, const K: usize, const B: usize> {
    stems: AVec<A>,
    leaves: LS,
    pub(crate) stem_leaf_resolution: OwnedStemLeafResolution,
    size: usize,
    max_stem_level: i32,
    _phantom: PhantomData<(SS, T)>,
}

impl<A, T, SS, LS, const K: usize, const B: usize> KdTree<A, T, SS, LS, K, B>
where
    A: Axis<Coord = A>,
    T: Content,
    SS: StemStrategy,
    LS: LeafStrategy<A, T, SS, K, B>,
{
    /// A tree over given stems and leaves: its depth the levels of the lent
    /// tree, its `max_stem_level` one less.
    pub fn lent(stems: AVec<A>, leaves: LS) -> Self {
        let leaf_count = leaves.leaf_count();
        let stems_depth = match leaf_count {
            0 | 1 => 0,
            many => many.next_power_of_two().ilog2() as usize,
        };
        Self {
            stems,
            size: leaves.size(),
            leaves,
            stem_leaf_resolution: OwnedStemLeafResolution::Arithmetic {
                stems_depth,
                leaf_count,
            },
            max_stem_level: stems_depth as i32 - 1,
            _phantom: PhantomData,
        }
    }
    #[inline]
    pub fn size(&self) -> usize {
        self.size
    }
    #[inline]
    pub fn leaf_count(&self) -> usize {
        self.leaves.leaf_count()
    }
    pub fn max_leaf_len(&self) -> usize {
        B * 2
    }
}

impl<A, T, SS, LS, const K: usize, const B: usize> KdTreeAccessor<A, T, SS, LS, K, B>
    for KdTree<A, T, SS, LS, K, B>
where
    A: Axis<Coord = A>,
    T: Content,
    SS: StemStrategy,
    LS: LeafStrategy<A, T, SS, K, B>,
{
    #[inline(always)]
    fn stems(&self) -> &[A] {
        self.stems.as_slice()
    }
    #[inline(always)]
    fn leaves(&self) -> &LS {
        &self.leaves
    }
    #[inline(always)]
    fn stem_leaf_resolution(&self) -> &impl StemLeafResolution {
        &self.stem_leaf_resolution
    }
    #[inline(always)]
    fn size(&self) -> usize {
        self.size
    }
    #[inline(always)]
    fn max_stem_level(&self) -> i32 {
        self.max_stem_level
    }
    fn max_leaf_len(&self) -> usize {
        B * 2
    }
}

/// The mode of leaves sorted by item: asked by nothing that a join calls.
pub const ITEM_LEAF_MODE_UNSORTED: u8 = 0;

pub struct ItemLeafMode;

impl ItemLeafMode {
    pub fn from_code(_: u8) -> Self {
        ItemLeafMode
    }
    pub fn has_sorted_leaves(&self) -> bool {
        false
    }
}

/// Named by the trait for growing leaves.
pub struct ConstructionError;

/// Named by the stem strategies' single-point queries, which no join makes.
pub trait KdTreeQueryOps<A, T, SS: StemStrategy, LS, const K: usize, const B: usize> {
    fn backtracking_query_with_scratch_impl<QC, O, D>(
        &self,
        _query: &mut QC,
        _stack: &mut SS::Stack<O, K>,
        _leaf: impl FnMut(usize, &[O; K], &mut QC),
    ) {
        unimplemented!("no join makes a single-point query")
    }
    fn arithmetic_query_with_scratch_impl<QC, O, D>(
        &self,
        _query: &mut QC,
        _stack: &mut SS::Stack<O, K>,
        _leaf: impl FnMut(usize, &[O; K], &mut QC),
    ) {
        unimplemented!("no join makes a single-point query")
    }
}

fn resolve_arithmetic_terminal_stem_idx(_: usize, _: usize, _: usize, _: usize) -> usize {
    unimplemented!("a join resolves leaves by their ranges")
}

fn resolve_mapped_terminal_stem_idx(
    _: usize,
    _: usize,
    _: usize,
    _: impl FnMut(usize) -> Option<usize>,
) -> usize {
    unimplemented!("a join resolves leaves by their ranges")
}
