//! Stands in for `leaf_view/mod.rs`. `LeafView` has the same fields and the
//! same accessors as the source's; what belongs to single-point queries is left
//! out. The arena types are named by `cursor.rs` and never made.

use std::marker::PhantomData;

#[derive(Debug)]
pub struct LeafView<'a, AX, T, const K: usize, const B: usize> {
    points: [&'a [AX]; K],
    items: &'a [T],
}

impl<'a, AX: Copy, T: Copy, const K: usize, const B: usize> LeafView<'a, AX, T, K, B> {
    #[inline(always)]
    pub fn new(points: [&'a [AX]; K], items: &'a [T]) -> Self {
        Self { points, items }
    }
    #[inline(always)]
    pub fn points(&self) -> [&'a [AX]; K] {
        self.points
    }
    #[inline(always)]
    pub fn items(&self) -> &'a [T] {
        self.items
    }
    #[inline(always)]
    pub fn len(&self) -> usize {
        self.points[0].len()
    }
    pub fn point_item(&self, idx: usize) -> ([AX; K], T) {
        (self.points.map(|column| column[idx]), self.items[idx])
    }
}

pub struct LeafArena<'a, AX, T, const K: usize>(PhantomData<&'a (AX, T)>);
pub struct LeafArenaTile<'a, AX, T, const K: usize>(PhantomData<&'a (AX, T)>);

const NO_ARENA: &str = "a lent tree has no arena";

impl<'a, AX, T, const K: usize> LeafArena<'a, AX, T, K> {
    pub fn for_each_tiled_chunk(&self, _: impl FnMut(LeafArenaTile<'a, AX, T, K>)) {
        unreachable!("{NO_ARENA}")
    }
    pub fn point_item(&self, _: usize) -> ([AX; K], T) {
        unreachable!("{NO_ARENA}")
    }
}

impl<AX, T, const K: usize> LeafArenaTile<'_, AX, T, K> {
    pub fn join_columns(&self) -> ([*const AX; K], *const T) {
        unreachable!("{NO_ARENA}")
    }
    pub fn len(&self) -> usize {
        unreachable!("{NO_ARENA}")
    }
}
