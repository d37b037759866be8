//! Stands in for `FlatVec` and `VecOfArenas`. `FlatVec` here holds the buffers
//! of a lent tree in the lent layout; `VecOfArenas` is only named.

use crate::leaf_view::LeafView;
use crate::traits::leaf_strategy::{BucketLimitType, Immutable, LeafProjection, LeafStrategy};
use crate::{Axis, Content, StemStrategy};
use std::marker::PhantomData;

#[derive(Debug)]
pub struct FlatVec<A, T, const K: usize, const B: usize> {
    starts: Vec<u32>,
    items: Vec<T>,
    coords: Vec<A>,
}

impl<A: Copy, T: Copy, const K: usize, const B: usize> FlatVec<A, T, K, B> {
    /// Refuses whatever would let `leaf_view` read outside the buffers.
    pub fn new(starts: &[u32], items: &[T], coords: &[A]) -> Self {
        assert!(!starts.is_empty() && starts.windows(2).all(|w| w[0] <= w[1]));
        assert!(starts[starts.len() - 1] as usize <= items.len());
        assert_eq!(coords.len(), K * items.len());
        Self {
            starts: starts.to_vec(),
            items: items.to_vec(),
            coords: coords.to_vec(),
        }
    }
    pub fn starts(&self) -> &[u32] {
        &self.starts
    }
    pub fn items(&self) -> &[T] {
        &self.items
    }
    pub fn coords(&self) -> &[A] {
        &self.coords
    }
}

impl<A, T, SS, const K: usize, const B: usize> LeafStrategy<A, T, SS, K, B> for FlatVec<A, T, K, B>
where
    A: Axis<Coord = A>,
    T: Content,
    SS: StemStrategy,
{
    type Num = A;
    type Mutability = Immutable;
    const BUCKET_LIMIT_TYPE: BucketLimitType = BucketLimitType::Soft;
    const LEAF_PROJECTION: LeafProjection = LeafProjection::LeafView;

    fn size(&self) -> usize {
        self.items.len()
    }
    fn leaf_count(&self) -> usize {
        self.starts.len() - 1
    }
    fn leaf_len(&self, leaf: usize) -> usize {
        (self.starts[leaf + 1] - self.starts[leaf]) as usize
    }
    /// One test for the leaf; the parts are then within the buffers by what
    /// `new` refuses, so that the stand-in costs the Rust as little as can be.
    #[inline(always)]
    fn leaf_view(&self, leaf: usize) -> LeafView<'_, A, T, K, B> {
        let from = self.starts[leaf] as usize;
        let to = self.starts[leaf + 1] as usize;
        let n = self.items.len();
        // SAFETY: from <= to <= n and K * n coordinates, tested in `new`.
        unsafe {
            LeafView::new(
                std::array::from_fn(|d| self.coords.get_unchecked(d * n + from..d * n + to)),
                self.items.get_unchecked(from..to),
            )
        }
    }
}

pub struct VecOfArenas<A, T, const K: usize, const B: usize>(PhantomData<(A, T)>);
