//! Stands in for `dist/minkowski`: `metric.rs` lists the metric; no join here
//! uses it.

use super::{DistanceMetricScalar, WideningCastFrom};
use crate::Axis;
use std::marker::PhantomData;

pub struct Minkowski<const P: u32, R>(PhantomData<R>);

impl<A, R, const P: u32> DistanceMetricScalar<A> for Minkowski<P, R>
where
    A: Copy,
    R: Axis<Coord = R> + WideningCastFrom<A>,
{
    type Output = R;
    fn widen_coord(a: A) -> R {
        R::widening_cast_from(a)
    }
    fn dist1(_: R, _: R) -> R {
        unimplemented!("no join here uses Minkowski")
    }
}
