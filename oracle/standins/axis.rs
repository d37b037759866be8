//! Stands in for the crate's `Axis` and `Content`: what the joined source asks
//! of a coordinate and of an item, and no more.

use std::cmp::Ordering;
use std::fmt::{Debug, Display};
use std::ops::{AddAssign, Sub};

pub trait Axis:
    Copy + Debug + Display + PartialOrd + Sub<Output = Self> + AddAssign + Send + Sync + 'static
{
    type Coord;
    const IS_SIGNED: bool;
    const VALUE_WIDTH_BYTES: usize;
    fn zero() -> Self;
    fn max_value() -> Self;
    fn max(a: Self, b: Self) -> Self;
    fn cmp(a: Self, b: Self) -> Ordering;
    fn saturating_add(a: Self, b: Self) -> Self;
    fn saturating_dist(a: Self, b: Self) -> Self;
}

macro_rules! axis {
    ($t:ty) => {
        impl Axis for $t {
            type Coord = $t;
            const IS_SIGNED: bool = true;
            const VALUE_WIDTH_BYTES: usize = std::mem::size_of::<$t>();
            fn zero() -> Self {
                0.0
            }
            fn max_value() -> Self {
                <$t>::INFINITY
            }
            fn max(a: Self, b: Self) -> Self {
                if a > b {
                    a
                } else {
                    b
                }
            }
            fn cmp(a: Self, b: Self) -> Ordering {
                a.partial_cmp(&b).unwrap_or(Ordering::Equal)
            }
            fn saturating_add(a: Self, b: Self) -> Self {
                a + b
            }
            fn saturating_dist(a: Self, b: Self) -> Self {
                (a - b).abs()
            }
        }
    };
}
axis!(f32);
axis!(f64);

pub trait Content: Copy + Default + Debug + PartialEq + Send + Sync + 'static {}
impl Content for u32 {}
