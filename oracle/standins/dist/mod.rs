//! Stands in for `dist/mod.rs`: the source's metrics and their core trait, with
//! empty traits for the SIMD halves that need the `simd` feature.

pub mod chebyshev;
pub mod distance_metric_core;
pub mod manhattan;
pub mod minkowski;
pub mod squared_euclidean;

pub use chebyshev::Chebyshev;
pub use distance_metric_core::{DistanceMetricScalar, WideningCastFrom};
pub use manhattan::Manhattan;
pub use minkowski::Minkowski;
pub use squared_euclidean::SquaredEuclidean;

pub trait DistanceMetricAvx512<A> {}
pub trait DistanceMetricAvx2<A> {}
pub trait DistanceMetricNeon<A> {}
pub trait DistanceMetricWasmSimd<A> {}

/// Named by the stem strategies' single-point queries, which no join makes.
pub trait DistanceMetric<A: Copy>: DistanceMetricScalar<A> {}
