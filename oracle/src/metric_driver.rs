//! Mounted as a child of the source's `metric.rs`, where its seal can be seen:
//! the squared Euclidean metric, counting what a walk asks of it. The source's
//! `nearest.rs` has no counters of its own.

use super::{sealed, JoinMetric};
use crate::dist::{DistanceMetricScalar, SquaredEuclidean};
use std::cell::Cell;

type Plain = SquaredEuclidean<f64>;

/// Answers as [`SquaredEuclidean`] does, and counts.
pub struct Counting;

/// What was asked since the last [`take`].
#[derive(Clone, Copy, Default)]
pub struct Asked {
    /// Components of lower bounds: K for each node pair whose bound is asked.
    pub bounds: u64,
    /// Components of distances: K for each pair of points measured.
    pub distances: u64,
    /// Node pairs put aside to be visited: two at each split, one where the
    /// pivot is not finite.
    pub halves: u64,
    /// Numbers widened since the last component, and the last of them. The walk
    /// widens one before a split, the pivot, and two before a component of a
    /// distance; a bound's components come between any two of these.
    widened: u64,
    pivot: f64,
}

thread_local! {
    static ASKED: Cell<Asked> = const { Cell::new(Asked {
        bounds: 0,
        distances: 0,
        halves: 0,
        widened: 0,
        pivot: 0.0,
    }) };
}

impl Asked {
    fn split(&mut self) {
        if self.widened == 1 {
            self.halves += if self.pivot.is_finite() { 2 } else { 1 };
        }
        self.widened = 0;
    }
}

fn note(what: impl Fn(&mut Asked)) {
    ASKED.with(|cell| {
        let mut asked = cell.get();
        what(&mut asked);
        cell.set(asked);
    });
}

pub fn take() -> Asked {
    note(Asked::split);
    ASKED.with(Cell::take)
}

impl DistanceMetricScalar<f64> for Counting {
    type Output = f64;

    fn widen_coord(a: f64) -> f64 {
        note(|asked| {
            asked.widened += 1;
            asked.pivot = a;
        });
        <Plain as DistanceMetricScalar<f64>>::widen_coord(a)
    }

    fn dist1(a: f64, b: f64) -> f64 {
        <Plain as DistanceMetricScalar<f64>>::dist1(a, b)
    }

    fn combine_component(acc: &mut f64, component: f64) {
        note(|asked| {
            match asked.widened {
                2 => asked.distances += 1,
                _ => asked.bounds += 1,
            }
            match asked.widened {
                2 => asked.widened = 0,
                _ => asked.split(),
            }
        });
        <Plain as DistanceMetricScalar<f64>>::combine_component(acc, component);
    }
}

impl sealed::Metric<f64> for Counting {}
impl JoinMetric<f64> for Counting {}
