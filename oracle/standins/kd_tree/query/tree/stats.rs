//! Stands in for the source's counters, used with `exact_query_stats` only.

use std::cell::Cell;

#[derive(Clone, Copy)]
pub enum Event {
    Node,
    Leaf,
    Distances,
    Matches,
    Accepted,
    Rejected,
    Spill,
}

thread_local! {
    static COUNTS: Cell<[usize; 7]> = const { Cell::new([0; 7]) };
}

pub fn record(event: Event, count: usize) {
    COUNTS.with(|cell| {
        let mut counts = cell.get();
        counts[event as usize] += count;
        cell.set(counts);
    });
}

/// What was recorded since the last call, in the order of `Event`.
pub fn take() -> [usize; 7] {
    COUNTS.with(|cell| cell.replace([0; 7]))
}
