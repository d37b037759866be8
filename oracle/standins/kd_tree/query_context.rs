//! Named by the stem strategies' single-point queries, which no join makes.

pub trait QueryContext<A, O, const K: usize> {}
