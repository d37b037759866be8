//! Stands in for `Executor`: the builders hold one, and without the
//! `multi-threaded` feature nothing asks it anything.

#[derive(Clone)]
pub struct Executor;

impl Executor {
    pub fn new() -> Self {
        Executor
    }
}
