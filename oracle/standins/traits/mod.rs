//! Stands in for `traits/mod.rs`: mounts the source's three traits files.

pub mod kd_tree;
pub mod leaf_strategy;
pub mod stem_strategy;
