//! Stands in for `kd_tree/query/mod.rs`: mounts the source's tree joins.

pub mod tree;
