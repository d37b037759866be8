//! The Rust source of kiddo 6.3.0, compiled as it stands, over lent trees; and
//! the Rattle library's parts beside it. See README.md.
//!
//! [`rust`] calls the source with K and the edge as const generics, on trees
//! prepared once: for timing. [`api`] takes them as values: for comparing.
//! [`ours`] calls the Rattle library `beside` through its C interface; whole
//! joins are called by ../bindings/rust.
//!
//! [`rules`], [`tally`], [`near_tally`] and [`job`] are plain readings of the
//! scope paper, over trees as lists ([`lots`]).

// The source's crates from the registry: `names.rs` has what it imports.
extern crate self as aligned_vec;
extern crate self as az;
extern crate self as nonmax;
extern crate self as tracing;

// Source and stand-ins stand at the root, because the source says `crate::`.
include!(concat!(env!("OUT_DIR"), "/kiddo.rs"));

use axis::{Axis, Content};
use kd_tree::KdTree;
use names::{trace, AVec, CastFrom, NonMaxUsize};
use traits::leaf_strategy::LeafStrategy;
use traits::stem_strategy::StemStrategy;

pub use kd_tree::query::tree::driver as rust;

pub mod api;
pub mod ask;
pub mod examples;
pub mod job;
pub mod lots;
pub mod near_tally;
pub mod ours;
pub mod points;
pub mod rng;
pub mod rules;
pub mod tally;
