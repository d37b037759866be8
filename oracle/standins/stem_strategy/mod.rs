//! Stands in for `stem_strategy/mod.rs`: mounts the source's Eytzinger strategy
//! and names the SIMD traits that block strategies would need.

pub mod eytzinger;
pub mod prefetch;

pub use eytzinger::Eytzinger;

pub trait SimdPrune {}
pub trait SimdSelectBestChildBlock3 {}

pub mod donnelly {
    pub mod simd_full {
        pub trait BacktrackBlock3 {}
        pub trait BacktrackBlock4 {}
    }
}
