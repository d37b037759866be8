//! Joins of two lent trees, by the proved library: which points of two maps lie
//! within a radius of each other, and how many; and which point of the other map
//! is nearest to each.
//!
//! A radius is a squared distance, as are the distances stored; [`radius_of`]
//! makes a radius of a length. Trees are checked at each call, so no buffer can
//! do harm: what is wrong is refused.
//!
//! ```
//! use oulavisok::{pairs_up_to, radius_of, Outcome, Rooms, Tree};
//!
//! let this = Tree { starts: &[0, 2], stems: &[], items: &[1, 2], coords: &[0.0, 5.0] };
//! let last = Tree { starts: &[0, 1], stems: &[], items: &[7], coords: &[3.0] };
//! let (mut left, mut right, mut distance) = ([0; 8], [0; 8], [0.0; 8]);
//! let rooms = Rooms { left: &mut left, right: &mut right, distance: &mut distance };
//! match pairs_up_to(1, radius_of(2.0), this, last, rooms) {
//!     Outcome::Answered(answer) => assert_eq!(answer.found, 1),
//!     Outcome::Full(answer) => panic!("room for {} is needed", answer.found),
//!     Outcome::Refused(refusal) => panic!("{refusal}"),
//! }
//! assert_eq!((left[0], right[0], distance[0]), (2, 7, 4.0));
//! ```

mod c;
pub mod numbers;
mod outcome;

pub use outcome::{Answer, Outcome, Refusal};

/// A lent tree of n points in m leaves.
#[derive(Clone, Copy, Debug)]
pub struct Tree<'a> {
    /// Leaf i holds the places from start i up to start i + 1; m + 1 of them.
    pub starts: &'a [u32],
    /// Pivots: node 1 is the root, node s has children 2s and 2s + 1. None for
    /// fewer than two leaves, else as many as the next power of two from m.
    pub stems: &'a [f64],
    /// The number of each point, in place order.
    pub items: &'a [u32],
    /// Axis by axis: axis d of the point at place p is at d * n + p.
    pub coords: &'a [f64],
}

/// Where pairs are stored: left items, right items and squared distances, of
/// one length. What lies beyond the pairs stored is left as it is.
#[derive(Debug)]
pub struct Rooms<'a> {
    pub left: &'a mut [u32],
    pub right: &'a mut [u32],
    pub distance: &'a mut [f64],
}

/// Where nearest answers are stored, one for each left point, in place order:
/// right items and squared distances, of one length. What lies beyond the left
/// number is left as it is.
#[derive(Debug)]
pub struct NearestRooms<'a> {
    pub items: &'a mut [u32],
    pub distance: &'a mut [f64],
}

/// Stores the pairs whose squared distance is at most the radius, in walk
/// order. K, from 1 to 4, is the number of axes.
pub fn pairs_up_to(k: u32, radius: f64, left: Tree, right: Tree, rooms: Rooms) -> Outcome {
    numbers::pairs_up_to(k, radius, left, right, rooms).into()
}

/// Stores the pairs whose squared distance is below the radius, in walk order.
pub fn pairs_under(k: u32, radius: f64, left: Tree, right: Tree, rooms: Rooms) -> Outcome {
    numbers::pairs_under(k, radius, left, right, rooms).into()
}

/// How many pairs have a squared distance of at most the radius.
pub fn counts_up_to(k: u32, radius: f64, left: Tree, right: Tree) -> Outcome {
    numbers::counts_up_to(k, radius, left, right).into()
}

/// How many pairs have a squared distance below the radius.
pub fn counts_under(k: u32, radius: f64, left: Tree, right: Tree) -> Outcome {
    numbers::counts_under(k, radius, left, right).into()
}

/// Stores, for each point of the left tree in place order, the item of the right
/// tree that is nearest, and its squared distance. Of several that are equally
/// near it is the first that the walk measures. Where every distance overflows,
/// item 0 and +inf are stored; item 0 may also be a real one.
///
/// The rooms must hold the left number: refusal 9 otherwise, an error here, with
/// nothing stored. If a tree holds no points, nothing is stored and `found` is 0.
///
/// ```
/// use oulavisok::{nearest, NearestRooms, Tree};
///
/// let this = Tree { starts: &[0, 2], stems: &[], items: &[1, 2], coords: &[0.0, 5.0] };
/// let last = Tree { starts: &[0, 1], stems: &[], items: &[7], coords: &[3.0] };
/// let (mut items, mut distance) = ([0; 2], [0.0; 2]);
/// let rooms = NearestRooms { items: &mut items, distance: &mut distance };
/// assert_eq!(nearest(1, this, last, rooms).unwrap().found, 2);
/// assert_eq!((items, distance), ([7, 7], [9.0, 4.0]));
/// ```
pub fn nearest(k: u32, left: Tree, right: Tree, rooms: NearestRooms) -> Result<Answer, Refusal> {
    Outcome::from(numbers::nearest(k, left, right, rooms)).complete()
}

/// The radius of a length: r * r, rounded once, whatever r is.
pub fn radius_of(r: f64) -> f64 {
    // SAFETY: a number goes in, a number comes out.
    unsafe { c::oul_radius_of(r) }
}
