//! The joins of the Rattle library on trees prepared for both sides.

use crate::trees::Tree;
use oulavisok::{numbers, NearestRooms, Rooms};

fn lent<const K: usize>(tree: &Tree<K>) -> oulavisok::Tree<'_> {
    oulavisok::Tree {
        starts: tree.starts(),
        stems: tree.stems(),
        items: tree.items(),
        coords: tree.coords(),
    }
}

/// The number found, unless something is refused.
fn found(answer: numbers::Numbers) -> Option<u64> {
    (answer.refusal == 0).then_some(answer.found)
}

/// The number of pairs, unless something is refused.
#[inline(always)]
pub fn pairs<const K: usize, const EX: bool>(
    left: &Tree<K>,
    right: &Tree<K>,
    radius: f64,
    (lout, rout, dout): (&mut [u32], &mut [u32], &mut [f64]),
) -> Option<u64> {
    let call = if EX {
        numbers::pairs_under
    } else {
        numbers::pairs_up_to
    };
    let rooms = Rooms {
        left: lout,
        right: rout,
        distance: dout,
    };
    found(call(K as u32, radius, lent(left), lent(right), rooms))
}

/// The number of pairs, unless something is refused.
#[inline(always)]
pub fn counts<const K: usize, const EX: bool>(
    left: &Tree<K>,
    right: &Tree<K>,
    radius: f64,
) -> Option<u64> {
    let call = if EX {
        numbers::counts_under
    } else {
        numbers::counts_up_to
    };
    found(call(K as u32, radius, lent(left), lent(right)))
}

/// The number of answers, unless something is refused.
#[inline(always)]
pub fn nearest<const K: usize>(
    left: &Tree<K>,
    right: &Tree<K>,
    items: &mut [u32],
    dists: &mut [f64],
) -> Option<u64> {
    let rooms = NearestRooms {
        items,
        distance: dists,
    };
    found(numbers::nearest(K as u32, lent(left), lent(right), rooms))
}
