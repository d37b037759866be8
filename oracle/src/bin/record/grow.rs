//! Sound trees with leaves of given sizes, as records need them.

use crate::file::EMPTY;
use crate::lots::{grown, Lot};
use crate::points::Source;
use oracle::rng::Rng;

/// Stems over no leaf hold NaN, or anything; items are numbered from `first`.
pub fn tree(k: usize, sizes: &[usize], source: &Source, first: u32, rng: &mut Rng) -> Lot {
    let mut lot = grown(k, source, sizes, rng);
    let unused = rng.pick(&[f64::NAN, -f64::NAN, f64::NEG_INFINITY, f64::INFINITY, 3.0]);
    for place in lot.unused() {
        lot.stems[place] = unused;
    }
    lot.items = items(lot.items.len(), first, rng);
    lot
}

/// Numbers from `first` on, shuffled, or with repeats, or at the ends of u32.
fn items(n: usize, first: u32, rng: &mut Rng) -> Vec<u32> {
    let mut items: Vec<u32> = (first..).take(n).collect();
    match rng.below(6) {
        0..=2 => rng.shuffle(&mut items),
        3 => items
            .iter_mut()
            .for_each(|item| *item = rng.pick(&[0, 1, u32::MAX])),
        4 => items.iter_mut().for_each(|item| *item = rng.bits() as u32),
        _ => {}
    }
    items
        .iter()
        .map(|item| if *item == EMPTY { 7 } else { *item })
        .collect()
}
