//! Rules 1 to 7 of the tree check, read plainly from the scope paper: by the
//! path of each leaf, not by going down the nodes.

use crate::lots::Lot;

/// The number of the first rule broken, 0 if none.
pub fn first_broken(lot: &Lot) -> u32 {
    let rules: [fn(&Lot) -> bool; 7] = [
        |lot| !(1..=4).contains(&lot.k),
        |lot| lot.starts.is_empty() || lot.starts.len() > 4097 || lot.items.len() > 65_536,
        wrong_length,
        wrong_starts,
        |lot| lot.coords.iter().any(|x| x.is_nan() || x.is_infinite()),
        wrong_pivot,
        out_of_order,
    ];
    let broken = rules.iter().position(|broken| broken(lot));
    broken.map_or(0, |rule| rule as u32 + 1)
}

/// Levels above the leaves: 0 below two leaves, else the exponent of the next
/// power of two.
pub fn levels(leaves: usize) -> u32 {
    match leaves {
        0 | 1 => 0,
        many => many.next_power_of_two().trailing_zeros(),
    }
}

fn wrong_length(lot: &Lot) -> bool {
    let stems = match lot.leaves() {
        0 | 1 => 0,
        many => many.next_power_of_two(),
    };
    lot.stems.len() != stems || lot.coords.len() != lot.k as usize * lot.items.len()
}

fn wrong_starts(lot: &Lot) -> bool {
    let falls_or_long = |w: &[u32]| w[1] < w[0] || w[1] - w[0] > 1024;
    lot.starts[0] != 0
        || lot.starts[lot.leaves()] as usize != lot.items.len()
        || lot.starts.windows(2).any(falls_or_long)
}

/// At level v a node is over the leaves that share the bits above the last
/// `levels - v`; the first of them is there unless the node is over none.
fn wrong_pivot(lot: &Lot) -> bool {
    let levels = levels(lot.leaves());
    (0..levels).any(|level| {
        (0..1usize << level).any(|across| {
            let first = across << (levels - level);
            let pivot = lot.stems[(1 << level) + across];
            first < lot.leaves() && (pivot.is_nan() || pivot == f64::NEG_INFINITY)
        })
    })
}

/// Each point against each pivot on its leaf's path.
fn out_of_order(lot: &Lot) -> bool {
    let levels = levels(lot.leaves());
    (0..lot.leaves()).any(|leaf| (0..levels).any(|level| misplaced(lot, leaf, level, levels)))
}

fn misplaced(lot: &Lot, leaf: usize, level: u32, levels: u32) -> bool {
    let pivot = lot.stems[(1 << level) + (leaf >> (levels - level))];
    let right = leaf >> (levels - level - 1) & 1 == 1;
    let axis = (level % lot.k) as usize;
    let (from, to) = (lot.starts[leaf] as usize, lot.starts[leaf + 1] as usize);
    (from..to).any(|place| {
        let x = lot.coords[axis * lot.items.len() + place];
        match right {
            false => x > pivot,
            true => x < pivot || pivot == f64::INFINITY,
        }
    })
}
