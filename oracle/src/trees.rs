//! Whole trees, sound and damaged, for the check.

use crate::lots::{self, Lot};
use crate::points::{Kind, Source};
use crate::report::Report;
use crate::rules;
use oracle::ours;
use oracle::rng::Rng;

pub fn compare(report: &mut Report, rng: &mut Rng, cases: u64) {
    for number in 0..cases {
        let mut lot = match number % 40 {
            0 => grown(limits(rng), rng),
            _ => grown(small(rng), rng),
        };
        let mut name = "sound".to_string();
        let damages = rng.pick(&[0, 1, 1, 1, 1, 2, 3]);
        for _ in 0..damages {
            name = damage(&mut lot, rng).to_string();
        }
        if damages > 1 {
            name = "several damages".into();
        }
        let due = rules::first_broken(&lot);
        report.draw("rule broken", BROKEN[due as usize]);
        let found = ours::check(lot.k, &lot.starts, &lot.stems, &lot.items, &lot.coords);
        report.case("check", &name, found == due, || {
            let (k, n) = (lot.k, lot.items.len());
            format!(
                "K={k}, {n} points, starts {:?}: {found}, not {due}",
                lot.starts
            )
        });
    }
}

pub const BROKEN: [&str; 8] = ["none", "1", "2", "3", "4", "5", "6", "7"];

/// Up to 70 leaves, some empty; on lattices many points lie on pivots.
fn small(rng: &mut Rng) -> Vec<usize> {
    let leaves = 1 + rng.below(70);
    let largest = rng.pick(&[1, 3, 8]);
    (0..leaves).map(|_| rng.below(largest + 1)).collect()
}

/// At the limits of leaves, of items and, mostly, of a leaf's points.
pub fn limits(rng: &mut Rng) -> Vec<usize> {
    match rng.below(20) {
        0 => vec![1024; 64],
        1 => [vec![1024; 64], vec![1]].concat(),
        2 | 3 => vec![1; rng.pick(&[4096, 4097])],
        4 | 5 => vec![],
        _ => {
            let mut sizes = vec![2; 1 + rng.below(5)];
            let leaf = rng.below(sizes.len());
            sizes[leaf] = rng.pick(&[1024, 1025]);
            sizes
        }
    }
}

fn grown(sizes: Vec<usize>, rng: &mut Rng) -> Lot {
    let k = 1 + rng.below(4);
    let source = Source::new(Kind::any(rng), rng);
    lots::grown(k, &source, &sizes, rng)
}

/// Damages a tree in one rule, or only seems to: the reading of the rules says
/// which.
pub fn damage(lot: &mut Lot, rng: &mut Rng) -> &'static str {
    match rng.below(10) {
        0 => {
            lot.k = rng.pick(&[0, 5, 6, u32::MAX]);
            "K"
        }
        1 => too_many(lot, rng),
        2 => lengths(lot, rng),
        3 => starts(lot, rng),
        4 => {
            put(
                &mut lot.coords,
                &[f64::NAN, f64::INFINITY, f64::NEG_INFINITY],
                rng,
            );
            "a coordinate not finite"
        }
        5 => {
            put(
                &mut lot.stems,
                &[f64::NAN, f64::NEG_INFINITY, -f64::NAN],
                rng,
            );
            "a pivot NaN or -inf"
        }
        _ => order(lot, rng),
    }
}

fn put(list: &mut [f64], values: &[f64], rng: &mut Rng) {
    if !list.is_empty() {
        let place = rng.below(list.len());
        list[place] = rng.pick(values);
    }
}

fn too_many(lot: &mut Lot, rng: &mut Rng) -> &'static str {
    match rng.below(50) {
        0 => {
            lot.items = vec![0; rng.pick(&[65_536, 65_537])];
            "many items"
        }
        1..=3 => {
            lot.starts.resize(rng.pick(&[4097, 4098]), 0);
            "many starts"
        }
        _ => {
            lot.starts.clear();
            "no starts"
        }
    }
}

fn lengths(lot: &mut Lot, rng: &mut Rng) -> &'static str {
    let list = if rng.one_in(2) {
        &mut lot.stems
    } else {
        &mut lot.coords
    };
    match rng.below(4) {
        0 => list.push(0.0),
        1 => drop(list.pop()),
        2 => list.clear(),
        _ => list.extend_from_within(..),
    }
    "a buffer's length"
}

fn starts(lot: &mut Lot, rng: &mut Rng) -> &'static str {
    let Some(last) = lot.starts.len().checked_sub(1) else {
        return "starts";
    };
    let any = rng.below(last + 1);
    let place = rng.pick(&[0, last, any, any]);
    let start = lot.starts[place];
    let n = lot.items.len() as u32;
    let near = [start.wrapping_add(1), start.wrapping_sub(1)];
    lot.starts[place] = rng.pick(&[near[0], near[1], 0, n, u32::MAX]);
    "starts"
}

/// Moves a point, or a pivot, or exchanges two of either.
fn order(lot: &mut Lot, rng: &mut Rng) -> &'static str {
    let (list, name) = match rng.below(3) {
        0 => (&mut lot.stems, "a pivot moved"),
        _ => (&mut lot.coords, "a point moved"),
    };
    if list.is_empty() {
        return name;
    }
    let (place, other) = (rng.below(list.len()), rng.below(list.len()));
    let x = list[place];
    match rng.below(6) {
        0 => list[place] = x.next_up(),
        1 => list[place] = x.next_down(),
        2 => list.swap(place, other),
        3 => list[place] = list[other],
        4 => list[place] = rng.pick(&[f64::MAX, f64::MIN]),
        _ if name == "a pivot moved" => list[place] = f64::INFINITY,
        _ => list[place] = -x,
    }
    name
}
