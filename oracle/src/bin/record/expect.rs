//! The answer to a case.
//!
//! | Part | From |
//! |---|---|
//! | number, side | `rules.rs` for rules 1 to 7; the rooms' lengths for 8; found against the room for 9 |
//! | found, the pairs, their order and bits | the Rust's own walk |
//! | visits, measured | the counters in the Rust's walk |
//! | ruled out, whole | `count.rs`, read from the scope paper |
//! | nearest: the answers and their bits | the Rust's own `nearest::execute` |
//! | nearest: visits, measured | what that walk asked of a metric that counts |
//! | nearest: ruled out | `count.rs` |
//!
//! `count.rs` must agree with every counter of the Rust, and a measurement of
//! all against all must find the same pairs, or the same smallest distances.

use crate::count::{self, Counted};
use crate::file::{Case, EMPTY};
use crate::lots::Lot;
use crate::rules;
use oracle::api::{self, Pair};

#[derive(Default)]
pub struct Answer {
    pub number: u32,
    pub side: u32,
    pub found: u64,
    pub visits: u64,
    pub measured: u64,
    pub ruled: u64,
    pub whole: u64,
    /// What is stored, in order.
    pub stored: Vec<Pair>,
}

pub fn answer(case: &Case) -> Answer {
    let (left, right) = case.lent();
    for (side, lot) in [&left, &right].iter().enumerate() {
        let number = rules::first_broken(lot);
        if number != 0 {
            let side = if number == 1 { 0 } else { side as u32 };
            return Answer {
                number,
                side,
                ..Answer::default()
            };
        }
    }
    if case.rooms_differ() {
        return Answer {
            number: 8,
            ..Answer::default()
        };
    }
    if case.nearest() {
        return nearest(case, &left, &right);
    }
    walked(case, &left, &right)
}

fn nearest(case: &Case, left: &Lot, right: &Lot) -> Answer {
    let found = api::nearest(left.k, left.rust(), right.rust());
    if found.len() > case.room as usize {
        return Answer {
            number: 9,
            ..Answer::default()
        };
    }
    let (again, walk) = api::nearest_counted(left.k, left.rust(), right.rust());
    let (own, answers) = count::nearest(left, right, 0..left.k as usize);
    let stored: Vec<Pair> = found.iter().map(|f| (EMPTY, f.1, f.2)).collect();
    let counted: Vec<Pair> = answers.iter().map(|a| (EMPTY, a.0, a.1)).collect();
    assert_eq!(bits(&again), bits(&found), "{}", case.kind);
    assert_eq!(bits(&counted), bits(&stored), "{}", case.kind);
    assert_eq!((own.visits, own.measured), (walk.visits, walk.measured));
    let points = (left.items.len() * right.items.len()) as u64;
    assert_eq!(own.measured + own.ruled, points);
    smallest(left, right, &found);
    Answer {
        found: found.len() as u64,
        visits: own.visits,
        measured: own.measured,
        ruled: own.ruled,
        stored,
        ..Answer::default()
    }
}

fn bits(pairs: &[Pair]) -> Vec<(u32, u32, u64)> {
    let bits = |(l, r, d): &Pair| (*l, *r, d.to_bits());
    pairs.iter().map(bits).collect()
}

/// Each answer is for the left item at its place; its distance is the smallest
/// of all, and an item at that distance is its item, but for overflow.
fn smallest(left: &Lot, right: &Lot, found: &[Pair]) {
    for (p, (item, near, distance)) in found.iter().enumerate() {
        let all = (0..right.items.len()).map(|q| (q, count::distance(left, p, right, q)));
        let least = all.clone().fold(f64::INFINITY, |m, (_, x)| m.min(x));
        let mut at_it = all.filter(|(_, x)| x == distance);
        assert_eq!((*item, *distance), (left.items[p], least));
        assert!(match least == f64::INFINITY {
            true => *near == 0,
            false => at_it.any(|(q, _)| right.items[q] == *near),
        });
    }
}

fn walked(case: &Case, left: &Lot, right: &Lot) -> Answer {
    let (k, under, radius) = (left.k, case.under(), case.radius);
    api::stats();
    let (found, mut stored) = if case.counting() {
        (
            api::walk_count(k, under, radius, left.rust(), right.rust()),
            vec![],
        )
    } else {
        let pairs = api::walk_pairs(k, under, radius, left.rust(), right.rust());
        (pairs.len(), pairs)
    };
    let [visits, _, measured, matches, taken, rejected, spilled] = api::stats();
    let own = count::walk(left, right, radius, under, case.counting());
    let rust = Counted {
        visits: visits as u64,
        measured: measured as u64,
        nodes_ruled: rejected as u64,
        nodes_whole: taken as u64,
        ..own
    };
    assert_eq!(own, rust, "{}: the Rust counts otherwise", case.kind);
    assert_eq!((found, spilled), (matches, 0));
    let points = (left.items.len() * right.items.len()) as u64;
    assert_eq!(own.measured + own.ruled + own.whole, points);
    all_against_all(case, left, right, found, &stored);
    let number = if !case.counting() && found as u64 > u64::from(case.room) {
        9
    } else {
        0
    };
    stored.truncate(case.room as usize);
    Answer {
        number,
        side: 0,
        found: found as u64,
        visits: own.visits,
        measured: own.measured,
        ruled: own.ruled,
        whole: own.whole,
        stored,
    }
}

/// The pairs found, in any order, are those that pass among all.
fn all_against_all(case: &Case, left: &Lot, right: &Lot, found: usize, pairs: &[Pair]) {
    let mut due = vec![];
    for p in 0..left.items.len() {
        for q in 0..right.items.len() {
            let distance = count::distance(left, p, right, q);
            if count::passes(distance, case.radius, case.under()) {
                due.push((left.items[p], right.items[q], distance.to_bits()));
            }
        }
    }
    assert_eq!(due.len(), found, "{}", case.kind);
    if !case.counting() {
        let mut pairs = bits(pairs);
        pairs.sort_unstable();
        due.sort_unstable();
        assert!(pairs == due, "{}", case.kind);
    }
}
