//! The stand examples of the scope paper, all but the nearest ones (`nearest.rs`
//! has those), and the radius of a length.

mod rooms;

use oulavisok::{
    counts_under, counts_up_to, pairs_under, pairs_up_to, radius_of, Answer, Outcome, Tree,
};
use rooms::{Kept, Pair};

const A_LEFT: Tree = Tree {
    starts: &[0, 2, 4],
    stems: &[0.0, 4.0],
    items: &[10, 11, 12, 13],
    coords: &[1.0, 4.0, 4.0, 7.0, 1.0, 2.0, 6.0, 1.0],
};
const A_RIGHT: Tree = Tree {
    starts: &[0, 2],
    stems: &[],
    items: &[20, 21],
    coords: &[1.0, 7.0, 5.0, 1.0],
};
const B_LEFT: Tree = Tree {
    starts: &[0, 1, 2],
    stems: &[0.0, 0.0],
    items: &[1, 2],
    coords: &[-5.0, 5.0],
};
const B_RIGHT: Tree = Tree {
    stems: &[0.0, 3.0],
    items: &[3, 4],
    ..B_LEFT
};
const INF: f64 = f64::INFINITY;

/// Found, visits, measured, ruled out, taken whole.
fn answer(numbers: [u64; 5]) -> Answer {
    let [found, visits, measured, ruled_out, taken_whole] = numbers;
    Answer {
        found,
        visits,
        measured,
        ruled_out,
        taken_whole,
    }
}

/// Pairs "up to" a radius: these, in this order, with these totals.
fn up_to(k: u32, radius: f64, left: Tree, right: Tree, due: &[Pair], totals: [u64; 4]) {
    let mut kept = Kept::new(16);
    let outcome = pairs_up_to(k, radius, left, right, kept.rooms());
    told(outcome, &kept, due, totals);
}

fn under(k: u32, radius: f64, left: Tree, right: Tree, due: &[Pair], totals: [u64; 4]) {
    let mut kept = Kept::new(16);
    let outcome = pairs_under(k, radius, left, right, kept.rooms());
    told(outcome, &kept, due, totals);
}

fn told(outcome: Outcome, kept: &Kept, due: &[Pair], [v, m, r, w]: [u64; 4]) {
    let due_answer = answer([due.len() as u64, v, m, r, w]);
    assert_eq!(outcome, Outcome::Answered(due_answer));
    assert_eq!(outcome.complete(), Ok(due_answer));
    kept.hold(due);
}

const A_UP_TO_10: [Pair; 3] = [(11, 21, 10.0), (12, 20, 10.0), (13, 21, 0.0)];

#[test]
fn pairs_of_a() {
    up_to(2, 10.0, A_LEFT, A_RIGHT, &A_UP_TO_10, [3, 8, 0, 0]);
    under(2, 10.0, A_LEFT, A_RIGHT, &A_UP_TO_10[2..], [3, 8, 0, 0]);
    under(2, 0.0, A_LEFT, A_RIGHT, &[], [1, 0, 8, 0]);
    up_to(2, f64::NAN, A_LEFT, A_RIGHT, &[], [3, 8, 0, 0]);
    up_to(2, -1.0, A_LEFT, A_RIGHT, &[], [1, 0, 8, 0]);
}

#[test]
fn counts_of_a() {
    let whole = Outcome::Answered(answer([8, 1, 0, 0, 8]));
    assert_eq!(counts_up_to(2, INF, A_LEFT, A_RIGHT), whole);
    let measured = Outcome::Answered(answer([8, 3, 8, 0, 0]));
    assert_eq!(counts_under(2, INF, A_LEFT, A_RIGHT), measured);
}

#[test]
fn room_for_two_of_a() {
    let mut kept = Kept::new(2);
    let outcome = pairs_up_to(2, 10.0, A_LEFT, A_RIGHT, kept.rooms());
    let all = answer([3, 3, 8, 0, 0]);
    assert_eq!(outcome, Outcome::Full(all));
    assert_eq!(outcome.answer(), Ok(all));
    assert_eq!(outcome.complete().unwrap_err().number, 9);
    kept.hold(&A_UP_TO_10[..2]);
}

#[test]
fn pairs_of_b() {
    let found = [(1, 3, 0.0), (2, 4, 0.0)];
    up_to(1, 1.0, B_LEFT, B_RIGHT, &found, [7, 3, 1, 0]);
    up_to(1, 9.0, B_LEFT, B_RIGHT, &found, [7, 4, 0, 0]);
    under(1, 9.0, B_LEFT, B_RIGHT, &found, [7, 3, 1, 0]);
}

/// One point in one leaf.
fn one<'a>(item: &'a [u32; 1], coord: &'a [f64; 1]) -> Tree<'a> {
    Tree {
        starts: &[0, 1],
        stems: &[],
        items: item,
        coords: coord,
    }
}

#[test]
fn pairs_of_c() {
    let zero = one(&[1], &[0.0]);
    let around = Tree {
        items: &[5, 6],
        coords: &[-1.0, 1.0],
        ..B_LEFT
    };
    let both = [(1, 5, 1.0), (1, 6, 1.0)];
    up_to(1, 1.0, zero, around, &both, [3, 2, 0, 0]);
    let (far, away) = (one(&[1], &[-1e200]), one(&[7], &[1e200]));
    up_to(1, INF, far, away, &[(1, 7, INF)], [1, 1, 0, 0]);
    under(1, INF, far, away, &[], [1, 1, 0, 0]);
    up_to(1, 0.01, zero, one(&[2], &[0.1]), &[], [1, 1, 0, 0]);
}

#[test]
fn radius_of_a_length() {
    assert_eq!(radius_of(-2.0), 4.0);
    assert_eq!(radius_of(-0.0).to_bits(), 0);
    assert!(radius_of(f64::NAN).is_nan());
    assert_eq!(radius_of(1e200), INF);
}
