//! Each refusal of pairs and counts on either side: its number and side, all
//! other numbers 0, and the rooms untouched.

mod rooms;

use oulavisok::numbers::{self, Numbers};
use oulavisok::{Outcome, Refusal, Tree};
use rooms::Kept;

const SOUND: Tree = Tree {
    starts: &[0, 2, 4],
    stems: &[0.0, 4.0],
    items: &[10, 11, 12, 13],
    coords: &[1.0, 4.0, 4.0, 7.0, 1.0, 2.0, 6.0, 1.0],
};

fn due(refusal: u32, side: u64) -> Numbers {
    Numbers {
        refusal,
        side,
        found: 0,
        visits: 0,
        measured: 0,
        ruled_out: 0,
        taken_whole: 0,
    }
}

/// All four joins refuse two trees so.
fn refused(number: u32, side: u64, k: u32, left: Tree, right: Tree) {
    let due = due(number, side);
    let mut kept = Kept::new(16);
    let told = numbers::pairs_up_to(k, 10.0, left, right, kept.rooms());
    assert_eq!(told, due);
    let told = numbers::pairs_under(k, 10.0, left, right, kept.rooms());
    assert_eq!(told, due);
    kept.hold(&[]);
    assert_eq!(numbers::counts_up_to(k, 10.0, left, right), due);
    assert_eq!(numbers::counts_under(k, 10.0, left, right), due);

    let refusal = Refusal { number, side };
    let outcome = oulavisok::counts_up_to(k, 10.0, left, right);
    assert_eq!(outcome, Outcome::Refused(refusal));
    assert_eq!(outcome.answer(), Err(refusal));
    assert!(!refusal.to_string().starts_with("refusal"), "has a text");
}

fn either_side(number: u32, bad: Tree) {
    refused(number, 0, 2, bad, SOUND);
    refused(number, 1, 2, SOUND, bad);
    // The left is checked first.
    refused(number, 0, 2, bad, bad);
}

#[test]
fn rule_1() {
    refused(1, 0, 0, SOUND, SOUND);
    refused(1, 0, 5, SOUND, SOUND);
}

#[test]
fn rule_2() {
    either_side(
        2,
        Tree {
            starts: &[],
            ..SOUND
        },
    );
    let starts = &[0; 4098];
    either_side(2, Tree { starts, ..SOUND });
    let items = &[0; 65_537];
    either_side(2, Tree { items, ..SOUND });
}

#[test]
fn rule_3() {
    either_side(
        3,
        Tree {
            stems: &[],
            ..SOUND
        },
    );
    let coords = &SOUND.coords[1..];
    either_side(3, Tree { coords, ..SOUND });
}

#[test]
fn rule_4() {
    for starts in [&[1, 2, 4], &[0, 5, 4], &[0, 2, 3], &[0, 2, u32::MAX]] {
        either_side(4, Tree { starts, ..SOUND });
    }
    let large = Tree {
        starts: &[0, 1025],
        stems: &[],
        items: &[0; 1025],
        coords: &[0.0; 2050],
    };
    either_side(4, large);
}

#[test]
fn rule_5() {
    for bad in [f64::NAN, f64::INFINITY, f64::NEG_INFINITY] {
        let coords = &[1.0, 4.0, 4.0, 7.0, 1.0, 2.0, 6.0, bad];
        either_side(5, Tree { coords, ..SOUND });
    }
}

#[test]
fn rule_6() {
    for bad in [f64::NAN, f64::NEG_INFINITY] {
        let stems = &[0.0, bad];
        either_side(6, Tree { stems, ..SOUND });
    }
}

#[test]
fn rule_7() {
    // Both halves have a point at 4: any other pivot is wrong.
    for bad in [4.0_f64.next_down(), 4.0_f64.next_up(), f64::INFINITY] {
        let stems = &[0.0, bad];
        either_side(7, Tree { stems, ..SOUND });
    }
}

#[test]
fn rule_8() {
    for shorter in 0..3 {
        let mut kept = Kept::new(16);
        match shorter {
            0 => kept.left.truncate(15),
            1 => kept.right.truncate(15),
            _ => kept.distance.truncate(15),
        }
        let told = numbers::pairs_up_to(2, 10.0, SOUND, SOUND, kept.rooms());
        assert_eq!(told, due(8, 0));
        let told = numbers::pairs_under(2, 10.0, SOUND, SOUND, kept.rooms());
        assert_eq!(told, due(8, 0));
        kept.hold(&[]);
    }
}

#[test]
fn rule_9() {
    for room in 0..4 {
        let mut kept = Kept::new(room);
        let told = numbers::pairs_up_to(2, 0.0, SOUND, SOUND, kept.rooms());
        let same = SOUND.items.iter().map(|&item| (item, item, 0.0));
        kept.hold(&same.take(room).collect::<Vec<_>>());
        assert_eq!((told.refusal, told.side, told.found), (9, 0, 4));
        let outcome = Outcome::from(told);
        assert!(matches!(outcome, Outcome::Full(all) if all.found == 4));
    }
}
