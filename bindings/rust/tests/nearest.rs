//! Nearest: the stand examples of the scope paper, rooms of every length, empty
//! trees, and each refusal.

use oulavisok::numbers::{self, Numbers};
use oulavisok::{nearest, Answer, NearestRooms, Refusal, Tree};

const A_LEFT: Tree = Tree {
    starts: &[0, 2, 4],
    stems: &[0.0, 4.0],
    items: &[10, 11, 12, 13],
    coords: &[1.0, 4.0, 4.0, 7.0, 1.0, 2.0, 6.0, 1.0],
};
const A_RIGHT: Tree = Tree {
    starts: &[0, 2],
    stems: &[],
    items: &[20, 21],
    coords: &[1.0, 7.0, 5.0, 1.0],
};
const A8: [(u32, f64); 4] = [(20, 16.0), (21, 10.0), (20, 10.0), (21, 0.0)];

/// No leaf, an empty one, several.
const EMPTY: [Tree; 3] = [
    Tree {
        starts: &[0],
        stems: &[],
        items: &[],
        coords: &[],
    },
    Tree {
        starts: &[0, 0],
        stems: &[],
        items: &[],
        coords: &[],
    },
    Tree {
        starts: &[0, 0, 0],
        stems: &[0.0, 0.0],
        items: &[],
        coords: &[],
    },
];

const PATTERN: (u32, f64) = (0xdead_beef, 1e300);

/// Two rooms with a pattern in them.
struct Kept {
    items: Vec<u32>,
    distance: Vec<f64>,
}

impl Kept {
    fn of_lengths(items: usize, distance: usize) -> Self {
        Kept {
            items: vec![PATTERN.0; items],
            distance: vec![PATTERN.1; distance],
        }
    }
    fn rooms(&mut self) -> NearestRooms<'_> {
        NearestRooms {
            items: &mut self.items,
            distance: &mut self.distance,
        }
    }
    /// The first places hold these answers, the others the pattern.
    fn hold(&self, due: &[(u32, f64)]) {
        let answer = |place: usize| due.get(place).copied().unwrap_or(PATTERN);
        for (place, &item) in self.items.iter().enumerate() {
            assert_eq!(item, answer(place).0);
        }
        for (place, distance) in self.distance.iter().enumerate() {
            assert_eq!(distance.to_bits(), answer(place).1.to_bits());
        }
    }
}

/// Visits, measured and ruled out; nothing is ever taken whole.
fn answered(k: u32, left: Tree, right: Tree, due: &[(u32, f64)], totals: [u64; 3]) {
    let [visits, measured, ruled_out] = totals;
    let answer = Answer {
        found: due.len() as u64,
        visits,
        measured,
        ruled_out,
        taken_whole: 0,
    };
    for beyond in [0, 1, 9] {
        let mut kept = Kept::of_lengths(due.len() + beyond, due.len() + beyond);
        assert_eq!(nearest(k, left, right, kept.rooms()), Ok(answer));
        kept.hold(due);
    }
}

fn refused(number: u32, side: u64, k: u32, [left, right]: [Tree; 2], lengths: [usize; 2]) {
    let due = Numbers {
        refusal: number,
        side,
        found: 0,
        visits: 0,
        measured: 0,
        ruled_out: 0,
        taken_whole: 0,
    };
    let mut kept = Kept::of_lengths(lengths[0], lengths[1]);
    assert_eq!(numbers::nearest(k, left, right, kept.rooms()), due);
    let refusal = Refusal { number, side };
    assert_eq!(nearest(k, left, right, kept.rooms()), Err(refusal));
    assert!(!refusal.to_string().starts_with("refusal"), "has a text");
    kept.hold(&[]);
}

#[test]
fn a8() {
    answered(2, A_LEFT, A_RIGHT, &A8, [3, 8, 0]);
}

/// Ruled out by the answers held: the right's near half, for the left's far one.
#[test]
fn trees_of_b() {
    let left = line(&[1, 2], &[-5.0, 5.0], &[0.0, 0.0]);
    let right = line(&[3, 4], &[-5.0, 5.0], &[0.0, 3.0]);
    answered(1, left, right, &[(3, 0.0), (4, 0.0)], [7, 3, 1]);
}

/// One leaf, or two with the pivot between.
fn line<'a>(items: &'a [u32], coords: &'a [f64], stems: &'a [f64]) -> Tree<'a> {
    let starts: &[u32] = if stems.is_empty() {
        &[0, 1]
    } else {
        &[0, 1, 2]
    };
    Tree {
        starts,
        stems,
        items,
        coords,
    }
}

/// The far half comes first.
#[test]
fn c1() {
    let right = line(&[5, 6], &[-1.0, 1.0], &[0.0, 0.0]);
    let left = line(&[1], &[0.0], &[]);
    answered(1, left, right, &[(6, 1.0)], [3, 2, 0]);
}

/// Every distance overflows: item 0 at +inf. Item 0 can be a real one, too.
#[test]
fn c2() {
    let (far, away) = (line(&[1], &[-1e200], &[]), line(&[7], &[1e200], &[]));
    answered(1, far, away, &[(0, f64::INFINITY)], [1, 1, 0]);
    let near = line(&[0], &[-1e200], &[]);
    answered(1, far, near, &[(0, 0.0)], [1, 1, 0]);
}

/// Nothing is written, whatever the rooms hold, and all numbers are 0.
#[test]
fn empty_trees() {
    let of_trees = |left, right| {
        for room in [0, 1, 9] {
            let mut kept = Kept::of_lengths(room, room);
            let told = numbers::nearest(2, left, right, kept.rooms());
            assert_eq!((told.refusal, told.side, told.found), (0, 0, 0));
            assert_eq!((told.visits, told.measured), (0, 0));
            assert_eq!((told.ruled_out, told.taken_whole), (0, 0));
            kept.hold(&[]);
        }
        refused(8, 0, 2, [left, right], [3, 4]);
    };
    for empty in EMPTY {
        of_trees(empty, A_LEFT);
        of_trees(A_LEFT, empty);
        of_trees(empty, empty);
    }
}

#[test]
fn rooms_that_differ() {
    for lengths in [[4, 5], [5, 4], [0, 4], [4, 0], [3, 4], [0, 1]] {
        refused(8, 0, 2, [A_LEFT, A_RIGHT], lengths);
    }
}

#[test]
fn rooms_too_small() {
    for room in 0..4 {
        refused(9, 0, 2, [A_LEFT, A_RIGHT], [room; 2]);
    }
    // The left number counts, not the right one.
    let mut kept = Kept::of_lengths(2, 2);
    assert!(nearest(2, A_RIGHT, A_LEFT, kept.rooms()).is_ok());
    refused(9, 0, 2, [A_RIGHT, A_LEFT], [1; 2]);
}

/// A tree is refused before the rooms are looked at.
#[test]
fn trees_refused() {
    let bad = [
        (
            2,
            Tree {
                starts: &[],
                ..A_LEFT
            },
        ),
        (
            3,
            Tree {
                stems: &[],
                ..A_LEFT
            },
        ),
        (
            4,
            Tree {
                starts: &[0, 5, 4],
                ..A_LEFT
            },
        ),
        (
            5,
            Tree {
                coords: &[f64::NAN; 8],
                ..A_LEFT
            },
        ),
        (
            6,
            Tree {
                stems: &[0.0, f64::NAN],
                ..A_LEFT
            },
        ),
        (
            7,
            Tree {
                stems: &[0.0, 3.0],
                ..A_LEFT
            },
        ),
    ];
    for lengths in [[4, 4], [3, 3], [4, 5]] {
        for k in [0, 5, u32::MAX] {
            refused(1, 0, k, [A_LEFT, A_RIGHT], lengths);
        }
        for (number, bad) in bad {
            refused(number, 0, 2, [bad, A_RIGHT], lengths);
            refused(number, 1, 2, [A_RIGHT, bad], lengths);
            refused(number, 0, 2, [bad, bad], lengths);
            // An empty tree does not hide the other.
            refused(number, 1, 2, [EMPTY[0], bad], lengths);
        }
    }
}
