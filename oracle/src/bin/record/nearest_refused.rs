//! Nearest joins that are refused: a part of what is done to radius joins, and
//! the two rooms.

use crate::file::{Case, NEAREST};
use crate::refused::{lent_at, other_axes, sound, DAMAGES, LENGTHS};
use oracle::rng::Rng;

pub fn all(cases: &mut Vec<Case>, rng: &mut Rng) {
    for (number, damage) in DAMAGES.iter().enumerate() {
        let mut case = sound(NEAREST, 1 + number % 4, rng);
        let lot = match number % 2 {
            0 => &mut case.left,
            _ => &mut case.right,
        };
        damage(lot, rng);
        cases.push(case);
    }
    for k in [0, 5, 255] {
        cases.push(other_axes(k, NEAREST, rng));
    }
    // Every second one, left and right in turn.
    for (number, (tree, buffer, lent)) in LENGTHS.into_iter().enumerate() {
        if [0, 3].contains(&(number % 4)) {
            cases.push(lent_at(tree, buffer, lent, NEAREST, rng));
        }
    }
    for (room, buffer, lent) in NEAREST_ROOMS {
        let mut case = sound(NEAREST, 1 + rng.below(4), rng);
        (case.room, case.buffer, case.lent) = (room, buffer, lent);
        case.kind = "rooms of different lengths";
        cases.push(case);
    }
    // The left tree is told before the right, and a tree before the rooms.
    for [left, right] in [[4, 0], [0, 4], [4, 5], [5, 4]] {
        let mut case = sound(NEAREST, 1, rng);
        for (rule, lot) in [(left, &mut case.left), (right, &mut case.right)] {
            match rule {
                4 => lot.starts[0] = 1,
                5 => lot.coords[0] = f64::NAN,
                _ => {}
            }
        }
        (case.room, case.buffer, case.lent) = (2, 11, 3);
        case.kind = "several damages";
        cases.push(case);
    }
}

/// The room, and buffer 10 (items) or 11 (distances) at a length of its own. The
/// left number is 5: below it, too, the difference is told first. Buffer 9 is no
/// room of nearest.
const NEAREST_ROOMS: [(u32, u32, u32); 8] = [
    (5, 10, 6),
    (5, 11, 6),
    (5, 10, 4),
    (4, 11, 0),
    (0, 10, 1),
    (1024, 11, 1025),
    (5, 11, 5),
    (5, 9, 0),
];
