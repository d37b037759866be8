//! The stand examples A1 to A9, B1 to B3, C1 to C3; and nearest over B's trees.

use crate::file::{Case, NEAREST};
use oracle::ask::Ask;
use oracle::examples::example;

/// Each with its room. A9 is A1 with room for two.
pub fn all() -> Vec<Case> {
    let list = [
        ("a1", 8),
        ("a2", 8),
        ("a3", 8),
        ("a4", 8),
        ("a5", 8),
        ("a6", 0),
        ("a7", 0),
        ("a1", 2),
        ("b1", 4),
        ("b2", 4),
        ("b3", 4),
        ("c2-up-to", 1),
        ("c2-under", 1),
        ("c3", 1),
        ("c1-pairs", 2),
    ];
    list.map(|(name, room)| case(example(name), room)).into()
}

/// A8, C1, C2, and the trees of B.
pub fn nearest() -> Vec<Case> {
    let b = Ask {
        mode: NEAREST,
        radius: 0.0,
        ..example("b1")
    };
    vec![
        case(example("a8"), 4),
        case(example("c1-nearest"), 1),
        case(example("c2-nearest"), 1),
        case(b, 2),
    ]
}

fn case(ask: Ask, room: u32) -> Case {
    Case {
        kind: "stand example",
        mode: ask.mode,
        radius: ask.radius,
        left: ask.left,
        right: ask.right,
        room,
        buffer: 0,
        lent: 0,
    }
}
