//! The stand examples of the scope paper that ask for nearest, as cases.

use crate::cases::{Case, Size};
use oracle::examples::example;

/// A8, C1 and C2.
pub fn stands() -> [Case; 3] {
    let named = [("A8", "a8"), ("C1", "c1-nearest"), ("C2", "c2-nearest")];
    named.map(|(kind, name)| {
        let ask = example(name);
        Case {
            k: ask.left.k,
            kind: kind.into(),
            left: ask.left,
            right: ask.right,
            spacing: 1.0,
            size: Size::Ordinary,
        }
    })
}

/// What 01 says of the stand examples.
pub fn said(kind: &str) -> Option<&'static [(u32, f64)]> {
    match kind {
        "A8" => Some(&[(20, 16.0), (21, 10.0), (20, 10.0), (21, 0.0)]),
        "C1" => Some(&[(6, 1.0)]),
        "C2" => Some(&[(0, f64::INFINITY)]),
        _ => None,
    }
}
