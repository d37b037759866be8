//! Which spacings are exact: the figures of docs/SPACINGS.md, by the proved
//! library.
//!
//!     (cd crates/oulavisok && rt lib)     # at the root
//!     cd spacings && cargo run --release
//!
//! A stand of 256 x 256 stems is joined with itself, up to its own spacing, and
//! the neighbours found along its rows and columns are counted, in metres and in
//! whole centimetres. Prints the document's table. The exit status is not 0 when
//! a count is not the one expected here, when the library's count and a direct one
//! differ, or when a line printed does not stand in the document.

mod stand;

use oulavisok::{counts_up_to, radius_of, Tree};
use stand::{Stand, NEIGHBOURS};
use std::process::ExitCode;

const DOCUMENT: &str = include_str!("../../docs/SPACINGS.md");

/// Spacing and origin in metres, and how many neighbours are found.
const EXPECTED: [(f64, [f64; 2], usize); 10] = [
    (1.0, [0.0, 0.0], NEIGHBOURS),
    (0.25, [0.0, 0.0], NEIGHBOURS),
    (2.5, [0.0, 0.0], NEIGHBOURS),
    (2.5, [500000.0, 6672000.0], NEIGHBOURS),
    (0.1, [0.0, 0.0], 72704),
    (0.3, [0.0, 0.0], 70656),
    (1.8, [0.0, 0.0], 50688),
    (1.2, [0.0, 0.0], 70656),
    (1.2, [500000.0, 6672000.0], 26112),
    (1.2, [385000.3, 6672000.7], 26112),
];

/// Two stems, a squared radius, and whether the pair is found up to it.
const EXAMPLES: [([f64; 2], [f64; 2], f64, bool); 9] = [
    // Document 01's C3, and the same up to the helper's radius.
    ([0.0, 0.0], [0.1, 0.0], 0.01, false),
    ([0.0, 0.0], [0.1, 0.0], 0.1 * 0.1, true),
    // The first neighbours in a row of 0.1 that are lost are the third and fourth.
    ([0.1, 0.0], [2.0 * 0.1, 0.0], 0.1 * 0.1, true),
    ([2.0 * 0.1, 0.0], [3.0 * 0.1, 0.0], 0.1 * 0.1, false),
    ([20.0, 0.0], [30.0, 0.0], 10.0 * 10.0, true),
    // A radius with a millimetre more also finds what is beyond the spacing.
    ([0.0, 0.0], [1.2, 0.01], 1.2 * 1.2, false),
    ([0.0, 0.0], [1.2, 0.01], 1.201 * 1.201, true),
    ([0.0, 0.0], [120.0, 1.0], 120.0 * 120.0, false),
    // 3, 4, 5: squares and their sum are exact too.
    ([0.0, 0.0], [72.0, 96.0], 120.0 * 120.0, true),
];

fn main() -> ExitCode {
    let mut wrong = 0;
    for (spacing, origin, due) in EXPECTED {
        let metres = Stand { spacing, origin };
        let found = metres.joined_up_to(radius_of(spacing));
        let centimetres = metres.in_centimetres();
        let cured = centimetres.joined_up_to(radius_of(centimetres.spacing));
        let percent = 100.0 * found as f64 / NEIGHBOURS as f64;
        let [x, y] = origin;
        let line = format!("| {spacing} | {x}, {y} | {found} | {percent:.1} % | {cured} |");
        let right = (found, cured) == (due, NEIGHBOURS)
            && found == metres.by_distance()
            && found == metres.by_gap()
            && cured == centimetres.by_distance()
            && metres.joined_up_to(radius_of(spacing).next_up()) == found
            && metres.joined_up_to(radius_of(spacing + 0.001)) == NEIGHBOURS
            && DOCUMENT.lines().any(|told| told == line);
        println!("{line}{}", if right { "" } else { " WRONG" });
        wrong += usize::from(!right);
    }
    for (a, b, radius, due) in EXAMPLES {
        if found(&a, &b, radius) != due {
            println!("WRONG: {a:?} and {b:?} up to {radius}");
            wrong += 1;
        }
    }
    println!("found of {NEIGHBOURS} neighbours; {wrong} figures differ");
    ExitCode::from(u8::from(wrong > 0))
}

/// Whether two stems, each a tree of its own, are found up to a radius.
fn found(a: &[f64; 2], b: &[f64; 2], radius: f64) -> bool {
    let count = counts_up_to(2, radius, alone(a), alone(b)).answer();
    count.expect("two sound trees").found == 1
}

fn alone(coords: &[f64; 2]) -> Tree<'_> {
    Tree {
        starts: &[0, 1],
        stems: &[],
        items: &[1],
        coords,
    }
}
