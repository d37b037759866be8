//! The stand examples of the scope paper that a job can ask, by name. A9 has a
//! room of 2: no job can ask for that.

use crate::ask::{Ask, NEAREST};
use crate::lots::Lot;

/// In the paper's order.
pub fn all() -> Vec<(&'static str, Ask)> {
    let inf = f64::INFINITY;
    let far = || two(1, -1e200, 7, 1e200);
    let list = [
        ("a1", a(), 0, 10.0),
        ("a2", a(), 1, 10.0),
        ("a3", a(), 1, 0.0),
        ("a4", a(), 0, f64::NAN),
        ("a5", a(), 0, -1.0),
        ("a6", a(), 2, inf),
        ("a7", a(), 3, inf),
        ("a8", a(), NEAREST, 0.0),
        ("b1", b(), 0, 1.0),
        ("b2", b(), 0, 9.0),
        ("b3", b(), 1, 9.0),
        ("c1-nearest", c1(), NEAREST, 0.0),
        ("c1-pairs", c1(), 0, 1.0),
        ("c2-nearest", far(), NEAREST, 0.0),
        ("c2-up-to", far(), 0, inf),
        ("c2-under", far(), 1, inf),
        ("c3", two(1, 0.0, 2, 0.1), 0, 0.01),
    ];
    list.into_iter()
        .map(|(name, [left, right], mode, radius)| {
            let ask = Ask {
                mode,
                radius,
                left,
                right,
            };
            (name, ask)
        })
        .collect()
}

pub fn example(name: &str) -> Ask {
    let found = all().into_iter().find(|(other, _)| *other == name);
    found.expect("an example of that name").1
}

pub fn lot(k: u32, starts: &[u32], stems: &[f64], items: &[u32], coords: &[f64]) -> Lot {
    Lot {
        k,
        starts: starts.to_vec(),
        stems: stems.to_vec(),
        items: items.to_vec(),
        coords: coords.to_vec(),
    }
}

fn a() -> [Lot; 2] {
    let coords = [1.0, 4.0, 4.0, 7.0, 1.0, 2.0, 6.0, 1.0];
    [
        lot(2, &[0, 2, 4], &[0.0, 4.0], &[10, 11, 12, 13], &coords),
        lot(2, &[0, 2], &[], &[20, 21], &[1.0, 7.0, 5.0, 1.0]),
    ]
}

fn b() -> [Lot; 2] {
    [
        lot(1, &[0, 1, 2], &[0.0, 0.0], &[1, 2], &[-5.0, 5.0]),
        lot(1, &[0, 1, 2], &[0.0, 3.0], &[3, 4], &[-5.0, 5.0]),
    ]
}

/// One point on each side.
fn two(item: u32, x: f64, other: u32, y: f64) -> [Lot; 2] {
    [(item, x), (other, y)].map(|(item, x)| lot(1, &[0, 1], &[], &[item], &[x]))
}

fn c1() -> [Lot; 2] {
    let [left, _] = two(1, 0.0, 0, 0.0);
    [left, lot(1, &[0, 1, 2], &[0.0, 0.0], &[5, 6], &[-1.0, 1.0])]
}
