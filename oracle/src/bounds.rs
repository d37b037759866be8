//! Bounds of two boxes, and the tests against a radius.

use crate::points::{Kind, Source};
use crate::report::{same, Report};
use oracle::rng::Rng;
use oracle::{api, ours};

/// Two boxes: the left's axis d at d, the right's at 4 + d.
struct Boxes {
    k: u32,
    min: [f64; 8],
    max: [f64; 8],
}

const SPECIAL: [f64; 14] = [
    0.0,
    -0.0,
    1.0,
    -1.0,
    0.01,
    0.1 * 0.1,
    5e-324,
    f64::MIN_POSITIVE,
    f64::MAX,
    f64::MIN,
    f64::INFINITY,
    f64::NEG_INFINITY,
    f64::NAN,
    10.0,
];

pub fn compare(report: &mut Report, rng: &mut Rng, cases: u64) {
    for &a in &SPECIAL {
        for &b in &SPECIAL {
            tests(a, b, "special values", report);
        }
    }
    for _ in 0..cases {
        let (kind, boxes) = boxes(report, rng);
        bounds(&boxes, &kind, report, rng);
        let (a, other) = (rng.unit(), rng.unit());
        let b = rng.pick(&[a, a.next_up(), a.next_down(), other]);
        tests(a, b, "near one another", report);
    }
}

/// Open sides as a walk has them, and infinite ones as no walk has: the Rust
/// answers for both.
const SHAPES: [&str; 5] = [
    "finite",
    "open sides",
    "infinite either way",
    "inside out",
    "sides equal",
];

/// Boxes of one kind of values; some sides open, some inside out.
fn boxes(report: &mut Report, rng: &mut Rng) -> (String, Boxes) {
    let kind = Kind::any(rng);
    let sources = [Source::new(kind, rng), Source::new(kind, rng)];
    let shape = rng.pick(&SHAPES);
    report.draw("boxes", shape);
    let mut boxes = Boxes {
        k: 1 + rng.below(4) as u32,
        // Axes beyond K must not be looked at.
        min: [1e200; 8],
        max: [-1e200; 8],
    };
    for d in 0..boxes.k as usize {
        for (side, source) in [0, 4].into_iter().zip(&sources) {
            let (min, max) = interval(source, shape, rng);
            (boxes.min[side + d], boxes.max[side + d]) = (min, max);
        }
    }
    (kind.name(), boxes)
}

fn interval(source: &Source, shape: &str, rng: &mut Rng) -> (f64, f64) {
    let (a, b) = (source.value(rng), source.value(rng));
    let (low, high) = if b < a { (b, a) } else { (a, b) };
    match shape {
        "open sides" => match rng.below(4) {
            0 => (f64::NEG_INFINITY, high),
            1 => (low, f64::INFINITY),
            2 => (f64::NEG_INFINITY, f64::INFINITY),
            _ => (low, high),
        },
        "infinite either way" => {
            let sides = [low, high, f64::INFINITY, f64::NEG_INFINITY];
            (rng.pick(&sides), rng.pick(&sides))
        }
        "inside out" if rng.one_in(2) => (high, low),
        "sides equal" if rng.one_in(2) => (low, low),
        _ => (low, high),
    }
}

fn bounds(boxes: &Boxes, kind: &str, report: &mut Report, rng: &mut Rng) {
    let Boxes { k, min, max } = boxes;
    let (lower, upper) = (ours::lower(min, max, *k), ours::upper(min, max, *k));
    let (low, up) = (api::lower(*k, min, max), api::upper(*k, min, max));
    report.case("lower", kind, same(lower, low), || {
        format!("K={k}, {min:?} .. {max:?}: {lower:e}, not {low:e}")
    });
    report.case("upper", kind, same(upper, up), || {
        format!("K={k}, {min:?} .. {max:?}: {upper:e}, not {up:e}")
    });
    ruled_out(boxes, low, kind, report, rng);
}

/// Lower bound and test together, as the walk uses them.
fn ruled_out(boxes: &Boxes, low: f64, kind: &str, report: &mut Report, rng: &mut Rng) {
    let Boxes { k, min, max } = boxes;
    let near = [low, low.next_up(), low.next_down(), f64::NAN];
    let radius = rng.pick(&[near[0], near[1], near[2], near[3], -1.0, f64::INFINITY]);
    for under in [false, true] {
        let due = api::rejected(*k, under, radius, min, max);
        let found = ours::beyond(ours::lower(min, max, *k), radius, under);
        report.case("ruled out", kind, found == due, || {
            format!("bound {low:e}, radius {radius:e}, under {under}: {found}")
        });
    }
}

/// `accepts` beside the Rust's; `beyond` beside what 01 says, for every bound,
/// NaN too.
fn tests(a: f64, radius: f64, kind: &str, report: &mut Report) {
    for under in [false, true] {
        let accepts = ours::accepts(a, radius, under);
        let same = accepts == api::accepts(a, radius, under);
        report.case("accepts", kind, same, || {
            format!("{a:e}, radius {radius:e}, under {under}: {accepts}")
        });
        let beyond = ours::beyond(a, radius, under);
        let due = if under { a >= radius } else { a > radius };
        report.case("beyond", kind, beyond == due, || {
            format!("{a:e}, radius {radius:e}, under {under}: {beyond}")
        });
    }
}
