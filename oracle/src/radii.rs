//! Radii for whole joins, and the radius of a length.

use crate::cases::{Case, Size};
use crate::report::{same, Report};
use oracle::api;
use oracle::rng::Rng;

/// Lengths of any bits: r * r, rounded once.
pub fn compare(report: &mut Report, rng: &mut Rng, cases: u64) {
    for _ in 0..cases {
        let any = f64::from_bits(rng.bits());
        let small = rng.unit() - 0.5;
        let r = rng.pick(&[any, any, small, -2.0, 0.0, -0.0, f64::NAN, 1e200]);
        let radius = oulavisok::radius_of(r);
        report.case("radius of a length", "any", same(radius, r * r), || {
            format!("{r:e}: {radius:e}")
        });
    }
}

type Named = (&'static str, f64);

const GAP: [&str; 3] = ["a gap", "one ulp above a gap", "one ulp below a gap"];
const LOWER: [&str; 3] = [
    "a lower bound",
    "one ulp above a lower bound",
    "one ulp below a lower bound",
];
const UPPER: [&str; 3] = [
    "an upper bound",
    "one ulp above an upper bound",
    "one ulp below an upper bound",
];

pub fn any(case: &Case, report: &mut Report, rng: &mut Rng) -> f64 {
    let (name, radius) = match case.size {
        Size::Vast => near(case, rng),
        Size::Deep if rng.one_in(2) => upper(case, rng),
        _ => drawn(case, rng),
    };
    report.draw("join radius", name);
    radius
}

fn drawn(case: &Case, rng: &mut Rng) -> Named {
    match rng.below(24) {
        0 => ("0", 0.0),
        1 => ("-0", -0.0),
        2 => ("-1", -1.0),
        3 => ("NaN", f64::NAN),
        4 => ("+inf", f64::INFINITY),
        5 => ("-inf", f64::NEG_INFINITY),
        6..=8 => beside(GAP, gap(case, 1, rng), rng),
        9..=13 => beside(GAP, gap(case, 10, rng), rng),
        14..=17 => lower(case, rng),
        18..=20 => upper(case, rng),
        21 => spacings(case, rng),
        22 => ("all", f64::MAX),
        _ => ("random", rng.unit() * gap(case, 1, rng) * 2.0),
    }
}

/// Few pairs of two large trees pass these.
fn near(case: &Case, rng: &mut Rng) -> Named {
    match rng.below(6) {
        0 => ("0", 0.0),
        1 => ("-0", -0.0),
        2 => ("-1", -1.0),
        _ => beside(GAP, gap(case, 5_000, rng), rng),
    }
}

/// A value, or its neighbours one ulp up and down.
fn beside(names: [&'static str; 3], value: f64, rng: &mut Rng) -> Named {
    match rng.below(4) {
        0 => (names[1], value.next_up()),
        1 => (names[2], value.next_down()),
        _ => (names[0], value),
    }
}

/// The squared gap of some points: the smallest of so many.
fn gap(case: &Case, of: usize, rng: &mut Rng) -> f64 {
    let (left, right) = (&case.left, &case.right);
    if left.items.is_empty() || right.items.is_empty() {
        return rng.unit();
    }
    let mut one = |_: usize| {
        let (p, q) = (rng.below(left.items.len()), rng.below(right.items.len()));
        api::distance(case.k, left.rust(), p, right.rust(), q)
    };
    (0..of).map(&mut one).fold(f64::INFINITY, f64::min)
}

fn lower(case: &Case, rng: &mut Rng) -> Named {
    let bound = case.question(0.0, false, false).some_lower(rng);
    beside(LOWER, bound, rng)
}

/// The first of a few upper bounds that is finite, if one is.
fn upper(case: &Case, rng: &mut Rng) -> Named {
    let question = case.question(0.0, false, false);
    let mut bounds = (0..8).map(|_| question.some_upper(rng));
    let bound = bounds.find(|bound| bound.is_finite());
    beside(UPPER, bound.unwrap_or(f64::INFINITY), rng)
}

fn spacings(case: &Case, rng: &mut Rng) -> Named {
    let spacings = case.spacing * (1 + rng.below(3)) as f64;
    ("spacings squared", oulavisok::radius_of(spacings))
}
