//! Nearest over whole trees: answers beside the Rust's `nearest::execute`,
//! totals beside a reading of the scope paper, and that reading beside what the
//! Rust's walk asked of its metric.

use crate::cases::{Case, Size};
use crate::lots::Lot;
use crate::near_tally::{near, Near};
use crate::refusals::{damaged, due_of};
use crate::report::Report;
use crate::rooms::Kept;
use crate::rules;
use crate::shapes;
use crate::stands::{said, stands};
use crate::trees::BROKEN;
use oracle::api::{self, Pair};
use oracle::rng::Rng;
use oulavisok::numbers::{self, Numbers};

pub fn compare(report: &mut Report, rng: &mut Rng, cases: u64) {
    for case in stands() {
        sound(&case, report, rng);
    }
    for number in 0..cases {
        let case = match number % 800 {
            0 => Case::large(report, rng),
            1..=12 => Case::any(Size::Deep, report, rng),
            _ => Case::any(Size::Ordinary, report, rng),
        };
        sound(&case, report, rng);
    }
    for number in 0..cases / 1_800 {
        sound(&Case::full(number, report, rng), report, rng);
    }
}

/// Trees damaged on either side, or on both; those that only seemed damaged are
/// joined.
pub fn refused(report: &mut Report, rng: &mut Rng, cases: u64) {
    for number in 0..cases {
        let case = match number % 20 {
            0 => Case {
                kind: "at the limits".into(),
                ..Case::any(Size::Limits, report, rng)
            },
            _ => damaged(Case::any(Size::Ordinary, report, rng), rng),
        };
        match due_of(&case) {
            (0, _) => sound(&case, report, rng),
            (number, side) => tree_refused(&case, number, side, report, rng),
        }
    }
}

fn told(case: &Case, more: &str) -> String {
    let tree = |lot: &Lot| format!("{} leaves, {} points", lot.leaves(), lot.items.len());
    let (left, right) = (tree(&case.left), tree(&case.right));
    format!("K={}, {left} | {right}: {more}", case.k)
}

/// Two sound trees: the Rust, the reading and the library.
fn sound(case: &Case, report: &mut Report, rng: &mut Rng) {
    report.draw("nearest axes", ["1", "2", "3", "4"][case.k as usize - 1]);
    for lot in [&case.left, &case.right] {
        assert_eq!(rules::first_broken(lot), 0, "the trees grown are sound");
    }
    let (left, right) = (case.left.rust(), case.right.rust());
    let found = api::nearest(case.k, left, right);
    let read = near(&case.question(f64::NAN, false, false));
    reading(case, &found, &read, report);
    draw(case, &found, &read, report);

    let number = found.len();
    let room = match case.size {
        // A refusal would tell little of so long a walk.
        Size::Vast => number + rng.below(2),
        _ if said(&case.kind).is_some() => number.max(room(number, report, rng)),
        _ => room(number, report, rng),
    };
    let too_small = number > 0 && room < number;
    let due = match too_small {
        true => refusal(9, 0),
        false => answered(&read),
    };
    let mut kept = Kept::new(room);
    let answer = ours(case, &mut kept);
    let held = kept.hold(if too_small { &[] } else { &found });
    report.case("nearest", &case.kind, answer == due && held, || {
        told(
            case,
            &format!("room {room}, as due {held}, {answer:?}, not {due:?}"),
        )
    });
    report.draw("nearest answer", if too_small { "9" } else { "0" });
    if rng.one_in(4) {
        rooms_differ(case, room, report, rng);
    }
}

fn ours(case: &Case, kept: &mut Kept) -> Numbers {
    let (left, right) = (case.left.ours(), case.right.ours());
    numbers::nearest(case.k, left, right, kept.rooms())
}

/// Nothing is ever taken whole.
fn answered(read: &Near) -> Numbers {
    Numbers {
        found: read.answers.len() as u64,
        visits: read.tally.visits,
        measured: read.tally.measured,
        ruled_out: read.tally.ruled_out,
        ..refusal(0, 0)
    }
}

/// A refusal leaves all totals 0.
fn refusal(refusal: u32, side: u64) -> Numbers {
    Numbers {
        refusal,
        side,
        found: 0,
        visits: 0,
        measured: 0,
        ruled_out: 0,
        taken_whole: 0,
    }
}

/// Pairs of points: beyond them the metric that counts is not asked.
const MOST_COUNTED: u64 = 50_000_000;

/// The reading beside the Rust: its answers, for the left items in place order,
/// and what its walk asked of a metric that counts.
fn reading(case: &Case, found: &[Pair], read: &Near, report: &mut Report) {
    let bits = |item: u32, distance: f64| (item, distance.to_bits());
    let rust: Vec<_> = found.iter().map(|f| bits(f.1, f.2)).collect();
    let own: Vec<_> = read.answers.iter().map(|a| bits(a.0, a.1)).collect();
    let items: Vec<_> = found.iter().map(|f| f.0).collect();
    let in_order = items == case.left.items || found.is_empty();
    let as_said = said(&case.kind).is_none_or(|said| said == read.answers);
    report.case(
        "nearest, the reading",
        &case.kind,
        rust == own && in_order && as_said,
        || told(case, "the Rust and the reading of 01 answer otherwise"),
    );

    if read.tally.measured > MOST_COUNTED {
        return;
    }
    let (again, walk) = api::nearest_counted(case.k, case.left.rust(), case.right.rust());
    let again: Vec<_> = again.iter().map(|f| bits(f.1, f.2)).collect();
    let tally = &read.tally;
    let all = (case.left.items.len() * case.right.items.len()) as u64;
    let alike = again == rust
        && (walk.visits, walk.measured) == (tally.visits, tally.measured)
        && tally.measured + tally.ruled_out == all;
    report.case("nearest, the Rust's walk", &case.kind, alike, || {
        told(case, &format!("the Rust's {walk:?}, the reading {tally:?}"))
    });
}

fn room(number: usize, report: &mut Report, rng: &mut Rng) -> usize {
    let (name, room) = match rng.below(8) {
        0..=2 => ("exactly enough", number),
        3..=5 => ("more than enough", number + 1 + rng.below(40)),
        6 => ("one short", number.saturating_sub(1)),
        _ => ("any", rng.below(number + 2)),
    };
    report.draw("nearest room", name);
    room
}

/// Rule 8, the trees being sound.
fn rooms_differ(case: &Case, room: usize, report: &mut Report, rng: &mut Rng) {
    let mut lengths = [room; 2];
    lengths[rng.below(2)] += 1 + rng.below(3);
    let mut kept = Kept::of_lengths(lengths);
    let answer = ours(case, &mut kept);
    let alike = answer == refusal(8, 0) && kept.hold(&[]);
    report.case("nearest, rooms that differ", &case.kind, alike, || {
        told(case, &format!("rooms {lengths:?}, {answer:?}"))
    });
}

/// Rooms are looked at last, whether they differ, are too small, or not.
fn tree_refused(case: &Case, number: u32, side: u64, report: &mut Report, rng: &mut Rng) {
    report.draw(
        ["nearest refused left", "nearest refused right"][side as usize],
        BROKEN[number as usize],
    );
    let enough = case.left.items.len();
    for lengths in [[enough; 2], [rng.below(5), rng.below(5)]] {
        let mut kept = Kept::of_lengths(lengths);
        let answer = ours(case, &mut kept);
        let due = refusal(number, side);
        let alike = answer == due && kept.hold(&[]);
        report.case("nearest refused", &case.kind, alike, || {
            format!("K={}: {answer:?}, not {due:?}, or touched", case.k)
        });
    }
}

/// Notes what a join has that is rare or hard.
fn draw(case: &Case, found: &[Pair], read: &Near, report: &mut Report) {
    for lot in [&case.left, &case.right] {
        shapes::draw(lot, report);
        if lot.items.len() == 65_536 {
            report.draw("nearest", "a tree of 65,536 points");
        }
    }
    let full = [&case.left, &case.right].map(|lot| lot.items.len() == 65_536);
    for (name, there) in [
        ("both trees of 65,536 points", full == [true; 2]),
        ("an empty tree", found.is_empty()),
        (
            "an answer left at item 0 and +inf",
            found.iter().any(|f| (f.1, f.2) == (0, f64::INFINITY)),
        ),
        (
            "item 0 as a real answer",
            found.iter().any(|f| f.1 == 0 && f.2 < f64::INFINITY),
        ),
        ("a tie of two items", tied(case, found)),
        (
            "one leaf on each side",
            case.left.leaves() == 1 && case.right.leaves() == 1,
        ),
        ("some ruled out", read.tally.ruled_out > 0),
    ] {
        if there {
            report.draw("nearest", name);
        }
    }
}

/// Whether another item is as near as an answer; asked of small trees only.
fn tied(case: &Case, found: &[Pair]) -> bool {
    let (left, right) = (case.left.rust(), case.right.rust());
    let (m, n) = (case.left.items.len(), case.right.items.len());
    let tie = |p: usize, q: usize| {
        case.right.items[q] != found[p].1
            && api::distance(case.k, left, p, right, q) == found[p].2
            && found[p].2 < f64::INFINITY
    };
    m * n <= 4_000 && (0..m.min(found.len())).any(|p| (0..n).any(|q| tie(p, q)))
}
