//! Whole joins of accepted trees: pairs and counts beside the Rust's `walk`,
//! totals beside the tally.

use crate::cases::{Case, Size};
use crate::radii;
use crate::report::Report;
use crate::rooms::Stored;
use crate::rules;
use crate::shapes;
use crate::tally::{tally, Tally};
use oracle::api;
use oracle::rng::Rng;
use oulavisok::numbers::{self, Numbers};

pub fn compare(report: &mut Report, rng: &mut Rng, cases: u64) {
    for number in 0..cases {
        let case = match number % 400 {
            0 => Case::large(report, rng),
            1..=6 => Case::any(Size::Deep, report, rng),
            _ => Case::any(Size::Ordinary, report, rng),
        };
        sound(&case, report, rng);
    }
}

/// Two sound trees, at two radii. They count as accepted if no call refuses
/// them.
pub fn sound(case: &Case, report: &mut Report, rng: &mut Rng) {
    report.draw("join axes", ["1", "2", "3", "4"][case.k as usize - 1]);
    for lot in [&case.left, &case.right] {
        assert_eq!(rules::first_broken(lot), 0, "the trees grown are sound");
        shapes::draw(lot, report);
    }
    let mut accepted = true;
    for _ in 0..2 {
        let radius = radii::any(case, report, rng);
        for under in [false, true] {
            accepted &= pairs(case, radius, under, report, rng);
            accepted &= counts(case, radius, under, report);
        }
    }
    if accepted {
        report.count("pairs of trees accepted");
    }
}

/// What is due for so many found in rooms for so many.
fn due(found: usize, room: usize, tally: &Tally) -> Numbers {
    Numbers {
        refusal: if found > room { 9 } else { 0 },
        side: 0,
        found: found as u64,
        visits: tally.visits,
        measured: tally.measured,
        ruled_out: tally.ruled_out,
        taken_whole: tally.taken_whole,
    }
}

/// Whether the trees were accepted.
fn pairs(case: &Case, radius: f64, under: bool, report: &mut Report, rng: &mut Rng) -> bool {
    let (left, right) = (case.left.rust(), case.right.rust());
    counters();
    let found = api::walk_pairs(case.k, under, radius, left, right);
    let counted = counters();
    let tally = tally(&case.question(radius, under, false));
    hooks(counted, found.len(), &tally, case, report);

    let room = room(found.len(), report, rng);
    let mut stored = Stored::new(room);
    let told = ours(case, radius, under, &mut stored);
    let due = due(found.len(), room, &tally);
    let fit = &found[..room.min(found.len())];
    let held = stored.hold(fit);
    report.case("join pairs", &case.kind, told == due && held, || {
        let more = format!("room {room}, as due {held}, {told:?}, not {due:?}");
        case.told(radius, under, &more)
    });
    report.draw("join answer", if due.refusal == 9 { "9" } else { "0" });
    if rng.one_in(4) {
        rooms_differ(case, radius, under, room, report, rng);
    }
    [0, 9].contains(&told.refusal)
}

fn ours(case: &Case, radius: f64, under: bool, stored: &mut Stored) -> Numbers {
    let join = match under {
        true => numbers::pairs_under,
        false => numbers::pairs_up_to,
    };
    let (left, right) = (case.left.ours(), case.right.ours());
    join(case.k, radius, left, right, stored.rooms())
}

fn room(found: usize, report: &mut Report, rng: &mut Rng) -> usize {
    let (name, room) = match rng.below(6) {
        0 => ("more than enough", found + 1 + rng.below(40)),
        1 | 2 => ("exactly enough", found),
        3 => ("one short", found.saturating_sub(1)),
        4 => ("one", 1),
        _ => ("none", 0),
    };
    report.draw("join room", name);
    room
}

/// Rule 8, the trees being sound.
fn rooms_differ(
    case: &Case,
    radius: f64,
    under: bool,
    room: usize,
    report: &mut Report,
    rng: &mut Rng,
) {
    let mut lengths = [room; 3];
    let more = 1 + rng.below(3);
    lengths[rng.below(3)] += more;
    let mut stored = Stored::of_lengths(lengths);
    let told = ours(case, radius, under, &mut stored);
    let due = Numbers {
        refusal: 8,
        ..due(0, 0, &Tally::default())
    };
    let alike = told == due && stored.hold(&[]);
    report.case("join, rooms that differ", &case.kind, alike, || {
        case.told(radius, under, &format!("rooms {lengths:?}, {told:?}"))
    });
    if told.refusal == 8 {
        report.count("calls refused for their rooms");
    }
}

/// Whether the trees were accepted.
fn counts(case: &Case, radius: f64, under: bool, report: &mut Report) -> bool {
    let (left, right) = (case.left.rust(), case.right.rust());
    counters();
    let found = api::walk_count(case.k, under, radius, left, right);
    let counted = counters();
    let tally = tally(&case.question(radius, under, true));
    hooks(counted, found, &tally, case, report);

    let join = match under {
        true => numbers::counts_under,
        false => numbers::counts_up_to,
    };
    let told = join(case.k, radius, case.left.ours(), case.right.ours());
    let due = due(found, usize::MAX, &tally);
    report.case("join counts", &case.kind, told == due, || {
        case.told(radius, under, &format!("{told:?}, not {due:?}"))
    });
    told.refusal == 0
}

/// What the Rust itself counted since the last call, where it is built to.
#[cfg(feature = "exact_query_stats")]
fn counters() -> Option<[usize; 7]> {
    Some(api::stats())
}

#[cfg(not(feature = "exact_query_stats"))]
fn counters() -> Option<[usize; 7]> {
    None
}

/// The tally beside what the Rust counted: node pairs, leaf pairs, distances,
/// matches, node pairs taken whole, node pairs ruled out, spills.
fn hooks(
    counted: Option<[usize; 7]>,
    found: usize,
    tally: &Tally,
    case: &Case,
    report: &mut Report,
) {
    let Some(counted) = counted else {
        return;
    };
    let due = [
        tally.visits,
        tally.leaf_pairs,
        tally.measured,
        found as u64,
        tally.accepted,
        tally.rejected,
        0,
    ];
    let alike = counted.map(|count| count as u64) == due;
    report.case("tally", &case.kind, alike, || {
        format!("the Rust counted {counted:?}, the tally {due:?}")
    });
}
