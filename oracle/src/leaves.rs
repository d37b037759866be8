//! Leaf pairs: pairs, counts, nearest updates and single distances.

use crate::lots::{items, leaf_size};
use crate::points::{Kind, Source};
use crate::report::{same, Report};
use crate::rooms::{Room, Stored};
use oracle::api::{self, Pair, Tree};
use oracle::ours::{self, Leaf, NO_LEAF_PAIR};
use oracle::rng::Rng;

/// One tree, and the leaf of it that is tried.
struct Side {
    starts: Vec<u32>,
    stems: Vec<f64>,
    items: Vec<u32>,
    coords: Vec<f64>,
    leaf: usize,
}

impl Side {
    fn new(k: u32, source: &Source, rng: &mut Rng) -> Self {
        let leaves = rng.pick(&[1, 1, 2, 3]);
        let mut starts = vec![0];
        for _ in 0..leaves {
            starts.push(starts[starts.len() - 1] + leaf_size(rng));
        }
        let n = starts[leaves] as usize;
        Side {
            // A leaf pair is measured without looking at stems.
            stems: vec![
                0.0;
                if leaves < 2 {
                    0
                } else {
                    leaves.next_power_of_two()
                }
            ],
            items: items(n, rng),
            coords: (0..k as usize * n).map(|_| source.value(rng)).collect(),
            leaf: rng.below(leaves),
            starts,
        }
    }
    fn tree(&self) -> Tree<'_> {
        Tree {
            starts: &self.starts,
            stems: &self.stems,
            items: &self.items,
            coords: &self.coords,
        }
    }
    fn ours(&self) -> Leaf<'_> {
        Leaf {
            items: &self.items,
            coords: &self.coords,
            start: self.starts[self.leaf] as usize,
            end: self.starts[self.leaf + 1] as usize,
        }
    }
}

struct Case {
    k: u32,
    kind: String,
    left: Side,
    right: Side,
    spacing: f64,
    /// All distances of the leaf pair.
    distances: Vec<f64>,
}

impl Case {
    fn new(rng: &mut Rng) -> Self {
        let kind = Kind::any(rng);
        let k = 1 + rng.below(4) as u32;
        let source = Source::new(kind, rng);
        let left = Side::new(k, &source, rng);
        // Often another stand: the lattice begins elsewhere.
        let other = Source::new(kind, rng);
        let right = Side::new(k, if rng.one_in(2) { &source } else { &other }, rng);
        let mut case = Case {
            k,
            kind: kind.name(),
            left,
            right,
            spacing: source.spacing(),
            distances: Vec::new(),
        };
        let all = case.rust_pairs(f64::INFINITY, false);
        case.distances = all.iter().map(|pair| pair.2).collect();
        case
    }
    fn rust_pairs(&self, radius: f64, under: bool) -> Vec<Pair> {
        let (l, r) = (&self.left, &self.right);
        api::leaf_pairs(self.k, under, radius, l.tree(), l.leaf, r.tree(), r.leaf)
    }
    fn told(&self, more: &str) -> String {
        let (l, r) = (self.left.ours(), self.right.ours());
        let sizes = (l.end - l.start, r.end - r.start);
        format!("K={}, leaves of {sizes:?} points, {more}", self.k)
    }
    /// A distance that occurs, if any does.
    fn distance(&self, rng: &mut Rng) -> f64 {
        match self.distances.len() {
            0 => rng.unit(),
            n => self.distances[rng.below(n)],
        }
    }
}

pub fn compare(report: &mut Report, rng: &mut Rng, cases: u64) {
    for _ in 0..cases {
        let case = Case::new(rng);
        let radius = radius(&case, report, rng);
        for under in [false, true] {
            pairs(&case, radius, under, report, rng);
            counts(&case, radius, under, report);
        }
        update(&case, report, rng);
        distance(&case, report, rng);
        if rng.one_in(10) {
            no_leaf_pair(&case, report, rng);
        }
    }
}

fn radius(case: &Case, report: &mut Report, rng: &mut Rng) -> f64 {
    let occurs = case.distance(rng);
    let spacing = case.spacing * (1 + rng.below(3)) as f64;
    let (name, radius) = match rng.below(14) {
        0 => ("0", 0.0),
        1 => ("-0", -0.0),
        2 => ("-1", -1.0),
        3 => ("NaN", f64::NAN),
        4 => ("+inf", f64::INFINITY),
        5 => ("-inf", f64::NEG_INFINITY),
        6..=8 => ("a distance that occurs", occurs),
        9 => ("one ulp above it", occurs.next_up()),
        10 => ("one ulp below it", occurs.next_down()),
        11 => ("spacings squared", spacing * spacing),
        12 => ("all", f64::MAX),
        _ => ("random", rng.unit() * occurs * 2.0),
    };
    report.draw("radius", name);
    radius
}

fn pairs(case: &Case, radius: f64, under: bool, report: &mut Report, rng: &mut Rng) {
    let due = case.rust_pairs(radius, under);
    let room = room(due.len(), report, rng);
    let mut stored = Stored::new(room);
    let (l, r) = (case.left.ours(), case.right.ours());
    let found = ours::leaf_pairs(case.k, radius, under, l, r, stored.lent());
    let alike = found == due.len() as u64 && stored.hold(&due[..room.min(due.len())]);
    report.case("leaf pairs", &case.kind, alike, || {
        let due = due.len();
        case.told(&format!(
            "radius {radius:e}, under {under}, room {room}: {found} found, {due} due, or others stored"
        ))
    });
}

fn room(due: usize, report: &mut Report, rng: &mut Rng) -> usize {
    let (name, room) = match rng.below(4) {
        0 => ("more than enough", due + 1 + rng.below(40)),
        1 => ("exactly enough", due),
        2 => ("one short", due.saturating_sub(1)),
        _ => ("none", 0),
    };
    report.draw("room", name);
    room
}

fn counts(case: &Case, radius: f64, under: bool, report: &mut Report) {
    let (l, r) = (&case.left, &case.right);
    let due = api::leaf_count(case.k, under, radius, l.tree(), l.leaf, r.tree(), r.leaf);
    let found = ours::leaf_counts(case.k, radius, under, l.ours(), r.ours());
    report.case("leaf counts", &case.kind, found == due as u64, || {
        case.told(&format!(
            "radius {radius:e}, under {under}: {found}, not {due}"
        ))
    });
}

fn update(case: &Case, report: &mut Report, rng: &mut Rng) {
    let (l, r) = (&case.left, &case.right);
    let held = answers(case, report, rng);
    let due = api::update_leaf(case.k, l.tree(), l.leaf, r.tree(), r.leaf, &held);
    let mut items = Room::new(held.iter().map(|h| h.0), 0xdead_beef);
    let mut dists = Room::new(held.iter().map(|h| h.1), 1e300);
    let done = ours::update_leaf(case.k, l.ours(), r.ours(), items.lent(), dists.lent());
    let alike = done
        && items.holds(due.iter().map(|d| d.0), |a, b| a == b)
        && dists.holds(due.iter().map(|d| d.1), same);
    report.case("leaf update", &case.kind, alike, || {
        case.told(&format!("done {done}, or other answers"))
    });
}

/// Answers held before: none yet, or some smaller, equal and larger than what
/// the leaf pair has.
fn answers(case: &Case, report: &mut Report, rng: &mut Rng) -> Vec<(u32, f64)> {
    let leaf = case.left.ours();
    let fresh = rng.one_in(3);
    report.draw("answers", if fresh { "none yet" } else { "some held" });
    let mut one = |_: usize| {
        if fresh {
            return (0, f64::INFINITY);
        }
        let occurs = case.distance(rng);
        let held = match rng.below(6) {
            0 => f64::INFINITY,
            1 | 2 => occurs,
            3 => occurs.next_up(),
            4 => occurs.next_down(),
            _ => 0.0,
        };
        (rng.pick(&[0, 1, 1_000_000]), held)
    };
    (leaf.start..leaf.end).map(&mut one).collect()
}

fn distance(case: &Case, report: &mut Report, rng: &mut Rng) {
    let (l, r) = (&case.left, &case.right);
    if l.items.is_empty() || r.items.is_empty() {
        return;
    }
    let (p, q) = (rng.below(l.items.len()), rng.below(r.items.len()));
    let due = api::distance(case.k, l.tree(), p, r.tree(), q);
    let ours = ours::distance(case.k, l.ours(), p, r.ours(), q);
    report.case("distance", &case.kind, same(ours, due), || {
        case.told(&format!("places {p} and {q}: {ours:e}, not {due:e}"))
    });
}

/// Arguments that are no leaf pair are refused, and nothing is stored.
fn no_leaf_pair(case: &Case, report: &mut Report, rng: &mut Rng) {
    let (mut k, mut l, mut r) = (case.k, case.left.ours(), case.right.ours());
    let side = if rng.one_in(2) { &mut l } else { &mut r };
    let name = match rng.below(5) {
        0 => {
            k = rng.pick(&[0, 5, 6, u32::MAX]);
            "K not 1 to 4"
        }
        1 => {
            side.start = side.end + 1;
            "the leaf ends before it starts"
        }
        2 => {
            side.end = side.items.len() + 1 + rng.below(3);
            "the leaf ends after the items"
        }
        3 => {
            (side.start, side.end) = (usize::MAX - 1, usize::MAX);
            "the leaf lies far outside"
        }
        _ if side.coords.is_empty() => return,
        _ => {
            side.coords = &side.coords[1..];
            "a coordinate is missing"
        }
    };
    refused(k, l, r, name, report);
}

fn refused(k: u32, l: Leaf, r: Leaf, name: &str, report: &mut Report) {
    let mut stored = Stored::new(16);
    let all = f64::INFINITY;
    let pairs = ours::leaf_pairs(k, all, false, l, r, stored.lent());
    let counts = ours::leaf_counts(k, all, false, l, r);
    // As many answers as the leaf claims places, where that can be had.
    let claimed = l.end.wrapping_sub(l.start).min(2048);
    let mut held = Room::filled(claimed, 1_u32);
    let mut near = Room::filled(claimed, f64::INFINITY);
    let done = ours::update_leaf(k, l, r, held.lent(), near.lent());
    let alike = (pairs, counts, done) == (NO_LEAF_PAIR, NO_LEAF_PAIR, false)
        && stored.hold(&[])
        && held.holds([], |a, b| a == b)
        && near.holds([], same);
    report.case("no leaf pair", name, alike, || {
        format!("pairs {pairs}, counts {counts}, update {done}, or something stored")
    });
}
