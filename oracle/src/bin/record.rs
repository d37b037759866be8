//! Records joins for the program crate `replay`: what each call is given, what
//! the Rust answers, and what the job program prints for the same job. Writes
//! `stdin` and `stdout` of that crate. Then records jobs for the program crate
//! `jobs` in the same way (`record/jobs/mod.rs`), and writes `examples`.
//!
//!     cargo run --release --features exact_query_stats --bin record -- [ROOT]
//!
//! ROOT, with these folders in it, is the repository's unless given. The same
//! cases come out at every run. `record/expect.rs` says where each number of an answer comes from, and
//! `../job.rs` where a text does; `record/file.rs` has the form of a record.

#[path = "record/cases.rs"]
mod cases;
#[path = "record/count.rs"]
mod count;
#[path = "record/expect.rs"]
mod expect;
#[path = "record/file.rs"]
mod file;
#[path = "record/grow.rs"]
mod grow;
#[path = "record/jobs/mod.rs"]
mod jobs;
#[path = "record/nearest.rs"]
mod nearest;
#[path = "record/nearest_refused.rs"]
mod nearest_refused;
#[path = "record/refused.rs"]
mod refused;
#[path = "record/stands.rs"]
mod stands;

use file::Case;
use oracle::rng::Rng;
use oracle::{lots, points, rules};
use std::collections::BTreeMap;
use std::path::{Path, PathBuf};

/// The program's limit on its input.
const LIMIT: usize = 1_048_576;

fn main() {
    let root = std::env::args().nth(1).map_or_else(
        || PathBuf::from(concat!(env!("CARGO_MANIFEST_DIR"), "/..")),
        PathBuf::from,
    );
    joins(&root.join("crates/replay"));
    jobs::write(&root);
}

fn joins(folder: &Path) {
    let mut all = stands::all();
    cases::all(&mut all, &mut Rng::new(1));
    refused::all(&mut all, &mut Rng::new(2));
    all.extend(stands::nearest());
    nearest::all(&mut all, &mut Rng::new(3));
    nearest_refused::all(&mut all, &mut Rng::new(4));

    let (mut bytes, mut seen, mut joins) = (vec![], BTreeMap::new(), [0; 5]);
    let mut see = |what: String| *seen.entry(what).or_insert(0) += 1;
    for case in &all {
        let answer = expect::answer(case);
        bytes.extend(file::record(case, &answer));
        joins[case.mode as usize] += 1;
        let which = if case.nearest() { "nearest, " } else { "" };
        see(format!("{which}kind: {}", case.kind));
        see(format!("{which}K {}", case.left.k));
        let (number, side) = (answer.number, answer.side);
        see(format!("{which}number {number} side {side}"));
        if !case.nearest() {
            see(format!("radius: {}", radius(case.radius)));
        }
        if !case.counting() {
            see(format!("{which}room: {}", room(case, &answer)));
        }
        for what in features(case, &answer) {
            see(format!("{which}with {what}"));
        }
    }
    assert!(bytes.len() < LIMIT, "{} bytes", bytes.len());
    for (what, count) in &seen {
        println!("{count:5} {what}");
    }
    println!("{} joins, {} bytes", all.len(), bytes.len());
    std::fs::write(folder.join("stdin"), bytes).unwrap();
    std::fs::write(folder.join("stdout"), lines(joins)).unwrap();
}

fn radius(r: f64) -> &'static str {
    match r {
        r if r.is_nan() => "NaN",
        r if r == f64::INFINITY => "+inf",
        r if r == f64::NEG_INFINITY => "-inf",
        r if r == 0.0 && r.is_sign_negative() => "-0",
        0.0 => "0",
        r if r < 0.0 => "negative",
        _ => "positive",
    }
}

fn room(case: &Case, answer: &expect::Answer) -> &'static str {
    match (case.buffer, answer.number, u64::from(case.room)) {
        (9.., _, _) => "of different lengths",
        (_, 1..=7, _) => "any, the tree refused",
        (_, _, 0) => "none",
        (_, 9, _) => "too small",
        (_, _, n) if n < answer.found => "too small",
        (_, _, n) if n == answer.found => "exact",
        _ => "larger",
    }
}

/// What an answered join has.
fn features(case: &Case, answer: &expect::Answer) -> Vec<&'static str> {
    if !matches!(answer.number, 0 | 9) {
        return vec![];
    }
    let lots = [&case.left, &case.right];
    let any = |test: fn(&lots::Lot) -> bool| lots.iter().any(|lot| test(lot));
    let list = [
        (
            "an empty leaf",
            any(|lot| lot.starts.windows(2).any(|w| w[0] == w[1])),
        ),
        (
            "a ragged leaf count",
            any(|lot| lot.starts.len() != 1 + lot.stems.len().max(1)),
        ),
        (
            "a pivot of +inf",
            any(|lot| lot.stems.iter().skip(1).any(|x| *x == f64::INFINITY)),
        ),
        (
            "a NaN stem over no leaf",
            any(|lot| lot.stems.iter().skip(1).any(|x| x.is_nan())),
        ),
        (
            "a leaf of more than a tile",
            any(|lot| lot.starts.windows(2).any(|w| w[1] - w[0] > 32)),
        ),
        ("some pairs found", answer.found > 0),
        ("some pairs measured", answer.measured > 0),
        ("some pairs ruled out", answer.ruled > 0),
        ("some pairs taken whole", answer.whole > 0),
        (
            "an infinite distance",
            answer.stored.iter().any(|pair| pair.2 == f64::INFINITY),
        ),
    ];
    let here = list.into_iter().filter(|(_, here)| *here);
    here.map(|(what, _)| what).collect()
}

/// What the program is to write.
fn lines(joins: [u32; 5]) -> String {
    let name = [
        "pairs up to",
        "pairs under",
        "counts up to",
        "counts under",
        "nearest",
    ];
    let mut text = String::new();
    for (name, joins) in name.iter().zip(joins) {
        text.push_str(&format!("{name}: joins {joins} different 0\n"));
    }
    let all: u32 = joins.iter().sum();
    text.push_str(&format!("texts: jobs {all} different 0\n"));
    text + &format!("unreadable: joins 0 different 0\nall: joins {all} different 0\n")
}
