//! Compares the Rattle library with the Rust, bit for bit, on generated cases,
//! and what the Rust has not, the tree check and the totals, with plain readings
//! of the scope paper. The part `jobs` runs the program `joinjob`.
//!
//!     cargo run --release -- [--seed N] [--percent N] [--only nearest]
//!
//! `--percent` makes more (or fewer) cases than the usual hundred; `--only` runs
//! one part: leaves, bounds, trees, joins, refusals, radii, nearest or jobs. The
//! exit status is 1 at any difference.

mod bounds;
mod cases;
mod jobs;
mod joinjob;
mod joins;
mod leaves;
mod nearest;
mod radii;
mod refusals;
mod report;
mod rooms;
mod shapes;
mod stands;
mod trees;

use oracle::rng::Rng;
use oracle::{lots, near_tally, points, rules, tally};
use report::Report;
use std::process::ExitCode;

fn main() -> ExitCode {
    let Some(asked) = arguments() else {
        eprintln!("arguments: [--seed N] [--percent N] [--only PART]");
        return ExitCode::from(2);
    };
    println!("seed {}", asked.seed);
    let mut report = Report::default();
    // Each part has a generator of its own, so that more cases in one leave
    // the others as they are.
    let parts: [(&str, Compare, u64); 9] = [
        ("leaves", leaves::compare, 100_000),
        ("bounds", bounds::compare, 200_000),
        ("trees", trees::compare, 40_000),
        ("joins", joins::compare, 22_000),
        ("refusals", refusals::compare, 12_000),
        ("radii", radii::compare, 20_000),
        ("nearest", nearest::compare, 22_000),
        ("nearest", nearest::refused, 12_000),
        ("jobs", jobs::compare, 20_000),
    ];
    let known = |only: &String| parts.iter().any(|part| part.0 == only);
    if !asked.only.iter().all(known) {
        eprintln!("no such part");
        return ExitCode::from(2);
    }
    let wanted = |part| asked.only.as_deref().is_none_or(|only| only == part);
    if wanted("jobs") && !joinjob::is_there() {
        return ExitCode::from(2);
    }
    for (seed, (part, compare, usual)) in (asked.seed..).zip(parts) {
        if wanted(part) {
            let cases = usual * asked.percent / 100;
            compare(&mut report, &mut Rng::new(seed), cases);
        }
    }
    report.print();
    if report.differences() == 0 {
        ExitCode::SUCCESS
    } else {
        ExitCode::FAILURE
    }
}

type Compare = fn(&mut Report, &mut Rng, u64);

struct Asked {
    seed: u64,
    percent: u64,
    only: Option<String>,
}

fn arguments() -> Option<Asked> {
    let mut asked = Asked {
        seed: 1,
        percent: 100,
        only: None,
    };
    let mut args = std::env::args().skip(1);
    while let Some(arg) = args.next() {
        let value = args.next()?;
        match arg.as_str() {
            "--seed" => asked.seed = value.parse().ok()?,
            "--percent" => asked.percent = value.parse().ok()?,
            "--only" => asked.only = Some(value),
            _ => return None,
        }
    }
    Some(asked)
}
