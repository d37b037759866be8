//! The job program beside the reading of 01: jobs of every kind, sound and
//! damaged, byte for byte.

use crate::cases::{Case, Size};
use crate::joinjob;
use crate::radii;
use crate::report::Report;
use crate::trees::damage;
use oracle::ask::{self, NEAREST};
use oracle::rng::Rng;
use oracle::{examples, job};

pub fn compare(report: &mut Report, rng: &mut Rng, cases: u64) {
    for job in recorded() {
        one("recorded", &job, report, rng);
    }
    for _ in 0..cases {
        let (kind, job) = any(report, rng);
        one(kind, &job, report, rng);
    }
    bad_ends(report);
}

/// The jobs recorded for the program crate `jobs`, 01's stand examples and what
/// chance would seldom draw.
fn recorded() -> Vec<Vec<u8>> {
    let path = concat!(env!("CARGO_MANIFEST_DIR"), "/../crates/jobs/stdin");
    let bytes = std::fs::read(path).unwrap_or_else(|error| panic!("{path}: {error}"));
    let (mut jobs, mut rest) = (vec![], &bytes[..]);
    while let Some((length, after)) = rest.split_first_chunk() {
        let (job, others) = after.split_at(u32::from_le_bytes(*length) as usize);
        jobs.push(job.to_vec());
        rest = others;
    }
    jobs
}

fn one(kind: &str, job: &[u8], report: &mut Report, rng: &mut Rng) {
    let due = job::text(job);
    report.draw("job's text", text_kind(&due));
    let parts = if rng.one_in(50) { 2 } else { 1 };
    let output = joinjob::run(job, parts);
    let told = String::from_utf8_lossy(&output.stdout);
    let alike = told == due && output.stderr.is_empty() && output.status.success();
    report.case("job", kind, alike, || {
        let error = String::from_utf8_lossy(&output.stderr);
        let (head, begins, due) = (&job[..job.len().min(24)], line(&told), line(&due));
        format!(
            "{} bytes, {head:?} ..: {begins:?}, not {due:?} (or further on), {error:?}, {}",
            job.len(),
            output.status
        )
    });
}

fn line(text: &str) -> &str {
    text.lines().next().unwrap_or("")
}

const KINDS: [&str; 20] = [
    "pairs",
    "count",
    "nearest",
    "1 0",
    "4 0",
    "4 1",
    "5 0",
    "5 1",
    "6 0",
    "6 1",
    "7 0",
    "7 1",
    "9 0",
    "21 0",
    "22 0",
    "23 0",
    "24 0",
    "25 0",
    "pairs 0",
    "nearest 0",
];

/// The kind and an empty answer, or the refusal.
fn text_kind(text: &str) -> &'static str {
    let line = line(text);
    let name = match line.strip_prefix("refused ") {
        Some(refusal) => refusal,
        None if line.ends_with(" 0") && !line.starts_with("count") => line,
        None => line.split(' ').next().unwrap(),
    };
    KINDS.iter().find(|kind| **kind == name).expect("a text")
}

fn any(report: &mut Report, rng: &mut Rng) -> (&'static str, Vec<u8>) {
    match rng.below(20) {
        0..=9 => ("sound", sound(report, rng)),
        10..=13 => ("a tree damaged", damaged(report, rng)),
        14 | 15 => ("one byte changed", bytes_changed(1, report, rng)),
        16 => ("two bytes changed", bytes_changed(2, report, rng)),
        17 => ("cut", cut(report, rng)),
        18 => ("lengthened", lengthened(report, rng)),
        _ => ("random bytes", random(rng)),
    }
}

/// Two trees that a job can hold; seldom such as it cannot.
fn trees(size: Size, report: &mut Report, rng: &mut Rng) -> Case {
    loop {
        let case = Case::any(size, report, rng);
        let job = ask::bytes(0, 0.0, [&case.left, &case.right]);
        if job.len() <= job::LIMIT || rng.one_in(60) {
            return case;
        }
    }
}

fn asked(case: &Case, report: &mut Report, rng: &mut Rng) -> Vec<u8> {
    let mode = rng.pick(&[0, 0, 1, 1, 2, 3, NEAREST, NEAREST]);
    let radius = match mode {
        NEAREST => 0.0,
        _ => radii::any(case, report, rng),
    };
    ask::bytes(mode, radius, [&case.left, &case.right])
}

fn sound(report: &mut Report, rng: &mut Rng) -> Vec<u8> {
    let size = match rng.below(40) {
        0..=2 => Size::Deep,
        3 => Size::Limits,
        _ => Size::Ordinary,
    };
    let case = trees(size, report, rng);
    asked(&case, report, rng)
}

/// The counts, where a damage is to a buffer's length, are still the lists'.
fn damaged(report: &mut Report, rng: &mut Rng) -> Vec<u8> {
    let mut case = trees(Size::Ordinary, report, rng);
    let job = asked(&case, report, rng);
    for _ in 0..rng.pick(&[1, 1, 1, 2]) {
        let lot = match rng.below(2) {
            0 => &mut case.left,
            _ => &mut case.right,
        };
        damage(lot, rng);
        // A job has K in a byte, and a tree one start at least.
        lot.k = lot.k.min(255);
        if lot.starts.is_empty() {
            lot.starts.push(0);
        }
    }
    let again = ask::bytes(job[6], 0.0, [&case.left, &case.right]);
    ask::changed(again, 8, &job[8..16])
}

/// Anywhere, or in the header and the left's counts.
fn bytes_changed(bytes: usize, report: &mut Report, rng: &mut Rng) -> Vec<u8> {
    let mut job = small(report, rng);
    for _ in 0..bytes {
        let within = rng.pick(&[24, job.len(), job.len()]);
        let place = rng.below(within.min(job.len()));
        job[place] = match rng.below(3) {
            0 => rng.bits() as u8,
            1 => job[place] ^ 1 << rng.below(8),
            _ => rng.pick(&[0, 1, 2, 127, 128, 255]),
        };
    }
    job
}

/// A stand example, or any job.
fn small(report: &mut Report, rng: &mut Rng) -> Vec<u8> {
    match rng.one_in(3) {
        true => {
            let all = examples::all();
            all[rng.below(all.len())].1.bytes()
        }
        false => sound(report, rng),
    }
}

fn cut(report: &mut Report, rng: &mut Rng) -> Vec<u8> {
    let mut job = small(report, rng);
    let length = match rng.below(4) {
        0 => job.len() - 1 - rng.below(12),
        1 => rng.below(48),
        _ => rng.below(job.len()),
    };
    job.truncate(length);
    job
}

/// By a few bytes, or to about the limit.
fn lengthened(report: &mut Report, rng: &mut Rng) -> Vec<u8> {
    let mut job = small(report, rng);
    let length = match rng.below(3) {
        0 => job::LIMIT + rng.below(6) - 2,
        1 => job.len() + 1 + rng.below(12),
        _ => job.len() + rng.below(30_000),
    };
    let with = rng.pick(&[0, 1, 255]);
    job.resize(length.max(job.len()), with);
    job
}

/// Of any length, some with a sound mark and version, some with a sound header.
fn random(rng: &mut Rng) -> Vec<u8> {
    let most = rng.pick(&[20, 100, 1_000, 20_000]);
    let length = rng.below(most);
    let mut job: Vec<u8> = (0..length).map(|_| rng.bits() as u8).collect();
    let start = [
        75,
        68,
        74,
        1,
        0,
        1 + rng.below(4) as u8,
        rng.below(4) as u8,
        0,
    ];
    let kept = rng.pick(&[0, 3, 5, 6, 8, 8]).min(length);
    job[..kept].copy_from_slice(&start[..kept]);
    job
}

/// Where it cannot read or write it says so, and prints nothing.
fn bad_ends(report: &mut Report) {
    let job = examples::example("a1").bytes();
    for (kind, redirected) in [
        ("no standard input", "<&-"),
        ("a folder as standard input", "< ."),
        ("no room on standard output", "> /dev/full"),
    ] {
        let output = joinjob::run_with(redirected, &job);
        let alike = output.stdout.is_empty() && !output.stderr.is_empty();
        report.case("job, a bad end", kind, alike, || format!("{output:?}"));
    }
}
