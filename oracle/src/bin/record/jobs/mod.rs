//! Records jobs for the program crate `jobs`: each a length (u32, little-endian)
//! and as many bytes. The lines to be written are the text of each, after a line
//! `job I`; then, of the first, the text of each shorter part (`prefix P`) and of
//! the job with one bit changed (`bit B`: bit B mod 8, from the lowest, of byte B
//! div 8). And the stand examples in `examples`, each job with its text.

mod answered;
mod header;
mod lengths;
mod rooms;
mod trees;

use oracle::job;
use oracle::rng::Rng;
use std::collections::BTreeMap;
use std::fmt::Write;
use std::fs;
use std::path::Path;

/// How the text begins, by the scope paper; and the job.
pub type Told = (&'static str, Vec<u8>);

/// NaN of both signs and several payloads, quiet and signalling, the first and the last.
pub const NANS: [u64; 7] = [
    0x7ff8_0000_0000_0000,
    0xfff8_0000_0000_0000,
    0x7ff0_0000_0000_0001,
    0xfff0_0000_0000_0001,
    0x7ff7_ffff_ffff_ffff,
    0x7fff_ffff_ffff_ffff,
    0xffff_ffff_ffff_ffff,
];

/// The program's limit on its input.
const LIMIT: usize = 131_072;

pub fn write(root: &Path) {
    let examples = oracle::examples::all();
    for (name, ask) in &examples {
        let (folder, job) = (root.join("examples"), ask.bytes());
        fs::write(folder.join(format!("{name}.txt")), job::text(&job)).unwrap();
        fs::write(folder.join(format!("{name}.job")), job).unwrap();
    }
    let mut all: Vec<Told> = examples.iter().map(|(_, ask)| ("", ask.bytes())).collect();
    header::all(&mut all);
    lengths::all(&mut all);
    trees::all(&mut all, &mut Rng::new(5));
    answered::all(&mut all, &mut Rng::new(6));
    rooms::all(&mut all, &mut Rng::new(7));

    let (mut bytes, mut lines, mut seen) = (vec![], String::new(), BTreeMap::new());
    for (number, (begins, job)) in all.iter().enumerate() {
        let text = job::text(job);
        assert!(text.starts_with(begins), "job {number}: {begins}: {text}");
        bytes.extend((job.len() as u32).to_le_bytes());
        bytes.extend(job);
        writeln!(lines, "job {number}").unwrap();
        lines.push_str(&text);
        *seen.entry(kind(&text)).or_insert(0) += 1;
    }
    changes_of(&all[0].1, &mut lines);
    assert!(bytes.len() < LIMIT, "{} bytes", bytes.len());
    for (what, count) in &seen {
        println!("{count:5} jobs: {what}");
    }
    println!("{} jobs, {} bytes", all.len(), bytes.len());
    let folder = root.join("crates/jobs");
    fs::write(folder.join("stdin"), bytes).unwrap();
    fs::write(folder.join("stdout"), lines).unwrap();
}

/// A refusal, or what was asked for.
fn kind(text: &str) -> String {
    let line = text.lines().next().unwrap();
    match line.starts_with("refused") {
        true => line.into(),
        false => line.split(' ').next().unwrap().into(),
    }
}

fn changes_of(job: &[u8], lines: &mut String) {
    for length in 0..job.len() {
        writeln!(lines, "prefix {length}").unwrap();
        lines.push_str(&job::text(&job[..length]));
    }
    for bit in 0..8 * job.len() {
        let mut other = job.to_vec();
        other[bit / 8] ^= 1 << (bit % 8);
        writeln!(lines, "bit {bit}").unwrap();
        lines.push_str(&job::text(&other));
    }
}
