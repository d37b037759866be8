//! Jobs refused for their header: 21 to 24, then 1; and such as have more than
//! one thing wrong.

use super::Told;
use oracle::ask::{changed, Ask};
use oracle::examples::example;
use oracle::job;

const MARK: usize = 0;
const VERSION: usize = 3;
const K: usize = 5;
const MODE: usize = 6;
const SPARE: usize = 7;

pub fn all(jobs: &mut Vec<Told>) {
    let c3 = || example("c3").bytes();
    let with = |at, bytes: &[u8]| changed(c3(), at, bytes);
    let mut long = c3();
    long.resize(job::LIMIT + 1, 0);
    jobs.extend([
        ("refused 21 0\n", vec![]),
        ("refused 21 0\n", c3()[..15].to_vec()),
        ("refused 21 0\n", long),
    ]);
    for (place, byte) in [(0, b'k'), (1, b'd'), (2, b'K'), (2, 0)] {
        jobs.push(("refused 22 0\n", with(MARK + place, &[byte])));
    }
    // 256: the two bytes of 1 exchanged.
    for version in [0u16, 2, 256, 257, 65_535] {
        jobs.push(("refused 23 0\n", with(VERSION, &version.to_le_bytes())));
    }
    for mode in [5, 132, 255] {
        jobs.push(("refused 24 0\n", with(MODE, &[mode])));
    }
    for spare in [1, 128] {
        jobs.push(("refused 24 0\n", with(SPARE, &[spare])));
    }
    for radius in [-0.0, 1.0, 5e-324, f64::NAN] {
        let asked = Ask {
            radius,
            ..example("c1-nearest")
        };
        jobs.push(("refused 24 0\n", asked.bytes()));
    }
    for k in [0, 5, 255] {
        jobs.push(("refused 1 0\n", with(K, &[k])));
    }
    several(jobs, with);
}

/// The first in 01's order is told.
fn several(jobs: &mut Vec<Told>, with: impl Fn(usize, &[u8]) -> Vec<u8>) {
    let cut = |mut job: Vec<u8>, length| {
        job.truncate(length);
        job
    };
    jobs.extend([
        ("refused 21 0\n", cut(with(MARK, b"X"), 15)),
        ("refused 22 0\n", with(MARK, b"XYZ\x02")),
        ("refused 22 0\n", cut(with(MARK, b"X"), 16)),
        ("refused 23 0\n", with(VERSION, &[2, 0, 2, 5])),
        ("refused 23 0\n", with(VERSION, &[1, 1, 0])),
        ("refused 24 0\n", with(K, &[0, 5])),
        ("refused 24 0\n", with(K, &[5, 0, 1])),
        ("refused 24 0\n", cut(with(MODE, &[5]), 16)),
        ("refused 1 0\n", cut(with(K, &[0]), 16)),
        ("refused 1 0\n", cut(with(K, &[5]), 71)),
        // With any other K the trees would be too short or too long.
        ("refused 1 0\n", with(K, &[0, 3])),
    ]);
}
