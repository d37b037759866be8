//! Jobs refused for their length: 25, among them counts whose length would come
//! out right if it were reckoned in 32 bits.

use super::Told;
use oracle::ask::{changed, Ask};
use oracle::examples::{example, lot};
use oracle::lots::Lot;

const LENGTH: &str = "refused 25 0\n";

pub fn all(jobs: &mut Vec<Told>) {
    let asked = example("c1-pairs");
    let job = asked.bytes();
    // Cut after the header, in and after either tree's counts, in its buffers.
    for length in [16, 20, 24, 30, 44, 48, 52, 60, 70, 84, 103] {
        jobs.push((LENGTH, job[..length].to_vec()));
    }
    for more in [1, 4, 12, 28] {
        jobs.push((LENGTH, [job.clone(), vec![0; more]].concat()));
    }
    // One more leaf, one fewer; one more point, one fewer.
    const MOST: u32 = u32::MAX;
    for counts in [
        [(2, 1), (2, 2)],
        [(0, 1), (2, 2)],
        [(1, 2), (2, 2)],
        [(1, 0), (2, 2)],
        [(1, 1), (3, 2)],
        [(1, 1), (1, 2)],
        [(1, 1), (2, 3)],
        [(1, 1), (2, 1)],
        [(MOST, 1), (2, 2)],
        [(1, MOST), (2, 2)],
        [(1, 1), (MOST, 2)],
        [(1, 1), (2, MOST)],
        [(MOST, MOST), (MOST, MOST)],
        [(1 << 31, 1), (2, 2)],
        [(1, 1), (2, 1 << 31)],
    ] {
        jobs.push((LENGTH, counted(&asked, counts)));
    }
    wrapped(jobs);
    // 25 before 4.
    jobs.push((LENGTH, changed(job[..103].to_vec(), 24, &[1])));
}

/// The counts as given, whatever the trees are.
fn counted(asked: &Ask, counts: [(u32, u32); 2]) -> Vec<u8> {
    let left = [&asked.left, &no_leaf(asked.left.k)];
    let right = oracle::ask::bytes(0, 0.0, left).len() - 12;
    [16, right]
        .into_iter()
        .zip(counts)
        .fold(asked.bytes(), |job, (at, (leaves, points))| {
            let job = changed(job, at, &leaves.to_le_bytes());
            changed(job, at + 4, &points.to_le_bytes())
        })
}

/// No leaf, no point: one start.
fn no_leaf(k: u32) -> Lot {
    lot(k, &[0], &[], &[], &[])
}

/// One leaf of so many points at 0.
fn one_leaf(k: u32, points: u32) -> Lot {
    let (items, coords) = (vec![1; points as usize], vec![0.0; (k * points) as usize]);
    lot(k, &[0, points], &[], &items, &coords)
}

fn wrapped(jobs: &mut Vec<Told>) {
    const MANY: u32 = 1 << 30;
    const HALF: u32 = 1 << 29;
    for k in 1..=4 {
        let asked = Ask {
            mode: 2,
            radius: 1.0,
            left: one_leaf(k, 2),
            right: one_leaf(k, 1),
        };
        for counts in [
            // 4 + 8 K bytes for each: a multiple of 2^32 more.
            [(1, 2 + MANY), (1, 1)],
            [(1, 2), (1, 1 + MANY)],
            [(1, 2 + HALF), (1, 1 + HALF)],
            [(1, 2 + 3 * MANY), (1, 1 + MANY)],
            // As many fewer on the other side.
            [(1, u32::MAX), (1, 4)],
            [(1, 4), (1, u32::MAX)],
            // With K 2 or 4 the coordinates come out right, the items do not.
            [(1, 2 + HALF), (1, 1)],
        ] {
            jobs.push((LENGTH, counted(&asked, counts)));
        }
        if k % 2 == 0 {
            // Starts and stems: a multiple of 2^32 more.
            jobs.push((LENGTH, counted(&asked, [(1 + MANY, 2), (1, 1)])));
            jobs.push((LENGTH, counted(&asked, [(1, 2), (1 + MANY, 1)])));
        }
    }
    let empty = Ask {
        mode: 0,
        radius: 0.0,
        left: no_leaf(1),
        right: no_leaf(1),
    };
    jobs.push((LENGTH, counted(&empty, [(MANY, 0), (0, 0)])));
    jobs.push((LENGTH, counted(&empty, [(0, 0), (MANY, 0)])));
    // One more than the leaves would be 0 starts, and the next power of two 0
    // stems: so none are there.
    let mut none = counted(&empty, [(u32::MAX, 0), (0, 0)]);
    none.drain(24..28);
    jobs.push((LENGTH, none));
    let mut none = counted(&empty, [(0, 0), (u32::MAX, 0)]);
    none.truncate(36);
    jobs.push((LENGTH, none));
}
