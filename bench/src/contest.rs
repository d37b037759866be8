//! Two sides doing the same work, and how they are timed.

use crate::options::Options;
use crate::pool::Pool;
use oracle::ours::{self, Out};
use oracle::rng::Rng;
use oracle::rust::{self, Answers, Buffers};
use std::time::Instant;

/// A pass of each side over the pool's entries, in the order given.
pub trait Contest {
    fn entries(&self) -> usize;
    /// The least number of rounds, where that asked for would take too long.
    fn rounds(&self, asked: usize) -> usize {
        asked
    }
    /// Puts both sides back to where they begin; not timed.
    fn reset(&mut self);
    fn ours(&mut self, order: &[usize]) -> u64;
    fn rust(&mut self, order: &[usize]) -> u64;
    /// Whether both sides answer the same, entry for entry; not timed.
    fn agree(&mut self) -> bool;
}

/// Least seconds for a pass of each side.
pub struct Times {
    pub ours: f64,
    pub rust: f64,
    pub wrong: bool,
}

impl Times {
    pub fn merge(&mut self, other: Times) {
        self.ours = self.ours.min(other.ours);
        self.rust = self.rust.min(other.rust);
        self.wrong |= other.wrong;
    }
}

/// Turns about, who begins changing each round, until the time is spent. Each
/// round goes through the pool in an order of its own.
pub fn race(contest: &mut impl Contest, options: &Options, rng: &mut Rng) -> Times {
    let mut order: Vec<usize> = (0..contest.entries()).collect();
    let mut best = Times {
        ours: f64::INFINITY,
        rust: f64::INFINITY,
        wrong: !contest.agree(),
    };
    let least = contest.rounds(options.rounds);
    let begin = Instant::now();
    let mut round = 0;
    while round < least || begin.elapsed() < options.budget {
        rng.shuffle(&mut order);
        contest.reset();
        let (ours, rust) = if round % 2 == 0 {
            let ours = timed(|| contest.ours(&order), &mut best.ours);
            (ours, timed(|| contest.rust(&order), &mut best.rust))
        } else {
            let rust = timed(|| contest.rust(&order), &mut best.rust);
            (timed(|| contest.ours(&order), &mut best.ours), rust)
        };
        best.wrong |= ours != rust;
        round += 1;
    }
    best.wrong |= !contest.agree();
    best
}

fn timed(pass: impl FnOnce() -> u64, least: &mut f64) -> u64 {
    let begin = Instant::now();
    let answer = std::hint::black_box(pass());
    *least = least.min(begin.elapsed().as_secs_f64());
    answer
}

/// Where one side stores pairs: each leaf pair or join begins at the start.
pub struct Stored {
    left: Vec<u32>,
    right: Vec<u32>,
    distance: Vec<f64>,
}

impl Stored {
    pub fn new(room: usize) -> Self {
        Stored {
            left: vec![0; room],
            right: vec![0; room],
            distance: vec![0.0; room],
        }
    }
    pub fn buffers(&mut self) -> (&mut [u32], &mut [u32], &mut [f64]) {
        (&mut self.left, &mut self.right, &mut self.distance)
    }
    pub fn pairs(&self, found: u64) -> impl Iterator<Item = (u32, u32, u64)> + '_ {
        let place = |i: usize| (self.left[i], self.right[i], self.distance[i].to_bits());
        (0..found as usize).map(place)
    }
}

/// Pairs, with enough room. `EX`: the strict edge.
pub struct PairsContest<'a, const K: usize, const EX: bool> {
    pool: &'a Pool<K>,
    radius: f64,
    ours: Stored,
    rust: rust::Pairs,
    /// In use when the Rust is to store into plain buffers.
    plain: Option<Stored>,
}

impl<'a, const K: usize, const EX: bool> PairsContest<'a, K, EX> {
    pub fn new(pool: &'a Pool<K>, radius: f64, plain: bool) -> Self {
        let room = pool.size * pool.size;
        PairsContest {
            pool,
            radius,
            ours: Stored::new(room),
            rust: rust::Pairs::with_capacity(room),
            plain: plain.then(|| Stored::new(room)),
        }
    }
    #[inline(always)]
    fn our_entry(&mut self, entry: usize) -> u64 {
        let (l, r) = self.pool.leaves(self.pool.at[entry]);
        let out = Out {
            left: &mut self.ours.left,
            right: &mut self.ours.right,
            distance: &mut self.ours.distance,
        };
        ours::leaf_pairs(K as u32, self.radius, EX, l, r, out)
    }
    #[inline(always)]
    fn rust_entry(&mut self, entry: usize) -> u64 {
        let (left, right) = (&self.pool.left, &self.pool.right);
        let at = self.pool.at[entry];
        if let Some(plain) = &mut self.plain {
            let mut out = Buffers {
                left: &mut plain.left,
                right: &mut plain.right,
                distance: &mut plain.distance,
                found: 0,
            };
            rust::leaf_buffers::<K, EX>(left, right, at, self.radius, &mut out);
            return out.found as u64;
        }
        self.rust.clear();
        rust::leaf_pairs::<K, EX>(left, right, at, self.radius, &mut self.rust);
        self.rust.len() as u64
    }
    fn same_pairs(&self, found: u64) -> bool {
        match &self.plain {
            Some(plain) => self.ours.pairs(found).eq(plain.pairs(found)),
            None => {
                let rust = self.rust.iter().map(|(l, r, d)| (l, r, d.to_bits()));
                self.ours.pairs(found).eq(rust)
            }
        }
    }
}

impl<const K: usize, const EX: bool> Contest for PairsContest<'_, K, EX> {
    fn entries(&self) -> usize {
        self.pool.at.len()
    }
    fn reset(&mut self) {}
    fn ours(&mut self, order: &[usize]) -> u64 {
        order.iter().map(|&entry| self.our_entry(entry)).sum()
    }
    fn rust(&mut self, order: &[usize]) -> u64 {
        order.iter().map(|&entry| self.rust_entry(entry)).sum()
    }
    fn agree(&mut self) -> bool {
        (0..self.entries()).all(|entry| {
            let found = self.our_entry(entry);
            found == self.rust_entry(entry) && self.same_pairs(found)
        })
    }
}

/// Counts.
pub struct CountsContest<'a, const K: usize, const EX: bool> {
    pub pool: &'a Pool<K>,
    pub radius: f64,
}

impl<const K: usize, const EX: bool> CountsContest<'_, K, EX> {
    #[inline(always)]
    fn our_entry(&self, entry: usize) -> u64 {
        let (l, r) = self.pool.leaves(self.pool.at[entry]);
        ours::leaf_counts(K as u32, self.radius, EX, l, r)
    }
    #[inline(always)]
    fn rust_entry(&self, entry: usize) -> u64 {
        let (left, right) = (&self.pool.left, &self.pool.right);
        rust::leaf_count::<K, EX>(left, right, self.pool.at[entry], self.radius) as u64
    }
}

impl<const K: usize, const EX: bool> Contest for CountsContest<'_, K, EX> {
    fn entries(&self) -> usize {
        self.pool.at.len()
    }
    fn reset(&mut self) {}
    fn ours(&mut self, order: &[usize]) -> u64 {
        order.iter().map(|&entry| self.our_entry(entry)).sum()
    }
    fn rust(&mut self, order: &[usize]) -> u64 {
        order.iter().map(|&entry| self.rust_entry(entry)).sum()
    }
    fn agree(&mut self) -> bool {
        (0..self.entries()).all(|entry| self.our_entry(entry) == self.rust_entry(entry))
    }
}

/// The nearest update. Each entry has a stretch of answers of its own, put back
/// to `start` before each pass.
pub struct NearestContest<'a, const K: usize> {
    pool: &'a Pool<K>,
    start: f64,
    ours: Vec<(Vec<u32>, Vec<f64>)>,
    rust: Vec<Answers>,
    zeros: Vec<usize>,
}

impl<'a, const K: usize> NearestContest<'a, K> {
    pub fn new(pool: &'a Pool<K>, start: f64) -> Self {
        let (size, entries) = (pool.size, pool.at.len());
        let held = || (0..size).map(|_| (0, start));
        NearestContest {
            pool,
            start,
            ours: vec![(vec![0; size], vec![start; size]); entries],
            rust: (0..entries).map(|_| Answers::new(held())).collect(),
            zeros: vec![0; pool.left.starts().len()],
        }
    }
    fn same_answers(&self, entry: usize) -> bool {
        let (items, dists) = &self.ours[entry];
        let bits = dists.iter().map(|d| d.to_bits());
        let rust = self.rust[entry].iter().map(|(i, d)| (i, d.to_bits()));
        items.iter().copied().zip(bits).eq(rust)
    }
}

impl<const K: usize> Contest for NearestContest<'_, K> {
    fn entries(&self) -> usize {
        self.pool.at.len()
    }
    fn reset(&mut self) {
        for (items, dists) in &mut self.ours {
            items.fill(0);
            dists.fill(self.start);
        }
        for answers in &mut self.rust {
            answers.fill(0, self.start);
        }
    }
    fn ours(&mut self, order: &[usize]) -> u64 {
        let mut done = 0;
        for &entry in order {
            let (l, r) = self.pool.leaves(self.pool.at[entry]);
            let (items, dists) = &mut self.ours[entry];
            done += u64::from(ours::update_leaf(K as u32, l, r, items, dists));
        }
        done
    }
    fn rust(&mut self, order: &[usize]) -> u64 {
        let (left, right) = (&self.pool.left, &self.pool.right);
        for &entry in order {
            let (at, answers) = (self.pool.at[entry], &mut self.rust[entry]);
            rust::update_leaf::<K>(left, right, at, &self.zeros, answers);
        }
        order.len() as u64
    }
    fn agree(&mut self) -> bool {
        let order: Vec<usize> = (0..self.entries()).collect();
        self.reset();
        self.ours(&order) == self.rust(&order) && order.iter().all(|&e| self.same_answers(e))
    }
}
