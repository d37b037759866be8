//! The job program, read plainly from the scope paper: a job's bytes to the text
//! that is printed. The trees are cut off the bytes buffer by buffer, where the
//! program would reckon with lengths; joins are the Rust's own.

use crate::api::{self, Pair};
use crate::ask::NEAREST;
use crate::lots::Lot;
use crate::near_tally::near;
use crate::rules;
use crate::tally::{tally, Question, Tally};
use std::fmt::Write;

/// The longest job.
pub const LIMIT: usize = 16_384;
/// For pairs and for nearest.
const ROOM: usize = 1_024;

pub fn text(job: &[u8]) -> String {
    let read = header(job).and_then(|header| Ok((header, trees(job, header.k)?)));
    match read.and_then(|(header, [left, right])| answer(header, &left, &right)) {
        Ok(text) => text,
        Err((number, side)) => format!("refused {number} {side}\n"),
    }
}

/// Number and side.
type Refusal = (u32, usize);

#[derive(Clone, Copy)]
struct Header {
    k: u32,
    mode: u8,
    radius: f64,
}

/// Bytes before the trees.
const HEADER: usize = 16;

fn header(job: &[u8]) -> Result<Header, Refusal> {
    if job.len() < HEADER || job.len() > LIMIT {
        return Err((21, 0));
    }
    let (k, mode, spare) = (job[5], job[6], job[7]);
    let radius = u64::from_le_bytes(job[8..HEADER].try_into().unwrap());
    let refused = [
        (22, &job[..3] != b"KDJ"),
        (23, job[3..5] != [1, 0]),
        (
            24,
            mode > 4 || spare != 0 || (mode == NEAREST && radius != 0),
        ),
        (1, !(1..=4).contains(&k)),
    ];
    match refused.iter().find(|(_, given)| *given) {
        Some((number, _)) => Err((*number, 0)),
        None => Ok(Header {
            k: k.into(),
            mode,
            radius: f64::from_bits(radius),
        }),
    }
}

/// Both trees, if they are all that follows.
fn trees(job: &[u8], k: u32) -> Result<[Lot; 2], Refusal> {
    let mut rest = Rest(&job[HEADER..]);
    match (rest.tree(k), rest.tree(k), rest.0) {
        (Some(left), Some(right), []) => Ok([left, right]),
        _ => Err((25, 0)),
    }
}

/// What is still to be read; None where it is too short.
struct Rest<'a>(&'a [u8]);

impl<'a> Rest<'a> {
    fn tree(&mut self, k: u32) -> Option<Lot> {
        let counts = self.numbers(2)?;
        let (leaves, points) = (u64::from(counts[0]), u64::from(counts[1]));
        let stems = match leaves {
            0 | 1 => 0,
            many => many.next_power_of_two(),
        };
        Some(Lot {
            k,
            starts: self.numbers(leaves + 1)?,
            stems: self.floats(stems)?,
            items: self.numbers(points)?,
            coords: self.floats(u64::from(k) * points)?,
        })
    }

    fn numbers(&mut self, count: u64) -> Option<Vec<u32>> {
        let parts = self.cut(4 * count)?.chunks(4);
        let number = |part: &[u8]| u32::from_le_bytes(part.try_into().unwrap());
        Some(parts.map(number).collect())
    }

    fn floats(&mut self, count: u64) -> Option<Vec<f64>> {
        let parts = self.cut(8 * count)?.chunks(8);
        let float = |part: &[u8]| f64::from_bits(u64::from_le_bytes(part.try_into().unwrap()));
        Some(parts.map(float).collect())
    }

    fn cut(&mut self, length: u64) -> Option<&'a [u8]> {
        let (part, rest) = self.0.split_at_checked(usize::try_from(length).ok()?)?;
        self.0 = rest;
        Some(part)
    }
}

/// Rules 2 and 3 cannot be broken here: 16,384 bytes hold at most 1,025 starts
/// (for another leaf there would be 2,048 stems) and 1,362 items, and each buffer
/// is as long as the counts say. Nor can rule 8: all rooms are of 1,024.
fn answer(asked: Header, left: &Lot, right: &Lot) -> Result<String, Refusal> {
    for (side, lot) in [left, right].into_iter().enumerate() {
        match rules::first_broken(lot) {
            0 => {}
            number => return Err((number, side)),
        }
    }
    let (k, radius, under) = (asked.k, asked.radius, asked.mode % 2 == 1);
    let question = Question {
        k,
        radius,
        under,
        counting: matches!(asked.mode, 2 | 3),
        trees: [left, right],
    };
    let (left, right) = (left.rust(), right.rust());
    match asked.mode {
        0 | 1 => {
            let found = held(api::walk_pairs(k, under, radius, left, right))?;
            Ok(printed("pairs", found.len(), &found, tally(&question)))
        }
        2 | 3 => {
            let number = api::walk_count(k, under, radius, left, right);
            Ok(printed("count", number, &[], tally(&question)))
        }
        _ => {
            let found = held(api::nearest(k, left, right))?;
            let tally = near(&question).tally;
            Ok(printed("nearest", found.len(), &found, tally))
        }
    }
}

/// All of them, if the room holds them.
fn held(found: Vec<Pair>) -> Result<Vec<Pair>, Refusal> {
    match found.len() <= ROOM {
        true => Ok(found),
        false => Err((9, 0)),
    }
}

fn printed(kind: &str, number: usize, found: &[Pair], tally: Tally) -> String {
    let mut text = format!("{kind} {number}\n");
    for (left, right, distance) in found {
        let bits = distance.to_bits();
        writeln!(text, "{left} {right} {bits:016x}").unwrap();
    }
    let (visits, measured) = (tally.visits, tally.measured);
    let (ruled_out, whole) = (tally.ruled_out, tally.taken_whole);
    text + &format!("visits {visits} measured {measured} ruledout {ruled_out} whole {whole}\n")
}

#[cfg(test)]
#[path = "job_tests.rs"]
mod tests;
