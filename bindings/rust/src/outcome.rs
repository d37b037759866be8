//! What a call came to.

use crate::numbers::Numbers;
use std::fmt;

/// What a walk found and counted. Totals are pairs of points, but for `visits`.
#[derive(Clone, Copy, Debug, PartialEq, Eq)]
pub struct Answer {
    /// Pairs that pass, stored or not; of nearest, the answers stored.
    pub found: u64,
    /// Node pairs examined.
    pub visits: u64,
    pub measured: u64,
    /// Under node pairs whose bound is beyond the radius; of nearest, not below
    /// the largest distance then held.
    pub ruled_out: u64,
    /// Counted with their node pair, not one by one.
    pub taken_whole: u64,
}

/// A tree, or the rooms, refused; nothing is stored, but for refusal 9 of pairs
/// (see [`Outcome::complete`]).
#[derive(Clone, Copy, Debug, PartialEq, Eq)]
pub struct Refusal {
    /// 1 to 9; the text of [`Refusal`] says what each means.
    pub number: u32,
    /// The tree refused: 0 left, 1 right; 0 for numbers 1, 8 and 9.
    pub side: u64,
}

#[derive(Clone, Copy, Debug, PartialEq, Eq)]
#[must_use]
pub enum Outcome {
    /// All that was found is stored, or counted.
    Answered(Answer),
    /// Refusal 9: more is found than the rooms hold. The first that fit are
    /// stored, in walk order; the answer tells of all.
    Full(Answer),
    /// Refusals 1 to 8.
    Refused(Refusal),
}

impl Outcome {
    /// What was found and counted, whether or not all of it is stored.
    pub fn answer(self) -> Result<Answer, Refusal> {
        match self {
            Outcome::Answered(answer) | Outcome::Full(answer) => Ok(answer),
            Outcome::Refused(refusal) => Err(refusal),
        }
    }
    /// The answer when all of it is stored; refusal 9 is an error here.
    pub fn complete(self) -> Result<Answer, Refusal> {
        match self {
            Outcome::Full(_) => Err(Refusal { number: 9, side: 0 }),
            other => other.answer(),
        }
    }
}

impl From<Numbers> for Outcome {
    fn from(numbers: Numbers) -> Self {
        let answer = Answer {
            found: numbers.found,
            visits: numbers.visits,
            measured: numbers.measured,
            ruled_out: numbers.ruled_out,
            taken_whole: numbers.taken_whole,
        };
        match numbers.refusal {
            0 => Outcome::Answered(answer),
            9 => Outcome::Full(answer),
            number => Outcome::Refused(Refusal {
                number,
                side: numbers.side,
            }),
        }
    }
}

impl fmt::Display for Refusal {
    fn fmt(&self, f: &mut fmt::Formatter) -> fmt::Result {
        let side = if self.side == 0 { "left" } else { "right" };
        match self.number {
            1 => write!(f, "K is not 1 to 4"),
            2 => write!(
                f,
                "{side} tree: no starts, over 4,097 starts, or over 65,536 items"
            ),
            3 => write!(f, "{side} tree: stems or coordinates of the wrong length"),
            4 => write!(
                f,
                "{side} tree: starts not from 0 to the number of items, falling, or a leaf over 1,024"
            ),
            5 => write!(f, "{side} tree: a coordinate is NaN or infinite"),
            6 => write!(f, "{side} tree: a pivot over a leaf is NaN or -inf"),
            7 => write!(f, "{side} tree: a point is on the wrong side of a pivot"),
            8 => write!(f, "the rooms differ in length"),
            9 => write!(f, "the rooms are too small for what is found"),
            other => write!(f, "refusal {other}"),
        }
    }
}

impl std::error::Error for Refusal {}
