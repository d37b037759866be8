//! A case, and a record's bytes: little-endian, the job as the scope paper has it.

use crate::expect::Answer;
use crate::lots::Lot;
pub use oracle::ask::NEAREST;
use oracle::{ask, job};

/// One join. The trees are as the job says; one of the eleven buffers (1 to 8
/// the trees', 9 to 11 the rooms) may be lent at another length.
pub struct Case {
    pub kind: &'static str,
    pub mode: u8,
    pub radius: f64,
    pub left: Lot,
    pub right: Lot,
    pub room: u32,
    pub buffer: u32,
    pub lent: u32,
}

impl Case {
    pub fn under(&self) -> bool {
        self.mode % 2 == 1
    }
    pub fn counting(&self) -> bool {
        self.mode == 2 || self.mode == 3
    }
    pub fn nearest(&self) -> bool {
        self.mode == NEAREST
    }
    /// The trees as they are lent: cut, or lengthened by zeros.
    pub fn lent(&self) -> (Lot, Lot) {
        let (mut left, mut right) = (self.left.clone(), self.right.clone());
        let lot = if self.buffer <= 4 {
            &mut left
        } else {
            &mut right
        };
        let n = self.lent as usize;
        match self.buffer {
            1 | 5 => lot.starts.resize(n, 0),
            2 | 6 => lot.stems.resize(n, 0.0),
            3 | 7 => lot.items.resize(n, 0),
            4 | 8 => lot.coords.resize(n, 0.0),
            _ => {}
        }
        (left, right)
    }
    /// Whether the rooms are of different lengths: three of pairs, two of
    /// nearest, none of counts.
    pub fn rooms_differ(&self) -> bool {
        let mut rooms = [self.room; 3];
        if self.buffer >= 9 {
            rooms[self.buffer as usize - 9] = self.lent;
        }
        let asked = match (self.counting(), self.nearest()) {
            (true, _) => &[],
            (_, true) => &rooms[1..],
            _ => &rooms[..],
        };
        asked.iter().any(|room| *room != asked[0])
    }
}

/// What rooms are filled with before the call; no item may be this. Nearest has
/// no room for left items: an answer has this in their place.
pub const EMPTY: u32 = 0xe4e4_e4e4;

/// Job length, room, buffer, its length, text length; the job, the answer and the
/// pairs stored; then the text that the job program prints for the job, whatever
/// room and buffer are here: its rooms and lengths are its own.
pub fn record(case: &Case, answer: &Answer) -> Vec<u8> {
    let job = job(case);
    assert!(job.len() <= job::LIMIT && case.room <= 1024 && case.buffer <= 11);
    let text = job::text(&job);
    let (length, printed) = (job.len() as u32, text.len() as u32);
    let mut out = vec![];
    for x in [length, case.room, case.buffer, case.lent, printed] {
        out.extend(x.to_le_bytes());
    }
    out.extend(job);
    out.extend(answer.number.to_le_bytes());
    out.extend(answer.side.to_le_bytes());
    for x in [
        answer.found,
        answer.visits,
        answer.measured,
        answer.ruled,
        answer.whole,
    ] {
        out.extend(x.to_le_bytes());
    }
    for (left, right, distance) in &answer.stored {
        assert!((*left == EMPTY) == case.nearest() && *right != EMPTY);
        out.extend(left.to_le_bytes());
        out.extend(right.to_le_bytes());
        out.extend(distance.to_bits().to_le_bytes());
    }
    out.extend(text.into_bytes());
    out
}

fn job(case: &Case) -> Vec<u8> {
    assert!(!case.nearest() || case.radius.to_bits() == 0);
    for lot in [&case.left, &case.right] {
        let (m, n) = (lot.leaves(), lot.items.len());
        let stems = if m < 2 { 0 } else { m.next_power_of_two() };
        assert!(lot.stems.len() == stems && lot.coords.len() == case.left.k as usize * n);
    }
    ask::bytes(case.mode, case.radius, [&case.left, &case.right])
}
