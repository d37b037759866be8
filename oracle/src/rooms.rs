//! Output buffers with a pattern in them and around them, so that a store
//! beyond what is due shows.

use crate::report::same;
use oracle::api::Pair;
use oracle::ours::Out;
use oulavisok::{NearestRooms, Rooms};
use std::iter::repeat_n;

/// Places on each side of what is lent.
const AROUND: usize = 8;

/// A buffer of which only the middle part is lent.
pub struct Room<T> {
    all: Vec<T>,
    before: Vec<T>,
}

impl<T: Copy> Room<T> {
    pub fn new(content: impl IntoIterator<Item = T>, pattern: T) -> Self {
        let around = || repeat_n(pattern, AROUND);
        let all: Vec<T> = around().chain(content).chain(around()).collect();
        Room {
            before: all.clone(),
            all,
        }
    }
    pub fn filled(len: usize, pattern: T) -> Self {
        Self::new(repeat_n(pattern, len), pattern)
    }
    pub fn lent(&mut self) -> &mut [T] {
        let end = self.all.len() - AROUND;
        &mut self.all[AROUND..end]
    }
    /// Whether the first places lent hold `due` and nothing else has changed.
    pub fn holds(&self, due: impl IntoIterator<Item = T>, same: impl Fn(T, T) -> bool) -> bool {
        let mut wanted = self.before.clone();
        for (place, value) in wanted[AROUND..].iter_mut().zip(due) {
            *place = value;
        }
        wanted.iter().zip(&self.all).all(|(&a, &b)| same(a, b))
    }
}

/// The three buffers for pairs.
pub struct Stored {
    left: Room<u32>,
    right: Room<u32>,
    distance: Room<f64>,
}

impl Stored {
    pub fn new(room: usize) -> Self {
        Self::of_lengths([room; 3])
    }
    pub fn of_lengths([left, right, distance]: [usize; 3]) -> Self {
        Stored {
            left: Room::filled(left, 0xdead_beef),
            right: Room::filled(right, 0xfeed_f00d),
            distance: Room::filled(distance, 1e300),
        }
    }
    /// For a leaf pair.
    pub fn lent(&mut self) -> Out<'_> {
        Out {
            left: self.left.lent(),
            right: self.right.lent(),
            distance: self.distance.lent(),
        }
    }
    /// For a whole join.
    pub fn rooms(&mut self) -> Rooms<'_> {
        Rooms {
            left: self.left.lent(),
            right: self.right.lent(),
            distance: self.distance.lent(),
        }
    }
    /// Whether the first places hold these pairs and nothing else has changed.
    pub fn hold(&self, due: &[Pair]) -> bool {
        let (left, right) = (due.iter().map(|p| p.0), due.iter().map(|p| p.1));
        self.left.holds(left, |a, b| a == b)
            && self.right.holds(right, |a, b| a == b)
            && self.distance.holds(due.iter().map(|p| p.2), same)
    }
}

/// The two buffers for nearest answers.
pub struct Kept {
    items: Room<u32>,
    distance: Room<f64>,
}

impl Kept {
    pub fn new(room: usize) -> Self {
        Self::of_lengths([room; 2])
    }
    pub fn of_lengths([items, distance]: [usize; 2]) -> Self {
        Kept {
            items: Room::filled(items, 0xfeed_f00d),
            distance: Room::filled(distance, 1e300),
        }
    }
    pub fn rooms(&mut self) -> NearestRooms<'_> {
        NearestRooms {
            items: self.items.lent(),
            distance: self.distance.lent(),
        }
    }
    /// Whether the first places hold these answers and nothing else has changed.
    pub fn hold(&self, due: &[Pair]) -> bool {
        self.items.holds(due.iter().map(|p| p.1), |a, b| a == b)
            && self.distance.holds(due.iter().map(|p| p.2), same)
    }
}
