//! Three rooms with a pattern in them.

use oulavisok::Rooms;

pub type Pair = (u32, u32, f64);
const PATTERN: Pair = (0xdead_beef, 0xfeed_f00d, 1e300);

pub struct Kept {
    pub left: Vec<u32>,
    pub right: Vec<u32>,
    pub distance: Vec<f64>,
}

impl Kept {
    pub fn new(room: usize) -> Self {
        Kept {
            left: vec![PATTERN.0; room],
            right: vec![PATTERN.1; room],
            distance: vec![PATTERN.2; room],
        }
    }
    pub fn rooms(&mut self) -> Rooms<'_> {
        Rooms {
            left: &mut self.left,
            right: &mut self.right,
            distance: &mut self.distance,
        }
    }
    /// The first places hold these pairs, the others the pattern.
    pub fn hold(&self, due: &[Pair]) {
        let pair = |place: usize| due.get(place).copied().unwrap_or(PATTERN);
        for (place, &item) in self.left.iter().enumerate() {
            assert_eq!(item, pair(place).0);
        }
        for (place, &item) in self.right.iter().enumerate() {
            assert_eq!(item, pair(place).1);
        }
        for (place, distance) in self.distance.iter().enumerate() {
            assert_eq!(distance.to_bits(), pair(place).2.to_bits());
        }
    }
}
