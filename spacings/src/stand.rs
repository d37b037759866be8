//! A stand of 256 x 256 stems, its tree, and its neighbours found and counted.

use oulavisok::{pairs_up_to, Rooms, Tree};

const SIDE: usize = 256;
const STEMS: usize = SIDE * SIDE;

/// Pairs of stems one spacing apart along a row or a column, each counted once.
pub const NEIGHBOURS: usize = 2 * SIDE * (SIDE - 1);

#[derive(Clone, Copy)]
pub struct Stand {
    pub spacing: f64,
    pub origin: [f64; 2],
}

impl Stand {
    /// The same stand with whole numbers for coordinates and spacing.
    pub fn in_centimetres(&self) -> Stand {
        let whole = |metres: f64| (100.0 * metres).round();
        Stand {
            spacing: whole(self.spacing),
            origin: self.origin.map(whole),
        }
    }

    /// The neighbours that the library finds when the stand is joined with itself.
    /// It finds each pair both ways round, and every stem with itself.
    pub fn joined_up_to(&self, radius: f64) -> usize {
        let grown = Grown::new(self);
        let tree = grown.lent();
        let room = STEMS + 2 * NEIGHBOURS;
        let (mut left, mut right, mut distance) = (vec![0; room], vec![0; room], vec![0.0; room]);
        let rooms = Rooms {
            left: &mut left,
            right: &mut right,
            distance: &mut distance,
        };
        let answer = pairs_up_to(2, radius, tree, tree, rooms).complete();
        let all = answer.expect("a sound tree, and room").found as usize;
        let pairs = left.into_iter().zip(right).take(all);
        let once = pairs.filter(|(a, b)| a < b).collect::<Vec<_>>();
        let neighbours = |&(a, b): &(u32, u32)| next(a as usize).contains(&Some(b as usize));
        assert!(once.iter().all(neighbours));
        assert_eq!(all, STEMS + 2 * once.len());
        once.len()
    }

    /// The same counted directly: difference, square, sum from 0 in axis order.
    pub fn by_distance(&self) -> usize {
        self.count(|a, b| {
            let distance = (0..2).fold(0.0, |sum, d| sum + (a[d] - b[d]) * (a[d] - b[d]));
            distance <= self.spacing * self.spacing
        })
    }

    /// Neighbours whose gap is at most the spacing. These differences are not
    /// rounded: of two numbers at most a factor of 2 apart they are exact, and
    /// from 0 they are too.
    pub fn by_gap(&self) -> usize {
        self.count(|a, b| (0..2).all(|d| b[d] - a[d] <= self.spacing))
    }

    fn count(&self, passes: impl Fn([f64; 2], [f64; 2]) -> bool) -> usize {
        let passed = |a| {
            let beside = next(a).into_iter().flatten();
            beside
                .filter(|&b| passes(self.point(a), self.point(b)))
                .count()
        };
        (0..STEMS).map(passed).sum()
    }

    /// Item 256 i + j stands in column i, row j.
    fn point(&self, item: usize) -> [f64; 2] {
        [self.at(0, item / SIDE), self.at(1, item % SIDE)]
    }

    fn at(&self, axis: usize, i: usize) -> f64 {
        self.origin[axis] + i as f64 * self.spacing
    }
}

/// The next stem along each axis, if the stand has one.
fn next(item: usize) -> [Option<usize>; 2] {
    let column = (item / SIDE + 1 < SIDE).then_some(item + SIDE);
    let row = (item % SIDE + 1 < SIDE).then_some(item + 1);
    [column, row]
}

/// Columns and rows are halved by turns, down to leaves of 4 x 4.
const LEVELS: usize = 12;

struct Grown {
    starts: Vec<u32>,
    stems: Vec<f64>,
    items: Vec<u32>,
    coords: Vec<f64>,
}

impl Grown {
    fn new(stand: &Stand) -> Grown {
        let mut grown = Grown {
            starts: vec![0],
            stems: vec![0.0; 1 << LEVELS],
            items: vec![],
            coords: vec![],
        };
        grown.node(stand, 1, 0, [0, 0], [SIDE, SIDE]);
        for axis in 0..2 {
            let column = grown
                .items
                .iter()
                .map(|&item| stand.point(item as usize)[axis]);
            grown.coords.extend(column);
        }
        grown
    }

    /// The node over the columns and rows from `from` up to `to`; its pivot is the
    /// first coordinate of its right half.
    fn node(&mut self, stand: &Stand, stem: usize, level: usize, from: [usize; 2], to: [usize; 2]) {
        if level == LEVELS {
            let columns = from[0]..to[0];
            let items = columns.flat_map(|i| (from[1]..to[1]).map(move |j| (i * SIDE + j) as u32));
            self.items.extend(items);
            self.starts.push(self.items.len() as u32);
            return;
        }
        let axis = level % 2;
        let middle = (from[axis] + to[axis]) / 2;
        self.stems[stem] = stand.at(axis, middle);
        let (mut near_to, mut far_from) = (to, from);
        near_to[axis] = middle;
        far_from[axis] = middle;
        self.node(stand, 2 * stem, level + 1, from, near_to);
        self.node(stand, 2 * stem + 1, level + 1, far_from, to);
    }

    fn lent(&self) -> Tree<'_> {
        Tree {
            starts: &self.starts,
            stems: &self.stems,
            items: &self.items,
            coords: &self.coords,
        }
    }
}
