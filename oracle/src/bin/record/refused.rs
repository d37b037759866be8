//! Joins that are refused, or nearly: trees damaged in one rule or two, on
//! either side, and rooms of different lengths.

use crate::file::{Case, NEAREST};
use crate::grow;
use crate::lots::Lot;
use crate::points::{Kind, Source};
use oracle::rng::Rng;

pub fn all(cases: &mut Vec<Case>, rng: &mut Rng) {
    for turn in 0..2 {
        for side in 0..2 {
            for (number, damage) in DAMAGES.iter().enumerate() {
                let mode = ((turn + side + number) % 4) as u8;
                let mut case = sound(mode, 1 + (turn + number) % 4, rng);
                damage(
                    if side == 0 {
                        &mut case.left
                    } else {
                        &mut case.right
                    },
                    rng,
                );
                cases.push(case);
            }
        }
    }
    for k in [0, 5, 6, 255] {
        for mode in 0..4 {
            cases.push(other_axes(k, mode, rng));
        }
    }
    for (number, (tree, buffer, lent)) in LENGTHS.into_iter().enumerate() {
        let mode = (number / 2 + number) % 4;
        cases.push(lent_at(tree, buffer, lent, mode as u8, rng));
    }
    several(cases, rng);
    rooms(cases, rng);
    leaf_over_the_limit(cases, rng);
}

/// Trees of a few leaves on a lattice, all with points, two levels at least.
pub fn sound(mode: u8, k: usize, rng: &mut Rng) -> Case {
    let source = Source::new(Kind::Lattice(1.0), rng);
    let left = grow::tree(k, &[2, 1, 2], &source, 100, rng);
    let right = grow::tree(k, &[1, 2, 1, 1, 1], &source, 200, rng);
    let (room, radius) = match mode {
        NEAREST => (30, 0.0),
        0 | 1 => (30, rng.pick(&RADII)),
        _ => (0, rng.pick(&RADII)),
    };
    Case {
        kind: "damaged tree",
        mode,
        radius,
        left,
        right,
        room,
        buffer: 0,
        lent: 0,
    }
}

const RADII: [f64; 4] = [0.0, 1.0, 4.0, f64::INFINITY];

pub type Damage = fn(&mut Lot, &mut Rng);

/// The last five leave the tree sound: what looks like a damage is none.
pub const DAMAGES: [Damage; 21] = [
    |lot, _| lot.starts[0] = 1,
    |lot, _| lot.starts.swap(1, 2),
    |lot, _| *lot.starts.last_mut().unwrap() += 1,
    |lot, _| *lot.starts.last_mut().unwrap() -= 1,
    |lot, _| lot.starts[1] = u32::MAX,
    |lot, rng| put(&mut lot.coords, f64::NAN, rng),
    |lot, rng| put(&mut lot.coords, f64::INFINITY, rng),
    |lot, rng| put(&mut lot.coords, f64::NEG_INFINITY, rng),
    |lot, _| lot.stems[1] = f64::NAN,
    |lot, _| lot.stems[2] = f64::NEG_INFINITY,
    |lot, _| lot.stems[3] = -f64::NAN,
    |lot, _| lot.stems[1] = f64::INFINITY,
    |lot, _| lot.stems[1] = lowest(&lot.coords[..lot.items.len()]).next_down(),
    |lot, _| lot.stems[1] = highest(&lot.coords[..lot.items.len()]).next_up(),
    |lot, _| lot.coords[0] = f64::MAX,
    |lot, _| {
        let last = lot.items.len() - 1;
        lot.coords[last] = f64::MIN;
    },
    |lot, _| lot.stems[0] = f64::NAN,
    |lot, _| lot.stems[0] = f64::NEG_INFINITY,
    |lot, _| lot.stems[1] = highest(&lot.coords[..middle(lot)]),
    |lot, _| lot.stems[1] = lowest(&lot.coords[middle(lot)..lot.items.len()]),
    |lot, rng| {
        lot.items
            .iter_mut()
            .for_each(|item| *item = rng.pick(&[0, u32::MAX]))
    },
];

fn put(list: &mut [f64], value: f64, rng: &mut Rng) {
    let place = rng.below(list.len());
    list[place] = value;
}

/// The first place of the root's right half.
fn middle(lot: &Lot) -> usize {
    let leaves = lot.starts.len() - 1;
    lot.starts[leaves.next_power_of_two() / 2] as usize
}

fn lowest(list: &[f64]) -> f64 {
    list.iter().copied().fold(f64::INFINITY, f64::min)
}

fn highest(list: &[f64]) -> f64 {
    list.iter().copied().fold(f64::NEG_INFINITY, f64::max)
}

/// Rule 1, on trees that would be sound with as many coordinates.
pub fn other_axes(k: u32, mode: u8, rng: &mut Rng) -> Case {
    let mut case = sound(mode, 1, rng);
    for (side, lot) in [&mut case.left, &mut case.right].into_iter().enumerate() {
        let n = if k == 255 { side } else { 2 };
        *lot = Lot {
            k,
            starts: vec![0, n as u32],
            stems: vec![],
            items: (1..=n as u32).collect(),
            coords: vec![1.5; k as usize * n],
        };
    }
    case.kind = "K not 1 to 4";
    case
}

/// A length that a buffer is lent at.
#[derive(Clone, Copy)]
pub enum Length {
    At(u32),
    More,
    Fewer,
}
use Length::{At, Fewer, More};

/// Tree, buffer of the tree, its length: rules 2 and 3, and what they just allow.
pub const LENGTHS: [(u32, u32, Length); 24] = [
    (0, 1, At(0)),
    (1, 1, At(0)),
    (0, 1, At(4098)),
    (1, 1, At(4098)),
    (0, 1, At(4097)),
    (1, 1, At(4097)),
    (0, 3, At(65_537)),
    (1, 3, At(65_537)),
    (0, 3, At(65_536)),
    (1, 3, At(65_536)),
    (0, 2, More),
    (1, 2, Fewer),
    (0, 2, At(0)),
    (1, 2, At(2)),
    (0, 4, Fewer),
    (1, 4, More),
    (0, 4, At(0)),
    (1, 4, At(1)),
    (0, 3, Fewer),
    (1, 3, More),
    (0, 1, Fewer),
    (1, 1, Fewer),
    (0, 1, More),
    (1, 1, At(1)),
];

pub fn lent_at(tree: u32, buffer: u32, lent: Length, mode: u8, rng: &mut Rng) -> Case {
    let mut case = sound(mode, 1 + rng.below(4), rng);
    case.buffer = 4 * tree + buffer;
    case.lent = changed(&case, buffer, lent);
    case.kind = "tree lent at other lengths";
    case
}

fn changed(case: &Case, buffer: u32, length: Length) -> u32 {
    let lot = if case.buffer <= 4 {
        &case.left
    } else {
        &case.right
    };
    let own = match buffer {
        1 => lot.starts.len(),
        2 => lot.stems.len(),
        3 => lot.items.len(),
        _ => lot.coords.len(),
    } as u32;
    match length {
        At(n) => n,
        More => own + 1,
        Fewer => own - 1,
    }
}

/// More than one thing is wrong: the left tree wholly, then the right, then the
/// rooms; within a tree the lowest number.
fn several(cases: &mut Vec<Case>, rng: &mut Rng) {
    for turn in 0..24 {
        let mut case = sound((turn % 4) as u8, 1 + rng.below(4), rng);
        for _ in 0..1 + rng.below(3) {
            let damage = rng.pick(&DAMAGES);
            damage(
                if rng.one_in(2) {
                    &mut case.left
                } else {
                    &mut case.right
                },
                rng,
            );
        }
        if turn % 3 == 0 {
            case.buffer = 9 + rng.below(3) as u32;
            case.lent = 29;
        }
        case.kind = "several damages";
        cases.push(case);
    }
}

/// Rule 8, in each of the three rooms, longer, shorter or none; and the same
/// length given again, which is no difference.
fn rooms(cases: &mut Vec<Case>, rng: &mut Rng) {
    for buffer in 9..=11 {
        for (room, lent) in [(30, 31), (30, 29), (30, 0), (0, 1), (1024, 1025), (30, 30)] {
            let mut case = sound(rng.below(2) as u8, 1 + rng.below(4), rng);
            (case.room, case.buffer, case.lent) = (room, buffer, lent);
            case.kind = "rooms of different lengths";
            cases.push(case);
        }
    }
}

/// Rule 4, where a leaf has 1,025 points.
fn leaf_over_the_limit(cases: &mut Vec<Case>, rng: &mut Rng) {
    let source = Source::new(Kind::Lattice(0.25), rng);
    let mut case = sound(0, 1, rng);
    case.right = grow::tree(1, &[1025], &source, 0, rng);
    case.kind = "leaf of 1,025";
    cases.push(case);
}
