//! Pairs of trees to be joined, sound but for limits.

use crate::lots::{self, Lot};
use crate::points::{Kind, Source, SPACINGS};
use crate::report::Report;
use crate::shapes::{self, Shape};
use crate::tally::Question;
use oracle::rng::Rng;

/// Two trees with the same axes.
pub struct Case {
    pub k: u32,
    pub kind: String,
    pub left: Lot,
    pub right: Lot,
    pub spacing: f64,
    pub size: Size,
}

#[derive(Clone, Copy)]
pub enum Size {
    Ordinary,
    /// Deep enough for boxes closed on all axes.
    Deep,
    /// One is at a limit, or just over it.
    Limits,
    /// Both have so many points that only near pairs can be asked for.
    Vast,
}

type Draw = fn(&mut Report, &mut Rng) -> Shape;

impl Case {
    pub fn any(size: Size, report: &mut Report, rng: &mut Rng) -> Self {
        let kind = Kind::any(rng);
        let source = Source::new(kind, rng);
        // Often another stand: the lattice begins elsewhere.
        let other = Source::new(kind, rng);
        let sources = [&source, if rng.one_in(2) { &source } else { &other }];
        let (one, other): (Draw, Draw) = match size {
            Size::Deep => (Shape::deep, Shape::deep),
            Size::Limits => (Shape::limits, Shape::few),
            _ => (Shape::small, Shape::small),
        };
        let mut shapes = [one(report, rng), other(report, rng)];
        rng.shuffle(&mut shapes);
        Self::grown(1 + rng.below(4), kind.name(), sources, shapes, size, rng)
    }

    /// One tree or both up to the limits. With few distinct places, or all
    /// squares zero, two such trees would have too many pairs to list.
    pub fn large(report: &mut Report, rng: &mut Rng) -> Self {
        let k = 1 + rng.below(4);
        let large = rng.pick(&[[true, false], [false, true], [true, true]]);
        let vast = large[0] && large[1];
        let kind = match (vast, Kind::any(rng)) {
            (true, Kind::Lattice(spacing)) => Kind::Lattice(spacing),
            (true, _) => Kind::Random,
            (false, any) => any,
        };
        // About as many places as points.
        let lines = [65_536, 256, 40, 16][k - 1];
        let source = Source::new(kind, rng).over_lines(lines);
        let shapes = large.map(|large| match large {
            true => Shape::large(report, rng),
            false => Shape::few(report, rng),
        });
        let kind = format!("{}, large", kind.name());
        let size = if vast { Size::Vast } else { Size::Ordinary };
        Self::grown(k, kind, [&source; 2], shapes, size, rng)
    }

    /// Both trees with as many points as there may be: the numbers of leaves and
    /// K in turn.
    pub fn full(number: u64, report: &mut Report, rng: &mut Rng) -> Self {
        let k = 1 + number as usize % 4;
        let turn = number as usize / 4 % 3;
        let leaves = [[4096, 4096], [512, 4096], [4096, 64]][turn];
        let kind = match rng.one_in(2) {
            true => Kind::Lattice(rng.pick(&SPACINGS)),
            false => Kind::Random,
        };
        let lines = [65_536, 256, 40, 16][k - 1];
        let source = Source::new(kind, rng).over_lines(lines);
        let shapes = leaves.map(|leaves| Shape::full(leaves, report));
        let kind = format!("{}, 65,536 points each", kind.name());
        Self::grown(k, kind, [&source; 2], shapes, Size::Vast, rng)
    }

    fn grown(
        k: usize,
        kind: String,
        sources: [&Source; 2],
        shapes: [Shape; 2],
        size: Size,
        rng: &mut Rng,
    ) -> Self {
        let [left, right] = [0, 1].map(|side| {
            let mut lot = lots::grown(k, sources[side], &shapes[side].0, rng);
            lot.items = lots::items(lot.items.len(), rng);
            rng.shuffle(&mut lot.items);
            shapes::garbage(&mut lot, rng);
            lot
        });
        Case {
            k: k as u32,
            kind,
            left,
            right,
            spacing: sources[0].spacing(),
            size,
        }
    }

    pub fn question(&self, radius: f64, under: bool, counting: bool) -> Question<'_> {
        Question {
            k: self.k,
            radius,
            under,
            counting,
            trees: [&self.left, &self.right],
        }
    }

    pub fn told(&self, radius: f64, under: bool, more: &str) -> String {
        let tree = |lot: &Lot| format!("{} leaves, {} points", lot.leaves(), lot.items.len());
        let (left, right) = (tree(&self.left), tree(&self.right));
        let edge = if under { "under" } else { "up to" };
        format!("K={}, {left} | {right}, {edge} {radius:e}: {more}", self.k)
    }
}
