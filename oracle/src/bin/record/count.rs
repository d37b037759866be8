//! The totals of the radius walk and of the nearest walk, read from the scope
//! paper: by recursion over node pairs with boxes passed by value, where the Rust
//! has a stack and puts box sides back.

use crate::lots::Lot;
use crate::rules;

#[derive(Clone, Copy, Debug, Default, PartialEq)]
pub struct Counted {
    pub visits: u64,
    pub measured: u64,
    pub ruled: u64,
    pub whole: u64,
    /// Node pairs ruled out, and taken whole.
    pub nodes_ruled: u64,
    pub nodes_whole: u64,
}

/// A node: its stem, how many levels are below it and above it, its leaves.
#[derive(Clone, Copy)]
struct Node {
    stem: usize,
    left: u32,
    level: u32,
    from: usize,
    to: usize,
}

impl Node {
    fn root(lot: &Lot) -> Self {
        let leaves = lot.starts.len() - 1;
        Node {
            stem: 1,
            left: rules::levels(leaves),
            level: 0,
            from: 0,
            to: leaves,
        }
    }
    fn span(self) -> usize {
        self.to - self.from
    }
    fn leaf(self) -> bool {
        self.left == 0
    }
    fn halves(self) -> [Node; 2] {
        let middle = (self.from + (1 << (self.left - 1))).min(self.to);
        let child = |stem, from, to| Node {
            stem,
            left: self.left - 1,
            level: self.level + 1,
            from,
            to,
        };
        [
            child(2 * self.stem, self.from, middle),
            child(2 * self.stem + 1, middle, self.to),
        ]
    }
    fn points(self, lot: &Lot) -> u64 {
        self.places(lot).len() as u64
    }
    fn places(self, lot: &Lot) -> std::ops::Range<usize> {
        lot.starts[self.from] as usize..lot.starts[self.to] as usize
    }
}

/// For each side and axis: min and max.
type Boxes = [[(f64, f64); 4]; 2];
const EVERYWHERE: Boxes = [[(f64::NEG_INFINITY, f64::INFINITY); 4]; 2];

struct Walk<'a> {
    lots: [&'a Lot; 2],
    radius: f64,
    under: bool,
    counting: bool,
    counted: Counted,
    met: Vec<Boxes>,
}

impl<'a> Walk<'a> {
    fn new(left: &'a Lot, right: &'a Lot) -> Self {
        Walk {
            lots: [left, right],
            radius: f64::NAN,
            under: false,
            counting: false,
            counted: Counted::default(),
            met: vec![],
        }
    }
    fn start(&mut self) {
        self.visit(self.lots.map(Node::root), EVERYWHERE);
    }
}

pub fn walk(left: &Lot, right: &Lot, radius: f64, under: bool, counting: bool) -> Counted {
    let mut walk = Walk::new(left, right);
    (walk.radius, walk.under, walk.counting) = (radius, under, counting);
    walk.start();
    walk.counted
}

/// Right item and distance, in left place order.
type Answers = Vec<(u32, f64)>;

/// The nearest walk: its totals and its answers. Bounds are summed in the order
/// of the axes given.
pub fn nearest(
    left: &Lot,
    right: &Lot,
    axes: impl Iterator<Item = usize> + Clone,
) -> (Counted, Answers) {
    let mut walk = Walk::new(left, right);
    let mut answers = vec![];
    if !left.items.is_empty() && !right.items.is_empty() {
        answers.resize(left.items.len(), (0, f64::INFINITY));
        let mut work = vec![(walk.lots.map(Node::root), EVERYWHERE)];
        while let Some((at, boxes)) = work.pop() {
            let bound = lower(&boxes, axes.clone());
            work.extend(walk.nearer(at, boxes, bound, &mut answers));
        }
    }
    (walk.counted, answers)
}

/// The lower and upper bounds that can be met, each with the value that a sum
/// from the last axis would have.
pub fn bounds(left: &Lot, right: &Lot) -> (Vec<[f64; 2]>, Vec<[f64; 2]>) {
    let mut walk = Walk::new(left, right);
    walk.start();
    let k = left.k as usize;
    let lowers = |boxes| [lower(boxes, 0..k), lower(boxes, (0..k).rev())];
    let uppers = |boxes| [upper(boxes, 0..k), upper(boxes, (0..k).rev())];
    let met = &walk.met;
    (
        met.iter().map(lowers).collect(),
        met.iter().map(uppers).collect(),
    )
}

impl Walk<'_> {
    fn visit(&mut self, at: [Node; 2], boxes: Boxes) {
        self.counted.visits += 1;
        self.met.push(boxes);
        let axes = 0..self.lots[0].k as usize;
        let pairs = at[0].points(self.lots[0]) * at[1].points(self.lots[1]);
        if at[0].span() == 0 || at[1].span() == 0 || self.beyond(lower(&boxes, axes.clone())) {
            self.counted.ruled += pairs;
            self.counted.nodes_ruled += 1;
        } else if self.counting && passes(upper(&boxes, axes), self.radius, self.under) {
            self.counted.whole += pairs;
            self.counted.nodes_whole += 1;
        } else if at[0].leaf() && at[1].leaf() {
            self.counted.measured += pairs;
        } else {
            for (at, boxes) in self.halves(at, boxes) {
                self.visit(at, boxes);
            }
        }
    }

    /// The near half with its max lowered, then the far half with its min raised.
    fn halves(&self, at: [Node; 2], boxes: Boxes) -> Vec<([Node; 2], Boxes)> {
        let right = at[0].leaf() || (!at[1].leaf() && at[1].span() > at[0].span());
        let side = usize::from(right);
        let pivot = self.lots[side].stems[at[side].stem];
        let axis = (at[side].level % self.lots[side].k) as usize;
        let [near, far] = at[side].halves();
        let (min, max) = boxes[side][axis];
        let half = |node, sides| {
            let (mut at, mut boxes) = (at, boxes);
            at[side] = node;
            boxes[side][axis] = sides;
            (at, boxes)
        };
        let mut halves = vec![half(near, (min, if pivot < max { pivot } else { max }))];
        if pivot != f64::INFINITY {
            halves.push(half(far, (if pivot > min { pivot } else { min }, max)));
        }
        halves
    }

    /// One visit of the nearest walk; the last of what it leaves comes next.
    fn nearer(
        &mut self,
        at: [Node; 2],
        boxes: Boxes,
        bound: f64,
        answers: &mut Answers,
    ) -> Vec<([Node; 2], Boxes)> {
        self.counted.visits += 1;
        let [left, right] = self.lots;
        let pairs = at[0].points(left) * at[1].points(right);
        let [mine, other] = [at[0].places(left), at[1].places(right)];
        let worst = answers[mine.clone()].iter().map(|a| a.1);
        let largest = worst.fold(0.0, |most, x| if x > most { x } else { most });
        if at[0].span() == 0 || at[1].span() == 0 || bound >= largest {
            self.counted.ruled += pairs;
            self.counted.nodes_ruled += 1;
            return vec![];
        }
        if !at[0].leaf() || !at[1].leaf() {
            return self.halves(at, boxes);
        }
        self.counted.measured += pairs;
        for p in mine {
            for q in other.clone() {
                let distance = distance(left, p, right, q);
                if distance < answers[p].1 {
                    answers[p] = (right.items[q], distance);
                }
            }
        }
        vec![]
    }

    /// NaN rules nothing out.
    fn beyond(&self, bound: f64) -> bool {
        if self.under {
            bound >= self.radius
        } else {
            bound > self.radius
        }
    }
}

fn lower([left, right]: &Boxes, axes: impl Iterator<Item = usize>) -> f64 {
    axes.fold(0.0, |sum, d| {
        let gap = if left[d].1 < right[d].0 {
            right[d].0 - left[d].1
        } else if right[d].1 < left[d].0 {
            left[d].0 - right[d].1
        } else {
            0.0
        };
        sum + gap * gap
    })
}

/// +inf unless all sides are finite.
fn upper([left, right]: &Boxes, axes: impl Iterator<Item = usize>) -> f64 {
    axes.fold(0.0, |sum, d| {
        let sides = [left[d].0, left[d].1, right[d].0, right[d].1];
        if !sides.into_iter().all(f64::is_finite) {
            return f64::INFINITY;
        }
        let (a, b) = (left[d].0 - right[d].1, left[d].1 - right[d].0);
        let (a, b) = (a * a, b * b);
        sum + if a > b { a } else { b }
    })
}

/// NaN passes nothing.
pub fn passes(distance: f64, radius: f64, under: bool) -> bool {
    if under {
        distance < radius
    } else {
        distance <= radius
    }
}

pub fn distance(left: &Lot, p: usize, right: &Lot, q: usize) -> f64 {
    (0..left.k as usize).fold(0.0, |sum, d| {
        let x = left.coords[d * left.items.len() + p] - right.coords[d * right.items.len() + q];
        sum + x * x
    })
}
