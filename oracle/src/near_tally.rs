//! The nearest walk, read plainly from the scope paper: what it answers and what
//! it counts. A recursion like the radius walk's, the far half first; what is
//! ruled out depends on the answers held at that time.

use crate::lots::Lot;
use crate::tally::{At, Node, Question, Tally};
use std::ops::Range;

pub struct Near {
    /// Right item and distance, in left place order; none if a tree is empty.
    pub answers: Vec<(u32, f64)>,
    pub tally: Tally,
}

/// The radius of the question is not asked.
pub fn near(question: &Question) -> Near {
    let [left, right] = question.trees;
    let mut walk = Walk {
        question,
        points: question.trees.map(points),
        near: Near {
            answers: vec![],
            tally: Tally::default(),
        },
    };
    if !left.items.is_empty() && !right.items.is_empty() {
        walk.near.answers = vec![(0, f64::INFINITY); left.items.len()];
        walk.visit(question.roots());
    }
    walk.near
}

struct Walk<'a> {
    question: &'a Question<'a>,
    points: [Vec<[f64; 4]>; 2],
    near: Near,
}

fn points(lot: &Lot) -> Vec<[f64; 4]> {
    let n = lot.items.len();
    let axis = |d: usize, place: usize| {
        if d < lot.k as usize {
            lot.coords[d * n + place]
        } else {
            0.0
        }
    };
    let point = |place: usize| std::array::from_fn(|d| axis(d, place));
    (0..n).map(point).collect()
}

impl Walk<'_> {
    fn visit(&mut self, at: At) {
        let [left, right] = [0, 1].map(|side| self.question.places(at, side));
        let area = (left.len() * right.len()) as u64;
        let held = self.near.answers[left.clone()].iter();
        let largest = held.map(|answer| answer.1).fold(0.0, f64::max);
        let empty = at.nodes.iter().any(|node| node.span() == 0);
        let tally = &mut self.near.tally;
        tally.visits += 1;
        if empty || self.question.lower(at) >= largest {
            tally.rejected += 1;
            tally.ruled_out += area;
        } else if at.nodes.iter().all(Node::is_leaf) {
            tally.leaf_pairs += 1;
            tally.measured += area;
            for p in left {
                self.measure(p, right.clone());
            }
        } else {
            let halves = self.question.split(at).map(|split| split.halves);
            let far_first = halves.into_iter().flatten().rev().flatten();
            for half in far_first {
                self.visit(half);
            }
        }
    }

    fn measure(&mut self, p: usize, right: Range<usize>) {
        let (k, items) = (self.question.k as usize, &self.question.trees[1].items);
        let (point, answer) = (self.points[0][p], &mut self.near.answers[p]);
        for q in right {
            let axes = point.iter().zip(&self.points[1][q]).take(k);
            let distance = axes.fold(0.0, |sum, (x, y)| sum + (x - y) * (x - y));
            if distance < answer.1 {
                *answer = (items[q], distance);
            }
        }
    }
}

#[cfg(test)]
mod tests {
    use super::*;

    fn line(starts: &[u32], stems: &[f64], items: &[u32], coords: &[f64]) -> Lot {
        Lot {
            k: 1,
            starts: starts.to_vec(),
            stems: stems.to_vec(),
            items: items.to_vec(),
            coords: coords.to_vec(),
        }
    }

    fn asked(left: &Lot, right: &Lot) -> Near {
        near(&Question {
            k: 1,
            radius: f64::NAN,
            under: false,
            counting: false,
            trees: [left, right],
        })
    }

    #[test]
    fn stand_c() {
        let left = line(&[0, 1], &[], &[1], &[0.0]);
        let right = line(&[0, 1, 2], &[0.0, 0.0], &[5, 6], &[-1.0, 1.0]);
        let one = asked(&left, &right);
        assert_eq!(one.answers, [(6, 1.0)]);
        assert_eq!((one.tally.visits, one.tally.measured), (3, 2));
        let far = line(&[0, 1], &[], &[1], &[-1e200]);
        let away = line(&[0, 1], &[], &[7], &[1e200]);
        assert_eq!(asked(&far, &away).answers, [(0, f64::INFINITY)]);
    }

    #[test]
    fn trees_of_b() {
        let left = line(&[0, 1, 2], &[0.0, 0.0], &[1, 2], &[-5.0, 5.0]);
        let right = line(&[0, 1, 2], &[0.0, 3.0], &[3, 4], &[-5.0, 5.0]);
        let one = asked(&left, &right);
        assert_eq!(one.answers, [(3, 0.0), (4, 0.0)]);
        let tally = one.tally;
        assert_eq!((tally.visits, tally.measured, tally.ruled_out), (7, 3, 1));
    }

    #[test]
    fn an_empty_tree() {
        let left = line(&[0, 1], &[], &[1], &[0.0]);
        let none = line(&[0, 0, 0], &[0.0, 0.0], &[], &[]);
        for trees in [[&left, &none], [&none, &left], [&none, &none]] {
            let one = asked(trees[0], trees[1]);
            assert!(one.answers.is_empty() && one.tally == Tally::default());
        }
    }
}
