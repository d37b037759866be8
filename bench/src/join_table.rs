//! The table of whole joins.

use crate::contest::{race, Times};
use crate::joins::{Join, NearestJoin, PairsJoin};
use crate::options::Options;
use crate::table::deeper;
use crate::trees::{Layout, Tree};
use oracle::rng::Rng;

pub struct JoinTable {
    rows: Vec<Row>,
}

struct Row {
    about: About,
    /// Pairs found, for each left point.
    neighbours: f64,
    pairs: Times,
    counts: Times,
    nearest: Times,
}

/// What a row is about.
#[derive(Clone, Copy, PartialEq)]
struct About {
    k: usize,
    layout: Layout,
    leaf: usize,
    points: usize,
}

const HEAD: &str = "\
### Joins: our time / the Rust's

Two trees of as many points. Rows: a lattice, the same on both sides, the radius one spacing. \
Random: each side its own in the unit box, the radius of a ball that holds 6 points on average. \
Neighbours: pairs found for each left point. Nearest asks no radius. Growth: time for each point beside that of the \
first number of points, ours / the Rust's.

| K | layout | leaf | points | neighbours | pairs | counts | nearest | growth of pairs | growth of counts | growth of nearest |
|---|---|---|---|---|---|---|---|---|---|---|";

/// Leaves that a lent tree may have.
const MOST_LEAVES: usize = 4096;

impl JoinTable {
    /// All rows asked for, in sweeps like the leaf tables.
    pub fn run(options: &Options) -> Self {
        let mut table = JoinTable { rows: Vec::new() };
        if options.wants("joins") {
            for depth in 0..options.sweeps {
                deeper(depth, &mut || table.sweep(options));
            }
        }
        table
    }

    fn sweep(&mut self, options: &Options) {
        for &k in options.ks(&[2, 3]) {
            for layout in Layout::ALL {
                for &leaf in options.sizes(&[16, 32]) {
                    for &points in &options.points {
                        if points <= MOST_LEAVES * leaf {
                            let about = About {
                                k,
                                layout,
                                leaf,
                                points,
                            };
                            self.merge(about.run(options));
                        }
                    }
                }
            }
        }
    }

    fn merge(&mut self, new: Row) {
        match self.rows.iter_mut().find(|row| row.about == new.about) {
            Some(row) => {
                row.pairs.merge(new.pairs);
                row.counts.merge(new.counts);
                row.nearest.merge(new.nearest);
            }
            None => self.rows.push(new),
        }
    }

    pub fn wrong(&self) -> bool {
        let wrong = |r: &Row| r.pairs.wrong || r.counts.wrong || r.nearest.wrong;
        self.rows.iter().any(wrong)
    }

    pub fn print(&self) {
        if self.rows.is_empty() {
            return;
        }
        println!("{HEAD}");
        for row in &self.rows {
            self.print_row(row);
        }
        self.print_worst("pairs", |row| &row.pairs);
        self.print_worst("counts", |row| &row.counts);
        self.print_worst("nearest", |row| &row.nearest);
        println!();
    }

    fn print_row(&self, row: &Row) {
        let first = self.first_like(row);
        let growth = |times: fn(&Row) -> &Times| {
            let share = first.about.points as f64 / row.about.points as f64;
            let ours = share * times(row).ours / times(first).ours;
            let rust = share * times(row).rust / times(first).rust;
            format!("{ours:.2} / {rust:.2}")
        };
        println!(
            "| {} | {} | {} | {} | {:.1} | {} | {} | {} | {} | {} | {} |",
            row.about.k,
            row.about.layout.name(),
            row.about.leaf,
            row.about.points,
            row.neighbours,
            ratio(&row.pairs),
            ratio(&row.counts),
            ratio(&row.nearest),
            growth(|row| &row.pairs),
            growth(|row| &row.counts),
            growth(|row| &row.nearest),
        );
    }

    /// The first row that differs in the number of points alone.
    fn first_like<'a>(&'a self, row: &'a Row) -> &'a Row {
        let points = row.about.points;
        let alike = |other: About| About { points, ..other } == row.about;
        let first = self.rows.iter().find(|other| alike(other.about));
        first.unwrap_or(row)
    }

    fn print_worst(&self, title: &str, times: fn(&Row) -> &Times) {
        let ratio = |row: &Row| times(row).ours / times(row).rust;
        let worst = self
            .rows
            .iter()
            .max_by(|a, b| ratio(a).total_cmp(&ratio(b)));
        if let Some(row) = worst {
            let About { k, leaf, .. } = row.about;
            let (layout, points) = (row.about.layout.name(), row.about.points);
            let ratio = ratio(row);
            println!(
                "\nWorst of {title}: {ratio:.2} (K={k}, {layout}, leaf {leaf}, {points} points)."
            );
        }
    }
}

fn ratio(times: &Times) -> String {
    let wrong = if times.wrong { " WRONG" } else { "" };
    format!("{:.2}{wrong}", times.ours / times.rust)
}

impl About {
    fn run(self, options: &Options) -> Row {
        match (self.k, options.under) {
            (1, false) => self.race::<1, false>(options),
            (1, true) => self.race::<1, true>(options),
            (2, false) => self.race::<2, false>(options),
            (2, true) => self.race::<2, true>(options),
            (3, false) => self.race::<3, false>(options),
            (3, true) => self.race::<3, true>(options),
            (_, false) => self.race::<4, false>(options),
            (_, true) => self.race::<4, true>(options),
        }
    }

    fn race<const K: usize, const EX: bool>(self, options: &Options) -> Row {
        let mut rng = Rng::new((K * self.leaf + self.points) as u64);
        let mut tree = || {
            let points = self.layout.points(self.points, &mut rng);
            Tree::<K>::new(points, self.leaf)
        };
        let (left, right) = (tree(), tree());
        let mut join = Join::<K, EX> {
            left: &left,
            right: &right,
            radius: self.layout.radius::<K>(self.points),
        };
        Row {
            about: self,
            neighbours: join.rust_count() as f64 / self.points as f64,
            pairs: race(&mut PairsJoin::new(join), options, &mut rng),
            counts: race(&mut join, options, &mut rng),
            nearest: race(&mut NearestJoin::new(&left, &right), options, &mut rng),
        }
    }
}
