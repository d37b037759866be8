//! Running the cells and printing them.

use crate::contest::{race, Contest, CountsContest, NearestContest, PairsContest, Times};
use crate::options::Options;
use crate::pool::Pool;
use oracle::rng::Rng;

pub struct Table {
    title: &'static str,
    columns: &'static [&'static str],
    rows: Vec<Row>,
}

struct Row {
    k: usize,
    size: usize,
    distances: usize,
    cells: Vec<Times>,
}

const PASSING: &[&str] = &["all pass", "a quarter", "none"];
const ANSWERS: &[&str] = &["from +inf", "nothing improves"];

/// The tables asked for, all cells run.
pub fn all(options: &Options) -> Vec<Table> {
    let mut tables = [
        Table::new("pairs", PASSING),
        Table::new("counts", PASSING),
        Table::new("nearest", ANSWERS),
    ];
    // Each cell is visited in several sweeps, so that a slow spell of the
    // machine cannot take up all the time a cell has; and each sweep from
    // another depth of the stack, so that no side is lucky in how its local
    // arrays lie to the cache lines.
    for depth in 0..options.sweeps {
        deeper(depth, &mut || sweep(&mut tables, options));
    }
    let wanted = tables.into_iter().filter(|t| options.wants(t.title));
    wanted.collect()
}

/// Runs `f` some frames further down; a frame is no multiple of a cache line
/// (80 bytes as compiled today).
#[inline(never)]
pub fn deeper(frames: usize, f: &mut dyn FnMut()) {
    let frame = std::hint::black_box([frames; 2]);
    match frame[0] {
        0 => f(),
        more => deeper(more - 1, f),
    }
    // Used after the call, so that the frame stays.
    std::hint::black_box(frame);
}

fn sweep(tables: &mut [Table; 3], options: &Options) {
    for &k in options.ks(&[1, 2, 3, 4]) {
        match k {
            1 => fill::<1>(tables, options),
            2 => fill::<2>(tables, options),
            3 => fill::<3>(tables, options),
            _ => fill::<4>(tables, options),
        }
    }
}

fn fill<const K: usize>(tables: &mut [Table; 3], options: &Options) {
    for &size in options.sizes(&[8, 16, 32, 100]) {
        let mut rng = Rng::new((K * 1000 + size) as u64);
        let pool = Pool::<K>::new(size, &mut rng);
        for table in tables.iter_mut().filter(|t| options.wants(t.title)) {
            let cells = match (table.title, options.under) {
                ("pairs", false) => pairs::<K, false>(&pool, options, &mut rng),
                ("pairs", true) => pairs::<K, true>(&pool, options, &mut rng),
                ("counts", false) => counts::<K, false>(&pool, options, &mut rng),
                ("counts", true) => counts::<K, true>(&pool, options, &mut rng),
                _ => nearest(&pool, options, &mut rng),
            };
            table.merge(Row {
                k: K,
                size,
                distances: pool.distances(),
                cells,
            });
        }
    }
}

fn pairs<const K: usize, const EX: bool>(
    pool: &Pool<K>,
    options: &Options,
    rng: &mut Rng,
) -> Vec<Times> {
    let cell = |radius| {
        let mut contest = PairsContest::<K, EX>::new(pool, radius, options.buffers);
        run(&mut contest, options, rng)
    };
    pool.radii().map(cell).into()
}

fn counts<const K: usize, const EX: bool>(
    pool: &Pool<K>,
    options: &Options,
    rng: &mut Rng,
) -> Vec<Times> {
    let cell = |radius| run(&mut CountsContest::<K, EX> { pool, radius }, options, rng);
    pool.radii().map(cell).into()
}

fn nearest<const K: usize>(pool: &Pool<K>, options: &Options, rng: &mut Rng) -> Vec<Times> {
    let low = pool.radii()[2];
    let cell = |start| run(&mut NearestContest::new(pool, start), options, rng);
    [f64::INFINITY, low].map(cell).into()
}

fn run(contest: &mut impl Contest, options: &Options, rng: &mut Rng) -> Times {
    race(contest, options, rng)
}

impl Table {
    fn new(title: &'static str, columns: &'static [&'static str]) -> Self {
        Table {
            title,
            columns,
            rows: Vec::new(),
        }
    }

    fn merge(&mut self, new: Row) {
        let same = |row: &&mut Row| (row.k, row.size) == (new.k, new.size);
        match self.rows.iter_mut().find(same) {
            Some(row) => row
                .cells
                .iter_mut()
                .zip(new.cells)
                .for_each(|(a, b)| a.merge(b)),
            None => self.rows.push(new),
        }
    }

    pub fn wrong(&self) -> bool {
        self.rows.iter().flat_map(|row| &row.cells).any(|c| c.wrong)
    }

    pub fn print(&self, times: bool) {
        println!("### Leaf {}: our time / the Rust's\n", self.title);
        self.print_cells(|_, cell| format!("{:.2}", cell.ours / cell.rust));
        self.print_worst();
        if times {
            println!(
                "### Leaf {}: ns a pair of points, ours / Rust\n",
                self.title
            );
            self.print_cells(|row, cell| {
                let each = |seconds: f64| seconds * 1e9 / row.distances as f64;
                format!("{:.2} / {:.2}", each(cell.ours), each(cell.rust))
            });
            println!();
        }
    }

    fn print_cells(&self, show: impl Fn(&Row, &Times) -> String) {
        println!("| K | leaf | {} |", self.columns.join(" | "));
        println!("|---|---|{}", "---|".repeat(self.columns.len()));
        for row in &self.rows {
            let show = |cell| match show(row, cell) {
                text if cell.wrong => format!("{text} WRONG"),
                text => text,
            };
            let cells: Vec<String> = row.cells.iter().map(show).collect();
            println!("| {} | {} | {} |", row.k, row.size, cells.join(" | "));
        }
    }

    fn print_worst(&self) {
        let mut worst = (0.0, String::new());
        for row in &self.rows {
            for (cell, column) in row.cells.iter().zip(self.columns) {
                let ratio = cell.ours / cell.rust;
                if ratio > worst.0 {
                    worst = (ratio, format!("K={}, leaf {}, {column}", row.k, row.size));
                }
            }
        }
        println!("\nWorst of {}: {:.2} ({}).\n", self.title, worst.0, worst.1);
    }
}
