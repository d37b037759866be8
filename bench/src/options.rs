//! What the command line asks for.

use std::time::Duration;

pub struct Options {
    pub tables: Vec<String>,
    ks: Vec<usize>,
    sizes: Vec<usize>,
    pub points: Vec<usize>,
    /// A cell gets this time in each sweep, and at least so many rounds.
    pub budget: Duration,
    pub rounds: usize,
    pub sweeps: usize,
    pub under: bool,
    pub buffers: bool,
    pub times: bool,
}

const ROUNDS: usize = 10;
const TABLES: [&str; 4] = ["pairs", "counts", "nearest", "joins"];

impl Options {
    pub fn from_args() -> Result<Self, String> {
        let mut options = Options {
            tables: Vec::new(),
            ks: Vec::new(),
            sizes: Vec::new(),
            points: vec![1000, 10_000, 65_536],
            budget: Duration::from_millis(20),
            rounds: ROUNDS,
            sweeps: 5,
            under: false,
            buffers: false,
            times: false,
        };
        let mut args = std::env::args().skip(1);
        while let Some(arg) = args.next() {
            options.take(&arg, &mut args)?;
        }
        if options.tables.is_empty() {
            options.tables = TABLES.map(String::from).to_vec();
        }
        Ok(options)
    }

    fn take(&mut self, arg: &str, rest: &mut impl Iterator<Item = String>) -> Result<(), String> {
        match arg {
            "--under" => self.under = true,
            "--buffers" => self.buffers = true,
            "--times" => self.times = true,
            "--k" => self.ks = numbers(rest.next(), 1..=4)?,
            "--sizes" => self.sizes = numbers(rest.next(), 1..=1024)?,
            "--points" => self.points = numbers(rest.next(), 1..=65_536)?,
            "--quick" => (self.sweeps, self.rounds, self.budget) = (1, 3, Duration::from_millis(1)),
            "--sweeps" => self.sweeps = numbers(rest.next(), 1..=1000)?[0],
            "--ms" => {
                let ms = numbers(rest.next(), 1..=60_000)?[0];
                self.budget = Duration::from_millis(ms as u64);
            }
            table if TABLES.contains(&table) => self.tables.push(table.into()),
            other => return Err(format!("{other}: not known; see the top of main.rs")),
        }
        Ok(())
    }

    /// One line for whoever reads the tables later.
    pub fn said(&self) -> String {
        let edge = if self.under { "under" } else { "up to" };
        let store = match self.buffers {
            true => "three plain buffers",
            false => "its own collecting Vec, with room reserved",
        };
        let quick = match self.rounds {
            ROUNDS => "",
            _ => " A quick run: the answers count, the times mean nothing.",
        };
        format!(
            "Least time of alternating runs, {} sweeps of {} ms a cell, same leaves in the same memory; \
             radius {edge}; the Rust stores pairs in {store}. Both for plain x86-64: \
             the Rust at opt-level 3, one codegen unit, no LTO, without its simd feature.{quick}",
            self.sweeps,
            self.budget.as_millis()
        )
    }

    /// The numbers of axes asked for, or the table's own.
    pub fn ks<'a>(&'a self, own: &'a [usize]) -> &'a [usize] {
        or(&self.ks, own)
    }

    /// The sizes of leaves asked for, or the table's own.
    pub fn sizes<'a>(&'a self, own: &'a [usize]) -> &'a [usize] {
        or(&self.sizes, own)
    }

    pub fn wants(&self, table: &str) -> bool {
        self.tables.iter().any(|t| t == table)
    }
}

fn or<'a>(asked: &'a [usize], own: &'a [usize]) -> &'a [usize] {
    if asked.is_empty() {
        own
    } else {
        asked
    }
}

fn numbers(
    arg: Option<String>,
    range: std::ops::RangeInclusive<usize>,
) -> Result<Vec<usize>, String> {
    let arg = arg.ok_or("a flag lacks its numbers")?;
    let number = |part: &str| part.parse().ok().filter(|n| range.contains(n));
    let parsed: Option<Vec<usize>> = arg.split(',').map(number).collect();
    parsed.ok_or(format!("{arg}: not numbers in {range:?}"))
}
