//! Times our leaf loops against the Rust's `leaf_pair` and `update_leaf`, and
//! our joins against its `walk` and `nearest::execute`: the same leaves in the
//! same memory, one process, by turns, minimum of many runs.
//!
//!     cargo run --release -- [TABLE ..] [--k 1,2,3,4] [--sizes 8,16,32,100]
//!                            [--points 1000,10000,65536]
//!                            [--ms 20] [--sweeps 5] [--quick]
//!                            [--under] [--buffers] [--times]
//!
//! TABLE is `pairs`, `counts` or `nearest` (leaves), or `joins`; all four if
//! none is named. `--sizes` are points in a leaf, `--points` those of a whole
//! tree in `joins`, whose own defaults are K 2 and 3, leaves of 16 and 32.
//! `--ms` is the time spent on one cell in each of the `--sweeps`, `--quick`
//! runs each a few times, to see that all works; `--under` takes the strict edge.
//! For leaves, `--buffers` lets the Rust store into three plain buffers instead
//! of its own collecting `Vec`, `--times` adds nanoseconds for each pair of
//! points.
//!
//! Our join checks both trees in each call, the Rust's walks don't; the check
//! is part of our time. Nearest asks no radius; the Rust allocates its answers
//! in each call, ours fills buffers that are lent.
//!
//! The libraries are looked for as oracle/README.md says. Cells are our time
//! divided by the Rust's: below 1 we are faster; runs of one build repeat to
//! about 0.05. WRONG in a cell means that the two answers differ, and makes the
//! exit status 1.

mod calls;
mod contest;
mod join_table;
mod joins;
mod options;
mod pool;
mod table;
mod trees;

use join_table::JoinTable;
use options::Options;
use std::process::ExitCode;
use table::Table;

fn main() -> ExitCode {
    let options = match Options::from_args() {
        Ok(options) => options,
        Err(message) => {
            eprintln!("{message}");
            return ExitCode::from(2);
        }
    };
    println!("{}\n", options.said());
    let tables = table::all(&options);
    for table in &tables {
        table.print(options.times);
    }
    let joins = JoinTable::run(&options);
    joins.print();
    if joins.wrong() || tables.iter().any(Table::wrong) {
        println!("WRONG: answers differ.");
        return ExitCode::FAILURE;
    }
    ExitCode::SUCCESS
}
