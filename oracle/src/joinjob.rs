//! The job program itself: started with a job on its standard input.

use std::env;
use std::io::{ErrorKind, Write};
use std::path::PathBuf;
use std::process::{Child, Command, Output, Stdio};
use std::thread::sleep;
use std::time::Duration;

pub fn path() -> PathBuf {
    let default = concat!(env!("CARGO_MANIFEST_DIR"), "/../crates/joinjob/out/joinjob");
    env::var_os("OULAVISOK_JOINJOB").map_or_else(|| default.into(), PathBuf::from)
}

/// Whether there is one to run; says so if not.
pub fn is_there() -> bool {
    let (path, there) = (path(), path().is_file());
    if !there {
        let path = path.display();
        eprintln!("no {path}: run `rt run` in crates/joinjob, or set OULAVISOK_JOINJOB");
    }
    there
}

/// What it did with a job, which comes in one part, or in two some time apart.
pub fn run(job: &[u8], parts: usize) -> Output {
    fed(start(&mut Command::new(path())), job, parts)
}

/// The same where its ends are `redirected`, as a shell does it.
pub fn run_with(redirected: &str, job: &[u8]) -> Output {
    let script = format!("exec \"$0\" {redirected}");
    let child = start(Command::new("sh").arg("-c").arg(script).arg(path()));
    fed(child, job, 1)
}

fn fed(mut child: Child, job: &[u8], parts: usize) -> Output {
    let mut input = child.stdin.take().expect("a pipe");
    let (first, second) = job.split_at(job.len() / parts);
    let written = input.write_all(first).and_then(|()| {
        if parts > 1 {
            sleep(Duration::from_millis(3));
        }
        input.write_all(second)
    });
    match written {
        // It need not read what is beyond its limit.
        Err(error) if error.kind() != ErrorKind::BrokenPipe => panic!("{error}"),
        _ => drop(input),
    }
    child.wait_with_output().expect("its output")
}

fn start(command: &mut Command) -> Child {
    let piped = command.stdin(Stdio::piped()).stdout(Stdio::piped());
    let started = piped.stderr(Stdio::piped()).spawn();
    started.unwrap_or_else(|error| panic!("{}: {error}", path().display()))
}
