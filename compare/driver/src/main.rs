//! Runs ron's `Serializer` on call scripts, and makes scripts.

mod compare;
mod fixed;
mod random;
mod run;
mod script;
mod table;
mod words;

use std::{
    io::{self, BufRead, BufWriter, Write},
    process::ExitCode,
    thread,
};

const USAGE: &str = "usage:
  driver scripts < script > results   run the lines of a script
  driver table                        print the character table
  driver fixed                        print the fixed list of one-value lines
  driver random SEED COUNT KIND       print random lines; KIND is one or all
  driver compare SCRIPT RON OTHER     compare two files of results of a script";

fn main() -> ExitCode {
    let worker = thread::Builder::new().stack_size(run::STACK).spawn(work);
    match worker.map(thread::JoinHandle::join) {
        Ok(Ok(Ok(code))) => code,
        // The reader of the output went away: no fault.
        Ok(Ok(Err(error))) if error.kind() == io::ErrorKind::BrokenPipe => ExitCode::SUCCESS,
        Ok(Ok(Err(error))) | Err(error) => {
            eprintln!("driver: {error}");
            ExitCode::FAILURE
        }
        Ok(Err(_)) => ExitCode::FAILURE,
    }
}

fn work() -> io::Result<ExitCode> {
    let args: Vec<String> = std::env::args().skip(1).collect();
    let args: Vec<&str> = args.iter().map(String::as_str).collect();
    let mut out = BufWriter::new(io::stdout().lock());
    match args.as_slice() {
        ["scripts"] => scripts(&mut out)?,
        ["table"] => table::print(&mut out)?,
        ["fixed"] => fixed::print(&mut out)?,
        ["random", seed, count, kind @ ("one" | "all")] => match (seed.parse(), count.parse()) {
            (Ok(seed), Ok(count)) => random::print(&mut out, seed, count, *kind == "all")?,
            _ => return usage(),
        },
        ["compare", script, ours, theirs] => {
            if !compare::print(&mut out, [*script, *ours, *theirs])? {
                out.flush()?;
                return Ok(ExitCode::FAILURE);
            }
        }
        _ => return usage(),
    }
    out.flush()?;
    Ok(ExitCode::SUCCESS)
}

fn usage() -> io::Result<ExitCode> {
    eprintln!("{USAGE}");
    Ok(ExitCode::from(2))
}

fn scripts(out: &mut impl Write) -> io::Result<()> {
    let names = run::Names::default();
    for line in io::stdin().lock().split(b'\n') {
        if let Some(result) = run::answer(&line?, &names) {
            writeln!(out, "{result}")?;
        }
    }
    Ok(())
}
