//! Times the verified library, through the C interface, against the second implementation, called directly, in one run;
//! that both give the same answers and leave the same in every list is tested first.
//!
//! `benchmarks` prints a table of the fixed benchmarks and what a sweep of random pairs comes to. `--write FOLDER --date DATE`
//! also writes BENCHMARKS.md and benchmarks.svg there. `--quick` runs each benchmark once, hostile tables shorter, and times
//! nothing.

mod before;
mod clock;
mod measure;
mod names;
mod plot;
mod report;
mod tables;
mod traces;
mod unmentioned;
mod workload;

use std::env;
use std::fs;
use std::path::PathBuf;
use std::process::ExitCode;
use std::thread;

use measure::{Measured, Pace};
use report::Circumstances;
use workload::Extent;

#[derive(Default)]
struct Options {
    quick: bool,
    folder: Option<PathBuf>,
    date: Option<String>,
}

fn options() -> Option<Options> {
    let mut options = Options::default();
    let mut given = env::args().skip(1);
    while let Some(name) = given.next() {
        match name.as_str() {
            "--quick" => options.quick = true,
            "--write" => options.folder = Some(given.next()?.into()),
            "--date" => options.date = Some(given.next()?),
            _ => return None,
        }
    }
    (options.folder.is_some() == options.date.is_some()).then_some(options)
}

/// The fixed benchmarks, and the random pairs.
#[derive(Default)]
struct Run {
    fixed: Vec<Measured>,
    sweep: Vec<Measured>,
}

/// Compares the answers of all benchmarks, and times them unless quick.
fn run(quick: bool) -> Run {
    let mut run = Run::default();
    if quick {
        for benchmark in workload::benchmarks(Extent::Quick) {
            let compared = measure::compared(benchmark);
            println!("{}: {}", compared.benchmark.title(), compared.answer);
        }
        let swept: Vec<String> = workload::sweep()
            .map(|pair| measure::compared(pair).answer)
            .collect();
        println!(
            "random sweep: {}",
            measure::tally(swept.iter().map(String::as_str))
        );
        return run;
    }
    let benchmarks = workload::benchmarks(Extent::Full);
    before::test(&benchmarks);
    for benchmark in benchmarks {
        let timed = measure::compared(benchmark).timed(&Pace::FIXED);
        eprintln!("{}", report::progress(&timed));
        run.fixed.push(timed);
    }
    run.sweep = workload::sweep()
        .map(|pair| measure::compared(pair).timed(&Pace::SWEEP).slim())
        .collect();
    run
}

/// Load average over the last minute, where the system says it.
fn load() -> String {
    let averages = fs::read_to_string("/proc/loadavg").unwrap_or_default();
    averages
        .split_whitespace()
        .next()
        .unwrap_or("unknown")
        .to_string()
}

fn main() -> ExitCode {
    let options = match options() {
        Some(options) => options,
        None => {
            eprintln!("usage: benchmarks [--quick] [--write FOLDER --date DATE]");
            return ExitCode::FAILURE;
        }
    };
    let load = load();
    // no more stack than the C interface asks for
    let worker = thread::Builder::new()
        .stack_size(netkat::STACK)
        .spawn(move || run(options.quick));
    let Run { fixed, sweep } = match worker.map(thread::JoinHandle::join) {
        Ok(Ok(run)) => run,
        _ => {
            eprintln!("benchmarks: broken off");
            return ExitCode::FAILURE;
        }
    };
    if options.quick {
        return ExitCode::SUCCESS;
    }
    print!("{}\n{}", report::table(&fixed), report::sweep(&sweep));
    let (folder, date) = match (options.folder, options.date) {
        (Some(folder), Some(date)) => (folder, date),
        _ => return ExitCode::SUCCESS,
    };
    let cores = thread::available_parallelism().map_or(1, usize::from);
    let files = [
        (
            "BENCHMARKS.md",
            report::document(&fixed, &sweep, &Circumstances { date, load, cores }),
        ),
        ("benchmarks.svg", plot::svg(&fixed)),
    ];
    for (name, contents) in files {
        if let Err(error) = fs::write(folder.join(name), contents) {
            eprintln!("benchmarks: {name} not written: {error}");
            return ExitCode::FAILURE;
        }
    }
    ExitCode::SUCCESS
}
