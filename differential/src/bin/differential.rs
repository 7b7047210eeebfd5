//! Holds the verified library against the second implementation: the same calls on the same lists, then the eight numbers
//! and everything that the lists hold are compared. A table is checked as three lists and as records, which must agree too; packets
//! that a search shows are turned into values and back. The same for the built program: the same input, then the output bytes.
//!
//! `differential [--seed SEED] [--seconds SECONDS] [--cases COUNT]` runs the fixed cases, every byte in small texts, the pairs that
//! cost much, then random cases until their time or count is up. Case i is made from the seed SEED + i, so that `--seed` with the number printed and
//! `--cases 1` runs a case again. The first line has the seed; it fails at the end if any two answers differ. A run of the
//! program is a process: random inputs are skipped while these have had more than a quarter of the time.

use std::collections::BTreeMap;
use std::env;
use std::process::ExitCode;
use std::thread;
use std::time::{Duration, Instant, SystemTime, UNIX_EPOCH};

use differential::program::Program;
use netkat::lists::Numbers;
use netkat_reference::case::Case;
use netkat_reference::generate::heavy::{self, Pair};
use netkat_reference::generate::lent::fill;
use netkat_reference::generate::{bytes, case, fixed, Extent};
use netkat_reference::program;
use netkat_reference::random::Random;
use netkat_reference::search::{Lists, LEAST_WORK, MOST_ROWS};

/// Disagreements that are printed.
const MOST_SHOWN: usize = 20;
/// Bytes of an input that are printed: a lent list is long, and its seed makes a case again.
const MOST_PRINTED: usize = 2_000;

struct Options {
    seed: u64,
    time: Duration,
    cases: u64,
}

fn options() -> Option<Options> {
    let now = SystemTime::now().duration_since(UNIX_EPOCH).ok()?;
    let mut options = Options {
        seed: now.as_nanos() as u64 >> 10,
        time: Duration::from_secs(60),
        cases: u64::MAX,
    };
    let mut given = env::args().skip(1);
    while let Some(name) = given.next() {
        let number: u64 = given.next()?.parse().ok()?;
        match name.as_str() {
            "--seed" => options.seed = number,
            "--seconds" => options.time = Duration::from_secs(number),
            "--cases" => options.cases = number,
            _ => return None,
        }
    }
    Some(options)
}

/// How often each call gave each answer, and what was not the same.
struct Tally {
    program: Program,
    answers: BTreeMap<(&'static str, String), u64>,
    different: usize,
    /// Inputs of the program that were not run.
    skipped: u64,
}

/// An answer's kind: its first number, with a refusal's or a rejection's second; of 11 also whether it says something of traces.
fn kind(answer: Numbers) -> String {
    match answer {
        [9, 11, _, _, length, ..] if length > 0 => "refused by 11, d > 0".to_string(),
        [9, number, ..] => format!("refused by {number}"),
        [5, rule, ..] => format!("rejected by rule {rule}"),
        [first, ..] => first.to_string(),
    }
}

/// The same of an output: its first word, with a refusal's number.
fn output_kind(output: &[u8]) -> String {
    let output = String::from_utf8_lossy(output);
    let mut fields = output.split(',');
    match (fields.next(), fields.next()) {
        (Some("refused"), Some(number)) => format!("refused by {number}"),
        (verdict, _) => verdict.unwrap_or_default().to_string(),
    }
}

/// An output for people: its first line and its length.
fn shown(output: &[u8]) -> String {
    let first = output.split(|&byte| byte == b'\n').next();
    let first = String::from_utf8_lossy(first.unwrap_or_default());
    format!("{first:?}, {} bytes", output.len())
}

impl Tally {
    fn compare(&mut self, origin: &str, before: &Case) {
        match before {
            Case::Program { input, .. } => self.compare_program(origin, before, input),
            _ => self.compare_call(origin, before),
        }
        // the policies of a search are tested by themselves, too
        if let Some(tested) = before.tested() {
            self.compare_call(origin, &tested);
        }
        if let Some(other) = before.lent_otherwise() {
            self.compare_call(origin, &other);
            self.compare_lending(origin, before, &other);
        }
    }

    /// One table lent in two ways: the library's answer and its work list are the same.
    fn compare_lending(&mut self, origin: &str, one: &Case, other: &Case) {
        let [one_way, other_way] = [one, other].map(|case| {
            let mut case = case.clone();
            let answer = differential::run(&mut case);
            (answer, case.checksums())
        });
        if one_way != other_way {
            let said = format!("library {one_way:x?}");
            let otherwise = format!("{other_way:x?} as {}", other.name());
            self.differ(origin, one, &said, &otherwise);
        }
    }

    fn compare_call(&mut self, origin: &str, before: &Case) {
        let mut here = before.clone();
        let answer = differential::run(&mut here).expect("a call of the C interface");
        let mut there = before.clone();
        let expected = there.run();
        self.count(before, kind(expected));
        if answer != expected || here != there {
            self.differ(
                origin,
                before,
                &format!("library {answer:?}, {:x?}", here.checksums()),
                &format!("{expected:?}, {:x?}", there.checksums()),
            );
        }
        for shown in there.shown(expected) {
            self.compare_call(origin, &shown);
        }
        if let ([0, ..], Some(back)) = (expected, there.turned_back()) {
            self.compare_call(origin, &back);
        }
    }

    fn compare_program(&mut self, origin: &str, before: &Case, input: &[u8]) {
        let expected = program::run(input);
        self.count(before, output_kind(&expected));
        let said = match self.program.run(input) {
            Ok(output) if output == expected => return,
            Ok(output) => shown(&output),
            Err(error) => error.to_string(),
        };
        self.differ(
            origin,
            before,
            &format!("program {said}"),
            &shown(&expected),
        );
    }

    fn count(&mut self, case: &Case, answer: String) {
        *self.answers.entry((case.name(), answer)).or_default() += 1;
    }

    fn differ(&mut self, origin: &str, before: &Case, here: &str, there: &str) {
        self.different += 1;
        if self.different > MOST_SHOWN {
            return;
        }
        println!("DIFFERENT at {origin}: {}", before.name());
        println!("  {here}");
        println!("  second  {there}");
        let mut inputs = before.inputs();
        inputs
            .iter_mut()
            .for_each(|input| input.truncate(MOST_PRINTED));
        println!("  {}|{}", before.name(), inputs.join("|"));
    }

    fn total(&self) -> u64 {
        self.answers.values().sum()
    }
}

/// The pairs that cost much, with lists of full length, and the same as inputs of the program; of those with many dups the
/// tables, too.
fn heavy_cases() -> Vec<Case> {
    let mut cases = Vec::new();
    for pair in heavy::pairs() {
        cases.push(Case::Program {
            input: pair.input().into_bytes(),
            output: Vec::new(),
        });
        cases.push(searched(&pair));
    }
    for pair in heavy::wide() {
        cases.extend(table(searched(&pair)));
    }
    for (at, case) in cases.iter_mut().enumerate() {
        fill(case, at);
    }
    cases
}

/// The search of a pair.
fn searched(pair: &Pair) -> Case {
    Case::Search {
        tables: pair.tables(),
        left: fixed::nodes_of(&pair.left),
        right: fixed::nodes_of(&pair.right),
        lists: Lists::new(MOST_ROWS, MOST_ROWS, LEAST_WORK),
    }
}

/// The check of the table that a search leaves, if its policies are equal.
fn table(mut search: Case) -> Option<Case> {
    let rows = match search.run() {
        [0, rows, ..] => rows as usize,
        _ => return None,
    };
    match search {
        Case::Search {
            tables,
            left,
            right,
            mut lists,
        } => {
            lists.packet.truncate(rows);
            lists.left.truncate(rows);
            lists.right.truncate(rows);
            (lists.parent, lists.trace) = (Vec::new(), Vec::new());
            Some(Case::Evidence {
                tables,
                left,
                right,
                lists,
            })
        }
        _ => None,
    }
}

fn compare_all(options: &Options, program: Program) -> Tally {
    let mut tally = Tally {
        program,
        answers: BTreeMap::new(),
        different: 0,
        skipped: 0,
    };
    for (at, case) in fixed::cases().iter().enumerate() {
        tally.compare(&format!("fixed case {at}"), case);
    }
    for (at, case) in bytes::cases().iter().enumerate() {
        tally.compare(&format!("text with a byte {at}"), case);
    }
    for (at, case) in heavy_cases().iter().enumerate() {
        tally.compare(&format!("heavy pair {at}"), case);
    }
    let begun = Instant::now();
    let mut processes = Duration::ZERO;
    let mut at = 0;
    while at < options.cases && begun.elapsed() < options.time {
        let seed = options.seed.wrapping_add(at);
        let extent = match seed % 4 {
            0 => Extent::Large,
            _ => Extent::Small,
        };
        let case = case(&mut Random::new(seed), extent);
        let origin = format!("seed {seed}");
        at += 1;
        if matches!(case, Case::Program { .. }) {
            let before = begun.elapsed();
            if processes <= before / 4 {
                tally.compare(&origin, &case);
                processes += begun.elapsed() - before;
            } else {
                tally.skipped += 1;
            }
        } else {
            tally.compare(&origin, &case);
        }
    }
    tally
}

fn main() -> ExitCode {
    let options = match options() {
        Some(options) => options,
        None => {
            eprintln!("usage: differential [--seed SEED] [--seconds SECONDS] [--cases COUNT]");
            return ExitCode::FAILURE;
        }
    };
    let program = match Program::find() {
        Ok(program) => program,
        Err(error) => {
            eprintln!("differential: no program to run: {error}");
            return ExitCode::FAILURE;
        }
    };
    println!("seed {}", options.seed);
    // no more stack than the C interface asks for
    let worker = thread::Builder::new()
        .stack_size(netkat::STACK)
        .spawn(move || compare_all(&options, program));
    let tally = match worker.map(thread::JoinHandle::join) {
        Ok(Ok(tally)) => tally,
        _ => {
            eprintln!("differential: the comparison broke off");
            return ExitCode::FAILURE;
        }
    };
    for ((name, answer), count) in &tally.answers {
        println!("{name:8} {answer:20} {count}");
    }
    println!("program  skipped              {}", tally.skipped);
    println!("{} compared, {} different", tally.total(), tally.different);
    if tally.different == 0 && tally.total() > 0 {
        ExitCode::SUCCESS
    } else {
        ExitCode::FAILURE
    }
}
