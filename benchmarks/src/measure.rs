//! Comparing and timing a benchmark.

use std::time::{Duration, Instant};

use netkat_reference::answer::Numbers;
use netkat_reference::case::Case;

use crate::clock;
use crate::report::thousands;
use crate::workload::Benchmark;

/// How much time is given to a benchmark.
pub struct Pace {
    /// Rounds, unless they take too long.
    pub rounds: usize,
    /// What one side of a round should take at least; short calls are repeated.
    span: Duration,
}

impl Pace {
    /// Of the fixed benchmarks.
    pub const FIXED: Pace = Pace {
        rounds: 7,
        span: Duration::from_millis(20),
    };
    /// Of each random pair: there are many.
    pub const SWEEP: Pace = Pace {
        rounds: 3,
        span: Duration::from_millis(2),
    };
}

/// Rounds of one that takes long.
const LEAST_ROUNDS: usize = 2;
/// How long the rounds of one benchmark may take before no more than the least are run.
const PATIENCE: Duration = Duration::from_secs(12);

/// One of the two that are timed.
type Runner = fn(&mut Case) -> Numbers;

fn library(case: &mut Case) -> Numbers {
    differential::run(case).expect("a call of the C interface")
}

fn second(case: &mut Case) -> Numbers {
    case.run()
}

/// A benchmark on which both agree.
pub struct Compared {
    pub benchmark: Benchmark,
    /// What the calls answer, in words.
    pub answer: String,
    /// Rows that stand in the lists after the call, or in the table.
    pub rows: Option<usize>,
    /// Rows whose step was worked out.
    pub handled: Option<usize>,
    /// Seconds that the calls took when they were compared: library, second implementation.
    once: (f64, f64),
}

/// A benchmark with its times.
pub struct Measured {
    pub compared: Compared,
    /// Best time of all calls, in seconds.
    pub library: f64,
    /// The same of the second implementation.
    pub second: f64,
    /// Lowest and highest ratio of a round.
    pub spread: (f64, f64),
}

impl Measured {
    /// Library to second implementation.
    pub fn ratio(&self) -> f64 {
        self.library / self.second
    }

    /// Without its calls, whose lists are long.
    pub fn slim(mut self) -> Measured {
        self.compared.benchmark.cases.clear();
        self
    }

    /// Microseconds for each row handled: library, second implementation.
    pub fn per_row(&self) -> Option<(f64, f64)> {
        let rows = self.compared.handled? as f64;
        Some((self.library * 1e6 / rows, self.second * 1e6 / rows))
    }
}

/// Runs every call once on each side; answers and lists must be the same.
pub fn compared(benchmark: Benchmark) -> Compared {
    let mut answers = Vec::new();
    let mut rows = None;
    let mut handled = None;
    let mut once = (0.0, 0.0);
    for before in &benchmark.cases {
        let (mut here, mut there) = (before.clone(), before.clone());
        let (answer, mine) = clocked(&mut here, library);
        let (expected, other) = clocked(&mut there, second);
        once = (once.0 + mine, once.1 + other);
        assert_eq!(answer, expected, "{}", benchmark.title());
        assert!(here == there, "{}: the lists differ", benchmark.title());
        (rows, handled) = rows_of(&here, answer);
        answers.push(in_words(before, answer));
    }
    let answer = match &answers[..] {
        [answer] => answer.clone(),
        _ => {
            (rows, handled) = (None, None);
            tally(answers.iter().map(String::as_str))
        }
    };
    Compared {
        benchmark,
        answer,
        rows,
        handled,
        once,
    }
}

/// How many searches end how.
pub fn tally<'a>(answers: impl Iterator<Item = &'a str>) -> String {
    let (mut equal, mut different, mut refused) = (0, 0, 0);
    for answer in answers {
        match answer {
            "equal" => equal += 1,
            _ if answer.starts_with("refused") => refused += 1,
            _ => different += 1,
        }
    }
    format!("{equal} equal, {different} different, {refused} refused")
}

/// One call with the seconds that it took.
fn clocked(case: &mut Case, runner: Runner) -> (Numbers, f64) {
    let start = clock::seconds();
    let answer = runner(case);
    (answer, clock::seconds() - start)
}

/// Rows listed and rows handled. Where the rows ran out, those to the last listed row's parent count as handled: what was handled
/// after it listed nothing more. Where no more than the starting rows fit, it is not known how many were handled.
fn rows_of(case: &Case, answer: Numbers) -> (Option<usize>, Option<usize>) {
    match (case, answer) {
        (Case::Search { .. }, [0, rows, ..]) => (Some(rows as usize), Some(rows as usize)),
        (Case::Search { lists, .. }, [9, 11, _, rows, ..]) => {
            let rows = rows as usize;
            let starting = case.packets().unwrap_or(0);
            let handled = (starting < rows).then(|| usize::from(lists.parent[rows - 1]) + 1);
            (Some(rows), handled)
        }
        (Case::Evidence { lists, .. }, [0 | 5, ..]) => table_rows(lists.packet.len(), answer),
        (Case::Records { rows, .. }, [0 | 5, ..]) => table_rows(rows.len(), answer),
        _ => (None, None),
    }
}

/// Of a table that is rejected it is not known how many rows were handled.
fn table_rows(rows: usize, answer: Numbers) -> (Option<usize>, Option<usize>) {
    (Some(rows), (answer[0] == 0).then_some(rows))
}

fn in_words(case: &Case, answer: Numbers) -> String {
    match (case, answer) {
        (_, [9, 11, _, _, agreed, ..]) => {
            format!("refused by 11, d = {}", thousands(agreed as usize))
        }
        (_, [9, number, ..]) => format!("refused by {number}"),
        (Case::Trace { .. }, [holders, ..]) => {
            format!(
                "of {}",
                ["left", "right", "both", "neither"][holders as usize - 1]
            )
        }
        (_, [5, 2, ..]) => "rejected by (b)".to_string(),
        (_, [5, rule, row, ..]) => {
            let rule = ["a", "b", "c", "d"][rule as usize - 1];
            format!("rejected by ({rule}), row {}", thousands(row as usize))
        }
        (Case::Read { .. }, [0, nodes, ..]) => format!("{nodes} nodes"),
        (Case::Values { .. }, [0, ..]) => "values".to_string(),
        (Case::Number { .. }, [0, number, ..]) => format!("packet {}", thousands(number as usize)),
        (Case::Evidence { .. } | Case::Records { .. }, _) => "accepted".to_string(),
        (_, [0, ..]) => "equal".to_string(),
        (_, [_, length, ..]) => format!("different, trace of {length}"),
    }
}

/// One call. Not inlined, so that a call whose answer nobody reads is still made.
#[inline(never)]
fn call(runner: Runner, case: &mut Case) -> Numbers {
    runner(case)
}

/// Seconds that all calls take, each run so often.
fn seconds(cases: &mut [Case], runner: Runner, times: u32) -> f64 {
    let start = clock::seconds();
    for _ in 0..times {
        for case in cases.iter_mut() {
            call(runner, case);
        }
    }
    (clock::seconds() - start) / f64::from(times)
}

/// How often to run calls that take so long.
fn times(span: Duration, once: f64) -> u32 {
    (span.as_secs_f64() / once).ceil().clamp(1.0, 10_000.0) as u32
}

impl Compared {
    /// Times both sides by turns.
    pub fn timed(self, pace: &Pace) -> Measured {
        let mut here = self.benchmark.cases.clone();
        let mut there = here.clone();
        let begun = Instant::now();
        let (library_times, second_times) =
            (times(pace.span, self.once.0), times(pace.span, self.once.1));
        let mut best = (f64::INFINITY, f64::INFINITY);
        let mut spread = (f64::INFINITY, 0.0f64);
        for round in 0..pace.rounds {
            if round >= LEAST_ROUNDS && begun.elapsed() > PATIENCE {
                break;
            }
            // neither side always runs first
            let (mine, other);
            if round % 2 == 0 {
                mine = seconds(&mut here, library, library_times);
                other = seconds(&mut there, second, second_times);
            } else {
                other = seconds(&mut there, second, second_times);
                mine = seconds(&mut here, library, library_times);
            }
            best = (best.0.min(mine), best.1.min(other));
            spread = (spread.0.min(mine / other), spread.1.max(mine / other));
        }
        Measured {
            compared: self,
            library: best.0,
            second: best.1,
            spread,
        }
    }
}
