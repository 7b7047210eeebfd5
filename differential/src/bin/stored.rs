//! Stored calls of the C interface, and what must be written of each.
//!
//! There are two folders. `crates/vectors` has the calls 0 to 8, which the program `vectors` runs. `differential/records` has the call 9,
//! evidence by records, which that program does not know: it is run through the library here.
//!
//! The files `stdin` and `stdout` of a folder have two parts. The first is worked out by scripts (`tools/vectors.py`), the
//! second here, by the second implementation. `stored FOLDER` writes the second part; `stored FOLDER --check` compares it with
//! what is stored, and holds the scripts' answers to the second implementation; in `differential/records` it holds all answers and sums to
//! the library too.
//!
//! The format is described at the top of `crates/vectors/src/main.rt`. The call 9 takes what the call 5 takes, but one list of records
//! instead of three lists. A record is ten numbers: its packet, the four quarters of its left and of its right state, its parent.

use std::env;
use std::fmt::Write;
use std::fs;
use std::path::Path;
use std::process::ExitCode;
use std::str::SplitAsciiWhitespace;

use netkat::lists::Numbers as Answer;
use netkat_reference::case::Case;
use netkat_reference::evidence::Record;
use netkat_reference::generate::{case, fixed, Extent};
use netkat_reference::names::{OwnedTable, OwnedTables};
use netkat_reference::policy::OwnedLists;
use netkat_reference::random::Random;
use netkat_reference::search::Lists;

/// Random cases that are tried; those for which there is no more room are left out.
const TRIED: u64 = 2500;
/// Longest random case that is kept.
const LONGEST: usize = 1200;
/// The program reads its input in blocks of this length; no case goes over a block's end, and the second part begins with one.
const BLOCK: usize = 65_536;
/// Longest second part: the program reads 64 blocks, and the scripts have the others.
const MOST_GIVEN: usize = 23 * BLOCK;
/// The line before the second part.
const SECOND: &str = "calls of the second implementation\n";
/// Equal entries in a row that are stored as one.
const RUN: usize = 5;
/// Each entry of a list that a call may write, before the call.
const BEFORE: u8 = 7;
/// Longest lists that are stored; the program has room for them.
const MOST_CELLS: usize = 66_000;
const MOST_SIZES: usize = 4_200;
const MOST_VALUES: usize = 32;
const MOST_NODES: usize = 600;
const MOST_TEXT: usize = 8192;
const MOST_ROWS: usize = 66_000;
const MOST_WORK: usize = 20_000;

/// An entry of a list: one number, or four where it has 64 bits; a record is the numbers of its fields.
trait Entry: Copy + PartialEq {
    fn print(self, out: &mut Numbers);
    fn parse(given: &mut Given) -> Option<Self>;
}

/// An entry of a list that a call may write.
trait Written: Copy {
    /// Before the call.
    const BEFORE: Self;

    /// The sum that goes on with this entry.
    fn added(self, sum: u64) -> u64;
}

impl Entry for u8 {
    fn print(self, out: &mut Numbers) {
        out.number(self.into());
    }

    fn parse(given: &mut Given) -> Option<u8> {
        given.number()?.try_into().ok()
    }
}

impl Entry for u16 {
    fn print(self, out: &mut Numbers) {
        out.number(self.into());
    }

    fn parse(given: &mut Given) -> Option<u16> {
        given.number()?.try_into().ok()
    }
}

impl Entry for u64 {
    fn print(self, out: &mut Numbers) {
        for quarter in [48, 32, 16, 0] {
            out.number((self >> quarter) as u32 & 0xffff);
        }
    }

    fn parse(given: &mut Given) -> Option<u64> {
        (0..4).try_fold(0, |upper, _| {
            Some(upper << 16 | u64::from(u16::parse(given)?))
        })
    }
}

impl Entry for Record {
    fn print(self, out: &mut Numbers) {
        self.packet.print(out);
        self.left.print(out);
        self.right.print(out);
        self.parent.print(out);
    }

    fn parse(given: &mut Given) -> Option<Record> {
        Some(Record {
            packet: u16::parse(given)?,
            left: u64::parse(given)?,
            right: u64::parse(given)?,
            parent: u16::parse(given)?,
        })
    }
}

fn added(sum: u64, number: u32) -> u64 {
    (sum * 65_599 + u64::from(number)) % 4_294_967_291
}

impl Written for u8 {
    const BEFORE: u8 = BEFORE;

    fn added(self, sum: u64) -> u64 {
        added(sum, self.into())
    }
}

impl Written for u16 {
    const BEFORE: u16 = BEFORE as u16;

    fn added(self, sum: u64) -> u64 {
        added(sum, self.into())
    }
}

impl Written for u32 {
    const BEFORE: u32 = BEFORE as u32;

    fn added(self, sum: u64) -> u64 {
        added(sum, self)
    }
}

impl Written for u64 {
    const BEFORE: u64 = BEFORE as u64;

    /// By its upper and its lower half.
    fn added(self, sum: u64) -> u64 {
        added(added(sum, (self >> 32) as u32), self as u32)
    }
}

/// How often each part of a list stands there, and its entries: so many equal entries in a row are a part of their own.
fn parts<T: Entry>(list: &[T]) -> Vec<(usize, &[T])> {
    let mut parts = Vec::new();
    let (mut plain, mut at) = (0, 0);
    while at < list.len() {
        let run = list[at..]
            .iter()
            .take_while(|entry| **entry == list[at])
            .count();
        if run >= RUN {
            parts.push((1, &list[plain..at]));
            parts.push((run, &list[at..=at]));
            plain = at + run;
        }
        at += run;
    }
    parts.push((1, &list[plain..]));
    parts.retain(|(_, part)| !part.is_empty());
    parts
}

/// A case as numbers; none if a list is longer than is stored.
struct Numbers(String);

impl Numbers {
    fn number(&mut self, number: u32) {
        let _ = write!(self.0, "{number} ");
    }

    /// A list that is only read, in its parts.
    fn list<T: Entry>(&mut self, list: &[T], most: usize) -> Option<()> {
        if list.len() > most {
            return None;
        }
        let parts = parts(list);
        self.number(parts.len() as u32);
        for (times, part) in parts {
            self.number(times as u32);
            self.number(part.len() as u32);
            part.iter().for_each(|entry| entry.print(self));
        }
        Some(())
    }

    fn table(&mut self, table: &OwnedTable) -> Option<()> {
        self.list(&table.cells, MOST_CELLS)?;
        self.list(&table.sizes, MOST_SIZES)
    }

    fn tables(&mut self, tables: &OwnedTables) -> Option<()> {
        self.table(&tables.left)?;
        self.table(&tables.right)
    }

    /// A list that may be written: its length.
    fn lent<T: Written>(&mut self, list: &mut [T], most: usize) -> Option<()> {
        list.fill(T::BEFORE);
        self.number(list.len() as u32);
        (list.len() <= most).then_some(())
    }

    fn nodes(&mut self, policy: &OwnedLists) -> Option<()> {
        self.list(&policy.kind, MOST_NODES)?;
        self.list(&policy.first, MOST_NODES)?;
        self.list(&policy.second, MOST_NODES)
    }

    fn all_lent(&mut self, lists: &mut Lists) -> Option<()> {
        self.lent(&mut lists.packet, MOST_ROWS)?;
        self.lent(&mut lists.left, MOST_ROWS)?;
        self.lent(&mut lists.right, MOST_ROWS)?;
        self.lent(&mut lists.parent, MOST_ROWS)?;
        self.lent(&mut lists.trace, MOST_ROWS)?;
        self.lent(&mut lists.work, MOST_WORK)
    }

    fn pair(
        &mut self,
        call: u32,
        tables: &OwnedTables,
        left: &OwnedLists,
        right: &OwnedLists,
    ) -> Option<()> {
        self.number(call);
        self.tables(tables)?;
        self.nodes(left)?;
        self.nodes(right)
    }

    /// The lists that the call may write are set to what they hold before it.
    fn case(&mut self, case: &mut Case) -> Option<()> {
        match case {
            Case::Values {
                tables,
                left,
                right,
                number,
                values,
            } => {
                self.pair(0, tables, left, right)?;
                self.number((*number).into());
                self.lent(values, MOST_VALUES)
            }
            Case::Number {
                tables,
                left,
                right,
                values,
            } => {
                self.pair(1, tables, left, right)?;
                self.list(values, MOST_VALUES)
            }
            Case::Policy { tables, policy } => {
                self.number(2);
                self.tables(tables)?;
                self.nodes(policy)
            }
            Case::Policies {
                tables,
                left,
                right,
            } => self.pair(8, tables, left, right),
            Case::Read {
                tables,
                side,
                text,
                nodes,
            } => {
                self.number(3);
                self.tables(tables)?;
                self.number((*side).into());
                self.list(text, MOST_TEXT)?;
                self.lent(&mut nodes.kind, MOST_NODES)?;
                self.lent(&mut nodes.first, MOST_NODES)?;
                self.lent(&mut nodes.second, MOST_NODES)
            }
            Case::Search {
                tables,
                left,
                right,
                lists,
            } => {
                self.pair(4, tables, left, right)?;
                self.all_lent(lists)
            }
            Case::Evidence {
                tables,
                left,
                right,
                lists,
            } => {
                self.pair(5, tables, left, right)?;
                self.list(&lists.packet, MOST_ROWS)?;
                self.list(&lists.left, MOST_ROWS)?;
                self.list(&lists.right, MOST_ROWS)?;
                self.lent(&mut lists.work, MOST_WORK)
            }
            Case::Records {
                tables,
                left,
                right,
                rows,
                work,
            } => {
                self.pair(9, tables, left, right)?;
                self.list(rows, MOST_ROWS)?;
                self.lent(work, MOST_WORK)
            }
            Case::Trace {
                tables,
                left,
                right,
                entering,
                trace,
                work,
            } => {
                self.pair(6, tables, left, right)?;
                self.number((*entering).into());
                self.list(trace, MOST_ROWS)?;
                self.lent(work, MOST_WORK)
            }
            Case::Texts {
                tables,
                left,
                right,
                lists,
            } => {
                self.number(7);
                self.tables(tables)?;
                self.list(left, MOST_TEXT)?;
                self.list(right, MOST_TEXT)?;
                self.all_lent(lists)
            }
            Case::Program { .. } => None,
        }
    }
}

/// The numbers of a stored call.
struct Given<'a>(SplitAsciiWhitespace<'a>);

impl Given<'_> {
    fn number(&mut self) -> Option<u32> {
        self.0.next()?.parse().ok()
    }

    fn list<T: Entry>(&mut self) -> Option<Vec<T>> {
        let mut list = Vec::new();
        for _ in 0..self.number()? {
            let (times, entries) = (self.number()?, self.number()?);
            let part: Option<Vec<T>> = (0..entries).map(|_| T::parse(self)).collect();
            list.extend(part?.repeat(times as usize));
        }
        Some(list)
    }

    fn lent<T: Written>(&mut self) -> Option<Vec<T>> {
        Some(vec![T::BEFORE; self.number()? as usize])
    }

    fn table(&mut self) -> Option<OwnedTable> {
        Some(OwnedTable {
            cells: self.list()?,
            sizes: self.list()?,
        })
    }

    fn tables(&mut self) -> Option<OwnedTables> {
        Some(OwnedTables {
            left: self.table()?,
            right: self.table()?,
        })
    }

    fn nodes(&mut self) -> Option<OwnedLists> {
        Some(OwnedLists {
            kind: self.list()?,
            first: self.list()?,
            second: self.list()?,
        })
    }

    fn all_lent(&mut self) -> Option<Lists> {
        Some(Lists {
            packet: self.lent()?,
            left: self.lent()?,
            right: self.lent()?,
            parent: self.lent()?,
            trace: self.lent()?,
            work: self.lent()?,
        })
    }

    fn case(&mut self) -> Option<Case> {
        let case = match self.number()? {
            0 => Case::Values {
                tables: self.tables()?,
                left: self.nodes()?,
                right: self.nodes()?,
                number: u16::parse(self)?,
                values: self.lent()?,
            },
            1 => Case::Number {
                tables: self.tables()?,
                left: self.nodes()?,
                right: self.nodes()?,
                values: self.list()?,
            },
            2 => Case::Policy {
                tables: self.tables()?,
                policy: self.nodes()?,
            },
            3 => Case::Read {
                tables: self.tables()?,
                side: u8::parse(self)?,
                text: self.list()?,
                nodes: OwnedLists {
                    kind: self.lent()?,
                    first: self.lent()?,
                    second: self.lent()?,
                },
            },
            4 => Case::Search {
                tables: self.tables()?,
                left: self.nodes()?,
                right: self.nodes()?,
                lists: self.all_lent()?,
            },
            5 => Case::Evidence {
                tables: self.tables()?,
                left: self.nodes()?,
                right: self.nodes()?,
                lists: Lists {
                    packet: self.list()?,
                    left: self.list()?,
                    right: self.list()?,
                    parent: Vec::new(),
                    trace: Vec::new(),
                    work: self.lent()?,
                },
            },
            6 => Case::Trace {
                tables: self.tables()?,
                left: self.nodes()?,
                right: self.nodes()?,
                entering: u16::parse(self)?,
                trace: self.list()?,
                work: self.lent()?,
            },
            7 => Case::Texts {
                tables: self.tables()?,
                left: self.list()?,
                right: self.list()?,
                lists: self.all_lent()?,
            },
            8 => Case::Policies {
                tables: self.tables()?,
                left: self.nodes()?,
                right: self.nodes()?,
            },
            9 => Case::Records {
                tables: self.tables()?,
                left: self.nodes()?,
                right: self.nodes()?,
                rows: self.list()?,
                work: self.lent()?,
            },
            _ => return None,
        };
        self.0.next().is_none().then_some(case)
    }
}

fn sum<T: Written>(list: &[T]) -> u64 {
    list.iter().fold(1, |sum, entry| entry.added(sum))
}

/// The sums of the lists that a call may write.
fn sums(case: &Case) -> Vec<u64> {
    match case {
        Case::Values { values, .. } => vec![sum(values)],
        Case::Read { nodes, .. } => vec![sum(&nodes.kind), sum(&nodes.first), sum(&nodes.second)],
        Case::Search { lists, .. } | Case::Texts { lists, .. } => vec![
            sum(&lists.packet),
            sum(&lists.left),
            sum(&lists.right),
            sum(&lists.parent),
            sum(&lists.trace),
            sum(&lists.work),
        ],
        Case::Evidence { lists, .. } => vec![sum(&lists.work)],
        Case::Records { work, .. } | Case::Trace { work, .. } => vec![sum(work)],
        _ => Vec::new(),
    }
}

/// What is written of a case: the eight numbers, then the sums.
fn line(mut case: Case, run: fn(&mut Case) -> Answer) -> String {
    let answer = run(&mut case);
    let numbers = answer.into_iter().chain(sums(&case));
    numbers.map(|number| format!(" {number}")).collect()
}

/// The calls, and what must be written of them.
struct Stored {
    given: String,
    expected: String,
    cases: usize,
}

impl Stored {
    fn add(&mut self, mut case: Case, longest: usize) {
        let mut numbers = Numbers(String::new());
        if numbers.case(&mut case).is_none() || numbers.0.len() > longest {
            return;
        }
        let room = BLOCK - self.given.len() % BLOCK;
        let padding = if numbers.0.len() > room { room } else { 0 };
        if self.given.len() + padding + numbers.0.len() > MOST_GIVEN {
            return;
        }
        if padding > 0 {
            self.given.push_str(&" ".repeat(padding - 1));
            self.given.push('\n');
        }
        numbers.0.pop();
        self.given.push_str(&numbers.0);
        self.given.push('\n');
        self.expected.push_str(&line(case, Case::run));
        self.expected.push('\n');
        self.cases += 1;
    }
}

/// Is it the call 9?
fn of_records(case: &Case) -> bool {
    matches!(case, Case::Records { .. })
}

/// The second part: the calls 9, or all others.
fn worked_out(records: bool) -> Stored {
    let mut stored = Stored {
        given: SECOND.to_string(),
        expected: String::new(),
        cases: 0,
    };
    let random = (0..TRIED).map(|seed| (case(&mut Random::new(seed), Extent::Small), LONGEST));
    let fixed = fixed::cases().into_iter().map(|case| (case, BLOCK));
    for (case, longest) in fixed.chain(random) {
        if of_records(&case) == records {
            stored.add(case, longest);
        }
    }
    stored
}

/// The lines that are calls; the others are blank or begin the second part.
fn calls(given: &str) -> impl Iterator<Item = &str> {
    given
        .lines()
        .filter(|line| line.starts_with(|first: char| first.is_ascii_digit()))
}

/// Holds the answers of calls to what a run of them writes; says how many.
fn confirmed(
    given: &str,
    answers: &str,
    records: bool,
    run: fn(&mut Case) -> Answer,
) -> Result<usize, String> {
    if calls(given).count() != answers.lines().count() {
        return Err("stdin does not fit stdout".into());
    }
    for (call, answer) in calls(given).zip(answers.lines()) {
        let case = Given(call.split_ascii_whitespace()).case();
        let case = case.filter(|case| of_records(case) == records);
        if case.map(|case| line(case, run)).as_deref() != Some(answer) {
            return Err(format!("not confirmed: {call}"));
        }
    }
    Ok(answers.lines().count())
}

fn by_library(case: &mut Case) -> Answer {
    differential::run(case).expect("a call of the C interface")
}

fn run(folder: &Path, check: bool) -> Result<String, String> {
    let [stdin, stdout] = ["stdin", "stdout"].map(|name| folder.join(name));
    let read =
        |path: &Path| fs::read_to_string(path).map_err(|e| format!("{}: {e}", path.display()));
    let (given, answers) = (read(&stdin)?, read(&stdout)?);
    let records = folder.ends_with("records");
    let first = given
        .find(SECOND)
        .filter(|first| first % BLOCK == 0)
        .ok_or("stdin has no second part that begins with a block")?;
    let lines: usize = answers
        .split_inclusive('\n')
        .take(calls(&given[..first]).count())
        .map(str::len)
        .sum();
    let stored = worked_out(records);
    if !check {
        let write = |path: &Path, text: String| {
            fs::write(path, text).map_err(|e| format!("{}: {e}", path.display()))
        };
        write(&stdin, given[..first].to_string() + &stored.given)?;
        write(&stdout, answers[..lines].to_string() + &stored.expected)?;
    } else if given[first..] != stored.given || answers[lines..] != stored.expected {
        return Err("the second part is not what the second implementation works out".into());
    }
    let scripts = confirmed(&given[..first], &answers[..lines], records, Case::run)?;
    let mut said = format!(
        "{}: {} cases, and {scripts} of the scripts confirmed",
        folder.display(),
        stored.cases
    );
    if records && check {
        let all = confirmed(&given, &answers, records, by_library)
            .map_err(|said| format!("by the library {said}"))?;
        let _ = write!(said, "; the library answers all {all} so");
    }
    Ok(said)
}

fn main() -> ExitCode {
    let given: Vec<String> = env::args().skip(1).collect();
    let done = match &given[..] {
        [folder] => run(Path::new(folder), false),
        [folder, check] if check == "--check" => run(Path::new(folder), true),
        _ => Err("usage: stored FOLDER [--check]".into()),
    };
    match done {
        Ok(said) => {
            println!("{said}");
            ExitCode::SUCCESS
        }
        Err(said) => {
            eprintln!("{said}");
            ExitCode::FAILURE
        }
    }
}
