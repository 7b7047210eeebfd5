//! The program: four lines in, three-field lines out.

use crate::answer::{Refusal, Side, Verdict};
use crate::names::{OwnedTable, OwnedTables};
use crate::search::{search_texts, Lists, LEAST_WORK};
use crate::text::number_word;

/// Most bytes of input.
pub const MOST_INPUT: usize = 32_768;
/// Rows lent to the search, and length of the trace list.
pub const ROWS: usize = 4_096;

/// The lines of an input, without their ends. A line end with no byte after it starts no further line.
fn lines(input: &[u8]) -> Vec<&[u8]> {
    let mut lines: Vec<&[u8]> = input.split(|&byte| byte == b'\n').collect();
    let unended = lines.pop().filter(|rest| !rest.is_empty());
    for line in &mut lines {
        *line = line.strip_suffix(b"\r").unwrap_or(line);
    }
    lines.extend(unended);
    lines
}

/// An input taken apart: tables, left text, right text.
type Request<'a> = (OwnedTables, &'a [u8], &'a [u8]);

/// 18 if the input is not of that form.
fn parse(input: &[u8]) -> Result<Request<'_>, Refusal> {
    let malformed = Refusal::new(18, 0);
    if input.len() > MOST_INPUT {
        return Err(malformed);
    }
    let (names, left, right) = match lines(input)[..] {
        [one, other, left, right] => ((table(one), table(other)), left, right),
        _ => return Err(malformed),
    };
    match names {
        (Some(one), Some(other)) => {
            let tables = OwnedTables {
                left: one,
                right: other,
            };
            Ok((tables, left, right))
        }
        _ => Err(malformed),
    }
}

/// The table of a line; an empty line is an empty table.
fn table(line: &[u8]) -> Option<OwnedTable> {
    if line.is_empty() {
        return Some(OwnedTable::default());
    }
    line.split(|&byte| byte == b',').map(entry).collect()
}

/// A name, which may be any bytes here, and its size, with just one `=` between them.
fn entry(entry: &[u8]) -> Option<(&[u8], u16)> {
    let mut parts = entry.split(|&byte| byte == b'=');
    match (parts.next(), parts.next(), parts.next()) {
        (Some(name), Some(size), None) => Some((name, number_word(size)?)),
        _ => None,
    }
}

/// The output as it grows.
#[derive(Default)]
struct Output(String);

impl Output {
    fn line(&mut self, first: impl ToString, second: u64, third: u64) {
        let line = format!("{},{second},{third}\r\n", first.to_string());
        self.0.push_str(&line);
    }

    fn rows(&mut self, lists: &Lists, rows: usize) {
        for row in 0..rows {
            self.line(lists.packet[row], lists.left[row], lists.right[row]);
        }
    }

    fn trace(&mut self, trace: &[u16]) {
        for (at, &packet) in trace.iter().enumerate() {
            let last = at + 1 == trace.len();
            self.line(at + 1, packet.into(), last.into());
        }
    }
}

/// The whole output for an input.
pub fn run(input: &[u8]) -> Vec<u8> {
    let mut lists = Lists::new(ROWS, ROWS, LEAST_WORK);
    let answer = parse(input)
        .and_then(|(tables, left, right)| search_texts(tables.lend(), left, right, lists.lend()));
    let mut output = Output::default();
    match answer {
        Ok(Verdict::Equal { rows }) => {
            output.line("equal", rows as u64, 0);
            output.rows(&lists, rows);
        }
        Ok(Verdict::Different {
            side,
            length,
            entering,
        }) => {
            let verdict = match side {
                Side::Left => "left",
                Side::Right => "right",
            };
            output.line(verdict, length as u64, entering.into());
            output.trace(&lists.trace[..length]);
        }
        Err(refusal) => output.line("refused", refusal.number.into(), refusal.place),
    }
    output.0.into_bytes()
}
