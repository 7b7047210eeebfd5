//! The table and the document around it.

use std::fmt::Write;

use crate::before;
use crate::measure::{tally, Measured, Pace};
use crate::workload::Group;

/// A positive number to three significant digits, but no fewer than all before the point.
pub fn digits(number: f64) -> String {
    let whole = number.log10().floor();
    let places = (2.0 - whole).clamp(0.0, 6.0) as usize;
    format!("{number:.places$}")
}

/// A number with a comma before each three digits.
pub fn thousands(number: usize) -> String {
    let digits = number.to_string().into_bytes();
    let groups: Vec<_> = digits
        .rchunks(3)
        .rev()
        .map(String::from_utf8_lossy)
        .collect();
    groups.join(",")
}

/// One line while it runs.
pub fn progress(measured: &Measured) -> String {
    format!(
        "{}: {} ms, {} ms, ratio {}",
        measured.compared.benchmark.title(),
        digits(measured.library * 1e3),
        digits(measured.second * 1e3),
        digits(measured.ratio())
    )
}

const HEADS: [&str; 10] = [
    "Group",
    "Benchmark",
    "Answer",
    "Rows",
    "Library, ms",
    "Second, ms",
    "Ratio before",
    "Ratio",
    "of the rounds",
    "µs a row, library / second",
];

fn cells(measured: &Measured) -> [String; 10] {
    let compared = &measured.compared;
    let per_row = measured
        .per_row()
        .map(|(library, second)| format!("{} / {}", digits(library), digits(second)));
    [
        compared.benchmark.group.name().to_string(),
        compared.benchmark.name.clone(),
        compared.answer.clone(),
        compared.rows.map(thousands).unwrap_or_default(),
        digits(measured.library * 1e3),
        digits(measured.second * 1e3),
        before::ratio(&compared.benchmark)
            .map(digits)
            .unwrap_or_default(),
        digits(measured.ratio()),
        format!(
            "{}–{}",
            digits(measured.spread.0),
            digits(measured.spread.1)
        ),
        per_row.unwrap_or_default(),
    ]
}

/// The Markdown table, padded so that it reads in a terminal too.
pub fn table(measured: &[Measured]) -> String {
    let rows: Vec<[String; 10]> = measured.iter().map(cells).collect();
    let width = |column: usize| {
        let cells = rows.iter().map(|row| row[column].chars().count());
        cells
            .chain([HEADS[column].chars().count()])
            .max()
            .unwrap_or(0)
    };
    let widths: Vec<usize> = (0..HEADS.len()).map(width).collect();
    let mut table = String::new();
    let mut line = |cells: &[String]| {
        for (column, (cell, width)) in cells.iter().zip(&widths).enumerate() {
            // words to the left, numbers to the right
            let _ = match column {
                0..=2 => write!(table, "| {cell:<width$} "),
                _ => write!(table, "| {cell:>width$} "),
            };
        }
        table.push_str("|\n");
    };
    line(&HEADS.map(String::from));
    let rules: Vec<String> = widths
        .iter()
        .enumerate()
        .map(|(column, &width)| match column {
            0..=2 => "-".repeat(width),
            _ => format!("{}:", "-".repeat(width - 1)),
        })
        .collect();
    line(&rules);
    for row in &rows {
        line(row);
    }
    table
}

/// Geometric mean of ratios.
fn mean(ratios: &[f64]) -> f64 {
    (ratios.iter().map(|ratio| ratio.ln()).sum::<f64>() / ratios.len() as f64).exp()
}

/// The means of the benchmarks that were run before.
fn since_before(measured: &[Measured]) -> String {
    let ratios = measured.iter().filter_map(|one| {
        let before = before::ratio(&one.compared.benchmark)?;
        Some((before, one.ratio()))
    });
    let (before, now): (Vec<f64>, Vec<f64>) = ratios.unzip();
    format!(
        "Of the {} that were run before, it was {} then and is {} now.\n",
        now.len(),
        digits(mean(&before)),
        digits(mean(&now))
    )
}

/// The random pairs in one line.
pub fn sweep(measured: &[Measured]) -> String {
    let ratios: Vec<f64> = measured.iter().map(Measured::ratio).collect();
    let slower = ratios.iter().filter(|&&ratio| ratio > 1.0).count();
    format!(
        "Random sweep, {} pairs ({}): geometric mean {}, from {} to {}; the library is slower on {slower}.\n",
        ratios.len(),
        tally(measured.iter().map(|one| one.compared.answer.as_str())),
        digits(mean(&ratios)),
        digits(ratios.iter().copied().fold(f64::INFINITY, f64::min)),
        digits(ratios.iter().copied().fold(0.0, f64::max)),
    )
}

/// Where the library is slower and by how much, from the numbers.
fn comparison(measured: &[Measured]) -> String {
    let ratios: Vec<f64> = measured.iter().map(Measured::ratio).collect();
    let slower = ratios.iter().filter(|&&ratio| ratio > 1.0).count();
    let mut text = format!(
        "The library is slower than the second implementation on {slower} of {} benchmarks; the geometric mean of the \
         ratios is {}.\n{}By group:\n\n",
        ratios.len(),
        digits(mean(&ratios)),
        since_before(measured)
    );
    let mut names: Vec<&str> = Vec::new();
    for one in measured {
        let name = one.compared.benchmark.group.name();
        if !names.contains(&name) {
            names.push(name);
        }
    }
    for name in names {
        let group = || {
            measured
                .iter()
                .filter(move |one| one.compared.benchmark.group.name() == name)
        };
        let ratios: Vec<f64> = group().map(Measured::ratio).collect();
        let by_ratio = |a: &&Measured, b: &&Measured| a.ratio().total_cmp(&b.ratio());
        let (best, worst) = match (group().min_by(by_ratio), group().max_by(by_ratio)) {
            (Some(best), Some(worst)) => (best, worst),
            _ => continue,
        };
        let _ = if ratios.len() == 1 {
            writeln!(text, "- {name}: {}", digits(best.ratio()))
        } else {
            writeln!(
                text,
                "- {name}: mean {}, from {} ({}) to {} ({})",
                digits(mean(&ratios)),
                digits(best.ratio()),
                best.compared.benchmark.name,
                digits(worst.ratio()),
                worst.compared.benchmark.name
            )
        };
    }
    text
}

/// How the time per row moves from the fewest rows to the most, for each pair that is searched with several row lists.
fn flatness(measured: &[Measured]) -> String {
    let mut text = String::new();
    for (name, line) in families(measured) {
        let (first, last) = match (line.first(), line.last()) {
            (Some(first), Some(last)) => (first, last),
            _ => continue,
        };
        let _ = writeln!(
            text,
            "- {name}: library {} µs a row handled with {} rows, {} with {}; second implementation {} and {}",
            digits(first.library),
            thousands(first.rows),
            digits(last.library),
            thousands(last.rows),
            digits(first.second),
            digits(last.second)
        );
    }
    text
}

/// A point of the plot of time per row.
pub struct PerRow {
    pub rows: usize,
    pub library: f64,
    pub second: f64,
}

/// Time per row against rows, by pair.
pub fn families(measured: &[Measured]) -> Vec<(&'static str, Vec<PerRow>)> {
    let mut families: Vec<(&'static str, Vec<PerRow>)> = Vec::new();
    for one in measured {
        let name = match one.compared.benchmark.group {
            Group::Rows(name) => name,
            _ => continue,
        };
        let ((library, second), rows) = match (one.per_row(), one.compared.rows) {
            (Some(times), Some(rows)) => (times, rows),
            _ => continue,
        };
        if families.last().map(|family| family.0) != Some(name) {
            families.push((name, Vec::new()));
        }
        if let Some((_, line)) = families.last_mut() {
            line.push(PerRow {
                rows,
                library,
                second,
            });
        }
    }
    families
}

/// When and where it was run.
pub struct Circumstances {
    pub date: String,
    /// Processes that ran or waited before the first benchmark, on average over a minute.
    pub load: String,
    pub cores: usize,
}

/// BENCHMARKS.md.
pub fn document(
    measured: &[Measured],
    swept: &[Measured],
    circumstances: &Circumstances,
) -> String {
    let Circumstances { date, load, cores } = circumstances;
    let rounds = Pace::FIXED.rounds;
    format!(
        "\
# Benchmarks

Run on {date} by `tools/benchmarks`, which writes this file and the plot anew; {cores} cores, load average {load} before
the run. Where that is far from 0 other work ran beside it, and the numbers are rough.

The verified library, called through the C interface, against the second implementation (`reference/`), called directly:
in one run and by turns, up to {rounds} rounds, fewer where one takes seconds. Times are processor times, the best of the
rounds; the ratio is that of the best times, and beside it stand the lowest and the highest ratio of a round. A ratio over 1
says that the library is slower; the ratio before is that of the last run published before the library compiled policies,
and empty where the benchmark is newer or has had other policies since. Before anything is timed, both must give the same answer and
leave the same in every list.

![Ratios, and time per row](benchmarks.svg)

{table}
## Where the library is slower

{comparison}
{sweep}
{WHY}
## Time per row

{flatness}
{ROWS}
## What is run

{WHAT}",
        table = table(measured),
        comparison = comparison(measured),
        sweep = sweep(swept),
        flatness = flatness(measured),
    )
}

const WHY: &str = "\
What is known of the causes, from how the two are built and from profiles of some searches:

- Both compile each policy once a call. The library then works a state's step out one remainder at a time, by packet sets,
  and remembers no step: it keeps nothing but the compiled policies, the rows and their index. The second implementation
  remembers what each remainder does at each packet; a state's step is then a union of remembered ones. So it still wins
  where many rows share few remainders and packets, as in many states and many rows.
- The library changes a field of a set packet by packet, or of all its packets at once by shifting its words, by what the two
  cost: it counts the members. Changes take most of the library's time in nondet and in many rows.
- Each search begins with setting a small index to 0, 24 KiB, and with loading both policies, whose lists, 73 KiB, are set to 0
  too; a check of a trace with loading. Calls that have little else to do pay for that. A search that lists more rows goes on with an
  index of 384 KiB, and a check of a table of more than 4,096 rows begins with that one.
- In many states, whose rows have few packets and states with many marks, the time goes into walking the policy: in a profile 45 of
  100 parts into sending sets through nodes, 26 into tests and changes, 18 into going from remainder to remainder.
- The second implementation's index is seeded at random. The library's is fixed, so a stranger can choose rows that share a
  bucket; the rows of a bucket make a tree, and a lookup passes at most 128 of them, one for each bit of two states.
- The second implementation's reader makes a list of tokens. The library's keeps none: it goes over a legal text four
  times (tokens, parentheses, counting nodes, writing them), and where several levels of the grammar ask for the next
  token, each skips the blanks before it again. In profiles two thirds of the library's instructions for a megabyte of nodes, and six
  sevenths for one with no token at its end, look for the next token. Since the ratios before both readers have learnt negations and names that
  the caller gives, which took the library's an eighth more instructions, counted on a megabyte of sums of id; it has then lost
  its table of byte classes (A.5), and with it a fifth of the instructions and nearly half of the time.
";

const ROWS: &str = "\
One pair is searched with row lists of several lengths, and the time is divided by the rows handled before the lists are full
or the search is done. What grows with the rows would show as a rising line in the plot. With
65,535 rows there is about one in each bucket of the index, so that a lookup meets one or two; how much of a rise that makes,
and what else does, has not been measured.
";

const WHAT: &str = "\
Of each field that a pair mentions it names all values but one, at least, so that no two of its packets are alike; where its policies
have no use for that, a test that all packets pass names them. Random pairs name what they name.

- combinatorial: inc, flip and nondet of document 000, section 7.2. There are at most eight fields and 1,024 packets; so
  besides eight bits they run over larger digits. Flip to base 4 turns each digit on by one, four times.
- networks: shortest-path forwarding by destination on a ring and on a binary tree, as large as 512 nodes allow: one
  switch reachable from another; all paths recorded, with the rules in two orders; two slices side by side, isolated, and
  with a leak from one to the other.
- heavy pairs: 500 nested stars at 1,024 packets; 31 dups and 1,024 packets, each next to each; 31 dups under one star, each followed by a
  change or a test of its own, against the summands in reverse order; a window over recorded packets.
- negations: 48 packets of 1,024 blocked, by the negation of their sum against the same spelled out with `!=`; a list of 40
  rules of which the first that matches counts, with the pattern negated before the rest of the list against the same
  spelled out; 500 and 501 negations of one test against the test that they are, at 1,024 packets.
- 63 dups: the pairs of many dups and of own continuations with 63 of them; `dup*` in rounds of 32 and of 31 dups at 65
  packets; a chain of 63 dups at 1,023 packets, grouped to the left and to the right; a pair whose rows are the longest lines
  of the program. Then tables: those of rounds, chain and many dups in row order, and 65,535 rows that share a bucket of the
  library's index and the lower 52 bits of each state.
- small: searches of one to ten rows, with one field and 16 rows lent, and one that ends at the first row, on policies of
  several hundred nodes. A call takes microseconds: some hundred are timed together, and the time is that of one.
- rows: cycles (270 packets, 241 pairs of states, one next row a row) and many states (two packets, two next rows a
  row), with 1,000 to 65,535 rows lent. Where the lists are too short the answer is refusal 11, with the length d to which the
  traces are known to agree.
- rows run out: searches that end in refusal 11. The long way goes from packet 0 through 1,001 packets and round again, each
  recorded 21 times, against the same in rounds of two packets: behind the starting rows its rows are one chain of 42,042, and d is
  the rows lent less 1,001. The full table has 771 rows at each depth, many rows 1,024 to 16,384; with 1,023 rows lent its
  starting rows don't fit.
- evidence: a table of 65,535 rows in row order, reversed, shuffled, and with its last row missing; the tables of blocked
  packets and of the list of rules; tables of 10, 364 and
  65,535 rows that are rejected at their first row, the two shorter ones of policies of several hundred nodes; then tables of
  65,535 rows as a stranger may send them: nearly all rows at one packet of 1,024; the same chosen to share a bucket of the
  library's index, and the bits by which its tree branches first; one such row repeated, after others that a lookup passes;
  one row with 1,024 next rows repeated.
- records: tables from evidence and from 63 dups, lent as one list of records to both.
- traces: checks of a trace of one packet on a ring of 14, of the trace that the search finds for the leak in a tree of 15,
  and of the 256 packets of a counter of eight bits, unrolled once and twice; the last with a test that one of the two fails.
- text: one call of the reader on a megabyte. A legal text has at most 512 nodes, so the legal one is mostly
  parentheses and blanks; the next three are refused at their end. Then a run of `!`; one word of letters and one of digits, which is no
  number; and marks alone, each byte a token.
- names: texts over eight names of fifteen letters that differ in the last one, in both tables, in opposite orders: the combinatorial pairs
  of eight fields searched, and a megabyte of tests read; then tables of thousands of names, refused when all of them have been compared: by
  1, by 21 at the last name, and by 20 at the last name of the right table.
- unmentioned: eight fields, those that nobody mentions with 65,535 values each. Searches of a pair that mentions no field, of
  networks, of the list of rules and of many dups over two to five of the fields; on texts, a table and a trace of some of these;
  and packets turned into values and back, by policies of a few nodes and of several hundred.
- forty checks: texts checked one after the other, with 4,096 rows lent: document 01's pairs, the networks, and random
  pairs of which the right policy names the values.
- random sweep: pairs of random policies from a fixed seed, made as for the comparison of library and second implementation
  but none damaged, each searched by both with 65,535 rows lent. They have one to 1,024 packets and mostly fewer than 120
  nodes; the right policy is mostly the left one rewritten by laws of NetKAT. Half of them declare fields that policies are not made over.
";
