//! Tables of names: texts over long names, and tables of far more names than there may be fields.

use netkat_reference::case::Case;
use netkat_reference::generate::heavy::{self, Pair};
use netkat_reference::names::{OwnedTable, OwnedTables, MOST_FIELDS, MOST_NAME};
use netkat_reference::policy::{OwnedLists, MOST_NODES};
use netkat_reference::search::{Lists, LEAST_WORK, MOST_ROWS};

use crate::report::thousands;
use crate::workload::{nodes, Benchmark, Extent, Group, MEGABYTE};

/// A field's name, of the greatest length; two differ in their last byte alone.
fn long_name(field: usize) -> String {
    let name = format!("headerlabelno0{field}");
    debug_assert_eq!(name.len(), MOST_NAME);
    name
}

/// Eight long names of these sizes, in the left table from the first on and in the right one from the last on.
fn long_names(sizes: &[u16]) -> OwnedTables {
    let entry = |(field, &size)| (long_name(field), size);
    let entries = sizes.iter().enumerate().map(entry);
    OwnedTables {
        left: entries.clone().collect(),
        right: entries.rev().collect(),
    }
}

/// A text over f0, f1 and so on with long names instead.
fn renamed(text: &str) -> Vec<u8> {
    let long = |text: String, field| text.replace(&format!("f{field}"), &long_name(field));
    (0..MOST_FIELDS).fold(text.to_string(), long).into_bytes()
}

/// The search of a pair's texts, under long names.
fn searched(pair: &Pair) -> Benchmark {
    let case = Case::Texts {
        tables: long_names(&pair.sizes),
        left: renamed(&pair.left),
        right: renamed(&pair.right),
        lists: Lists::new(MOST_ROWS, MOST_ROWS, LEAST_WORK),
    };
    let name = format!("texts of {}, long names", pair.name);
    Benchmark::new(Group::Names, &name, case)
}

/// A megabyte of tests of all eight fields by turns, read for the right policy: more nodes than fit.
fn read() -> Benchmark {
    let tests: String = (0..MOST_FIELDS)
        .map(|field| format!("{}=0;", long_name(field)))
        .collect();
    let mut text = tests.repeat(MEGABYTE / tests.len());
    text.push_str("id");
    let case = Case::Read {
        tables: long_names(&[2; MOST_FIELDS]),
        side: 2,
        text: text.into_bytes(),
        nodes: OwnedLists {
            kind: vec![0; MOST_NODES],
            first: vec![0; MOST_NODES],
            second: vec![0; MOST_NODES],
        },
    };
    Benchmark::new(Group::Names, "a megabyte of eight long names", case)
}

/// So many names in both tables, in the right one from the last on.
fn many(count: usize) -> OwnedTables {
    let entry = |at| (format!("headerlabel{at}"), 1);
    let entries = (0..count).map(entry);
    OwnedTables {
        left: entries.clone().collect(),
        right: entries.rev().collect(),
    }
}

fn number(name: &str, tables: OwnedTables) -> Benchmark {
    let title = format!(
        "{} names a table, {name}",
        thousands(tables.left.sizes.len())
    );
    let case = Case::Number {
        tables,
        left: nodes("id"),
        right: nodes("id"),
        values: Vec::new(),
    };
    Benchmark::new(Group::Names, &title, case)
}

/// Tables that are refused when all their names have been compared: by 1, by 21 at the last name, by 20 at the last one.
fn tables(count: usize) -> Vec<Benchmark> {
    let different = many(count);
    let mut two_sizes = different.clone();
    two_sizes.left.sizes[count - 1] = 2;
    let mut repeated = different.clone();
    repeat_first(&mut repeated.right);
    vec![
        number("all different", different),
        number("two sizes of the last", two_sizes),
        number("the last one repeated", repeated),
    ]
}

/// Makes the last name that of the first.
fn repeat_first(table: &mut OwnedTable) {
    let cell = table.cells.len() / table.sizes.len();
    let last = table.cells.len() - cell;
    table.cells.copy_within(..cell, last);
}

/// All of them.
pub fn benchmarks(extent: Extent) -> Vec<Benchmark> {
    let pairs = heavy::combinatorial();
    let mut all: Vec<Benchmark> = pairs
        .iter()
        .filter(|pair| pair.sizes.len() == MOST_FIELDS)
        .map(searched)
        .collect();
    all.push(read());
    all.extend(tables(extent.names()));
    all
}
