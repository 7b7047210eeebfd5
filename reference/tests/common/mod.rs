//! What the tests share.

#![allow(dead_code)]

use std::collections::BTreeSet;

use netkat_reference::answer::{Refusal, Side, Verdict};
use netkat_reference::case::Case;
use netkat_reference::evidence::Record;
use netkat_reference::names::{Fields, OwnedTables};
use netkat_reference::policy::{kind, OwnedLists};
use netkat_reference::search::{search_texts, Lists, LEAST_WORK};
use netkat_reference::text;

/// A search's answer and what it left.
pub struct Outcome {
    pub answer: Result<Verdict, Refusal>,
    pub lists: Lists,
}

impl Outcome {
    /// The first rows.
    pub fn rows(&self, count: usize) -> Vec<(u16, u64, u64)> {
        (0..count)
            .map(|row| {
                (
                    self.lists.packet[row],
                    self.lists.left[row],
                    self.lists.right[row],
                )
            })
            .collect()
    }
}

/// Searches two texts with as many rows as there may be, all lists 0.
pub fn search(sizes: &[u16], left: &str, right: &str) -> Outcome {
    let mut lists = Lists::new(65_535, 65_535, LEAST_WORK);
    let answer = search_texts(
        tables(sizes).lend(),
        left.as_bytes(),
        right.as_bytes(),
        lists.lend(),
    );
    Outcome { answer, lists }
}

/// Searches two texts with lists of these lengths, all entries 9.
pub fn search_with(sizes: &[u16], left: &str, right: &str, rows: usize, trace: usize) -> Outcome {
    let mut lists = Lists::new(rows, trace, LEAST_WORK);
    lists.packet.fill(9);
    lists.left.fill(9);
    lists.right.fill(9);
    lists.parent.fill(9);
    lists.trace.fill(9);
    let answer = search_texts(
        tables(sizes).lend(),
        left.as_bytes(),
        right.as_bytes(),
        lists.lend(),
    );
    Outcome { answer, lists }
}

/// The names f0, f1 and so on in both tables, with these sizes.
pub fn tables(sizes: &[u16]) -> OwnedTables {
    OwnedTables::numbered(sizes)
}

/// Reads a text over f0 to f7 into lists of 512.
pub fn read(text: &str) -> Result<OwnedLists, Refusal> {
    let eight = tables(&[1; 8]);
    let fields = Fields::new(eight.lend()).expect("legal tables");
    text::nodes(&fields, Side::Left, text.as_bytes(), 512)
}

/// The nodes of a legal text over f0 to f7.
pub fn nodes(text: &str) -> OwnedLists {
    read(text).expect("a legal text")
}

/// The nodes of a policy that mentions the first so many fields, and lets every packet through.
pub fn mentioning(fields: usize) -> OwnedLists {
    let tests: Vec<String> = (0..fields).map(|field| format!("f{field}=0*")).collect();
    nodes(&tests.join(";"))
}

/// How many packets two policies can tell apart at most: the values of a field that neither names are alike.
pub fn told_apart(sizes: &[u16], left: &OwnedLists, right: &OwnedLists) -> usize {
    let mut named = vec![BTreeSet::new(); sizes.len()];
    for lists in [left, right] {
        for node in 0..lists.kind.len() {
            if matches!(lists.kind[node], kind::EQUALS | kind::DIFFERS | kind::SET) {
                named[usize::from(lists.first[node])].insert(lists.second[node]);
            }
        }
    }
    let values = named.iter().zip(sizes);
    values
        .map(|(named, &size)| (named.len() + 1).min(size.into()))
        .product()
}

/// The calls on node lists that are lent more, each with lists that 10 refuses and packets that 13 refuses.
pub fn calls_on_lists(given: impl Fn() -> (OwnedTables, OwnedLists, OwnedLists)) -> Vec<Case> {
    let mut cases = Vec::new();
    let (tables, left, right) = given();
    cases.push(Case::Search {
        tables,
        left,
        right,
        lists: Lists::new(3, 3, 3),
    });
    let (tables, left, right) = given();
    cases.push(Case::Evidence {
        tables,
        left,
        right,
        lists: Lists::new(3, 0, 3),
    });
    let (tables, left, right) = given();
    cases.push(Case::Records {
        tables,
        left,
        right,
        rows: vec![Record::default()],
        work: vec![9; 3],
    });
    let (tables, left, right) = given();
    cases.push(Case::Trace {
        tables,
        left,
        right,
        entering: 65_535,
        trace: vec![65_535],
        work: vec![9; 3],
    });
    cases
}
