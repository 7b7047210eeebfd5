//! The generator reaches every refusal and every kind of answer, and the calls keep their lists as they should.

mod common;

use std::collections::BTreeMap;

use common::told_apart;
use netkat_reference::case::Case;
use netkat_reference::generate::{case, fixed, Extent};
use netkat_reference::names::Fields;
use netkat_reference::policy::{kind, OwnedLists};
use netkat_reference::random::Random;

/// Counts the answers of many cases by call and kind.
fn answers(seed: u64, count: usize, extent: Extent) -> BTreeMap<(&'static str, u64, u64), usize> {
    let mut random = Random::new(seed);
    tally((0..count).map(|_| case(&mut random, extent)))
}

/// How often each answer occurs, by call, kind, and rule or refusal.
fn tally(cases: impl Iterator<Item = Case>) -> BTreeMap<(&'static str, u64, u64), usize> {
    let mut seen = BTreeMap::new();
    for mut case in cases {
        let answer = case.run();
        let (kind, detail) = match &case {
            Case::Program { output, .. } => program_answer(output),
            _ => match answer[0] {
                5 | 9 => (answer[0], answer[1]),
                kind => (kind, 0),
            },
        };
        *seen.entry((case.name(), kind, detail)).or_default() += 1;
    }
    seen
}

/// The kind of answer that an output's first line tells.
fn program_answer(output: &[u8]) -> (u64, u64) {
    let output = std::str::from_utf8(output).unwrap();
    let mut fields = output.split(',');
    match fields.next() {
        Some("equal") => (0, 0),
        Some("left") => (1, 0),
        Some("right") => (2, 0),
        Some("refused") => (9, fields.next().unwrap().parse().unwrap()),
        other => panic!("{other:?}"),
    }
}

#[test]
fn every_answer_occurs_at_random() {
    every_answer_occurs(&answers(1, 9000, Extent::Small));
}

#[test]
fn every_refusal_and_kind_occurs_among_the_fixed_cases() {
    let seen = tally(fixed::cases().into_iter());
    for number in 1..=21 {
        assert!(
            seen.keys().any(|key| (key.1, key.2) == (9, number)),
            "{number}"
        );
    }
    for kind in 0..=4 {
        assert!(seen.keys().any(|key| key.1 == kind), "{kind}");
    }
    for rule in 1..=4 {
        assert!(seen.contains_key(&("evidence", 5, rule)), "{rule}");
        assert!(seen.contains_key(&("records", 5, rule)), "{rule}");
    }
}

fn every_answer_occurs(seen: &BTreeMap<(&'static str, u64, u64), usize>) {
    let occurs = |call, kind, detail| {
        assert!(
            seen.contains_key(&(call, kind, detail)),
            "{call} {kind} {detail}"
        );
    };
    for call in [
        "values", "number", "policy", "read", "search", "texts", "evidence", "records", "program",
    ] {
        occurs(call, 0, 0);
    }
    for call in ["search", "texts", "trace", "program"] {
        occurs(call, 1, 0);
        occurs(call, 2, 0);
    }
    occurs("trace", 3, 0);
    occurs("trace", 4, 0);
    for rule in 1..=4 {
        occurs("evidence", 5, rule);
        occurs("records", 5, rule);
    }
    let refused =
        |call, numbers: &[u64]| numbers.iter().for_each(|&number| occurs(call, 9, number));
    refused("values", &[1, 2, 3, 4, 5, 6, 7, 8, 9, 13, 19, 20, 21]);
    refused("number", &[1, 2, 3, 4, 5, 6, 7, 8, 9, 13, 19, 20, 21]);
    refused("policy", &[1, 2, 3, 4, 5, 6, 7, 8, 9, 19, 20, 21]);
    refused("read", &[1, 2, 4, 14, 15, 16, 17, 20, 21]);
    refused(
        "search",
        &[1, 2, 3, 4, 5, 6, 7, 8, 9, 10, 11, 12, 19, 20, 21],
    );
    refused(
        "texts",
        &[1, 2, 3, 4, 6, 9, 10, 11, 12, 14, 15, 16, 17, 19, 20, 21],
    );
    refused("evidence", &[1, 2, 3, 4, 5, 6, 7, 8, 9, 10, 19, 20, 21]);
    refused("records", &[1, 2, 3, 4, 5, 6, 7, 8, 9, 10, 19, 20, 21]);
    refused("trace", &[1, 2, 3, 4, 5, 6, 7, 8, 9, 10, 13, 19, 20, 21]);
    refused("program", &[1, 2, 3, 6, 9, 14, 15, 16, 17, 18, 19, 20, 21]);
}

#[test]
fn large_cases_run() {
    let seen = answers(2, 150, Extent::Large);
    assert!(seen.contains_key(&("search", 0, 0)));
}

#[test]
fn many_dups_and_the_highest_bit_occur() {
    let mut random = Random::new(4);
    let (mut searched, mut tables, mut last) = (0, 0, 0);
    for _ in 0..6000 {
        let mut case = case(&mut random, Extent::Small);
        let answered = case.run()[0] < 5;
        let many = |lists: &OwnedLists| {
            let dups = lists.kind.iter().filter(|&&node| node == kind::DUP);
            (32..=63).contains(&dups.count())
        };
        match &case {
            Case::Search { left, right, .. } => {
                searched += usize::from(answered && (many(left) || many(right)));
            }
            Case::Evidence { left, right, .. } | Case::Records { left, right, .. } => {
                tables += usize::from(answered && (many(left) || many(right)));
            }
            _ => {}
        }
        let highest = match &case {
            Case::Evidence { lists, .. } => {
                let mut states = lists.left.iter().chain(&lists.right);
                states.any(|state| state >> 63 == 1)
            }
            Case::Records { rows, .. } => rows.iter().any(|row| (row.left | row.right) >> 63 == 1),
            _ => false,
        };
        last += usize::from(answered && highest);
    }
    assert!(
        searched > 40 && tables > 40 && last > 5,
        "{searched} {tables} {last}"
    );
}

/// Joint sizes and policies of a call that takes two as lists, if its tables are legal.
fn policies(case: &Case) -> Option<(Vec<u16>, &OwnedLists, &OwnedLists)> {
    let (tables, left, right) = case.policies()?;
    let sizes = Fields::new(tables.lend()).ok()?.sizes().to_vec();
    Some((sizes, left, right))
}

/// Does a test or a change of a field stand in the policy?
fn mentions(lists: &OwnedLists, field: usize) -> bool {
    let mut nodes = lists.kind.iter().zip(&lists.first);
    nodes.any(|(&kind, &first)| {
        matches!(kind, kind::EQUALS | kind::DIFFERS | kind::SET) && usize::from(first) == field
    })
}

#[test]
fn mentions_of_every_kind_occur() {
    let mut random = Random::new(7);
    // By call: wide fields that nobody mentions, fields that one policy alone mentions, answered; and those refused by 3.
    let mut seen: BTreeMap<&str, [usize; 4]> = BTreeMap::new();
    for _ in 0..9000 {
        let mut case = case(&mut random, Extent::Small);
        let answer = case.run();
        let (sizes, left, right) = match policies(&case) {
            Some(given) => given,
            None => continue,
        };
        let counts = seen.entry(case.name()).or_default();
        let by = |field| (mentions(left, field), mentions(right, field));
        if answer[0] < 9 {
            let any = |test: &dyn Fn(usize) -> bool| usize::from((0..sizes.len()).any(test));
            counts[0] += any(&|field| sizes[field] > 1024 && by(field) == (false, false));
            counts[1] += any(&|field| by(field) == (true, false));
            counts[2] += any(&|field| by(field) == (false, true));
        }
        counts[3] += usize::from(answer[..2] == [9, 3]);
    }
    assert_eq!(seen.len(), 6);
    let enough = |counts: &[usize; 4]| counts.iter().zip([20, 20, 20, 5]).all(|(c, n)| *c > n);
    assert!(seen.values().all(enough), "{seen:?}");
}

#[test]
fn many_packets_of_which_no_two_are_alike_occur() {
    let mut random = Random::new(8);
    let (mut many, mut most) = (0, 0);
    for _ in 0..600 {
        let mut case = case(&mut random, Extent::Large);
        let (packets, all) = match (case.packets(), policies(&case)) {
            (Some(packets), Some((sizes, left, right))) => {
                (packets, packets == told_apart(&sizes, left, right))
            }
            _ => continue,
        };
        if all && case.run()[0] < 9 {
            many += usize::from(packets > 60);
            most += usize::from(packets > 1000);
        }
    }
    assert!(many > 10 && most > 4, "{many} {most}");
}

#[test]
fn rows_run_out_at_many_depths() {
    let mut random = Random::new(6);
    let mut lengths = BTreeMap::new();
    let mut before_the_start = 0;
    for _ in 0..6000 {
        let mut case = case(&mut random, Extent::Small);
        let answer = case.run();
        if answer[..2] == [9, 11] {
            *lengths.entry(answer[4]).or_insert(0) += 1;
            before_the_start += usize::from(starts_do_not_fit(&case, answer[3]));
        }
    }
    let at_least = |length| -> usize { lengths.range(length..).map(|(_, count)| count).sum() };
    assert!(before_the_start > 100, "{before_the_start}");
    assert!(at_least(0) > before_the_start + 100, "{lengths:?}");
    for (length, count) in [(1, 100), (2, 50), (10, 20), (30, 5)] {
        assert!(at_least(length) > count, "{lengths:?}");
    }
}

/// Are there more packets than rows lent?
fn starts_do_not_fit(case: &Case, rows: u64) -> bool {
    let packets = case.packets().expect("legal policies");
    rows < packets as u64
}

#[test]
fn the_same_seed_gives_the_same_cases() {
    let cases = || {
        let mut random = Random::new(5);
        let cases: Vec<Case> = (0..200).map(|_| case(&mut random, Extent::Small)).collect();
        cases
    };
    assert_eq!(cases(), cases());
}

#[test]
fn refusals_leave_lists_as_found() {
    let mut random = Random::new(3);
    for _ in 0..3000 {
        let mut case = case(&mut random, Extent::Small);
        let before = case.checksums();
        let answer = case.run();
        let after = case.checksums();
        let untouched = answer[0] == 9 && !matches!(answer[1], 11..=13);
        if untouched && case.name() != "program" {
            assert_eq!(before, after);
        }
        match &case {
            Case::Search { lists, .. } | Case::Texts { lists, .. } if !untouched => {
                assert!(lists.work.iter().all(|&word| word == 0));
                if !matches!(answer[0], 1 | 2) {
                    assert_eq!(before[4], after[4]);
                }
            }
            Case::Evidence { lists, .. } if !untouched => {
                assert!(lists.work.iter().all(|&word| word == 0));
            }
            Case::Records { work, .. } | Case::Trace { work, .. } if !untouched => {
                assert!(work.iter().all(|&word| word == 0));
            }
            Case::Values { .. } if answer[0] == 9 => assert_eq!(before, after),
            _ => {}
        }
    }
}
