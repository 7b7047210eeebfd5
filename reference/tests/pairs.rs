//! The pairs and edges that the requirements name, through the public calls.

mod common;

use std::collections::BTreeSet;

use common::{nodes, search, search_with, tables, told_apart, Outcome};
use netkat_reference::answer::{Holders, Numbered, Refusal, Ruling, Side, Verdict};
use netkat_reference::case::Case;
use netkat_reference::evidence::{self, Record, Table};
use netkat_reference::generate::{case, fixed, heavy, Extent};
use netkat_reference::policy;
use netkat_reference::random::Random;
use netkat_reference::search::{search_texts, Lists, LEAST_WORK};
use netkat_reference::traces;

fn equal(sizes: &[u16], left: &str, right: &str, rows: &[(u16, u64, u64)]) {
    let outcome = search(sizes, left, right);
    assert_eq!(outcome.answer, Ok(Verdict::Equal { rows: rows.len() }));
    assert_eq!(outcome.rows(rows.len()), rows);
    let untouched = Lists::new(0, 65_535, 0).trace;
    assert_eq!(outcome.lists.trace, untouched);
}

fn different(sizes: &[u16], left: &str, right: &str, side: Side, entering: u16, trace: &[u16]) {
    let outcome = search(sizes, left, right);
    let length = trace.len();
    assert_eq!(
        outcome.answer,
        Ok(Verdict::Different {
            side,
            length,
            entering
        })
    );
    assert_eq!(&outcome.lists.trace[..length], trace);
    let (one, other) = (nodes(left), nodes(right));
    let holders = match side {
        Side::Left => Holders::Left,
        Side::Right => Holders::Right,
    };
    let mut work = vec![7; LEAST_WORK];
    assert_eq!(
        traces::check(
            tables(sizes).lend(),
            one.lists(),
            other.lists(),
            entering,
            trace,
            &mut work
        ),
        Ok(holders)
    );
    assert!(work.iter().all(|&word| word == 0));
}

#[test]
fn p1() {
    different(&[2], "drop", "id", Side::Right, 0, &[0]);
}

const P2_ROWS: [(u16, u64, u64); 4] = [(0, 1, 1), (1, 1, 1), (0, 2, 2), (1, 0, 2)];

#[test]
fn p2() {
    equal(&[2], "f0=0;dup", "dup;f0=0", &P2_ROWS);
    let outcome = search(&[2], "f0=0;dup", "dup;f0=0");
    assert_eq!(&outcome.lists.parent[..4], [0, 1, 0, 1]);
}

#[test]
fn p3_and_p4() {
    equal(&[2], "f0=0+f0=1", "id", &[(0, 1, 1), (1, 1, 1)]);
    different(&[3], "f0=0+f0=1", "id", Side::Right, 2, &[2]);
}

#[test]
fn p5_and_p6() {
    let rows = [(0, 1, 1), (0, 2, 2), (0, 2, 4)];
    equal(&[1], "dup*", "id+dup;dup*", &rows);
    let Outcome { answer, lists } = search_with(&[1], "dup*", "id+dup;dup*", 2, 9);
    assert_eq!(answer, Err(Refusal::new(11, 2).agreed_to(1)));
    assert_eq!(lists.packet, [0, 0]);
    assert_eq!(lists.left, [1, 2]);
    assert_eq!(lists.right, [1, 2]);
    assert_eq!(lists.parent, [0, 0]);
    let outcome = search_with(&[1], "dup*", "id+dup;dup*", 3, 0);
    assert_eq!(outcome.answer, Ok(Verdict::Equal { rows: 3 }));
}

#[test]
fn p7_to_p10() {
    different(&[1], "dup", "dup;dup", Side::Left, 0, &[0, 0]);
    equal(&[2], "f0<-1;f0=1", "f0<-1", &[(0, 1, 1), (1, 1, 1)]);
    different(&[2], "f0<-0+f0<-1", "id", Side::Left, 0, &[1]);
    equal(&[1], "dup;drop", "drop", &[(0, 1, 1), (0, 2, 0)]);
}

const NEGATED_ROWS: [(u16, u64, u64); 4] = [(0, 1, 1), (1, 1, 1), (0, 2, 0), (1, 2, 2)];

#[test]
fn negations() {
    let starting: Vec<(u16, u64, u64)> = (0..4).map(|packet| (packet, 1, 1)).collect();
    let (left, right) = ("!(f0=0;f1=0)", "f0!=0+f1!=0");
    equal(&[2, 2], left, right, &starting);
    equal(&[2], "dup;!f0=0", "!f0=0;dup", &NEGATED_ROWS);
    equal(&[2], "!f0=0*", "id", &starting[..2]);
    equal(&[3], "(f0<-1;!f0=0)*", "id+f0<-1", &starting[..3]);
    // Two packets come to a negation that one of them passes.
    let (left, right) = ("(f0<-0+f0<-1);!f0=0", "f0<-1");
    equal(&[3], left, right, &starting[..3]);
    equal(&[2], "!!f0=1", "f0=1", &starting[..2]);
    equal(&[2], "!(drop;f0=0)", "id", &starting[..2]);
    equal(&[2], "!(id+f0=0)", "drop", &starting[..2]);
    equal(&[2], "!drop", "id", &starting[..1]);
    equal(&[2], "!id", "drop", &starting[..1]);
    different(&[2], "!f0=0", "f0=0", Side::Right, 0, &[0]);
    different(&[3], "!f0=0", "f0=1", Side::Left, 2, &[2]);
    different(&[2], "dup;!f0=0", "dup", Side::Right, 0, &[0, 0]);
}

#[test]
fn the_sets_of_negations_end_at_the_last_packet() {
    let one_field = [1, 63, 64, 65, 127, 128, 129].map(|size| vec![size]);
    for sizes in one_field.into_iter().chain([heavy::THOUSAND.to_vec()]) {
        let starting: Vec<(u16, u64, u64)> = (0..sizes.iter().product())
            .map(|packet| (packet, 1, 1))
            .collect();
        let naming = heavy::naming(&sizes);
        equal(&sizes, &naming, "id", &starting);
        equal(&sizes, &format!("{naming};!!f0=0"), "f0=0", &starting);
    }
}

#[test]
fn negated_kinds_are_tested_after_8_and_before_9() {
    let answer = |left: &str, right: &str| search(&[2], left, right).answer.unwrap_err();
    let dups = ["dup"; 64].join(";");
    assert_eq!(answer(&dups, "!dup"), Refusal::new(19, 1).on(2));
    assert_eq!(answer("!dup", &dups), Refusal::new(19, 1).on(1));
    assert_eq!(answer("!(f0=0*)", "!!dup"), Refusal::new(19, 2).on(1));
    assert_eq!(answer("id", "!(f0=0+dup)"), Refusal::new(19, 3).on(2));
    assert_eq!(answer("!dup", "f0=2"), Refusal::new(6, 0).on(2));
    assert_eq!(answer("!dup", "!"), Refusal::new(16, 1));
}

#[test]
fn every_call_on_policies_tests_what_is_negated() {
    let (left, right) = (nodes("id"), nodes("!!dup"));
    let (left, right) = (left.lists(), right.lists());
    let refused = Refusal::new(19, 1);
    let mut work = vec![3; LEAST_WORK];
    let table = Table {
        packet: &[9],
        left: &[9],
        right: &[9],
    };
    let ruling = evidence::check(tables(&[2]).lend(), left, right, table, &mut work);
    assert_eq!(ruling, Err(refused.on(2)));
    let holders = traces::check(tables(&[2]).lend(), right, left, 9, &[9], &mut work);
    assert_eq!(holders, Err(refused.on(1)));
    assert!(work.iter().all(|&word| word == 3));
    assert_eq!(policy::check(tables(&[2]).lend(), right), Err(refused));
    assert_eq!(
        policy::check_pair(tables(&[2]).lend(), left, right),
        Err(refused.on(2))
    );
    // Before 10.
    let answer = evidence::check(tables(&[2]).lend(), left, right, table, &mut []);
    assert_eq!(answer, Err(refused.on(2)));
    let answer = evidence::check_records(tables(&[2]).lend(), left, right, &[], &mut []);
    assert_eq!(answer, Err(refused.on(2)));
}

#[test]
fn nested_negations_cost_nothing() {
    let start = std::time::Instant::now();
    for (count, once) in [(500, "f0=3"), (501, "f0!=3"), (511, "!f0=3")] {
        let text = format!("{}f0=3", "!".repeat(count));
        let once = format!("{};{once}", heavy::naming(&heavy::THOUSAND));
        let outcome = search(&heavy::THOUSAND, &text, &once);
        assert_eq!(outcome.answer, Ok(Verdict::Equal { rows: 1024 }));
    }
    assert!(start.elapsed().as_secs() < 5);
}

/// What is said of a table; it is lent as three lists, and then as records.
fn ruling(sizes: &[u16], left: &str, right: &str, rows: &[(u16, u64, u64)]) -> Ruling {
    let packet: Vec<u16> = rows.iter().map(|row| row.0).collect();
    let left_states: Vec<u64> = rows.iter().map(|row| row.1).collect();
    let right_states: Vec<u64> = rows.iter().map(|row| row.2).collect();
    let table = Table {
        packet: &packet,
        left: &left_states,
        right: &right_states,
    };
    let mut work = vec![3; LEAST_WORK + 5];
    let (left, right) = (nodes(left), nodes(right));
    let ruling = evidence::check(
        tables(sizes).lend(),
        left.lists(),
        right.lists(),
        table,
        &mut work,
    )
    .unwrap();
    assert!(work.iter().all(|&word| word == 0));
    for parent in [0, 65_535] {
        let rows = records(rows, |_| parent);
        work.fill(3);
        let (left, right) = (left.lists(), right.lists());
        let answer = evidence::check_records(tables(sizes).lend(), left, right, &rows, &mut work);
        assert_eq!(answer, Ok(ruling));
        assert!(work.iter().all(|&word| word == 0));
    }
    ruling
}

fn records(rows: &[(u16, u64, u64)], parent: impl Fn(usize) -> u16) -> Vec<Record> {
    let record = |(row, &(packet, left, right)): (usize, &(u16, u64, u64))| Record {
        packet,
        left,
        right,
        parent: parent(row),
    };
    rows.iter().enumerate().map(record).collect()
}

#[test]
fn p11_and_the_row_rules() {
    let check = |rows: &[(u16, u64, u64)]| ruling(&[2], "f0=0;dup", "dup;f0=0", rows);
    assert_eq!(check(&P2_ROWS), Ruling::Accepted);
    assert_eq!(
        check(&P2_ROWS[..3]),
        Ruling::NextMissing { row: 1, packet: 1 }
    );
    // Order, repeats and rows of two empty states don't matter.
    let mut rows = P2_ROWS.to_vec();
    rows.reverse();
    rows.push((0, 2, 2));
    rows.push((1, 0, 0));
    assert_eq!(check(&rows), Ruling::Accepted);
    // (a) comes first, over all rows.
    rows.push((0, 4, 1));
    rows.push((2, 1, 1));
    assert_eq!(check(&rows), Ruling::OutOfRange { row: 6 });
    assert_eq!(
        check(&[(0, 1, 1), (0, 1, 0), (2, 1, 1)]),
        Ruling::OutOfRange { row: 2 }
    );
    assert_eq!(
        check(&[(0, 1, 0), (1, 1, 1)]),
        Ruling::NoStart { packet: 0 }
    );
    assert_eq!(check(&[]), Ruling::NoStart { packet: 0 });
    assert_eq!(
        check(&[(0, 1, 1), (0, 1, 2), (1, 1, 1)]),
        Ruling::NextMissing { row: 0, packet: 0 }
    );
    assert_eq!(
        check(&[(0, 2, 1), (0, 1, 1), (1, 1, 1)]),
        Ruling::OutputsDiffer { row: 0 }
    );
}

#[test]
fn tables_of_negations() {
    let check = |rows: &[(u16, u64, u64)]| ruling(&[2], "dup;!f0=0", "!f0=0;dup", rows);
    assert_eq!(check(&NEGATED_ROWS), Ruling::Accepted);
    assert_eq!(
        check(&NEGATED_ROWS[..3]),
        Ruling::NextMissing { row: 1, packet: 1 }
    );
    // What passes the negation passes it on one side only.
    assert_eq!(
        check(&[(0, 1, 1), (1, 1, 1), (1, 2, 0), (0, 2, 0), (1, 2, 2)]),
        Ruling::OutputsDiffer { row: 2 }
    );
    assert_eq!(
        check(&[(0, 1, 1), (1, 1, 1), (0, 2, 2)]),
        Ruling::NextMissing { row: 0, packet: 0 }
    );
}

#[test]
fn a_mask_may_use_every_bit() {
    let (most, fewer) = (["dup"; 63].join("+"), ["dup"; 62].join("+"));
    let rows = [(0, 1, 1), (0, u64::MAX - 1, u64::MAX - 1), (0, 1 << 63, 1)];
    assert_eq!(
        ruling(&[1], &most, &most, &rows),
        Ruling::OutputsDiffer { row: 2 }
    );
    assert_eq!(ruling(&[1], &most, &most, &rows[..2]), Ruling::Accepted);
    assert_eq!(
        ruling(&[1], &fewer, &fewer, &rows),
        Ruling::OutOfRange { row: 1 }
    );
    // 2^63 is a mark of the 63rd dup, and of no policy with fewer.
    let (all, less) = (u64::MAX - 1, (1 << 63) - 2);
    let last = (0, 1 << 63, 1 << 62);
    let rows = [(0, 1, 1), (0, all, less), last, (0, 1 << 63, 2)];
    assert_eq!(ruling(&[1], &most, &fewer, &rows), Ruling::Accepted);
    let rows = [(0, 1, 1), (0, all, all), (0, 1 << 63, 1 << 63)];
    assert_eq!(ruling(&[1], &most, &most, &rows), Ruling::Accepted);
    let rows = [(0, 1, 1), (0, less, less), (0, 1 << 63, 2)];
    let stray = Ruling::OutOfRange { row: 2 };
    assert_eq!(ruling(&[1], &fewer, &fewer, &rows), stray);
    let rows = [(0, 1, 1), (0, all, less), (0, 2, 1 << 63)];
    assert_eq!(ruling(&[1], &most, &fewer, &rows), stray);
}

#[test]
fn sixty_three_dups() {
    let dups = |count: usize, join: &str| vec!["dup"; count].join(join);
    // A chain: one bit after the other, to the last.
    let chain: Vec<(u16, u64, u64)> = (0..64).map(|bit| (0, 1 << bit, 1 << bit)).collect();
    equal(&[1], &dups(63, ";"), &dups(63, ";"), &chain);
    let check = |rows: &[(u16, u64, u64)]| ruling(&[1], &dups(63, ";"), &dups(63, ";"), rows);
    assert_eq!(check(&chain), Ruling::Accepted);
    assert_eq!(
        check(&chain[..63]),
        Ruling::NextMissing { row: 62, packet: 0 }
    );
    // A sum: every bit at once.
    let rows = [(0, 1, 1), (0, u64::MAX - 1, 2)];
    equal(&[1], &dups(63, "+"), "dup", &rows);
    let rows = [(0, 1, 1), (0, (1 << 33) - 2, (1 << 34) - 2)];
    equal(&[1], &dups(32, "+"), &dups(33, "+"), &rows);
    // 63 packets recorded and one more.
    let trace = [0; 63];
    different(&[1], &dups(62, ";"), &dups(63, ";"), Side::Left, 0, &trace);
    // The bit of a dup goes by its node, not by its place in the policy.
    let unreached = format!("drop;{}+dup;f0=0", dups(62, ";"));
    let rows = [(0, 1, 1), (1, 1, 1), (0, 1 << 63, 2), (1, 1 << 63, 0)];
    equal(&[2], &unreached, "f0=0;dup", &rows);
}

#[test]
fn tables_of_records() {
    let (left, right) = (nodes("f0=0;dup"), nodes("dup;f0=0"));
    let check = |rows: &[Record], work| {
        let mut work = vec![3; work];
        let (left, right) = (left.lists(), right.lists());
        let answer = evidence::check_records(tables(&[2]).lend(), left, right, rows, &mut work);
        let left_as_was = work.iter().all(|&word| word == 3);
        assert_eq!(left_as_was, answer == Err(Refusal::new(10, 0)));
        answer
    };
    let p11 = Ok(Ruling::NextMissing { row: 1, packet: 1 });
    let parents: [fn(usize) -> u16; 3] = [|_| 65_535, |row| row as u16, |row| 65_535 - row as u16];
    for parent in parents {
        let rows = records(&P2_ROWS, parent);
        assert_eq!(check(&rows, LEAST_WORK), Ok(Ruling::Accepted));
        assert_eq!(check(&rows[..3], LEAST_WORK), p11);
        assert_eq!(check(&rows, LEAST_WORK - 1), Err(Refusal::new(10, 0)));
    }
    let no_start = Ok(Ruling::NoStart { packet: 0 });
    assert_eq!(check(&[], LEAST_WORK), no_start);
    let mut rows = records(&P2_ROWS, |_| 7);
    rows.resize(65_535, rows[3]);
    assert_eq!(check(&rows, LEAST_WORK), Ok(Ruling::Accepted));
    rows.push(rows[3]);
    assert_eq!(check(&rows, LEAST_WORK), Err(Refusal::new(10, 0)));
    rows.pop();
    rows[65_534].right = 1 << 63;
    let stray = Ok(Ruling::OutOfRange { row: 65_534 });
    assert_eq!(check(&rows, LEAST_WORK), stray);
    assert_eq!(std::mem::size_of::<Record>(), 32);
}

#[test]
fn both_ways_of_lending_agree() {
    let mut random = Random::new(63);
    let mut kinds = BTreeSet::new();
    let mut compared = 0;
    while compared < 1500 {
        let one = case(&mut random, Extent::Small);
        let (mut one, mut other) = match one.lent_otherwise() {
            Some(other) => (one, other),
            None => continue,
        };
        let (answer, checksums) = (one.run(), one.checksums());
        assert_eq!((answer, checksums), (other.run(), other.checksums()));
        kinds.insert((answer[0], answer[1]));
        compared += 1;
    }
    for rule in 1..=4 {
        assert!(kinds.contains(&(5, rule)), "{rule}");
    }
    assert!(kinds.contains(&(0, 0)) && kinds.contains(&(9, 9)) && kinds.contains(&(9, 10)));
}

fn resize(lists: &mut Lists, rows: usize) {
    lists.packet.resize(rows, 1);
    lists.left.resize(rows, 1);
    lists.right.resize(rows, 1);
    lists.parent.resize(rows, 1);
}

#[test]
fn lists_of_10() {
    let run = |change: fn(&mut Lists)| {
        let mut lists = Lists::new(4, 4, LEAST_WORK);
        lists.work.fill(5);
        change(&mut lists);
        let before = lists.clone();
        let answer = search_texts(tables(&[1]).lend(), b"id", b"drop", lists.lend());
        if answer == Err(Refusal::new(10, 0)) {
            assert_eq!(lists, before);
        } else {
            assert!(lists.work.iter().all(|&word| word == 0));
        }
        answer
    };
    let refused = Err(Refusal::new(10, 0));
    assert_eq!(run(|lists| lists.packet.push(0)), refused);
    assert_eq!(run(|lists| lists.left.truncate(3)), refused);
    assert_eq!(run(|lists| lists.right.push(0)), refused);
    assert_eq!(run(|lists| lists.parent.clear()), refused);
    assert_eq!(run(|lists| lists.work.truncate(16_383)), refused);
    assert_eq!(run(|lists| resize(lists, 65_536)), refused);
    let left = Ok(Verdict::Different {
        side: Side::Left,
        length: 1,
        entering: 0,
    });
    assert_eq!(run(|lists| resize(lists, 65_535)), left);
    // Row lists of length 0 are legal and full.
    assert_eq!(run(|lists| resize(lists, 0)), Err(Refusal::new(11, 0)));
    assert_eq!(run(|lists| lists.trace.clear()), Err(Refusal::new(12, 1)));
}

#[test]
fn starting_rows_that_do_not_fit() {
    let Outcome { answer, lists } = search_with(&[2, 2], "f0=0", "f1=1", 3, 9);
    assert_eq!(answer, Err(Refusal::new(11, 3)));
    assert_eq!(lists.packet, [0, 1, 2]);
    assert_eq!(lists.left, [1, 1, 1]);
    assert_eq!(lists.right, [1, 1, 1]);
    assert_eq!(lists.parent, [0, 1, 2]);
}

/// What is said where so many rows are lent and run out: the length to which the traces agree.
fn agreed(sizes: &[u16], left: &str, right: &str, rows: usize) -> u64 {
    let answer = search_with(sizes, left, right, rows, 9).answer;
    let numbers = answer.numbers();
    assert_eq!(numbers[..4], [9, 11, 0, rows as u64], "{left} {right}");
    assert_eq!(numbers[5..], [0; 3]);
    numbers[4]
}

#[test]
fn how_far_the_traces_agree_where_rows_run_out() {
    for (rows, length) in [0, 0, 1].into_iter().enumerate() {
        assert_eq!(agreed(&[1], "dup*", "id+dup;dup*", rows), length);
    }
    assert_eq!(agreed(&[2], "f0=0;dup", "dup;f0=0", 3), 0);
    let (left, right) = ("dup;dup;dup", "dup;dup;dup;drop+dup;dup;dup");
    assert_eq!(agreed(&[1], left, right, 3), 2);
    // The starting rows don't fit, or just fit.
    for rows in 0..=4 {
        assert_eq!(agreed(&[2, 2], "dup;f0=0*", "f1=0*;dup", rows), 0);
    }
    // Each depth has a row for each packet, and the first row of a depth is handled when the next depth's first is listed.
    let chain = ["dup"; 60].join(";");
    let mentioning = format!("f0=0*;{chain}");
    for packets in 1..4usize {
        for rows in 0..61 * packets {
            let length = (rows / packets).saturating_sub(1);
            let found = agreed(&[packets as u16], &chain, &mentioning, rows);
            assert_eq!(found, length as u64);
        }
    }
    // Policies that a longer trace tells apart.
    let shorter = ["dup"; 59].join(";");
    for rows in 1..60 {
        assert_eq!(agreed(&[1], &chain, &shorter, rows), rows as u64 - 1);
    }
    different(&[1], &chain, &shorter, Side::Right, 0, &[0; 60]);
}

#[test]
fn a_long_way_is_one_chain_of_rows() {
    let pair = heavy::long_way();
    let outcome = search(&pair.sizes, &pair.left, &pair.right);
    assert_eq!(outcome.answer, Ok(Verdict::Equal { rows: 43_043 }));
    for rows in [1_000usize, 1_001, 1_002, 20_000, 43_042] {
        let found = agreed(&pair.sizes, &pair.left, &pair.right, rows);
        assert_eq!(found, rows.saturating_sub(1_001) as u64);
    }
}

#[test]
fn a_trace_that_does_not_fit() {
    let Outcome { answer, lists } = search_with(&[1], "dup", "dup;dup", 9, 1);
    assert_eq!(answer, Err(Refusal::new(12, 2)));
    assert_eq!(lists.trace, [9]);
    assert_eq!(&lists.left[..2], [1, 2]);
    assert_eq!(&lists.parent[..3], [0, 0, 9]);
}

#[test]
fn texts_are_tested_before_policies() {
    let answer = |left: &str, right: &str| search(&[2], left, right).answer.unwrap_err();
    assert_eq!(answer("f0=2", "id id"), Refusal::new(16, 3));
    assert_eq!(answer("f0=2", "f0=3"), Refusal::new(6, 0).on(1));
    assert_eq!(answer("f0=2", "f1=0"), Refusal::new(14, 0));
    assert_eq!(answer("id;f0=1", "id;f0=2"), Refusal::new(6, 1).on(2));
    let dups = ["dup"; 64].join(";");
    assert_eq!(answer(&dups, "id;f0=2"), Refusal::new(6, 1).on(2));
    assert_eq!(answer(&dups, "id"), Refusal::new(9, 125).on(1));
    assert_eq!(answer("id", &dups), Refusal::new(9, 125).on(2));
    assert_eq!(search(&[], "?", "?").answer, Err(Refusal::new(1, 0)));
    assert_eq!(search(&[5, 205], "?", "?").answer, Err(Refusal::new(14, 0)));
    let dups = ["dup"; 63].join(";");
    assert!(search(&[2], &dups, &dups).answer.is_ok());
}

#[test]
fn the_trace_checker() {
    let (left, right) = (nodes("f0=0*;dup*"), nodes("dup;dup*"));
    let check = |entering, trace: &[u16], work| {
        let mut work = vec![1; work];
        let answer = traces::check(
            tables(&[2]).lend(),
            left.lists(),
            right.lists(),
            entering,
            trace,
            &mut work,
        );
        let zeroed = work.iter().all(|&word| word == 0);
        assert_eq!(zeroed, answer != Err(Refusal::new(10, 0)));
        answer
    };
    assert_eq!(check(0, &[], LEAST_WORK), Ok(Holders::Neither));
    assert_eq!(check(0, &[0], LEAST_WORK), Ok(Holders::Left));
    assert_eq!(check(1, &[1, 1], LEAST_WORK), Ok(Holders::Both));
    assert_eq!(check(1, &[1, 0], LEAST_WORK), Ok(Holders::Neither));
    assert_eq!(check(2, &[2, 0], LEAST_WORK), Err(Refusal::new(13, 0)));
    assert_eq!(check(2, &[], LEAST_WORK), Err(Refusal::new(13, 0)));
    assert_eq!(check(0, &[1, 2, 3], LEAST_WORK), Err(Refusal::new(13, 2)));
    assert_eq!(check(2, &[2], LEAST_WORK - 1), Err(Refusal::new(10, 0)));
}

#[test]
fn traces_of_negations() {
    let (left, right) = (nodes("dup;!f0=0"), nodes("!(f0=1;f0!=0);dup"));
    let check = |entering, trace: &[u16]| {
        let mut work = vec![1; LEAST_WORK];
        let (left, right) = (left.lists(), right.lists());
        traces::check(tables(&[3]).lend(), left, right, entering, trace, &mut work)
    };
    assert_eq!(check(0, &[0, 0]), Ok(Holders::Right));
    assert_eq!(check(1, &[1, 1]), Ok(Holders::Left));
    assert_eq!(check(2, &[2, 2]), Ok(Holders::Both));
    assert_eq!(check(2, &[2]), Ok(Holders::Neither));
}

#[test]
fn nested_stars_cost_nothing() {
    let pair = heavy::nested_stars(511, "id");
    let start = std::time::Instant::now();
    let outcome = search(&pair.sizes, &pair.left, &pair.right);
    assert_eq!(outcome.answer, Ok(Verdict::Equal { rows: 1024 }));
    assert!(start.elapsed().as_secs() < 20);
}

#[test]
fn heavy_pairs_are_equal() {
    for pair in heavy::pairs() {
        let outcome = search(&pair.sizes, &pair.left, &pair.right);
        let rows = match outcome.answer {
            Ok(Verdict::Equal { rows }) => rows,
            _ => panic!("{} {:?}", pair.name, outcome.answer),
        };
        let rows = outcome.rows(rows);
        let ruling = ruling(&pair.sizes, &pair.left, &pair.right, &rows);
        assert_eq!(ruling, Ruling::Accepted, "{}", pair.name);
    }
}

/// How many packets a pair has.
fn packets(pair: &heavy::Pair) -> usize {
    let case = Case::Texts {
        tables: pair.tables(),
        left: pair.left.clone().into_bytes(),
        right: pair.right.clone().into_bytes(),
        lists: Lists::new(0, 0, 0),
    };
    case.packets().expect("legal policies")
}

#[test]
fn no_two_packets_are_alike_to_heavy_pairs() {
    let mut pairs = heavy::pairs();
    pairs.extend(heavy::leaks());
    pairs.extend(heavy::small());
    pairs.extend(["id", "dup"].map(|body| heavy::nested_stars(500, body)));
    pairs.extend([heavy::long_counters("f0=1"), heavy::all_but_first()]);
    pairs.extend([fixed::recorded(3), fixed::recorded(4)]);
    for pair in &pairs {
        let (left, right) = (nodes(&pair.left), nodes(&pair.right));
        let told_apart = told_apart(&pair.sizes, &left, &right);
        assert_eq!(packets(pair), told_apart, "{}", pair.name);
    }
}

#[test]
fn heavy_pairs_have_as_many_packets_as_they_say() {
    for (pair, count) in [
        (heavy::nested_stars(511, "id"), 1024),
        (heavy::nested_stars(500, "dup"), 1024),
        (heavy::full_table(), 771),
        (heavy::cycles(), 270),
        (heavy::wide_cycles(), 65),
        (heavy::chain(), 1023),
        (heavy::long_way(), 1001),
        (heavy::many_dups(63), 1024),
        (heavy::own_continuations(31), 1024),
        (heavy::many_rows(5), 1024),
        (heavy::many_states(14), 2),
        (heavy::long_lines(), 5),
    ] {
        assert_eq!(packets(&pair), count, "{}", pair.name);
    }
    let counts = |pairs: Vec<heavy::Pair>| pairs.iter().map(packets).collect::<Vec<_>>();
    assert_eq!(counts(heavy::negations()), [1024; 4]);
    assert_eq!(counts(heavy::among_wide()), [1, 196, 450, 1024, 1024]);
}

#[test]
fn wide_fields_that_nobody_mentions_change_nothing() {
    for (pair, places) in [
        (heavy::leaks().remove(0), [1, 4, 6]),
        (heavy::leaks().remove(1), [0, 1, 7]),
        (heavy::long_way(), [2, 3, 5]),
    ] {
        let among = pair.among_wide(&places);
        assert_eq!(among.sizes.len(), 8);
        assert_eq!(packets(&among), packets(&pair));
        let (one, other) = (&pair, &among);
        let [one, other] = [one, other].map(|p| search(&p.sizes, &p.left, &p.right));
        assert_eq!(one.answer, other.answer);
        assert!(one.lists == other.lists);
    }
}

#[test]
fn small_pairs_have_as_many_rows_as_they_say() {
    for pair in heavy::small() {
        let outcome = search(&pair.sizes, &pair.left, &pair.right);
        let rows = pair.name.split(' ').next().and_then(|n| n.parse().ok());
        let rows = rows.expect("a number of rows");
        assert_eq!(outcome.answer, Ok(Verdict::Equal { rows }), "{}", pair.name);
    }
}

#[test]
fn leaks_are_different() {
    for pair in heavy::leaks() {
        let outcome = search(&pair.sizes, &pair.left, &pair.right);
        assert!(
            matches!(outcome.answer, Ok(Verdict::Different { .. })),
            "{} {:?}",
            pair.name,
            outcome.answer
        );
    }
}

#[test]
fn full_table_is_full() {
    let pair = heavy::full_table();
    let outcome = search(&pair.sizes, &pair.left, &pair.right);
    assert_eq!(outcome.answer, Ok(Verdict::Equal { rows: 65_535 }));
}
