//! The calls against the definitions, followed to the letter and without any automaton: trace sets enumerated as in
//! Figure 1 up to a length, right spines as terms, the row order by scanning. Figure 1 is read over declared packets, which have
//! a value for every declared field; rows and traces number packets over the mentioned fields. What is shown for a number has 0 in
//! the other fields; a trace is lifted along a declared packet if they keep that packet's values.

mod common;

use std::collections::BTreeSet;

use netkat_reference::answer::{Holders, Refusal, Ruling, Side, Verdict};
use netkat_reference::evidence::{self, Record, Table};
use netkat_reference::generate::named::over;
use netkat_reference::generate::run_out;
use netkat_reference::generate::tree::{changed, renumbered, same, tree, widened, Tree};
use netkat_reference::policy::{kind, OwnedLists};
use netkat_reference::random::Random;
use netkat_reference::search::{search, Lists, LEAST_WORK};
use netkat_reference::{packets, traces};

use common::tables;

/// A policy as a term; dups carry their numbers.
#[derive(Clone, Debug)]
enum Term {
    Drop,
    Id,
    Equals(usize, usize),
    Differs(usize, usize),
    Set(usize, usize),
    Dup(usize),
    Sum(Box<Term>, Box<Term>),
    Sequence(Box<Term>, Box<Term>),
    Star(Box<Term>),
    Not(Box<Term>),
}

/// The term of legal node lists.
fn term(lists: &OwnedLists) -> Term {
    let mut terms: Vec<Term> = Vec::new();
    let mut dups = 0;
    for node in 0..lists.kind.len() {
        let (first, second): (usize, usize) = (lists.first[node].into(), lists.second[node].into());
        terms.push(match lists.kind[node] {
            kind::DROP => Term::Drop,
            kind::ID => Term::Id,
            kind::EQUALS => Term::Equals(first, second),
            kind::DIFFERS => Term::Differs(first, second),
            kind::SET => Term::Set(first, second),
            kind::DUP => {
                dups += 1;
                Term::Dup(dups)
            }
            kind::SUM => Term::Sum(terms[first].clone().into(), terms[second].clone().into()),
            kind::SEQUENCE => {
                Term::Sequence(terms[first].clone().into(), terms[second].clone().into())
            }
            kind::STAR => Term::Star(terms[first].clone().into()),
            _ => Term::Not(terms[first].clone().into()),
        });
    }
    terms.pop().expect("a policy has a node")
}

/// A packet as a list of values, one for each declared field.
type Packet = Vec<usize>;
type Traces = BTreeSet<Vec<Packet>>;

/// All declared packets, the first field varying slowest.
fn declared(sizes: &[u16]) -> Vec<Packet> {
    let mut packets = vec![Vec::new()];
    for &size in sizes {
        packets = packets
            .iter()
            .flat_map(|packet: &Packet| {
                (0..usize::from(size)).map(move |value| [&packet[..], &[value]].concat())
            })
            .collect();
    }
    packets
}

/// The fields of which a test or a change stands in node lists.
fn mentioned(lists: &OwnedLists) -> BTreeSet<usize> {
    let nodes = lists.kind.iter().zip(&lists.first);
    nodes
        .filter(|(kind, _)| matches!(**kind, kind::EQUALS | kind::DIFFERS | kind::SET))
        .map(|(_, &field)| field.into())
        .collect()
}

/// Two policies over declared fields.
struct Pair {
    sizes: Vec<u16>,
    left: OwnedLists,
    right: OwnedLists,
    terms: [Term; 2],
    mentioned: BTreeSet<usize>,
    /// By number, the packet that is shown: those with 0 in every field that neither policy mentions.
    shown: Vec<Packet>,
}

impl Pair {
    fn new(sizes: &[u16], left: OwnedLists, right: OwnedLists) -> Pair {
        let mentioned = &mentioned(&left) | &mentioned(&right);
        let mut shown = declared(sizes);
        shown.retain(|packet| {
            let mut fields = packet.iter().enumerate();
            fields.all(|(field, &value)| value == 0 || mentioned.contains(&field))
        });
        Pair {
            sizes: sizes.to_vec(),
            terms: [term(&left), term(&right)],
            left,
            right,
            mentioned,
            shown,
        }
    }

    /// A declared packet with the mentioned fields as they are in another.
    fn lifted(&self, shown: &Packet, along: &Packet) -> Packet {
        let value = |field| match self.mentioned.contains(&field) {
            true => shown[field],
            false => along[field],
        };
        (0..along.len()).map(value).collect()
    }

    /// The declared packets of a number: those that are the shown one in the mentioned fields.
    fn alike(&self, number: usize) -> Vec<Packet> {
        let mut alike = declared(&self.sizes);
        alike.retain(|packet| self.lifted(&self.shown[number], packet) == *packet);
        alike
    }

    /// A trace of numbers lifted along a declared packet.
    fn lifted_trace(&self, trace: &[u16], along: &Packet) -> Vec<Packet> {
        let lifted = |&number: &u16| self.lifted(&self.shown[usize::from(number)], along);
        trace.iter().map(lifted).collect()
    }

    /// Which policies have a trace from a declared packet?
    fn holders(&self, from: &Packet, trace: &[Packet]) -> Holders {
        let [left, right] = &self.terms;
        let has = |term| meaning(term, from, trace.len()).contains(trace);
        match (has(left), has(right)) {
            (true, false) => Holders::Left,
            (false, true) => Holders::Right,
            (true, true) => Holders::Both,
            (false, false) => Holders::Neither,
        }
    }

    /// Have both policies the same traces of at most so many packets from every declared packet?
    fn same_to(&self, most: usize) -> bool {
        let [left, right] = &self.terms;
        let same = |from: &Packet| meaning(left, from, most) == meaning(right, from, most);
        declared(&self.sizes).iter().all(same)
    }

    /// A search's answer, and the lists that it leaves.
    fn search(&self, rows: usize) -> (Result<Verdict, Refusal>, Lists) {
        let mut lists = Lists::new(rows, 5000, LEAST_WORK);
        lists.packet.fill(77);
        lists.parent.fill(78);
        let (left, right) = (self.left.lists(), self.right.lists());
        let answer = search(tables(&self.sizes).lend(), left, right, lists.lend());
        (answer, lists)
    }
}

/// Figure 1: the traces of a term from a packet, those of at most so many packets.
fn meaning(term: &Term, from: &Packet, most: usize) -> Traces {
    if most == 0 {
        return BTreeSet::new();
    }
    let one = |packet: Packet| BTreeSet::from([vec![packet]]);
    match term {
        Term::Drop => BTreeSet::new(),
        Term::Id => one(from.clone()),
        Term::Equals(field, value) if from[*field] == *value => one(from.clone()),
        Term::Differs(field, value) if from[*field] != *value => one(from.clone()),
        Term::Equals(..) | Term::Differs(..) => BTreeSet::new(),
        Term::Set(field, value) => {
            let mut packet = from.clone();
            packet[*field] = *value;
            one(packet)
        }
        Term::Dup(_) if most < 2 => BTreeSet::new(),
        Term::Dup(_) => BTreeSet::from([vec![from.clone(), from.clone()]]),
        Term::Sum(left, right) => &meaning(left, from, most) | &meaning(right, from, most),
        Term::Sequence(left, right) => then(&meaning(left, from, most), right, most),
        Term::Star(body) => {
            let mut all = one(from.clone());
            loop {
                // All powers so far, each with one more round or none.
                let more = &all | &then(&all, body, most);
                if more == all {
                    return all;
                }
                all = more;
            }
        }
        // The traces of tests are of one packet, so those of at most so many are all of them.
        Term::Not(child) if meaning(child, from, most).is_empty() => one(from.clone()),
        Term::Not(_) => BTreeSet::new(),
    }
}

/// All ab of at most so many packets, a·β among the given traces and b a trace of the term from β.
fn then(traces: &Traces, term: &Term, most: usize) -> Traces {
    let mut joined = BTreeSet::new();
    for trace in traces {
        let (last, before) = trace.split_last().expect("a trace is not empty");
        for rest in meaning(term, last, most - before.len()) {
            joined.insert([before, &rest[..]].concat());
        }
    }
    joined
}

/// The right spine at a dup: what remains after it.
fn right_spine(term: &Term, dup: usize) -> Option<Term> {
    match term {
        Term::Dup(number) => (*number == dup).then_some(Term::Id),
        Term::Sum(left, right) => right_spine(left, dup).or_else(|| right_spine(right, dup)),
        Term::Sequence(left, right) => right_spine(left, dup)
            .map(|rest| Term::Sequence(rest.into(), right.clone()))
            .or_else(|| right_spine(right, dup)),
        Term::Star(body) => {
            right_spine(body, dup).map(|rest| Term::Sequence(rest.into(), term.clone().into()))
        }
        _ => None,
    }
}

/// The packets that are one-packet traces.
fn single(term: &Term, from: &Packet) -> BTreeSet<Packet> {
    let traces = meaning(term, from, 1);
    traces.into_iter().map(|trace| trace[0].clone()).collect()
}

/// The dups reached, each with the packet, before any other dup.
fn reached(term: &Term, from: &Packet) -> BTreeSet<(usize, Packet)> {
    match term {
        Term::Dup(number) => BTreeSet::from([(*number, from.clone())]),
        Term::Sum(left, right) => &reached(left, from) | &reached(right, from),
        Term::Sequence(left, right) => {
            let mut all = reached(left, from);
            for packet in single(left, from) {
                all.append(&mut reached(right, &packet));
            }
            all
        }
        Term::Star(body) => single(term, from)
            .iter()
            .flat_map(|packet| reached(body, packet))
            .collect(),
        _ => BTreeSet::new(),
    }
}

/// The remainders that a state marks.
fn remainders(term: &Term, state: u64) -> Vec<Term> {
    (0..64)
        .filter(|bit| state >> bit & 1 == 1)
        .map(|bit| match bit {
            0 => term.clone(),
            dup => right_spine(term, dup).expect("the policy has this dup"),
        })
        .collect()
}

fn output(term: &Term, state: u64, from: &Packet) -> BTreeSet<Packet> {
    remainders(term, state)
        .iter()
        .flat_map(|rest| single(rest, from))
        .collect()
}

fn next(term: &Term, state: u64, from: &Packet, at: &Packet) -> u64 {
    remainders(term, state)
        .iter()
        .flat_map(|rest| reached(rest, from))
        .filter(|(_, packet)| packet == at)
        .fold(0, |marks, (dup, _)| marks | 1 << dup)
}

/// A row with its parent.
type Row = (usize, u64, u64, usize);

/// The row order, up to a bound on its length, and whether it ends at a row whose outputs differ.
fn row_order(pair: &Pair, most: usize) -> (Vec<Row>, Option<usize>) {
    let [left, right] = &pair.terms;
    let mut rows: Vec<Row> = (0..pair.shown.len()).map(|at| (at, 1, 1, at)).collect();
    let mut handled = 0;
    while handled < rows.len() && rows.len() < most {
        let (packet, l, r, _) = rows[handled];
        let from = &pair.shown[packet];
        if output(left, l, from) != output(right, r, from) {
            return (rows, Some(handled));
        }
        for (number, at) in pair.shown.iter().enumerate() {
            let (l, r) = (next(left, l, from, at), next(right, r, from, at));
            let listed = rows
                .iter()
                .any(|row| (row.0, row.1, row.2) == (number, l, r));
            if (l, r) != (0, 0) && !listed {
                rows.push((number, l, r, handled));
            }
        }
        handled += 1;
    }
    (rows, None)
}

const SIZES: [&[u16]; 9] = [
    &[1],
    &[2],
    &[3],
    &[2, 2],
    &[1, 2],
    &[4],
    &[3, 2],
    &[2, 1, 2],
    &[2, 2, 2],
];

/// Declared sizes, and the fields that policies are made over: all, or some.
fn fields(random: &mut Random) -> (&'static [u16], Vec<u16>) {
    let sizes = random.pick(&SIZES);
    let mut spoken: Vec<u16> = (0..sizes.len() as u16).collect();
    if random.one_in(2) {
        random.shuffle(&mut spoken);
        spoken.truncate(random.between(1, sizes.len()));
        spoken.sort_unstable();
    }
    (sizes, spoken)
}

fn sizes_of(sizes: &[u16], spoken: &[u16]) -> Vec<u16> {
    let size = |&field: &u16| sizes[usize::from(field)];
    spoken.iter().map(size).collect()
}

/// A random pair of small policies.
fn pair(random: &mut Random) -> Pair {
    let (sizes, spoken) = fields(random);
    let own = sizes_of(sizes, &spoken);
    let nodes = random.between(1, 9);
    let left = tree(random, &own, nodes, 3);
    let right = match random.below(4) {
        0 => {
            let nodes = random.between(1, 9);
            tree(random, &own, nodes, 3)
        }
        1 => changed(random, &own, &left),
        _ => same(random, &own, &left),
    };
    // Some with many dups, of which most mean the same.
    let (left, right) = match random.below(6) {
        0 => (left, wide(random, &right)),
        1 => (wide(random, &left), wide(random, &right)),
        _ => (left, right),
    };
    let [left, right] = [left, right].map(|policy| over(&spoken, &policy).lists());
    let left = renumbered(random, left.lists());
    Pair::new(sizes, left, right)
}

fn wide(random: &mut Random, policy: &Tree) -> Tree {
    let dups = random.between(32, 63);
    widened(random, policy, dups)
}

/// A random pair that may list many rows, some of them deep.
fn recording_pair(random: &mut Random) -> Pair {
    if random.one_in(2) {
        return pair(random);
    }
    let (sizes, spoken) = fields(random);
    let (left, right) = run_out::pair(random, &sizes_of(sizes, &spoken));
    let [left, right] = [left, right].map(|policy| over(&spoken, &policy).lists());
    Pair::new(sizes, left, right)
}

/// Steps from a starting row to this one.
fn depth(rows: &[Row], mut row: usize) -> usize {
    let mut steps = 0;
    while rows[row].3 != row {
        row = rows[row].3;
        steps += 1;
    }
    steps
}

#[test]
fn verdicts_agree_with_figure_one() {
    const MOST: usize = 4;
    let mut random = Random::new(11);
    // Equal and different ones, and those of either with a field that nobody mentions and that has several values.
    let mut seen = [[0; 2]; 2];
    for _ in 0..2000 {
        let pair = pair(&mut random);
        let fewer = usize::from(pair.shown.len() < declared(&pair.sizes).len());
        let (answer, lists) = pair.search(5000);
        match answer.unwrap() {
            Verdict::Equal { .. } => {
                seen[0][fewer] += 1;
                assert!(pair.same_to(MOST), "{:?} {:?}", pair.left, pair.right);
            }
            Verdict::Different {
                side,
                length,
                entering,
            } => {
                seen[1][fewer] += 1;
                let expected = match side {
                    Side::Left => Holders::Left,
                    Side::Right => Holders::Right,
                };
                let trace = &lists.trace[..length];
                let shown = &pair.shown[usize::from(entering)];
                let shown_trace: Vec<Packet> = trace
                    .iter()
                    .map(|&number| pair.shown[usize::from(number)].clone())
                    .collect();
                assert_eq!(pair.holders(shown, &shown_trace), expected);
                for from in pair.alike(entering.into()) {
                    let lifted = pair.lifted_trace(trace, &from);
                    assert_eq!(pair.holders(&from, &lifted), expected);
                }
                // No shorter trace tells them apart, from any declared packet.
                assert!(pair.same_to(length - 1), "{:?} {:?}", pair.left, pair.right);
            }
        }
    }
    assert!(seen.iter().flatten().all(|&count| count > 150), "{seen:?}");
}

#[test]
fn traces_keep_what_nobody_mentions() {
    let mut random = Random::new(16);
    let (mut kept, mut lifted) = (0, 0);
    for _ in 0..600 {
        let pair = pair(&mut random);
        for from in declared(&pair.sizes) {
            let shown = pair.lifted(&from, &vec![0; from.len()]);
            for term in &pair.terms {
                // The traces from a declared packet are those from its shown one, lifted.
                let traces = meaning(term, &from, 3);
                let of_shown = meaning(term, &shown, 3);
                kept += traces.len();
                lifted += usize::from(from != shown && !traces.is_empty());
                let along = |trace: &Vec<Packet>| -> Vec<Packet> {
                    let lift = |packet| pair.lifted(packet, &from);
                    trace.iter().map(lift).collect()
                };
                assert_eq!(traces, of_shown.iter().map(along).collect());
            }
        }
    }
    assert!(kept > 3000 && lifted > 1000, "{kept} {lifted}");
}

#[test]
fn packets_are_turned_over_the_mentioned_fields() {
    let mut random = Random::new(17);
    let mut uncounted = 0;
    for _ in 0..1500 {
        let pair = pair(&mut random);
        let tables = tables(&pair.sizes);
        let (left, right) = (pair.left.lists(), pair.right.lists());
        for (number, shown) in pair.shown.iter().enumerate() {
            let mut values = vec![9; pair.sizes.len()];
            let answer = packets::values(tables.lend(), left, right, number as u16, &mut values);
            assert_eq!(answer, Ok(()));
            let values: Packet = values.iter().map(|&value| value.into()).collect();
            assert_eq!(values, *shown);
            for packet in pair.alike(number) {
                uncounted += usize::from(packet != *shown);
                let values: Vec<u16> = packet.iter().map(|&value| value as u16).collect();
                let answer = packets::number(tables.lend(), left, right, &values);
                assert_eq!(answer, Ok(number as u16));
            }
        }
        let mut values = vec![9; pair.sizes.len()];
        let count = pair.shown.len() as u16;
        let answer = packets::values(tables.lend(), left, right, count, &mut values);
        assert_eq!(answer, Err(Refusal::new(13, 0)));
        for (field, &size) in pair.sizes.iter().enumerate() {
            let mut values = vec![0; pair.sizes.len()];
            values[field] = size;
            let answer = packets::number(tables.lend(), left, right, &values);
            assert_eq!(answer, Err(Refusal::new(13, field)));
        }
    }
    assert!(uncounted > 1000, "{uncounted}");
}

#[test]
fn rows_are_the_row_order() {
    const MOST: usize = 80;
    let mut random = Random::new(12);
    let (mut longer, mut full, mut deep) = (0, 0, 0);
    for _ in 0..1500 {
        let pair = recording_pair(&mut random);
        let (expected, telling) = row_order(&pair, MOST);
        if telling.is_none() && expected.len() >= MOST {
            continue;
        }
        longer += usize::from(expected.len() > pair.shown.len() + 2);
        let room = random.below(expected.len() + 3);
        full += usize::from(room < expected.len());
        let (answer, lists) = pair.search(room);
        for row in 0..room {
            let listed = (
                lists.packet[row].into(),
                lists.left[row],
                lists.right[row],
                lists.parent[row].into(),
            );
            let unlisted = (77, 0, 0, 78);
            assert_eq!(listed, *expected.get(row).unwrap_or(&unlisted));
        }
        match (answer, telling) {
            (Err(refusal), _) => {
                assert!(room < expected.len());
                // The row being handled is the parent of the first row that does not fit.
                let agreed = match room < pair.shown.len() {
                    true => 0,
                    false => depth(&expected, expected[room].3),
                };
                deep += usize::from(agreed > 2);
                assert_eq!(refusal, Refusal::new(11, room).agreed_to(agreed));
            }
            (Ok(Verdict::Equal { rows }), None) => assert_eq!(rows, expected.len()),
            (Ok(Verdict::Different { length, .. }), Some(row)) => {
                assert_eq!(length, depth(&expected, row) + 1);
            }
            other => panic!("{other:?}"),
        }
    }
    assert!(
        longer > 200 && full > 200 && deep > 100,
        "{longer} {full} {deep}"
    );
}

#[test]
fn where_rows_run_out_the_traces_agree_to_a_length() {
    const MOST: usize = 5;
    let mut random = Random::new(15);
    let mut by_length = [0; MOST + 1];
    // Pairs that are different, and those of them that the next length tells apart.
    let (mut different, mut next_tells) = (0, 0);
    for _ in 0..2500 {
        let pair = recording_pair(&mut random);
        let (ample, lists) = pair.search(3000);
        // No row has two empty states.
        let states = lists.left.iter().zip(&lists.right);
        let listed = states.take_while(|&(left, right)| left | right != 0);
        let rows = match ample {
            Ok(_) => random.below(listed.count()),
            _ => continue,
        };
        let agreed = match pair.search(rows).0 {
            Err(refusal) => refusal.agreed as usize,
            other => panic!("{other:?}"),
        };
        by_length[agreed.min(MOST)] += 1;
        if let Ok(Verdict::Different { length, .. }) = ample {
            assert!(agreed < length);
            different += 1;
            next_tells += usize::from(agreed + 1 == length);
        }
        assert!(pair.same_to(agreed.min(MOST)));
    }
    assert!(by_length.iter().all(|&count| count > 20), "{by_length:?}");
    assert!(
        different > 100 && next_tells > 50,
        "{different} {next_tells}"
    );
}

#[test]
fn traces_agree_with_figure_one() {
    let mut random = Random::new(13);
    let mut seen = [0; 4];
    let mut lifted = 0;
    for _ in 0..4000 {
        let pair = pair(&mut random);
        let length = random.below(4);
        let count = pair.shown.len();
        let entering = random.below(count);
        let trace: Vec<u16> = (0..length).map(|_| random.below(count) as u16).collect();
        let mut work = vec![1; LEAST_WORK];
        let (left, right) = (pair.left.lists(), pair.right.lists());
        let answer = traces::check(
            tables(&pair.sizes).lend(),
            left,
            right,
            entering as u16,
            &trace,
            &mut work,
        );
        let answer = answer.unwrap();
        seen[match answer {
            Holders::Left => 0,
            Holders::Right => 1,
            Holders::Both => 2,
            Holders::Neither => 3,
        }] += 1;
        // The shown packet is one of them.
        for from in pair.alike(entering) {
            let along = pair.lifted_trace(&trace, &from);
            assert_eq!(pair.holders(&from, &along), answer);
            lifted += usize::from(from != pair.shown[entering]);
        }
    }
    assert!(seen.iter().all(|&count| count > 20), "{seen:?}");
    assert!(lifted > 1000, "{lifted}");
}

/// The row rules, one after the other.
fn ruling(pair: &Pair, rows: &[(usize, u64, u64)]) -> Ruling {
    let [left, right] = &pair.terms;
    let dups = |lists: &OwnedLists| lists.kind.iter().filter(|&&k| k == kind::DUP).count();
    let dups = [dups(&pair.left), dups(&pair.right)];
    let in_range = |mask: u64, dups: usize| u128::from(mask) < 1 << (dups + 1);
    for (row, &(packet, l, r)) in rows.iter().enumerate() {
        if packet >= pair.shown.len() || !in_range(l, dups[0]) || !in_range(r, dups[1]) {
            return Ruling::OutOfRange { row };
        }
    }
    for packet in 0..pair.shown.len() {
        if !rows.contains(&(packet, 1, 1)) {
            return Ruling::NoStart { packet };
        }
    }
    for (row, &(packet, l, r)) in rows.iter().enumerate() {
        let from = &pair.shown[packet];
        if output(left, l, from) != output(right, r, from) {
            return Ruling::OutputsDiffer { row };
        }
        for (packet, at) in pair.shown.iter().enumerate() {
            let (l, r) = (next(left, l, from, at), next(right, r, from, at));
            if (l, r) != (0, 0) && !rows.contains(&(packet, l, r)) {
                return Ruling::NextMissing { row, packet };
            }
        }
    }
    Ruling::Accepted
}

#[test]
fn tables_are_ruled_on_by_the_row_rules() {
    const MOST: usize = 4;
    let mut random = Random::new(14);
    let mut seen = [0; 5];
    for _ in 0..3000 {
        let pair = pair(&mut random);
        let (order, _) = row_order(&pair, 40);
        let mut rows: Vec<(usize, u64, u64)> =
            order.iter().map(|row| (row.0, row.1, row.2)).collect();
        random.shuffle(&mut rows);
        if random.one_in(3) {
            rows.push((random.below(pair.shown.len()), 0, 0));
            rows.push(rows[0]);
        }
        let place = random.below(rows.len());
        match random.below(7) {
            0 => drop(rows.remove(place)),
            1 => rows[place].1 ^= 1 << random.pick(&[0, 1, 2, 3, 32, 63]),
            2 => rows[place].2 ^= 1 << random.pick(&[0, 1, 2, 3, 31, 62]),
            3 => rows[place].0 += 1,
            _ => {}
        }
        let expected = ruling(&pair, &rows);
        seen[match expected {
            Ruling::Accepted => 0,
            Ruling::OutOfRange { .. } => 1,
            Ruling::NoStart { .. } => 2,
            Ruling::OutputsDiffer { .. } => 3,
            Ruling::NextMissing { .. } => 4,
        }] += 1;
        // Accepted says the same traces from every declared packet.
        if expected == Ruling::Accepted {
            assert!(pair.same_to(MOST));
        }
        let packet: Vec<u16> = rows.iter().map(|row| row.0 as u16).collect();
        let left_states: Vec<u64> = rows.iter().map(|row| row.1).collect();
        let right_states: Vec<u64> = rows.iter().map(|row| row.2).collect();
        let table = Table {
            packet: &packet,
            left: &left_states,
            right: &right_states,
        };
        let mut work = vec![1; LEAST_WORK];
        let (left, right) = (pair.left.lists(), pair.right.lists());
        let names = tables(&pair.sizes);
        let answer = evidence::check(names.lend(), left, right, table, &mut work);
        assert_eq!(answer, Ok(expected));
        let record = |&(packet, left, right): &(usize, u64, u64)| Record {
            packet: packet as u16,
            left,
            right,
            parent: random.bits() as u16,
        };
        let records: Vec<Record> = rows.iter().map(record).collect();
        let answer = evidence::check_records(names.lend(), left, right, &records, &mut work);
        assert_eq!(answer, Ok(expected));
    }
    assert!(seen.iter().all(|&count| count > 50), "{seen:?}");
}

#[test]
fn the_row_order_of_an_equal_pair_is_accepted() {
    let mut random = Random::new(18);
    let (mut accepted, mut rejected) = (0, 0);
    for _ in 0..1500 {
        let pair = pair(&mut random);
        let (answer, lists) = pair.search(3000);
        let states = lists.left.iter().zip(&lists.right);
        let rows = states.take_while(|&(left, right)| left | right != 0);
        let rows = rows.count();
        let table = Table {
            packet: &lists.packet[..rows],
            left: &lists.left[..rows],
            right: &lists.right[..rows],
        };
        let mut work = vec![1; LEAST_WORK];
        let (left, right) = (pair.left.lists(), pair.right.lists());
        let names = tables(&pair.sizes);
        let ruled = evidence::check(names.lend(), left, right, table, &mut work);
        let equal = matches!(answer, Ok(Verdict::Equal { .. }));
        assert_eq!(ruled == Ok(Ruling::Accepted), equal);
        accepted += usize::from(equal);
        rejected += usize::from(!equal);
    }
    assert!(accepted > 300 && rejected > 300, "{accepted} {rejected}");
}
