//! Evidence tables, in row order and as a stranger would send them to cost the most.

use netkat_reference::answer::Verdict;
use netkat_reference::automaton::State;
use netkat_reference::case::Case;
use netkat_reference::generate::heavy::{self, Pair, THOUSAND};
use netkat_reference::generate::network;
use netkat_reference::policy::MOST_DUPS;
use netkat_reference::random::Random;
use netkat_reference::search::{self, Lists, LEAST_WORK, MOST_ROWS};

use crate::workload::{nodes, Benchmark, Extent, Group};

/// Packet, left state, right state.
pub type Row = (u16, State, State);

/// The row order of an equal pair, and the last row's parent.
pub fn row_order(pair: &Pair) -> (Vec<Row>, usize) {
    let mut lists = Lists::new(MOST_ROWS, 0, LEAST_WORK);
    let (left, right) = (nodes(&pair.left), nodes(&pair.right));
    let answer = search::search(
        pair.tables().lend(),
        left.lists(),
        right.lists(),
        lists.lend(),
    );
    let rows = match answer {
        Ok(Verdict::Equal { rows }) => rows,
        _ => panic!("{}: {answer:?}", pair.name),
    };
    let order = (0..rows).map(|row| (lists.packet[row], lists.left[row], lists.right[row]));
    (order.collect(), lists.parent[rows - 1].into())
}

pub fn evidence(name: &str, pair: &Pair, rows: &[Row]) -> Benchmark {
    let case = Case::Evidence {
        tables: pair.tables(),
        left: nodes(&pair.left),
        right: nodes(&pair.right),
        lists: Lists {
            packet: rows.iter().map(|row| row.0).collect(),
            left: rows.iter().map(|row| row.1).collect(),
            right: rows.iter().map(|row| row.2).collect(),
            parent: Vec::new(),
            trace: Vec::new(),
            work: vec![0; LEAST_WORK],
        },
    };
    Benchmark::new(Group::Evidence, name, case)
}

/// All tables, the friendly one first.
pub fn benchmarks(extent: Extent) -> Vec<Benchmark> {
    let mut all = orders().to_vec();
    all.extend(negations());
    all.extend(rejected_at_first());
    all.extend(stars(extent));
    all.push(costly_repeats(extent));
    all
}

/// A full table in several orders, and one that is rejected at its last row.
fn orders() -> [Benchmark; 4] {
    let pair = heavy::full_table();
    let (rows, parent) = row_order(&pair);
    let mut reversed = rows.clone();
    reversed.reverse();
    let mut shuffled = rows.clone();
    Random::new(1).shuffle(&mut shuffled);
    // no other row than its parent has the last row as next row
    let mut lacking = rows.clone();
    lacking.pop();
    let parent = lacking.remove(parent);
    lacking.push(parent);
    [
        evidence("row order", &pair, &rows),
        evidence("reversed", &pair, &reversed),
        evidence("shuffled", &pair, &shuffled),
        evidence("rejected at its last row", &pair, &lacking),
    ]
}

/// The same table as one list of records.
fn as_records(table: &Benchmark) -> Benchmark {
    let case = table.cases[0].lent_otherwise().expect("a table");
    Benchmark::new(Group::Records, &table.name, case)
}

/// Tables as records: what one list costs instead of three.
pub fn records(extent: Extent) -> Vec<Benchmark> {
    let mut tables = orders().to_vec();
    tables.extend(rejected_at_first());
    tables.extend(wide(extent));
    tables.push(costly_repeats(extent));
    tables.iter().map(as_records).collect()
}

/// The tables of policies with 63 dups, in row order and as a stranger may send them.
pub fn wide(extent: Extent) -> Vec<Benchmark> {
    let of_pair = |name, pair: Pair| {
        let (rows, _) = row_order(&pair);
        evidence(name, &pair, &rows)
    };
    let pair = every_dup(MOST_DUPS);
    let rows = extent.hostile_rows();
    let mut all = vec![
        of_pair("table of wide cycles", heavy::wide_cycles()),
        of_pair("table of the chain", heavy::chain()),
        of_pair("table of many dups", heavy::many_dups(MOST_DUPS)),
        evidence(
            "one bucket",
            &pair,
            &crowded(rows, MOST_DUPS, of_one_bucket(MOST_DUPS)),
        ),
    ];
    all.iter_mut().for_each(|table| table.group = Group::Wide);
    all
}

/// The tables of policies with negations, in row order.
fn negations() -> impl Iterator<Item = Benchmark> {
    heavy::negations().into_iter().take(2).map(|pair| {
        let (rows, _) = row_order(&pair);
        evidence(&pair.name, &pair, &rows)
    })
}

/// Tables that are good but for their first row: what is paid before any row is looked at.
fn rejected_at_first() -> Vec<Benchmark> {
    let few = heavy::all_but_first();
    let starts: Vec<Row> = (0..few.sizes[0]).map(|packet| (packet, 1, 1)).collect();
    let ring = network::ring(14).rule_orders();
    let full = heavy::full_table();
    vec![
        evidence("rejected at the first of 10 rows", &few, &starts),
        evidence(
            "rejected at the first of 364 rows",
            &ring,
            &first_lacking(&ring),
        ),
        evidence(
            "rejected at the first of 65,535 rows",
            &full,
            &first_lacking(&full),
        ),
    ]
}

/// The row order with the last row's parent first, and a repeat of that instead of the last row.
fn first_lacking(pair: &Pair) -> Vec<Row> {
    let (mut rows, parent) = row_order(pair);
    rows.swap(0, parent);
    let last = rows.len() - 1;
    rows[last] = rows[0];
    rows
}

/// The star of so many dups: whatever is marked, every dup is marked next. So all rows whose states are not 0 keep the rules,
/// if the rows with every dup marked are there.
fn every_dup(dups: usize) -> Pair {
    let policy = format!("({})*", vec!["dup"; dups].join("+"));
    Pair {
        name: "every dup".to_string(),
        sizes: THOUSAND.to_vec(),
        right: format!("{};{policy}", heavy::naming(&THOUSAND)),
        left: policy,
    }
}

/// Packets of the hostile tables: the most there are, which leaves the index the fewest buckets for each.
const PACKETS: u16 = 1024;
/// Dups of the hostile tables that were there before a policy could have more.
const DUPS: usize = 31;

/// Every dup of so many marked.
fn marked(dups: usize) -> State {
    State::MAX >> (MOST_DUPS - dups) & !1
}

/// A table of so many rows that begins with rows of packet 0, as many as are needed, and then holds the row order of
/// `every_dup`. The row that all of them have as next row is indexed after them: a look for it passes those that are in
/// its way.
fn crowded(rows: usize, dups: usize, crowd: impl Iterator<Item = Row>) -> Vec<Row> {
    let order =
        [1, marked(dups)].map(|state| (0..PACKETS).map(move |packet| (packet, state, state)));
    let order: Vec<Row> = order.into_iter().flatten().collect();
    let mut table: Vec<Row> = crowd.take(rows - order.len()).collect();
    table.extend(order);
    assert_eq!(table.len(), rows);
    table
}

/// Different rows of packet 0.
fn of_one_packet() -> impl Iterator<Item = Row> {
    (2..marked(DUPS)).map(|left| (0, left, 1))
}

/// Upper bits of each state by which the rows of a crowd differ: they make more than a full table of rows, even if only one in
/// 64 is in the bucket.
const OWN: usize = 12;

/// Lower bits of each state that all rows of a crowd have in common.
fn common(dups: usize) -> usize {
    dups + 1 - OWN
}

/// Different rows of packet 0 that the index puts into the bucket of their next row, and that have the lower bits of its
/// states. The tree of a bucket branches by the bits of both states in turn, the lowest first: all looks for these rows
/// and for their next row pass the same rows first, one for each bit in common.
fn of_one_bucket(dups: usize) -> impl Iterator<Item = Row> {
    let bucket = Bucket::read();
    let (all, common) = (marked(dups), common(dups));
    let crowd = bucket.of(all, all);
    let last = all >> common;
    let state = move |upper: State| upper << common | all & ((1 << common) - 1);
    (0..last)
        .flat_map(move |left| (0..last).map(move |right| (0, state(left), state(right))))
        .filter(move |&(_, left, right)| bucket.of(left, right) == crowd)
}

/// One row for each bit that the rows of a bucket have in common, and the last of them again and again.
fn of_one_row() -> impl Iterator<Item = Row> {
    let passed: Vec<Row> = of_one_bucket(DUPS).take(2 * common(DUPS)).collect();
    let last = passed[passed.len() - 1];
    passed.into_iter().chain(std::iter::repeat(last))
}

/// Tables in which nearly all rows crowd at one packet.
fn stars(extent: Extent) -> Vec<Benchmark> {
    let pair = every_dup(DUPS);
    let rows = extent.hostile_rows();
    vec![
        evidence("one packet", &pair, &crowded(rows, DUPS, of_one_packet())),
        evidence(
            "one bucket",
            &pair,
            &crowded(rows, DUPS, of_one_bucket(DUPS)),
        ),
        evidence(
            "one bucket, one row repeated",
            &pair,
            &crowded(rows, DUPS, of_one_row()),
        ),
    ]
}

/// One row, with 1,024 next rows, repeated.
fn costly_repeats(extent: Extent) -> Benchmark {
    let pair = heavy::many_dups(DUPS);
    let (mut rows, _) = row_order(&pair);
    let costly = rows[rows.len() - 1];
    rows.resize(extent.hostile_rows(), costly);
    evidence("one row with 1,024 next rows repeated", &pair, &rows)
}

/// How the library's index finds a bucket among those of a packet, by the constants in its source.
struct Bucket {
    factor: u64,
    prime: u64,
}

impl Bucket {
    fn read() -> Bucket {
        let source = include_str!("../../crates/index/src/lib.rt");
        let constant = |name: &str| {
            let (_, rest) = source
                .split_once(&format!("const {name}: usize = "))
                .expect("the index has another hash: choose rows that collide in it");
            let (number, _) = rest.split_once(';').expect("a constant");
            number.parse().expect("a number")
        };
        Bucket {
            factor: constant("HASH_FACTOR"),
            prime: constant("HASH_PRIME"),
        }
    }

    fn of(&self, left: State, right: State) -> u64 {
        // a state goes into the hash half by half, the lower half first, the upper half if it has a bit
        let mix = |hash: u64, half: u64| (hash + half) * self.factor % self.prime;
        let hash = [left, right].iter().fold(0, |hash, state| {
            let lower = mix(hash, state % (1 << 32));
            match state >> 32 {
                0 => lower,
                upper => mix(lower, upper),
            }
        });
        hash % (65_536 / u64::from(PACKETS))
    }
}
