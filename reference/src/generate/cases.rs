//! Whole calls: inputs, lent lists and what stands in them.

use super::damage;
use super::lent::entry;
use super::named::{self, named, Named};
use super::run_out;
use super::tree::{self, Tree};
use crate::answer::{Refusal, Verdict};
use crate::automaton::{Automaton, State, Step, START};
use crate::case::Case;
use crate::evidence::Record;
use crate::names::{Fields, OwnedTables, MOST_FIELDS};
use crate::packets::{set, Packets};
use crate::policy::{self, OwnedLists, Pair, Policy, MOST_DUPS, MOST_NODES};
use crate::random::Random;
use crate::search::{search, Lists, LEAST_WORK, MOST_ROWS};

/// How large cases may grow.
#[derive(Clone, Copy, Debug, PartialEq, Eq)]
pub enum Extent {
    /// Few packets, short lists: cases that a slow harness runs by the thousand.
    Small,
    /// Up to 1,024 packets and tens of thousands of rows.
    Large,
}

/// A random call with everything it is handed.
pub fn case(random: &mut Random, extent: Extent) -> Case {
    match random.below(24) {
        0 | 1 => values(random, extent),
        2 | 3 => number(random, extent),
        4 | 5 => policy_case(random, extent),
        6 | 7 => read(random),
        8..=11 => search_case(random, extent),
        12 | 13 => texts(random, extent),
        14..=17 => evidence(random, extent),
        18 | 19 => trace(random, extent),
        20 | 21 => run_out::case(random, extent),
        _ => program(random, extent),
    }
}

/// Joint fields, and those of them that policies are made over.
#[derive(Clone, Debug)]
pub(super) struct Header {
    /// By joint field.
    pub(super) sizes: Vec<u16>,
    /// Together they make at most 1,024 packets. The others may have any sizes.
    pub(super) spoken: Vec<u16>,
}

impl Header {
    /// The sizes of the fields that policies are made over.
    pub(super) fn spoken_sizes(&self) -> Vec<u16> {
        let size = |&field: &u16| self.sizes[usize::from(field)];
        self.spoken.iter().map(size).collect()
    }

    /// Some field with one of its values.
    fn any_value(&self, random: &mut Random) -> (u16, u16) {
        let field = random.below(self.sizes.len());
        let value = random.below(self.sizes[field].into());
        (field as u16, value as u16)
    }
}

/// Fields for policies, in half of the cases among others.
pub(super) fn header(random: &mut Random, extent: Extent) -> Header {
    let own = legal_sizes(random, extent);
    let mut fields: Vec<(u16, bool)> = own.into_iter().map(|size| (size, true)).collect();
    if random.one_in(2) {
        for _ in 0..random.below(MOST_FIELDS - fields.len() + 1) {
            let place = random.below(fields.len() + 1);
            fields.insert(place, (any_size(random), false));
        }
    }
    let spoken = (0u16..).zip(&fields).filter(|(_, field)| field.1);
    Header {
        spoken: spoken.map(|(field, _)| field).collect(),
        sizes: fields.iter().map(|field| field.0).collect(),
    }
}

/// A size that a field may have that nobody mentions.
fn any_size(random: &mut Random) -> u16 {
    match random.below(3) {
        0 => random.between(1, 65_535) as u16,
        _ => random.pick(&[1, 2, 7, 1_000, 1_023, 1_024, 1_025, 4_096, 32_768, 65_535]),
    }
}

/// Sizes of fields that make at most 1,024 packets.
fn legal_sizes(random: &mut Random, extent: Extent) -> Vec<u16> {
    const SMALL: &[&[u16]] = &[
        &[1],
        &[2],
        &[2],
        &[3],
        &[4],
        &[1, 1],
        &[2, 2],
        &[2, 3],
        &[3, 1],
        &[2, 2, 2],
        &[1, 2, 1],
        &[5, 2],
        &[9],
        &[3, 3, 2, 2],
    ];
    const LARGE: &[&[u16]] = &[
        &[32, 32],
        &[1024],
        &[2, 2, 2, 2, 2, 2, 2, 2],
        &[2, 2, 2, 2, 2, 2, 4, 4],
        &[4, 4, 4, 4, 4],
        &[65],
        &[64],
        &[63],
        &[5, 13],
        &[3, 11, 31],
        &[7, 11, 13],
        &[1, 1, 1, 1, 1, 1, 1, 1],
        &[128, 2],
    ];
    let large = match extent {
        Extent::Small => random.one_in(60),
        Extent::Large => random.one_in(3),
    };
    random.pick(if large { LARGE } else { SMALL }).to_vec()
}

/// Tables, a few of them damaged. Policies are made over the legal ones.
fn tables(random: &mut Random, legal: &Named, one_damaged_in: usize) -> OwnedTables {
    if random.one_in(one_damaged_in) {
        damage::tables(random, legal)
    } else {
        legal.tables.clone()
    }
}

/// Of so many calls on policies or texts, one has damaged tables.
const SELDOM: usize = 12;

/// What packets are turned by: two policies over fields that may make many packets.
fn turned(random: &mut Random, extent: Extent) -> (Vec<u16>, OwnedLists, OwnedLists) {
    let header = header(random, Extent::Large);
    let (left, right) = numbered_over(random, &header, extent);
    (header.sizes, left, right)
}

fn values(random: &mut Random, extent: Extent) -> Case {
    let (legal, left, right) = turned(random, extent);
    let packets = packet_count(&legal, &left, &right);
    // what all declared fields would make, in so few bits
    let declared = legal.iter().fold(1u16, |all, &size| all.wrapping_mul(size));
    let number = match random.below(8) {
        0 => random.bits() as u16,
        1 => packets as u16,
        2 => (packets - 1) as u16,
        3 => declared,
        4 => declared.wrapping_sub(1),
        _ => random.below(packets) as u16,
    };
    let length = match random.below(8) {
        0 => random.below(11),
        _ => legal.len(),
    };
    let values = (0..length).map(|_| random.bits() as u16).collect();
    let (left, right) = damaged_pair(random, &legal, left, right);
    let named = named(random, &legal);
    Case::Values {
        tables: tables(random, &named, 3),
        left,
        right,
        number,
        values,
    }
}

fn number(random: &mut Random, extent: Extent) -> Case {
    let (legal, left, right) = turned(random, extent);
    let mut values: Vec<u16> = legal
        .iter()
        .map(|&size| random.below(size.into()) as u16)
        .collect();
    let place = random.below(values.len());
    match random.below(8) {
        0 => values[place] = legal[place],
        1 => values[place] = random.bits() as u16,
        2 => values.push(0),
        3 => values.truncate(place),
        _ => {}
    }
    let (left, right) = damaged_pair(random, &legal, left, right);
    let named = named(random, &legal);
    Case::Number {
        tables: tables(random, &named, 3),
        left,
        right,
        values,
    }
}

/// A random tree of a size that the extent allows.
fn random_tree(random: &mut Random, sizes: &[u16], extent: Extent) -> Tree {
    if random.one_in(100) {
        return damage::deep(random);
    }
    let nodes = match (extent, random.below(10)) {
        (_, 0) => 1,
        (Extent::Small, 1) => random.between(12, 30),
        (Extent::Large, 1..=5) => random.between(12, 120),
        _ => random.between(2, 12),
    };
    let dups = match extent {
        Extent::Small => 6,
        Extent::Large => 14,
    };
    tree::tree(random, sizes, nodes, dups)
}

/// Two trees, often with the same traces.
fn pair(random: &mut Random, sizes: &[u16], extent: Extent) -> (Tree, Tree) {
    let left = random_tree(random, sizes, extent);
    let right = match random.below(8) {
        0 => random_tree(random, sizes, extent),
        1 | 2 => {
            let same = tree::same(random, sizes, &left);
            tree::changed(random, sizes, &same)
        }
        3 => left.clone(),
        _ => tree::same(random, sizes, &left),
    };
    // Laws may double dups past what is legal; damaged policies are made elsewhere.
    let right = if_legal(right, left.clone());
    let (left, right) = match random.below(9) {
        0 => {
            // so that the last dups are often reached
            let recorded = |policy: Tree| {
                let recorded = tree::sequence(policy.clone(), tree::star(Tree::Dup));
                if_legal(recorded, policy)
            };
            (wide(random, recorded(left)), wide(random, recorded(right)))
        }
        1 => (left, wide(random, right)),
        _ => (left, right),
    };
    let right = match (extent, random.below(6)) {
        (_, 0) => mentioning(random, sizes, right),
        (_, 1) | (Extent::Large, 2 | 3) => naming(sizes, right),
        _ => right,
    };
    if random.one_in(2) {
        (left, right)
    } else {
        (right, left)
    }
}

/// What was made of a policy, or the policy if that has too many dups or nodes.
pub(super) fn if_legal(made: Tree, policy: Tree) -> Tree {
    if made.dups() <= MOST_DUPS && made.size() <= MOST_NODES {
        made
    } else {
        policy
    }
}

/// A policy with the same traces and 32 to 63 dups, often as many as may be, if it has nodes to spare.
fn wide(random: &mut Random, policy: Tree) -> Tree {
    let dups = match random.below(6) {
        0..=2 => MOST_DUPS,
        3 => MOST_DUPS - 1,
        _ => random.between(32, MOST_DUPS),
    };
    if_legal(tree::widened(random, &policy, dups), policy)
}

/// A policy with the same traces that mentions one of these fields besides, if it has nodes to spare.
pub(super) fn mentioning(random: &mut Random, sizes: &[u16], policy: Tree) -> Tree {
    let field = random.below(sizes.len());
    let value = random.below(sizes[field].into());
    let made = tree::mentioning(random, field as u16, value as u16, policy.clone());
    if_legal(made, policy)
}

/// A policy with the same traces to which no two packets over these fields are alike, if it has nodes to spare.
pub(super) fn naming(sizes: &[u16], policy: Tree) -> Tree {
    let made = tree::sequence(tree::naming(sizes), policy.clone());
    if_legal(made, policy)
}

/// Node lists of a tree, in some numbering.
pub(super) fn numbered(random: &mut Random, policy: &Tree) -> OwnedLists {
    let lists = policy.lists();
    if random.one_in(2) {
        tree::renumbered(random, lists.lists())
    } else {
        lists
    }
}

/// Joint sizes and two policies over some of these fields, often with the same traces.
pub fn numbered_pair(random: &mut Random, extent: Extent) -> (Vec<u16>, OwnedLists, OwnedLists) {
    let header = header(random, extent);
    let (left, right) = numbered_over(random, &header, extent);
    (header.sizes, left, right)
}

/// The policies, over these fields.
fn numbered_over(random: &mut Random, header: &Header, extent: Extent) -> (OwnedLists, OwnedLists) {
    let (left, right) = pair(random, &header.spoken_sizes(), extent);
    let mut lists = |tree| numbered(random, &named::over(&header.spoken, tree));
    (lists(&left), lists(&right))
}

/// The policies with their packets, if they are legal.
pub(super) fn legal(sizes: &[u16], left: &OwnedLists, right: &OwnedLists) -> Option<Pair> {
    let fields = Fields::new(OwnedTables::numbered(sizes).lend()).ok()?;
    policy::pair(&fields, left.lists(), right.lists()).ok()
}

/// How many packets the policies make; 1 if they are not legal.
pub(super) fn packet_count(sizes: &[u16], left: &OwnedLists, right: &OwnedLists) -> usize {
    legal(sizes, left, right).map_or(1, |pair| pair.numbering.count())
}

fn policy_case(random: &mut Random, extent: Extent) -> Case {
    let header = header(random, extent);
    let tree = random_tree(random, &header.spoken_sizes(), extent);
    let mut policy = numbered(random, &named::over(&header.spoken, &tree));
    if !random.one_in(4) {
        policy = damage::nodes(random, &header.sizes, &policy);
    }
    let named = named(random, &header.sizes);
    let tables = tables(random, &named, SELDOM);
    Case::Policy { tables, policy }
}

/// A text of a tree, perhaps damaged.
fn text(random: &mut Random, names: &[String], policy: &Tree, one_damaged_in: usize) -> Vec<u8> {
    let text = tree::text(random, names, policy);
    if random.one_in(one_damaged_in) {
        damage::text(random, &text)
    } else {
        text
    }
}

fn read(random: &mut Random) -> Case {
    let header = header(random, Extent::Large);
    let named = named(random, &header.sizes);
    let spoken = named.spoken(random);
    let tree = random_tree(random, &named.sizes_of(&spoken), Extent::Small);
    let tree = named::over(&spoken, &tree);
    let text = text(random, &named.names, &tree, 2);
    let needed = tree.size();
    let mut length = || match random.below(8) {
        0 => needed,
        1 => needed.saturating_sub(1),
        2 => random.below(needed + 1),
        3 => 512,
        _ => needed + random.below(20),
    };
    let lengths = [length(), length(), length()];
    let nodes = OwnedLists {
        kind: entries(random, lengths[0])
            .iter()
            .map(|&e| e as u8)
            .collect(),
        first: narrow(&entries(random, lengths[1])),
        second: narrow(&entries(random, lengths[2])),
    };
    Case::Read {
        tables: tables(random, &named, 8),
        side: random.pick(&[0, 1, 1, 1, 2, 2, 2, 3, 255]),
        text,
        nodes,
    }
}

/// What stands in a lent list before: another number at each place, with some at random at the head.
fn entries(random: &mut Random, length: usize) -> Vec<u64> {
    let first = random.bits();
    let mut entries: Vec<u64> = (0..length).map(|place| entry(first, place)).collect();
    for entry in entries.iter_mut().take(random.below(6)) {
        *entry = random.bits();
    }
    entries
}

fn narrow(entries: &[u64]) -> Vec<u16> {
    entries.iter().map(|&entry| entry as u16).collect()
}

/// A work list, now and then too short.
fn work(random: &mut Random) -> Vec<u32> {
    let length = match random.below(60) {
        0 => LEAST_WORK - 1,
        1 => random.below(LEAST_WORK),
        2 => LEAST_WORK + random.between(1, 100),
        _ => LEAST_WORK,
    };
    let words = entries(random, length);
    words.iter().map(|&entry| entry as u32).collect()
}

/// What the search needs for two policies.
pub(super) struct Needs {
    answer: Result<Verdict, Refusal>,
    lists: Lists,
    /// Rows listed at the end; how many there were room for, if that was too few.
    pub(super) rows: usize,
    trace: usize,
}

/// Searches with ample lists, to know what a search needs.
pub(super) fn needs(sizes: &[u16], left: &OwnedLists, right: &OwnedLists, extent: Extent) -> Needs {
    let room = match extent {
        Extent::Small => 4_000,
        Extent::Large => MOST_ROWS,
    };
    let mut lists = Lists::new(room, room, LEAST_WORK);
    // No row has two empty states, so what is not 0 was written.
    let tables = OwnedTables::numbered(sizes);
    let (one, other) = (left.lists(), right.lists());
    let answer = search(tables.lend(), one, other, lists.lend());
    let rows = lists
        .left
        .iter()
        .zip(&lists.right)
        .take_while(|(left, right)| **left != 0 || **right != 0)
        .count();
    let trace = match answer {
        Ok(Verdict::Different { length, .. }) => length,
        _ => 0,
    };
    Needs {
        answer,
        lists,
        rows,
        trace,
    }
}

/// Lists to lend: ample, just enough, too short, unequal, too long.
fn lent(random: &mut Random, needs: &Needs) -> Lists {
    let rows = match random.below(12) {
        0..=2 => needs.rows,
        3 => needs.rows.saturating_sub(1),
        4 => random.below(needs.rows + 1),
        _ => needs.rows + random.between(1, 9),
    };
    let rows = match random.below(80) {
        0 => MOST_ROWS,
        1 => MOST_ROWS + 1,
        2 => random.between(MOST_ROWS + 1, MOST_ROWS + 99),
        _ => rows.min(MOST_ROWS),
    };
    let mut lengths = [rows; 4];
    if random.one_in(30) {
        let list = random.below(4);
        lengths[list] = match random.below(3) {
            0 => rows + 1,
            1 => rows.saturating_sub(1),
            _ => random.below(rows + 9),
        };
    }
    let trace = match random.below(8) {
        0 => needs.trace.saturating_sub(1),
        1 => random.below(needs.trace + 1),
        2 | 3 => needs.trace,
        _ => needs.trace + random.between(1, 5),
    };
    lists_of(random, lengths, trace)
}

/// Lists with four row lists and a trace list of these lengths.
pub(super) fn lists_of(random: &mut Random, lengths: [usize; 4], trace: usize) -> Lists {
    Lists {
        packet: narrow(&entries(random, lengths[0])),
        left: entries(random, lengths[1]),
        right: entries(random, lengths[2]),
        parent: narrow(&entries(random, lengths[3])),
        trace: narrow(&entries(random, trace)),
        work: work(random),
    }
}

/// Damages one policy or both, now and then; a damage may be that a field is mentioned besides, and so too many packets made.
fn damaged_pair(
    random: &mut Random,
    sizes: &[u16],
    left: OwnedLists,
    right: OwnedLists,
) -> (OwnedLists, OwnedLists) {
    match random.below(24) {
        0 => (damage::nodes(random, sizes, &left), right),
        1 => {
            let right = damage::nodes(random, sizes, &right);
            (left, right)
        }
        2 => {
            let right = damage::nodes(random, sizes, &right);
            (damage::nodes(random, sizes, &left), right)
        }
        3 => (damage::mentioning(random, sizes, &left), right),
        4 => {
            let right = damage::mentioning(random, sizes, &right);
            (left, right)
        }
        5 => {
            let right = damage::mentioning(random, sizes, &right);
            (damage::nodes(random, sizes, &left), right)
        }
        _ => (left, right),
    }
}

fn search_case(random: &mut Random, extent: Extent) -> Case {
    let (legal, left, right) = numbered_pair(random, extent);
    let needs = needs(&legal, &left, &right, extent);
    let lists = lent(random, &needs);
    let (left, right) = damaged_pair(random, &legal, left, right);
    let named = named(random, &legal);
    Case::Search {
        tables: tables(random, &named, SELDOM),
        left,
        right,
        lists,
    }
}

/// Tables and two trees over the fields that texts are made over.
fn spoken_pair(random: &mut Random, extent: Extent) -> (Named, Tree, Tree) {
    let header = header(random, extent);
    let named = named(random, &header.sizes);
    let shared = named.spoken(random);
    let mut spoken = header.spoken.clone();
    spoken.retain(|field| shared.contains(field));
    if spoken.is_empty() {
        spoken = header.spoken.clone();
    }
    let (left, right) = pair(random, &named.sizes_of(&spoken), extent);
    let (mut left, mut right) = (named::over(&spoken, &left), named::over(&spoken, &right));
    // any field, so that too many packets may be made
    let (field, value) = header.any_value(random);
    match random.below(24) {
        0 => left = if_legal(tree::mentioning(random, field, value, left.clone()), left),
        1 => right = if_legal(tree::mentioning(random, field, value, right.clone()), right),
        _ => {}
    }
    (named, left, right)
}

fn texts(random: &mut Random, extent: Extent) -> Case {
    let (named, left, right) = spoken_pair(random, extent);
    let needs = needs(&named.sizes, &left.lists(), &right.lists(), extent);
    let lists = lent(random, &needs);
    let (left, right) = text_pair(random, &named, &left, &right);
    Case::Texts {
        tables: other_tables(random, &named),
        left,
        right,
        lists,
    }
}

/// Tables for texts, now and then with other sizes, so that values may be out of range, or too many packets made.
fn other_tables(random: &mut Random, named: &Named) -> OwnedTables {
    let mut tables = tables(random, named, SELDOM);
    if random.one_in(12) {
        let size = random.pick(&[1, 1, 1_025, 65_535]);
        tables.left.sizes.fill(size);
        tables.right.sizes.fill(size);
    }
    tables
}

/// Texts of two trees; each may be damaged, have too many dups or nearly so, or negate what is no test.
fn text_pair(random: &mut Random, named: &Named, left: &Tree, right: &Tree) -> (Vec<u8>, Vec<u8>) {
    let names = &named.names;
    let dups = vec!["dup"; MOST_DUPS + random.below(2)]
        .join(";")
        .into_bytes();
    let negated = damage::negated(random, &named.sizes);
    let negated = tree::text(random, names, &negated);
    let (left, right) = (
        text(random, names, left, 10),
        text(random, names, right, 10),
    );
    match random.below(60) {
        0 => (dups, right),
        1 => (left, dups),
        2 => (negated, right),
        3 => (left, negated),
        4 => (dups, negated),
        _ => (left, right),
    }
}

fn evidence(random: &mut Random, extent: Extent) -> Case {
    let (legal, left, right) = numbered_pair(random, extent);
    let needs = needs(&legal, &left, &right, extent);
    let mut rows: Vec<Row> = (0..needs.rows)
        .map(|row| row_at(&needs.lists, row))
        .collect();
    if random.one_in(2) {
        random.shuffle(&mut rows);
    }
    let packets = packet_count(&legal, &left, &right);
    for _ in 0..random.below(4) {
        if random.one_in(2) {
            harmless(random, &mut rows, packets);
        }
    }
    if random.one_in(2) {
        tamper(random, &mut rows);
    }
    if random.one_in(3) {
        return records(random, &legal, left, right, &rows);
    }
    let mut lists = Lists::new(0, 0, 0);
    for (packet, left, right) in rows {
        lists.packet.push(packet);
        lists.left.push(left);
        lists.right.push(right);
    }
    match random.below(60) {
        0 => lists.packet.push(0),
        1 => drop(lists.left.pop()),
        2 => lists.right.push(1),
        3 => {
            let rows = MOST_ROWS + random.below(2);
            lists.packet.resize(rows, 0);
            lists.left.resize(rows, 1);
            lists.right.resize(rows, 1);
        }
        _ => {}
    }
    lists.work = work(random);
    let (left, right) = damaged_pair(random, &legal, left, right);
    let named = named(random, &legal);
    Case::Evidence {
        tables: tables(random, &named, SELDOM),
        left,
        right,
        lists,
    }
}

/// A table of records, whose parents are any numbers.
fn records(
    random: &mut Random,
    legal: &[u16],
    left: OwnedLists,
    right: OwnedLists,
    rows: &[Row],
) -> Case {
    let mut records: Vec<Record> = rows
        .iter()
        .map(|&(packet, left, right)| Record {
            packet,
            left,
            right,
            parent: random.bits() as u16,
        })
        .collect();
    if random.one_in(40) {
        let last = Record {
            left: 1,
            right: 1,
            ..Record::default()
        };
        records.resize(MOST_ROWS + random.below(3), last);
    }
    let work = work(random);
    let (left, right) = damaged_pair(random, legal, left, right);
    let named = named(random, legal);
    Case::Records {
        tables: tables(random, &named, SELDOM),
        left,
        right,
        rows: records,
        work,
    }
}

/// Packet, left and right state.
type Row = (u16, State, State);

fn row_at(lists: &Lists, row: usize) -> Row {
    (lists.packet[row], lists.left[row], lists.right[row])
}

/// Adds a repeat or a row of two empty states.
fn harmless(random: &mut Random, rows: &mut Vec<Row>, packets: usize) {
    let row = if rows.is_empty() || random.one_in(2) {
        (random.below(packets) as u16, 0, 0)
    } else {
        random.pick(rows)
    };
    let place = random.below(rows.len() + 1);
    rows.insert(place, row);
}

/// Changes a table so that it may break a rule.
fn tamper(random: &mut Random, rows: &mut Vec<Row>) {
    let random_row = |random: &mut Random| {
        let narrow = [0x3, 0xf, u64::MAX, 1 << 63 | 1];
        (
            random.below(6) as u16,
            random.bits() & random.pick(&narrow),
            random.bits() & random.pick(&narrow),
        )
    };
    if rows.is_empty() {
        rows.push(random_row(random));
        return;
    }
    let row = random.below(rows.len());
    match random.below(9) {
        0 => rows[row].1 ^= 1 << random.below(64),
        1 => rows[row].2 ^= 1 << random.pick(&[0, 1, 2, 5, 31, 32, 61, 62, 63]),
        2 => rows[row].0 = rows[row].0.wrapping_add(1),
        3 => rows[row].0 = random.bits() as u16,
        4 | 5 => drop(rows.remove(row)),
        6 => rows.truncate(row),
        7 => rows.push(random_row(random)),
        _ => {
            let count = random.below(9);
            *rows = (0..count).map(|_| random_row(random)).collect();
        }
    }
}

/// A trace of a policy from a packet: at random on to a marked packet, or out.
fn walk(random: &mut Random, packets: &Packets, policy: &Policy, entering: usize) -> Vec<u16> {
    let mut automaton = Automaton::new(packets, policy);
    let mut step = Step::new(packets);
    let (mut state, mut packet) = (START, entering);
    let mut trace = Vec::new();
    loop {
        automaton.step(state, packet, &mut step);
        let mut out = Vec::new();
        set::for_each(step.output(), |packet| out.push(packet as u16));
        let mut on = Vec::new();
        set::for_each(step.marked(), |packet| on.push(packet as u16));
        if on.is_empty() || trace.len() > 12 || (!out.is_empty() && random.one_in(3)) {
            let last = match out.len() {
                0 => random.below(packets.count()) as u16,
                _ => random.pick(&out),
            };
            trace.push(last);
            return trace;
        }
        let next = random.pick(&on);
        trace.push(next);
        packet = next.into();
        state = step.next(packet);
    }
}

fn trace(random: &mut Random, extent: Extent) -> Case {
    let (sizes, left, right) = numbered_pair(random, extent);
    let pair = legal(&sizes, &left, &right).expect("legal policies");
    let packets = Packets::new(pair.numbering);
    let needs = needs(&sizes, &left, &right, extent);
    let (mut entering, mut trace) = match needs.answer {
        Ok(Verdict::Different {
            length, entering, ..
        }) if random.one_in(2) => (entering, needs.lists.trace[..length].to_vec()),
        _ => {
            let entering = random.below(packets.count());
            let policy = if random.one_in(2) {
                &pair.left
            } else {
                &pair.right
            };
            let trace = walk(random, &packets, policy, entering);
            (entering as u16, trace)
        }
    };
    let any = random.below(packets.count()) as u16;
    match random.below(12) {
        0 => trace.clear(),
        1 => trace.push(any),
        2 => trace[0] = any,
        3 => entering = any,
        4 => entering = random.between(packets.count(), 65_535) as u16,
        5 => {
            let place = random.below(trace.len());
            trace[place] = random.between(packets.count(), 65_535) as u16;
        }
        6 => {
            // the lowest number that is none
            let place = random.below(trace.len());
            trace[place] = packets.count() as u16;
        }
        _ => {}
    }
    let (left, right) = damaged_pair(random, &sizes, left, right);
    let named = named(random, &sizes);
    Case::Trace {
        tables: tables(random, &named, SELDOM),
        left,
        right,
        entering,
        trace,
        work: work(random),
    }
}

fn program(random: &mut Random, extent: Extent) -> Case {
    let (named, left, right) = spoken_pair(random, extent);
    let tables = other_tables(random, &named);
    let (left, right) = text_pair(random, &named, &left, &right);
    let one = named::line(&tables.left);
    let mut lines = vec![one, named::line(&tables.right), left, right];
    match random.below(20) {
        0 => lines[0] = table_line(random),
        1 => lines[1] = table_line(random),
        2 => lines[random.below(2)].extend_from_slice(&table_line(random)),
        3 => drop(lines.pop()),
        4 => lines.push(Vec::new()),
        5 => lines[random.below(4)].push(b'\r'),
        6 => lines.insert(random.below(5), b"id".to_vec()),
        _ => {}
    }
    let mut input = Vec::new();
    let last = lines.len().saturating_sub(1);
    for (at, line) in lines.iter().enumerate() {
        input.extend_from_slice(line);
        if at < last || random.one_in(2) {
            input.extend_from_slice(random.pick(&["\n", "\r\n"]).as_bytes());
        }
    }
    if random.one_in(40) {
        let length = 32_768 + random.below(2);
        input.resize(length.max(input.len()), b' ');
    }
    if random.one_in(6) {
        widen(random, &mut input);
    }
    Case::Program {
        input,
        output: Vec::new(),
    }
}

/// Puts blanks before the left text. A program may read blocks of 4,096 bytes: the input often ends next to a block's end.
fn widen(random: &mut Random, input: &mut Vec<u8>) {
    let length = match random.below(2) {
        0 => 4_096 * random.between(1, 8) + random.below(3) - 1,
        _ => random.between(4_097, 32_768),
    };
    let mut ends = (0..input.len()).filter(|&at| input[at] == b'\n');
    let at = ends.nth(1).map_or(0, |end| end + 1);
    let blanks = length.saturating_sub(input.len());
    input.splice(at..at, vec![b' '; blanks]);
}

/// A line of a table, mostly malformed or with a name that is none.
fn table_line(random: &mut Random) -> Vec<u8> {
    let lines = [
        "",
        ",",
        "a",
        "a=",
        "=1",
        "=",
        "a==1",
        "a=1=1",
        "a=1,",
        ",a=1",
        "a=1,,b=1",
        "a=1;b=1",
        "a=01",
        "a=00",
        "a=1 ",
        " a=1",
        "a =1",
        "a= 1",
        "a=+1",
        "a=-1",
        "a=1.0",
        "a=65535",
        "a=65536",
        "a=99999999999999999999",
        "a=0",
        "A=1",
        "0=1",
        "a=b",
        "dup=1",
        "id=1",
        "drop=1",
        "a=1,a=1",
        "a=1,a=2",
        "a=1,b=1,c=1,d=1,e=1,f=1,g=1,h=1,i=1",
        "abcdefghijklmno=1",
        "abcdefghijklmnop=1",
        "a=5,b=205",
        "a=1025",
        "a\t=1",
        "a=1\t",
        "a\0=1",
        "\0=1",
    ];
    if random.one_in(6) {
        let length = random.pick(&[255, 256, 257, 258, 271, 512, 513, 1_000, 30_000]);
        let name = random.pick(&["a", "ab", "f0"]).repeat(length);
        return format!("{}=1", &name[..length]).into_bytes();
    }
    random.pick(&lines).as_bytes().to_vec()
}
