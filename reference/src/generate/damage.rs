//! Illegal inputs: one part of a legal one changed, or nothing legal about it.

use super::named::{named, Named};
use super::tree::{not, sequence, star, sum, tests, tree, Tree};
use crate::names::{OwnedTable, OwnedTables, CELL};
use crate::policy::{kind, Act, OwnedLists};
use crate::random::Random;

/// Sizes that 1 or 2 refuses, or that make too many packets where all fields are mentioned.
pub fn sizes(random: &mut Random, legal: &[u16]) -> Vec<u16> {
    let mut sizes = legal.to_vec();
    match random.below(7) {
        0 => sizes.clear(),
        1 => sizes.resize(random.between(9, 12), 1),
        2 => {
            let field = random.below(sizes.len());
            sizes[field] = 0;
        }
        3 => sizes = vec![1025, 0, 0][..random.between(1, 3)].to_vec(),
        4 => sizes = vec![5, 205],
        5 => {
            let field = random.below(sizes.len());
            sizes[field] = random.between(1025, 65_535) as u16;
        }
        _ => {
            let fields = random.below(11);
            sizes = (0..fields).map(|_| random.below(40) as u16).collect();
        }
    }
    sizes
}

/// Tables meant for one of the causes 4 with side 0, 20, 21, 1 and 2, or for two of them. A change may hit none: what is
/// refused is for the call to say.
pub fn tables(random: &mut Random, legal: &Named) -> OwnedTables {
    let (mut tables, changes) = match random.below(2) {
        0 => {
            let sizes = sizes(random, &legal.sizes);
            (named(random, &sizes).tables, random.pick(&[0, 0, 1]))
        }
        _ => (legal.tables.clone(), random.between(1, 2)),
    };
    for _ in 0..changes {
        let table = match random.below(2) {
            0 => &mut tables.left,
            _ => &mut tables.right,
        };
        change(random, table);
    }
    tables
}

/// Names that are none, some of them too long for a cell.
const NO_NAMES: &[&str] = &[
    "",
    "drop",
    "id",
    "dup",
    "0",
    "0a",
    "9",
    "A",
    "aB",
    "a b",
    " a",
    "a ",
    "a_b",
    "a-1",
    "a=",
    "a\0",
    "\0",
    "a{",
    "`a",
    "a/",
    "a:",
    "\u{e9}",
    "abcdefghijklmnop",
    "abcdefghijklmnO",
    "abcdefghijklmnopqrstuvwxyz",
];

/// Bytes next to those that names are made of, and some that they are made of.
const NAME_BYTES: &[u8] = b"`az{/09:@AZ[_ \0\x7f\x80\xe1\xff";

/// One change of a table.
fn change(random: &mut Random, table: &mut OwnedTable) {
    let names = table.sizes.len();
    let at = random.below(names.max(1));
    match random.below(14) {
        0 => table.cells.push(b'a'),
        1 => drop(table.cells.pop()),
        2 => table.sizes.push(1),
        3 => drop(table.sizes.pop()),
        4 => table.cells.truncate(table.cells.len().saturating_sub(CELL)),
        5 => *table = OwnedTable::default(),
        6 => lengthen(random, table),
        7 => {
            lengthen(random, table);
            table.push(random.pick(NO_NAMES).as_bytes(), 1);
        }
        8 => table.push(random.pick(NO_NAMES).as_bytes(), 1),
        9 => table.cells.splice(0..0, [0; CELL]).for_each(drop),
        10 if names > 0 => table.sizes[at] = 0,
        11 if names > 0 => table.sizes[at] = table.sizes[at].wrapping_add(1),
        _ => change_cell(random, table, at),
    }
}

/// Some names more, often so many that there are over eight.
fn lengthen(random: &mut Random, table: &mut OwnedTable) {
    for at in 0..random.pick(&[1, 2, 6, 8, 9, 12, 30]) {
        table.push(format!("g{at}").as_bytes(), 1);
    }
}

/// One cell's length or one of its bytes changed, or the cell made the same as another.
fn change_cell(random: &mut Random, table: &mut OwnedTable, at: usize) {
    let count = table.cells.len() / CELL;
    if count == 0 {
        return;
    }
    let start = at.min(count - 1) * CELL;
    match random.below(3) {
        0 => table.cells[start] = random.pick(&[0, 1, 2, 14, 15, 16, 17, 128, 255]),
        1 => table.cells[start + random.between(1, 4)] = random.pick(NAME_BYTES),
        _ => {
            let other = random.below(count) * CELL;
            table.cells.copy_within(other..other + CELL, start);
        }
    }
}

/// The policy beside a branch that nothing enters, which mentions some field: too many packets may be made then.
pub fn mentioning(random: &mut Random, sizes: &[u16], legal: &OwnedLists) -> OwnedLists {
    let mut lists = legal.clone();
    let root = lists.kind.len() as u16 - 1;
    let field = random.below(sizes.len());
    let value = random.below(sizes[field].into());
    let act = random.pick(&[kind::EQUALS, kind::DIFFERS, kind::SET]);
    let act = lists.push(act, field as u16, value as u16);
    let closed = lists.push(kind::DROP, 0, 0);
    let dead = lists.push(kind::SEQUENCE, closed, act);
    lists.push(kind::SUM, root, dead);
    lists
}

/// Node lists meant for one of the causes 4 to 9, 19 and 3. The change may hit an earlier cause or none: what is refused is for
/// the call to say.
pub fn nodes(random: &mut Random, sizes: &[u16], legal: &OwnedLists) -> OwnedLists {
    let mut lists = legal.clone();
    let node = random.below(lists.kind.len());
    match random.below(11) {
        0 => unequal(random, &mut lists),
        1 => lists = over(random, legal),
        2 => lists.kind[node] = random.between(10, 255) as u8,
        3 => lists.first[node] = random.bits() as u16,
        4 => lists.second[node] = random.bits() as u16,
        5 => lists.kind[node] = random.below(10) as u8,
        6 => {
            // Any child number up to the node itself.
            let child = random.below(node + 1) as u16;
            match lists.kind[node] {
                kind::STAR | kind::NOT => lists.first[node] = child,
                kind::SUM | kind::SEQUENCE if random.one_in(2) => lists.first[node] = child,
                kind::SUM | kind::SEQUENCE => lists.second[node] = child,
                _ => drop(lists.push(random.pick(&[kind::STAR, kind::NOT]), child, 0)),
            }
        }
        7 => lists = many_dups(random, sizes).lists(),
        8 => lists = negated(random, sizes).lists(),
        9 => lists = mentioning(random, sizes, legal),
        _ => lists = hostile_nodes(random),
    }
    lists
}

/// One list made longer or shorter, or all emptied.
fn unequal(random: &mut Random, lists: &mut OwnedLists) {
    match random.below(4) {
        0 => *lists = OwnedLists::default(),
        1 => drop(lists.kind.pop()),
        2 => lists.first.push(0),
        _ => lists.second.truncate(random.below(lists.second.len())),
    }
}

/// Stars or negations on top up to 513 nodes or a little more.
fn over(random: &mut Random, legal: &OwnedLists) -> OwnedLists {
    let mut lists = legal.clone();
    let nodes = 512 + random.between(0, 2);
    let kind = random.pick(&[kind::STAR, kind::NOT]);
    while lists.kind.len() < nodes {
        lists.push(kind, lists.kind.len() as u16 - 1, 0);
    }
    lists
}

/// A policy with a negation over a change, a dup or a star, which often stand deep below it.
pub fn negated(random: &mut Random, sizes: &[u16]) -> Tree {
    let mut policy = match random.below(3) {
        0 => Tree::Dup,
        1 => Tree::Field(Act::Set, 0, 0),
        _ => star(tests(random, sizes, 3)),
    };
    for _ in 0..random.below(6) {
        policy = wrapped(random, sizes, policy);
    }
    policy = not(policy);
    for _ in 0..random.below(6) {
        policy = wrapped(random, sizes, policy);
    }
    policy
}

/// A policy beside tests, negated or starred.
fn wrapped(random: &mut Random, sizes: &[u16], policy: Tree) -> Tree {
    let nodes = random.between(1, 4);
    let beside = tests(random, sizes, nodes);
    match random.below(6) {
        0 => sum(policy, beside),
        1 => sum(beside, policy),
        2 => sequence(policy, beside),
        3 => sequence(beside, policy),
        4 => not(policy),
        _ => star(policy),
    }
}

/// A policy with 64 dups or a few more.
fn many_dups(random: &mut Random, sizes: &[u16]) -> Tree {
    let mut policy = tree(random, sizes, 8, 0);
    for _ in 0..random.between(64, 67) {
        let parts = (Box::new(Tree::Dup), Box::new(policy));
        policy = match random.below(4) {
            0 => Tree::Sum(parts.0, parts.1),
            1 => Tree::Sum(parts.1, parts.0),
            2 => Tree::Sequence(parts.0, parts.1),
            _ => Tree::Sequence(parts.1, parts.0),
        };
    }
    policy
}

/// Random lists, mostly of small numbers.
fn hostile_nodes(random: &mut Random) -> OwnedLists {
    let nodes = random.between(1, 6);
    let mut lists = OwnedLists::default();
    for node in 0..nodes {
        let kind = random.below(10) as u8;
        let any = random.below(node + 2) as u16;
        let other = random.below(node + 1) as u16;
        lists.push(kind, any, other);
    }
    lists
}

/// Bytes that texts are made of, and some that they are not.
const BYTES: &[u8] = b"()()**++;;==!!<<--  \t01f2dupidrop9aZ\r\n\0\x7f\x80\xff$_.,";

/// A text meant for one of the causes 14 to 17.
pub fn text(random: &mut Random, legal: &[u8]) -> Vec<u8> {
    let mut text = legal.to_vec();
    let place = random.below(text.len() + 1);
    match random.below(12) {
        0 => text.insert(place, random.pick(BYTES)),
        1 => drop(text.drain(place..)),
        2 if place < text.len() => drop(text.remove(place)),
        3 if place < text.len() => text[place] = random.pick(BYTES),
        4 => text = hostile_text(random),
        5 => text = many_parentheses(random, legal),
        6 => text = many_nodes(random, legal),
        7 => insert(&mut text, place, random.pick(WORDS)),
        8 => insert(&mut text, place, random.pick(TOKENS)),
        9 => text.push(random.pick(b";+*()=!")),
        10 => text.insert(0, random.pick(b";+*()=!")),
        _ => insert(&mut text, place, random.pick(TOKENS)),
    }
    text
}

/// Words good and bad.
const WORDS: &[&str] = &[
    "f0",
    "sw",
    "aa",
    "f7",
    "f8",
    "f",
    "F0",
    "00",
    "01",
    "65535",
    "65536",
    "99999",
    "100000",
    "DROP",
    "idd",
    "i",
    "dup1",
    "0x1",
    "18446744073709551616",
];

/// Tokens.
const TOKENS: &[&str] = &[
    "=", "!=", "<-", "+", ";", "*", "(", ")", " id ", " drop ", " dup ", " f0 ", " 1 ", "f0=0",
    "!", "!(", " !f0=0 ", "!!=", " ! = ", "< -",
];

fn insert(text: &mut Vec<u8>, place: usize, what: &str) {
    text.splice(place..place, what.bytes());
}

fn hostile_text(random: &mut Random) -> Vec<u8> {
    let tokens = random.one_in(2);
    let mut text = Vec::new();
    for _ in 0..random.below(30) {
        if tokens {
            text.extend_from_slice(random.pick(TOKENS).as_bytes());
        } else {
            text.push(random.pick(BYTES));
        }
    }
    text
}

/// 62 to 66 parentheses around the text, perhaps not all closed, perhaps after some that close nothing.
fn many_parentheses(random: &mut Random, legal: &[u8]) -> Vec<u8> {
    let open = random.between(62, 66);
    let mut text = Vec::new();
    if random.one_in(4) {
        text.extend(vec![b')'; random.between(1, 3)]);
    }
    text.extend(vec![b'('; open]);
    text.extend_from_slice(legal);
    text.extend(vec![b')'; open - random.below(2)]);
    text
}

/// Stars or negations up to about 512 nodes, or far more nodes in a row.
fn many_nodes(random: &mut Random, legal: &[u8]) -> Vec<u8> {
    if random.one_in(3) {
        let mut text = legal.to_vec();
        for _ in 0..random.between(250, 300) {
            text.extend_from_slice(random.pick(&[";id", "+drop", ";f0=0", "*;id"]).as_bytes());
        }
        return text;
    }
    let many = random.between(509, 514);
    if random.one_in(2) {
        let mut text = vec![b'!'; many];
        text.extend_from_slice(b"id");
        text
    } else {
        let mut text = b"id".to_vec();
        text.extend(vec![b'*'; many]);
        text
    }
}

/// Trees whose node count is near 512.
pub fn deep(random: &mut Random) -> Tree {
    let (mut policy, on): (Tree, fn(Tree) -> Tree) = match random.below(4) {
        0 => (Tree::Id, star),
        1 => (Tree::Dup, star),
        2 => (Tree::Id, not),
        _ => (Tree::Field(Act::Equals, 0, 0), not),
    };
    for _ in 0..random.between(400, 511) {
        policy = on(policy);
    }
    policy
}
