//! Searches whose rows run out, or nearly so: policies that record much, so that their rows lie deep, with few rows lent.

use super::cases::{header, if_legal, lists_of, mentioning, naming, needs, numbered};
use super::cases::{packet_count, Extent};
use super::named::{named, over};
use super::tree::{self, sequence, star, sum, Tree};
use crate::case::Case;
use crate::policy::Act;
use crate::random::Random;
use crate::search::MOST_ROWS;

/// Most dups in a row, and most dups of a round.
const MOST_IN_ROW: usize = 50;
const MOST_IN_ROUND: usize = 9;
/// Most values that a way goes through.
const MOST_ON_WAY: usize = 24;

/// A search on two policies or on two texts.
pub fn case(random: &mut Random, extent: Extent) -> Case {
    let header = header(random, extent);
    let (left, right) = pair(random, &header.spoken_sizes());
    let (left, right) = (over(&header.spoken, &left), over(&header.spoken, &right));
    let sizes = header.sizes;
    let (one, other) = (left.lists(), right.lists());
    let needed = needs(&sizes, &one, &other, extent).rows;
    let rows = rows_lent(random, packet_count(&sizes, &one, &other), needed);
    let trace = random.below(4) * random.below(30);
    let lists = lists_of(random, [rows; 4], trace);
    let named = named(random, &sizes);
    // either text may speak of every field
    let all_shared = named.shared.len() == sizes.len();
    if all_shared && random.one_in(2) {
        return Case::Texts {
            left: tree::text(random, &named.names, &left),
            right: tree::text(random, &named.names, &right),
            tables: named.tables,
            lists,
        };
    }
    Case::Search {
        tables: named.tables,
        left: numbered(random, &left),
        right: numbered(random, &right),
        lists,
    }
}

/// Around the starting rows, around the rows needed, or any fewer.
fn rows_lent(random: &mut Random, packets: usize, needed: usize) -> usize {
    let rows = match random.below(10) {
        0 => random.below(packets + 1),
        1 => packets + random.below(3),
        2 => needed,
        3 | 4 => needed.saturating_sub(random.between(1, 3)),
        _ => random.below(needed + 1),
    };
    rows.min(MOST_ROWS)
}

/// Two policies that record much, mostly with the same traces.
pub fn pair(random: &mut Random, sizes: &[u16]) -> (Tree, Tree) {
    let (left, right) = match random.below(4) {
        0 => chains(random, sizes),
        1 => rounds(random),
        2 => ways(random, sizes),
        _ => stars(random, sizes),
    };
    let right = match random.below(4) {
        0 => tree::changed(random, sizes, &right),
        _ => right,
    };
    // Laws may double dups past what is legal.
    let right = if_legal(right, left.clone());
    // More packets, for chains and rounds mention no field of their own.
    let right = match random.below(3) {
        0 => naming(sizes, right),
        1 => mentioning(random, sizes, right),
        _ => right,
    };
    if random.one_in(2) {
        (left, right)
    } else {
        (right, left)
    }
}

/// Some dups and then a policy, grouped to the left and to the right.
fn chains(random: &mut Random, sizes: &[u16]) -> (Tree, Tree) {
    let most = random.pick(&[4, 9, MOST_IN_ROW]);
    let dups = random.between(1, most);
    let nodes = random.between(1, 6);
    let end = tree::tree(random, sizes, nodes, 1);
    let other = tree::same(random, sizes, &end);
    let left = (1..dups).fold(Tree::Dup, |chain, _| sequence(chain, Tree::Dup));
    let right = (0..dups).fold(other, |chain, _| sequence(Tree::Dup, chain));
    (sequence(left, end), right)
}

/// `dup*` in rounds of two numbers of dups.
fn rounds(random: &mut Random) -> (Tree, Tree) {
    let mut policy = || in_rounds(random.between(1, MOST_IN_ROUND));
    (policy(), policy())
}

/// `dup*` as rounds of so many dups and a rest of fewer.
fn in_rounds(dups: usize) -> Tree {
    let round = (1..dups).fold(Tree::Dup, |round, _| sequence(round, Tree::Dup));
    let rest = (1..dups).fold(Tree::Id, |rest, _| sum(Tree::Id, sequence(Tree::Dup, rest)));
    sequence(star(round), rest)
}

/// From one value of a field to the next, in some order, each recorded: one row leads to one more. The other policy has its
/// steps in reverse order.
fn ways(random: &mut Random, sizes: &[u16]) -> (Tree, Tree) {
    let field = random.below(sizes.len()) as u16;
    let size = usize::from(sizes[usize::from(field)]).min(MOST_ON_WAY);
    let mut values: Vec<u16> = (0..size as u16).collect();
    random.shuffle(&mut values);
    let first = Tree::Field(Act::Equals, field, values[0]);
    let mut steps: Vec<Tree> = (0..size)
        .map(|at| step(field, values[at], values[(at + 1) % size]))
        .collect();
    let way = |steps: &[Tree]| {
        let any = steps.iter().cloned().reduce(sum).unwrap_or(Tree::Drop);
        sequence(first.clone(), star(sequence(any, Tree::Dup)))
    };
    let left = way(&steps);
    steps.reverse();
    (left, way(&steps))
}

/// From one value of a field to another.
fn step(field: u16, from: u16, to: u16) -> Tree {
    let is = Tree::Field(Act::Equals, field, from);
    sequence(is, Tree::Field(Act::Set, field, to))
}

/// A policy that is recorded round by round, and one with the same traces unrolled once.
fn stars(random: &mut Random, sizes: &[u16]) -> (Tree, Tree) {
    let nodes = random.between(1, 8);
    let body = tree::tree(random, sizes, nodes, 2);
    let other = tree::same(random, sizes, &body);
    let round = |body: Tree| sequence(body, Tree::Dup);
    let unrolled = sequence(round(other.clone()), star(round(other)));
    (star(round(body)), sum(Tree::Id, unrolled))
}
