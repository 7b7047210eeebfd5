//! Policies as trees: random ones, ones with the same traces, their node lists and texts.

use crate::policy::{kind, Act, NodeLists, OwnedLists};
use crate::random::Random;

/// A policy as a tree.
#[derive(Clone, Debug, PartialEq, Eq)]
pub enum Tree {
    /// ⊥
    Drop,
    /// ⊤
    Id,
    /// A test or a change of one field.
    Field(Act, u16, u16),
    /// dup
    Dup,
    /// Sum.
    Sum(Box<Tree>, Box<Tree>),
    /// Sequence.
    Sequence(Box<Tree>, Box<Tree>),
    /// Star.
    Star(Box<Tree>),
    /// Negation.
    Not(Box<Tree>),
}

use Tree::{Dup, Field, Id, Not, Sequence, Star, Sum};

/// The sum of two trees.
pub fn sum(one: Tree, other: Tree) -> Tree {
    Sum(Box::new(one), Box::new(other))
}

/// The sequence of two trees.
pub fn sequence(one: Tree, other: Tree) -> Tree {
    Sequence(Box::new(one), Box::new(other))
}

/// The star of a tree.
pub fn star(body: Tree) -> Tree {
    Star(Box::new(body))
}

/// The negation of a tree.
pub fn not(child: Tree) -> Tree {
    Not(Box::new(child))
}

impl Tree {
    /// Is it tests alone, so that it may be negated?
    pub fn is_tests(&self) -> bool {
        match self {
            Tree::Drop | Id | Field(Act::Equals | Act::Differs, ..) => true,
            Field(Act::Set, ..) | Dup | Star(_) => false,
            Sum(one, other) | Sequence(one, other) => one.is_tests() && other.is_tests(),
            Not(child) => child.is_tests(),
        }
    }

    /// Is some node a negation?
    pub fn has_negation(&self) -> bool {
        match self {
            Sum(one, other) | Sequence(one, other) => one.has_negation() || other.has_negation(),
            Star(body) => body.has_negation(),
            Not(_) => true,
            _ => false,
        }
    }

    /// How many nodes are dup.
    pub fn dups(&self) -> usize {
        match self {
            Dup => 1,
            Sum(one, other) | Sequence(one, other) => one.dups() + other.dups(),
            Star(body) | Not(body) => body.dups(),
            _ => 0,
        }
    }

    /// How many nodes there are.
    pub fn size(&self) -> usize {
        1 + match self {
            Sum(one, other) | Sequence(one, other) => one.size() + other.size(),
            Star(body) | Not(body) => body.size(),
            _ => 0,
        }
    }

    /// The node lists, children first, left before right.
    pub fn lists(&self) -> OwnedLists {
        let mut lists = OwnedLists::default();
        self.append(&mut lists);
        lists
    }

    fn append(&self, lists: &mut OwnedLists) -> u16 {
        match self {
            Tree::Drop => lists.push(kind::DROP, 0, 0),
            Id => lists.push(kind::ID, 0, 0),
            Field(Act::Equals, field, value) => lists.push(kind::EQUALS, *field, *value),
            Field(Act::Differs, field, value) => lists.push(kind::DIFFERS, *field, *value),
            Field(Act::Set, field, value) => lists.push(kind::SET, *field, *value),
            Dup => lists.push(kind::DUP, 0, 0),
            Sum(one, other) => {
                let (one, other) = (one.append(lists), other.append(lists));
                lists.push(kind::SUM, one, other)
            }
            Sequence(one, other) => {
                let (one, other) = (one.append(lists), other.append(lists));
                lists.push(kind::SEQUENCE, one, other)
            }
            Star(body) => {
                let body = body.append(lists);
                lists.push(kind::STAR, body, 0)
            }
            Not(child) => {
                let child = child.append(lists);
                lists.push(kind::NOT, child, 0)
            }
        }
    }
}

/// A random test, change or constant.
fn leaf(random: &mut Random, sizes: &[u16], dup: bool) -> Tree {
    let field = random.below(sizes.len());
    let value = random.below(sizes[field].into()) as u16;
    let field = field as u16;
    match random.below(if dup { 14 } else { 9 }) {
        0 => Tree::Drop,
        1 => Id,
        2 | 3 => Field(Act::Equals, field, value),
        4 | 5 => Field(Act::Differs, field, value),
        6..=8 => Field(Act::Set, field, value),
        _ => Dup,
    }
}

/// A random test or constant.
fn test(random: &mut Random, sizes: &[u16]) -> Tree {
    loop {
        let test = leaf(random, sizes, false);
        if test.is_tests() {
            return test;
        }
    }
}

/// A random policy of tests alone with about this many nodes.
pub fn tests(random: &mut Random, sizes: &[u16], nodes: usize) -> Tree {
    if nodes < 2 {
        return test(random, sizes);
    }
    if random.one_in(4) {
        return not(tests(random, sizes, nodes - 1));
    }
    let share = random.between(0, nodes - 2);
    let one = tests(random, sizes, share);
    let other = tests(random, sizes, nodes - 1 - share);
    if random.one_in(2) {
        sum(one, other)
    } else {
        sequence(one, other)
    }
}

/// A random policy over legal sizes with about this many nodes and at most this many dups.
pub fn tree(random: &mut Random, sizes: &[u16], nodes: usize, dups: usize) -> Tree {
    if nodes < 2 {
        return leaf(random, sizes, dups > 0);
    }
    // A negation has no dups below it, so large parts are negated seldom.
    if random.one_in(if nodes <= 12 { 6 } else { 40 }) {
        return not(tests(random, sizes, nodes - 1));
    }
    if random.one_in(5) {
        return star(tree(random, sizes, nodes - 1, dups));
    }
    let share = random.between(0, nodes - 2);
    let one = tree(random, sizes, share, dups);
    let left = dups - one.dups();
    let other = tree(random, sizes, nodes - 1 - share, left);
    if random.one_in(2) {
        sum(one, other)
    } else {
        sequence(one, other)
    }
}

/// A policy with the same traces, rewritten here and there by laws of NetKAT. Dups may double. One without negations gets none.
pub fn same(random: &mut Random, sizes: &[u16], policy: &Tree) -> Tree {
    let laws = if policy.has_negation() {
        Laws::WithNegations
    } else {
        Laws::Plain
    };
    same_part(random, sizes, policy, laws)
}

/// The laws by which a part is rewritten.
#[derive(Clone, Copy, PartialEq, Eq)]
enum Laws {
    Plain,
    WithNegations,
    /// Of a part that is negated and stays tests alone.
    OfTests,
}

fn same_part(random: &mut Random, sizes: &[u16], policy: &Tree, laws: Laws) -> Tree {
    let mut part = |policy, laws| same_part(random, sizes, policy, laws);
    let inner = match policy {
        Sum(one, other) => sum(part(one, laws), part(other, laws)),
        Sequence(one, other) => sequence(part(one, laws), part(other, laws)),
        Star(body) => star(part(body, laws)),
        Not(child) => not(part(child, Laws::OfTests)),
        leaf => leaf.clone(),
    };
    // Laws that double a part apply to small parts only, or nested ones would grow without end.
    if inner.size() > 24 || !random.one_in(3) {
        return inner;
    }
    let of_tests = match laws {
        Laws::Plain => false,
        Laws::WithNegations => inner.is_tests() && random.one_in(2),
        Laws::OfTests => true,
    };
    if of_tests {
        rewritten_tests(random, sizes, inner)
    } else {
        rewritten(random, sizes, inner)
    }
}

/// One law of tests applied at the root of a part that is tests alone, as is what comes of it.
fn rewritten_tests(random: &mut Random, sizes: &[u16], policy: Tree) -> Tree {
    match policy {
        Not(child) => match *child {
            Tree::Drop => Id,
            Id => Tree::Drop,
            Field(Act::Equals, field, value) => Field(Act::Differs, field, value),
            Field(Act::Differs, field, value) => Field(Act::Equals, field, value),
            Sum(one, other) => sequence(Not(one), Not(other)),
            Sequence(one, other) => sum(Not(one), Not(other)),
            Not(inner) => *inner,
            child => not(child),
        },
        Sum(one, other) if random.one_in(2) => not(sequence(Not(one), Not(other))),
        Sum(one, other) => Sum(other, one),
        Sequence(one, other) if random.one_in(2) => not(sum(Not(one), Not(other))),
        Sequence(one, other) => Sequence(other, one),
        Field(Act::Differs, field, value) if random.one_in(2) => others(sizes, field, value),
        Field(Act::Differs, field, value) => not(Field(Act::Equals, field, value)),
        Field(Act::Equals, field, value) => not(Field(Act::Differs, field, value)),
        Tree::Drop => {
            let test = test(random, sizes);
            sequence(test.clone(), not(test))
        }
        Id => {
            let test = test(random, sizes);
            sum(test.clone(), not(test))
        }
        policy => not(not(policy)),
    }
}

/// One law applied at the root.
fn rewritten(random: &mut Random, sizes: &[u16], policy: Tree) -> Tree {
    match policy {
        Sum(one, other) if random.one_in(2) => Sum(other, one),
        Sum(one, other) => match *other {
            Sum(second, third) => sum(Sum(one, second), *third),
            other => sum(*one, sum(Tree::Drop, other)),
        },
        Sequence(one, other) => match (*one, *other) {
            (Sum(first, second), then) if random.one_in(2) => {
                let then = Box::new(then);
                sum(Sequence(first, then.clone()), Sequence(second, then))
            }
            (Sequence(first, second), then) => {
                Sequence(first, Box::new(Sequence(second, then.into())))
            }
            (one, other) => sequence(one, sequence(Id, other)),
        },
        Star(body) => match random.below(4) {
            0 => sum(Id, sequence((*body).clone(), Star(body))),
            1 => sum(Id, sequence(Star(body.clone()), *body)),
            2 => star(Star(body)),
            _ => star(sum(Id, *body)),
        },
        Field(Act::Differs, field, value) => others(sizes, field, value),
        Field(Act::Set, field, value) => sequence(
            Field(Act::Set, field, value),
            Field(Act::Equals, field, value),
        ),
        Field(Act::Equals, field, value) => sequence(
            Field(Act::Equals, field, value),
            Field(Act::Set, field, value),
        ),
        Dup => sum(Dup, Dup),
        policy => sum(policy.clone(), policy),
    }
}

/// A policy with the same traces and so many dups, if it has not more already: dups doubled, and others that nothing reaches.
pub fn widened(random: &mut Random, policy: &Tree, dups: usize) -> Tree {
    let mut widened = policy.clone();
    for _ in policy.dups()..dups {
        if !random.one_in(20) && double_dup(random, &mut widened) {
            continue;
        }
        let dead = sequence(Tree::Drop, Dup);
        widened = match random.below(3) {
            0 => sum(widened, dead),
            1 => sum(dead, widened),
            _ => sequence(widened, sum(Id, dead)),
        };
    }
    widened
}

/// A policy with the same traces that also mentions a field: by a test or a change that all or no packets come to, or that does
/// nothing to those that do.
pub fn mentioning(random: &mut Random, field: u16, value: u16, policy: Tree) -> Tree {
    let is = Field(Act::Equals, field, value);
    let set = Field(Act::Set, field, value);
    match random.below(8) {
        0 => sequence(sum(Id, is), policy),
        1 => sequence(not(sequence(Tree::Drop, is)), policy),
        2 => sequence(policy, not(not(sum(is, Id)))),
        3 => sum(policy, sequence(Tree::Drop, is)),
        4 => sum(sequence(Tree::Drop, set), policy),
        5 => sequence(policy, sum(Id, sequence(set, Tree::Drop))),
        6 => sequence(sum(Id, sequence(is, set)), policy),
        _ => sequence(policy, star(sequence(is, set))),
    }
}

/// Passes every packet, and names all values of each field but the last, if it has others: no two packets are alike to a policy
/// with it.
pub fn naming(sizes: &[u16]) -> Tree {
    let named = |(field, &size): (usize, &u16)| {
        let last = size.max(2) - 1;
        (0..last).map(move |value| Field(Act::Equals, field as u16, value))
    };
    let tests = sizes.iter().enumerate().flat_map(named).reduce(sum);
    not(sequence(Tree::Drop, tests.unwrap_or(Id)))
}

/// Makes some dup the sum of two; false if there is none.
fn double_dup(random: &mut Random, policy: &mut Tree) -> bool {
    match policy {
        Dup => {
            *policy = sum(Dup, Dup);
            true
        }
        Sum(one, other) | Sequence(one, other) => {
            let (first, second) = if random.one_in(2) {
                (one, other)
            } else {
                (other, one)
            };
            double_dup(random, first) || double_dup(random, second)
        }
        Star(body) => double_dup(random, body),
        _ => false,
    }
}

/// f≠v as the sum of tests for the other values, if they are few.
fn others(sizes: &[u16], field: u16, value: u16) -> Tree {
    let size = sizes[usize::from(field)];
    if size > 4 {
        return Field(Act::Differs, field, value);
    }
    (0..size)
        .filter(|&other| other != value)
        .map(|other| Field(Act::Equals, field, other))
        .reduce(sum)
        .unwrap_or(Tree::Drop)
}

/// The policy with one leaf replaced; often its traces differ.
pub fn changed(random: &mut Random, sizes: &[u16], policy: &Tree) -> Tree {
    let mut changed = policy.clone();
    let mut place = &mut changed;
    let mut negated = false;
    loop {
        place = match place {
            Sum(one, other) | Sequence(one, other) => {
                if random.one_in(2) {
                    one
                } else {
                    other
                }
            }
            Star(body) => body,
            Not(child) => {
                negated = true;
                child
            }
            place => {
                *place = if negated {
                    test(random, sizes)
                } else {
                    leaf(random, sizes, *place == Dup)
                };
                return changed;
            }
        };
    }
}

/// The same tree numbered in another legal order: each child below its parent, the root last.
pub fn renumbered(random: &mut Random, lists: NodeLists) -> OwnedLists {
    let nodes = lists.kind.len();
    let children = |node: usize| -> Vec<usize> {
        let (first, second) = (lists.first[node].into(), lists.second[node].into());
        match lists.kind[node] {
            kind::SUM | kind::SEQUENCE => vec![first, second],
            kind::STAR | kind::NOT => vec![first],
            _ => Vec::new(),
        }
    };
    let mut parent = vec![None; nodes];
    let mut waiting: Vec<usize> = (0..nodes).map(|node| children(node).len()).collect();
    for node in 0..nodes {
        for child in children(node) {
            parent[child] = Some(node);
        }
    }
    let mut ready: Vec<usize> = (0..nodes).filter(|&node| waiting[node] == 0).collect();
    let mut number = vec![0u16; nodes];
    let mut result = OwnedLists::default();
    while !ready.is_empty() {
        let node = ready.swap_remove(random.below(ready.len()));
        let renamed: Vec<u16> = children(node).iter().map(|&child| number[child]).collect();
        number[node] = match renamed[..] {
            [first, second] => result.push(lists.kind[node], first, second),
            [first] => result.push(lists.kind[node], first, 0),
            _ => result.push(lists.kind[node], lists.first[node], lists.second[node]),
        };
        if let Some(parent) = parent[node] {
            waiting[parent] -= 1;
            if waiting[parent] == 0 {
                ready.push(parent);
            }
        }
    }
    result
}

/// A text of the tree over fields of these names, with blanks and needless parentheses here and there.
pub fn text(random: &mut Random, names: &[String], policy: &Tree) -> Vec<u8> {
    let mut writer = Writer {
        text: Vec::new(),
        names,
        blanks: random.one_in(2),
        open: 0,
        random,
    };
    writer.write(policy, Level::Sum);
    writer.blank();
    writer.text
}

/// What may stand somewhere without parentheses.
#[derive(Clone, Copy, PartialEq, Eq, PartialOrd, Ord)]
enum Level {
    Sum,
    Sequence,
    Starred,
    Item,
}

struct Writer<'a> {
    text: Vec<u8>,
    names: &'a [String],
    blanks: bool,
    open: usize,
    random: &'a mut Random,
}

impl Writer<'_> {
    fn blank(&mut self) {
        while self.blanks && self.random.one_in(4) {
            let blank = self.random.pick(b" \t");
            self.text.push(blank);
        }
    }

    fn token(&mut self, token: &str) {
        self.blank();
        self.text.extend_from_slice(token.as_bytes());
    }

    fn write(&mut self, policy: &Tree, level: Level) {
        let own = match policy {
            Sum(..) => Level::Sum,
            Sequence(..) => Level::Sequence,
            Star(..) => Level::Starred,
            _ => Level::Item,
        };
        if own < level || (self.open < 20 && self.random.one_in(16)) {
            self.open += 1;
            self.token("(");
            self.write(policy, Level::Sum);
            self.token(")");
            self.open -= 1;
            return;
        }
        match policy {
            Tree::Drop => self.token("drop"),
            Id => self.token("id"),
            Dup => self.token("dup"),
            Field(act, field, value) => {
                let names = self.names;
                self.token(&names[usize::from(*field)]);
                self.token(match act {
                    Act::Equals => "=",
                    Act::Differs => "!=",
                    Act::Set => "<-",
                });
                self.token(&value.to_string());
            }
            Sum(one, other) => {
                self.write(one, Level::Sum);
                self.token("+");
                self.write(other, Level::Sequence);
            }
            Sequence(one, other) => {
                self.write(one, Level::Sequence);
                self.token(";");
                self.write(other, Level::Starred);
            }
            Star(body) => {
                self.write(body, Level::Starred);
                self.token("*");
            }
            Not(child) => {
                self.token("!");
                self.write(child, Level::Item);
            }
        }
    }
}

#[cfg(test)]
mod tests {
    use super::*;
    use crate::answer::Side;
    use crate::names::{Fields, OwnedTables};
    use crate::policy::check;
    use crate::text::nodes;

    #[test]
    fn trees_lists_and_texts_agree() {
        let mut random = Random::new(1);
        let sizes = [2, 3];
        let tables = OwnedTables::numbered(&sizes);
        let fields = Fields::new(tables.lend()).expect("legal tables");
        let names = ["f0", "f1"].map(String::from);
        for _ in 0..2000 {
            let wanted = random.between(1, 40);
            let policy = tree(&mut random, &sizes, wanted, 63);
            let lists = policy.lists();
            assert_eq!(lists.kind.len(), policy.size());
            assert_eq!(check(tables.lend(), lists.lists()), Ok(policy.dups()));
            let text = text(&mut random, &names, &policy);
            let read = nodes(&fields, Side::Left, &text, 512);
            assert_eq!(read, Ok(lists.clone()));
            let other = renumbered(&mut random, lists.lists());
            assert_eq!(check(tables.lend(), other.lists()), Ok(policy.dups()));
        }
    }

    #[test]
    fn what_is_made_of_legal_policies_is_legal() {
        let mut random = Random::new(2);
        let sizes = [2, 3];
        let tables = OwnedTables::numbered(&sizes);
        let mut negated = 0;
        for _ in 0..2000 {
            let wanted = random.between(1, 30);
            let policy = tree(&mut random, &sizes, wanted, 3);
            for made in [
                same(&mut random, &sizes, &policy),
                changed(&mut random, &sizes, &policy),
            ] {
                let lists = made.lists();
                negated += usize::from(lists.kind.contains(&kind::NOT));
                assert_eq!(check(tables.lend(), lists.lists()), Ok(made.dups()));
            }
        }
        assert!(negated > 1000, "{negated}");
    }
}
