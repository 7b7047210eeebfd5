//! Policies as node lists, and when a list is legal.

use crate::answer::Refusal;
use crate::names::{Fields, Tables, MOST_FIELDS};
use crate::packets::Numbering;

/// Most nodes of a policy.
pub const MOST_NODES: usize = 512;
/// Most dups of a policy.
pub const MOST_DUPS: usize = 63;

/// The numbers of the node kinds.
pub mod kind {
    /// ⊥
    pub const DROP: u8 = 0;
    /// ⊤
    pub const ID: u8 = 1;
    /// f=v
    pub const EQUALS: u8 = 2;
    /// f≠v
    pub const DIFFERS: u8 = 3;
    /// f←v
    pub const SET: u8 = 4;
    /// dup
    pub const DUP: u8 = 5;
    /// Sum of two children.
    pub const SUM: u8 = 6;
    /// Sequence of two children.
    pub const SEQUENCE: u8 = 7;
    /// Star of one child.
    pub const STAR: u8 = 8;
    /// Negation of one child.
    pub const NOT: u8 = 9;
}

/// A policy as a caller lends it: three lists, of any lengths and contents.
#[derive(Clone, Copy, Debug)]
pub struct NodeLists<'a> {
    /// Kinds.
    pub kind: &'a [u8],
    /// Field or first child.
    pub first: &'a [u16],
    /// Value or second child.
    pub second: &'a [u16],
}

/// A policy that owns its lists.
#[derive(Clone, Debug, Default, PartialEq, Eq)]
pub struct OwnedLists {
    /// Kinds.
    pub kind: Vec<u8>,
    /// Field or first child.
    pub first: Vec<u16>,
    /// Value or second child.
    pub second: Vec<u16>,
}

impl OwnedLists {
    /// The lists as slices.
    pub fn lists(&self) -> NodeLists<'_> {
        NodeLists {
            kind: &self.kind,
            first: &self.first,
            second: &self.second,
        }
    }

    /// Appends a node and says its number.
    pub fn push(&mut self, kind: u8, first: u16, second: u16) -> u16 {
        self.kind.push(kind);
        self.first.push(first);
        self.second.push(second);
        (self.kind.len() - 1) as u16
    }
}

/// What is done with one field.
#[derive(Clone, Copy, Debug, PartialEq, Eq)]
pub enum Act {
    /// Passes if the field has the value.
    Equals,
    /// Passes if it has another.
    Differs,
    /// Changes the field to the value.
    Set,
}

/// A node of a legal policy.
#[derive(Clone, Copy, Debug, PartialEq, Eq)]
pub enum Node {
    /// ⊥
    Drop,
    /// ⊤
    Id,
    /// A test or a change of one field.
    Field {
        /// Which of them.
        act: Act,
        /// The field.
        field: usize,
        /// The value.
        value: usize,
    },
    /// dup, with its number from 1 in node order.
    Dup(usize),
    /// Sum of two nodes.
    Sum(usize, usize),
    /// One node after another.
    Sequence(usize, usize),
    /// Any number of rounds.
    Star(usize),
    /// Passes what the node drops; below it are tests alone.
    Not(usize),
}

/// A legal policy: a tree whose root is the last node.
#[derive(Clone, Debug)]
pub struct Policy {
    nodes: Vec<Node>,
    dups: usize,
    /// By joint field.
    mentioned: [bool; MOST_FIELDS],
}

impl Policy {
    /// The nodes, children before parents.
    pub fn nodes(&self) -> &[Node] {
        &self.nodes
    }

    /// How many nodes are dup.
    pub fn dups(&self) -> usize {
        self.dups
    }

    /// Does a test or a change of this joint field stand anywhere in it?
    pub fn mentions(&self, field: usize) -> bool {
        self.mentioned[field]
    }

    /// Reads lists that have passed 4 to 8, 19 and 9.
    fn from_legal(lists: NodeLists) -> Policy {
        let mut dups = 0;
        let mut mentioned = [false; MOST_FIELDS];
        let nodes = (0..lists.kind.len())
            .map(|node| {
                let (first, second) = (lists.first[node].into(), lists.second[node].into());
                let mut field = |act| {
                    mentioned[first] = true;
                    Node::Field {
                        act,
                        field: first,
                        value: second,
                    }
                };
                match lists.kind[node] {
                    kind::DROP => Node::Drop,
                    kind::ID => Node::Id,
                    kind::EQUALS => field(Act::Equals),
                    kind::DIFFERS => field(Act::Differs),
                    kind::SET => field(Act::Set),
                    kind::DUP => {
                        dups += 1;
                        Node::Dup(dups)
                    }
                    kind::SUM => Node::Sum(first, second),
                    kind::SEQUENCE => Node::Sequence(first, second),
                    kind::STAR => Node::Star(first),
                    _ => Node::Not(first),
                }
            })
            .collect();
        Policy {
            nodes,
            dups,
            mentioned,
        }
    }
}

/// One cause: the lowest place where it holds. Each may rely on the causes before it.
type Cause = fn(&Fields, NodeLists) -> Option<usize>;

/// The causes of a policy in their order.
const CAUSES: [(u8, Cause); 7] = [
    (4, wrong_lengths),
    (5, unknown_kind),
    (6, wrong_entry),
    (7, child_not_below),
    (8, not_child_once),
    (19, negates_no_test),
    (9, too_many_dups),
];

fn wrong_lengths(_: &Fields, lists: NodeLists) -> Option<usize> {
    let nodes = lists.kind.len();
    let legal = (1..=MOST_NODES).contains(&nodes)
        && lists.first.len() == nodes
        && lists.second.len() == nodes;
    (!legal).then_some(0)
}

fn unknown_kind(_: &Fields, lists: NodeLists) -> Option<usize> {
    lists.kind.iter().position(|&kind| kind > kind::NOT)
}

fn wrong_entry(fields: &Fields, lists: NodeLists) -> Option<usize> {
    (0..lists.kind.len()).find(|&node| {
        let (first, second) = (lists.first[node], lists.second[node]);
        match lists.kind[node] {
            kind::EQUALS | kind::DIFFERS | kind::SET => !fields.has(first, second),
            kind::SUM | kind::SEQUENCE => false,
            kind::STAR | kind::NOT => second != 0,
            _ => first != 0 || second != 0,
        }
    })
}

/// The children of a node of a known kind.
fn children(lists: NodeLists, node: usize) -> impl Iterator<Item = usize> {
    let count = match lists.kind[node] {
        kind::SUM | kind::SEQUENCE => 2,
        kind::STAR | kind::NOT => 1,
        _ => 0,
    };
    [lists.first[node], lists.second[node]]
        .into_iter()
        .take(count)
        .map(usize::from)
}

fn child_not_below(_: &Fields, lists: NodeLists) -> Option<usize> {
    (0..lists.kind.len()).find(|&node| children(lists, node).any(|child| child >= node))
}

fn not_child_once(_: &Fields, lists: NodeLists) -> Option<usize> {
    let nodes = lists.kind.len();
    let mut parents = vec![0u32; nodes];
    for child in (0..nodes).flat_map(|node| children(lists, node)) {
        parents[child] += 1;
    }
    parents[..nodes - 1].iter().position(|&count| count != 1)
}

/// A negation with a change, a dup or a star anywhere below it.
fn negates_no_test(_: &Fields, lists: NodeLists) -> Option<usize> {
    let nodes = lists.kind.len();
    // By node: is it tests alone? A child stands below its parent.
    let mut tests = vec![true; nodes];
    for node in 0..nodes {
        let kind = lists.kind[node];
        let child_tests = children(lists, node).all(|child| tests[child]);
        if kind == kind::NOT && !child_tests {
            return Some(node);
        }
        tests[node] = child_tests && !matches!(kind, kind::SET | kind::DUP | kind::STAR);
    }
    None
}

fn too_many_dups(_: &Fields, lists: NodeLists) -> Option<usize> {
    (0..lists.kind.len())
        .filter(|&node| lists.kind[node] == kind::DUP)
        .nth(MOST_DUPS)
}

/// Tests cause by cause, and within a cause policy by policy; each policy comes with the side it is named by.
fn test(fields: &Fields, policies: &[(u8, NodeLists)]) -> Result<(), Refusal> {
    for (number, cause) in CAUSES {
        for &(side, lists) in policies {
            if let Some(place) = cause(fields, lists) {
                return Err(Refusal::new(number, place).on(side));
            }
        }
    }
    Ok(())
}

/// Two legal policies, and how their packets are numbered.
#[derive(Clone, Debug)]
pub struct Pair {
    /// Over the fields that either mentions.
    pub numbering: Numbering,
    /// Left policy.
    pub left: Policy,
    /// Right policy.
    pub right: Policy,
}

/// Two policies, tested by 4 to 8, 19, 9 and 3.
pub fn pair(fields: &Fields, left: NodeLists, right: NodeLists) -> Result<Pair, Refusal> {
    test(fields, &[(1, left), (2, right)])?;
    let (left, right) = (Policy::from_legal(left), Policy::from_legal(right));
    Ok(Pair {
        numbering: Numbering::new(fields, &[&left, &right])?,
        left,
        right,
    })
}

/// Tests the tables, then two policies by 4 to 8, 19, 9 and 3, and answers the number of dups of each.
pub fn check_pair(
    tables: Tables,
    left: NodeLists,
    right: NodeLists,
) -> Result<(usize, usize), Refusal> {
    let pair = pair(&Fields::new(tables)?, left, right)?;
    Ok((pair.left.dups(), pair.right.dups()))
}

/// Tests the tables, then one policy by 4 to 8, 19, 9 and 3, over the fields that it mentions, and answers its number of dups.
pub fn check(tables: Tables, lists: NodeLists) -> Result<usize, Refusal> {
    let fields = Fields::new(tables)?;
    test(&fields, &[(0, lists)])?;
    let policy = Policy::from_legal(lists);
    Numbering::new(&fields, &[&policy])?;
    Ok(policy.dups())
}
