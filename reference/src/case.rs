//! One call with its inputs and lent lists: run it, print it, sum up what it left.

use std::fmt::Write;

use crate::answer::{Numbered, Numbers, Side};
use crate::automaton::State;
use crate::evidence::{self, Record, Table};
use crate::names::{Fields, OwnedTable, OwnedTables};
use crate::policy::{self, OwnedLists, MOST_NODES};
use crate::search::{self, Lists};
use crate::{packets, program, text, traces};

/// A call with everything it is handed.
#[derive(Clone, Debug, PartialEq, Eq)]
pub enum Case {
    /// A packet's number turned into values.
    Values {
        /// Tables of names.
        tables: OwnedTables,
        /// Left policy.
        left: OwnedLists,
        /// Right policy.
        right: OwnedLists,
        /// The number turned.
        number: u16,
        /// Lent for the values.
        values: Vec<u16>,
    },
    /// Values turned into a packet's number.
    Number {
        /// Tables of names.
        tables: OwnedTables,
        /// Left policy.
        left: OwnedLists,
        /// Right policy.
        right: OwnedLists,
        /// The values turned.
        values: Vec<u16>,
    },
    /// One policy tested.
    Policy {
        /// Tables of names.
        tables: OwnedTables,
        /// The policy.
        policy: OwnedLists,
    },
    /// Two policies tested.
    Policies {
        /// Tables of names.
        tables: OwnedTables,
        /// Left policy.
        left: OwnedLists,
        /// Right policy.
        right: OwnedLists,
    },
    /// One text read.
    Read {
        /// Tables of names.
        tables: OwnedTables,
        /// The text's side: 2 is right, any other number left.
        side: u8,
        /// The text.
        text: Vec<u8>,
        /// Lent for the nodes.
        nodes: OwnedLists,
    },
    /// Two policies searched.
    Search {
        /// Tables of names.
        tables: OwnedTables,
        /// Left policy.
        left: OwnedLists,
        /// Right policy.
        right: OwnedLists,
        /// Lent lists.
        lists: Lists,
    },
    /// Two texts searched.
    Texts {
        /// Tables of names.
        tables: OwnedTables,
        /// Left text.
        left: Vec<u8>,
        /// Right text.
        right: Vec<u8>,
        /// Lent lists.
        lists: Lists,
    },
    /// A table checked.
    Evidence {
        /// Tables of names.
        tables: OwnedTables,
        /// Left policy.
        left: OwnedLists,
        /// Right policy.
        right: OwnedLists,
        /// The table in the first three lists, and the work list; parents and trace are not lent.
        lists: Lists,
    },
    /// A table of records checked.
    Records {
        /// Tables of names.
        tables: OwnedTables,
        /// Left policy.
        left: OwnedLists,
        /// Right policy.
        right: OwnedLists,
        /// The table.
        rows: Vec<Record>,
        /// The work list.
        work: Vec<u32>,
    },
    /// A trace checked.
    Trace {
        /// Tables of names.
        tables: OwnedTables,
        /// Left policy.
        left: OwnedLists,
        /// Right policy.
        right: OwnedLists,
        /// Entering packet.
        entering: u16,
        /// The trace.
        trace: Vec<u16>,
        /// The work list.
        work: Vec<u32>,
    },
    /// The program run.
    Program {
        /// Its input.
        input: Vec<u8>,
        /// Its output, once run.
        output: Vec<u8>,
    },
}

/// An entry of a list: printed as a number, summed up as bytes, lowest first.
trait Entry: Copy + PartialEq + Into<u64> {
    const BYTES: usize;
}

impl Entry for u8 {
    const BYTES: usize = 1;
}

impl Entry for u16 {
    const BYTES: usize = 2;
}

impl Entry for u32 {
    const BYTES: usize = 4;
}

impl Entry for u64 {
    const BYTES: usize = 8;
}

/// FNV-1a, 64 bits, over all entries of a list.
fn checksum<T: Entry>(list: &[T]) -> u64 {
    let mut sum = 0xcbf2_9ce4_8422_2325;
    for &entry in list {
        let entry: u64 = entry.into();
        for byte in &entry.to_le_bytes()[..T::BYTES] {
            sum = (sum ^ u64::from(*byte)).wrapping_mul(0x0100_0000_01b3);
        }
    }
    sum
}

/// A list as `length:v v v`; the last number printed stands for all entries that follow.
fn list<T: Entry>(entries: &[T]) -> String {
    let mut printed = format!("{}:", entries.len());
    let last = match entries.last() {
        Some(last) => last,
        None => return printed,
    };
    let shown = entries
        .iter()
        .rposition(|entry| entry != last)
        .map_or(1, |at| at + 2);
    for (at, &entry) in entries[..shown].iter().enumerate() {
        let gap = if at == 0 { "" } else { " " };
        let entry: u64 = entry.into();
        let _ = write!(printed, "{gap}{entry}");
    }
    printed
}

/// Bytes as hexadecimal digits.
fn hex(bytes: &[u8]) -> String {
    let mut printed = String::with_capacity(bytes.len() * 2);
    for byte in bytes {
        let _ = write!(printed, "{byte:02x}");
    }
    printed
}

/// The two lists of each table.
fn names(tables: &OwnedTables) -> [String; 4] {
    let OwnedTables { left, right } = tables;
    let cells = |table: &OwnedTable| hex(&table.cells);
    [
        cells(left),
        list(&left.sizes),
        cells(right),
        list(&right.sizes),
    ]
}

/// The three lists of a policy.
fn nodes(policy: &OwnedLists) -> [String; 3] {
    [
        list(&policy.kind),
        list(&policy.first),
        list(&policy.second),
    ]
}

/// The columns of a table of records: packets, left states, right states, parents.
fn columns(rows: &[Record]) -> (Vec<u16>, Vec<State>, Vec<State>, Vec<u16>) {
    (
        rows.iter().map(|row| row.packet).collect(),
        rows.iter().map(|row| row.left).collect(),
        rows.iter().map(|row| row.right).collect(),
        rows.iter().map(|row| row.parent).collect(),
    )
}

/// A parent, which nobody reads, for the row of this number.
fn any_parent(row: usize) -> u16 {
    65_535 - (row % 65_536) as u16
}

/// The six lists lent to a search.
fn lent(lists: &Lists) -> [String; 6] {
    [
        list(&lists.packet),
        list(&lists.left),
        list(&lists.right),
        list(&lists.parent),
        list(&lists.trace),
        list(&lists.work),
    ]
}

/// Checksums of the six lists lent to a search.
fn lent_checksums(lists: &Lists) -> Vec<u64> {
    vec![
        checksum(&lists.packet),
        checksum(&lists.left),
        checksum(&lists.right),
        checksum(&lists.parent),
        checksum(&lists.trace),
        checksum(&lists.work),
    ]
}

impl Case {
    /// The test of the two policies that the call takes, if it searches two.
    pub fn tested(&self) -> Option<Case> {
        match self {
            Case::Search {
                tables,
                left,
                right,
                ..
            } => Some(Case::Policies {
                tables: tables.clone(),
                left: left.clone(),
                right: right.clone(),
            }),
            _ => None,
        }
    }

    /// The tables and the two policies that the call takes as lists, if it does.
    pub fn policies(&self) -> Option<(&OwnedTables, &OwnedLists, &OwnedLists)> {
        match self {
            Case::Values {
                tables,
                left,
                right,
                ..
            }
            | Case::Number {
                tables,
                left,
                right,
                ..
            }
            | Case::Policies {
                tables,
                left,
                right,
            }
            | Case::Search {
                tables,
                left,
                right,
                ..
            }
            | Case::Evidence {
                tables,
                left,
                right,
                ..
            }
            | Case::Records {
                tables,
                left,
                right,
                ..
            }
            | Case::Trace {
                tables,
                left,
                right,
                ..
            } => Some((tables, left, right)),
            _ => None,
        }
    }

    /// How many packets the two policies of the call make, or its two texts, if they are legal.
    pub fn packets(&self) -> Option<usize> {
        let count = |fields: &Fields, left: &OwnedLists, right: &OwnedLists| {
            let pair = policy::pair(fields, left.lists(), right.lists()).ok()?;
            Some(pair.numbering.count())
        };
        if let Some((tables, left, right)) = self.policies() {
            return count(&Fields::new(tables.lend()).ok()?, left, right);
        }
        match self {
            Case::Texts {
                tables,
                left,
                right,
                ..
            } => {
                let fields = Fields::new(tables.lend()).ok()?;
                let left = text::nodes(&fields, Side::Left, left, MOST_NODES).ok()?;
                let right = text::nodes(&fields, Side::Right, right, MOST_NODES).ok()?;
                count(&fields, &left, &right)
            }
            _ => None,
        }
    }

    /// Of a search on two policies that has found a difference: the packet that it shows as the entering one, and the last of
    /// its trace, to be turned into values.
    pub fn shown(&self, answer: Numbers) -> Vec<Case> {
        match (self, answer) {
            (
                Case::Search {
                    tables,
                    left,
                    right,
                    lists,
                },
                [1 | 2, length, entering, ..],
            ) => {
                let fields = Fields::new(tables.lend()).map_or(0, |fields| fields.sizes().len());
                let last = lists.trace[length as usize - 1];
                let turned = |number| Case::Values {
                    tables: tables.clone(),
                    left: left.clone(),
                    right: right.clone(),
                    number,
                    values: vec![0; fields],
                };
                [entering as u16, last].map(turned).to_vec()
            }
            _ => Vec::new(),
        }
    }

    /// Of a number that has been turned into values: the values, to be turned back.
    pub fn turned_back(&self) -> Option<Case> {
        match self {
            Case::Values {
                tables,
                left,
                right,
                values,
                ..
            } => Some(Case::Number {
                tables: tables.clone(),
                left: left.clone(),
                right: right.clone(),
                values: values.clone(),
            }),
            _ => None,
        }
    }

    /// The same table lent the other way, if it can be: three lists as records, with any parents, records as three lists.
    pub fn lent_otherwise(&self) -> Option<Case> {
        match self {
            Case::Evidence {
                tables,
                left,
                right,
                lists,
            } => {
                let count = lists.packet.len();
                if lists.left.len() != count || lists.right.len() != count {
                    return None;
                }
                let record = |row| Record {
                    packet: lists.packet[row],
                    left: lists.left[row],
                    right: lists.right[row],
                    parent: any_parent(row),
                };
                Some(Case::Records {
                    tables: tables.clone(),
                    left: left.clone(),
                    right: right.clone(),
                    rows: (0..count).map(record).collect(),
                    work: lists.work.clone(),
                })
            }
            Case::Records {
                tables,
                left,
                right,
                rows,
                work,
            } => {
                let (packet, left_states, right_states, _) = columns(rows);
                Some(Case::Evidence {
                    tables: tables.clone(),
                    left: left.clone(),
                    right: right.clone(),
                    lists: Lists {
                        packet,
                        left: left_states,
                        right: right_states,
                        parent: Vec::new(),
                        trace: Vec::new(),
                        work: work.clone(),
                    },
                })
            }
            _ => None,
        }
    }

    /// The call's name.
    pub fn name(&self) -> &'static str {
        match self {
            Case::Values { .. } => "values",
            Case::Number { .. } => "number",
            Case::Policy { .. } => "policy",
            Case::Policies { .. } => "policies",
            Case::Read { .. } => "read",
            Case::Search { .. } => "search",
            Case::Texts { .. } => "texts",
            Case::Evidence { .. } => "evidence",
            Case::Records { .. } => "records",
            Case::Trace { .. } => "trace",
            Case::Program { .. } => "program",
        }
    }

    /// Runs the call on its own lists. The program's answer is 0 and the length of its output.
    pub fn run(&mut self) -> Numbers {
        match self {
            Case::Values {
                tables,
                left,
                right,
                number,
                values,
            } => {
                let (left, right) = (left.lists(), right.lists());
                packets::values(tables.lend(), left, right, *number, values).numbers()
            }
            Case::Number {
                tables,
                left,
                right,
                values,
            } => {
                let (left, right) = (left.lists(), right.lists());
                packets::number(tables.lend(), left, right, values).numbers()
            }
            Case::Policy { tables, policy } => {
                policy::check(tables.lend(), policy.lists()).numbers()
            }
            Case::Policies {
                tables,
                left,
                right,
            } => policy::check_pair(tables.lend(), left.lists(), right.lists()).numbers(),
            Case::Read {
                tables,
                side,
                text,
                nodes,
            } => {
                let (kind, first) = (&mut nodes.kind, &mut nodes.first);
                let side = Side::of_text(*side);
                text::read(tables.lend(), side, text, kind, first, &mut nodes.second).numbers()
            }
            Case::Search {
                tables,
                left,
                right,
                lists,
            } => search::search(tables.lend(), left.lists(), right.lists(), lists.lend()).numbers(),
            Case::Texts {
                tables,
                left,
                right,
                lists,
            } => search::search_texts(tables.lend(), left, right, lists.lend()).numbers(),
            Case::Evidence {
                tables,
                left,
                right,
                lists,
            } => {
                let table = Table {
                    packet: &lists.packet,
                    left: &lists.left,
                    right: &lists.right,
                };
                let (left, right) = (left.lists(), right.lists());
                evidence::check(tables.lend(), left, right, table, &mut lists.work).numbers()
            }
            Case::Records {
                tables,
                left,
                right,
                rows,
                work,
            } => {
                let (left, right) = (left.lists(), right.lists());
                evidence::check_records(tables.lend(), left, right, rows, work).numbers()
            }
            Case::Trace {
                tables,
                left,
                right,
                entering,
                trace,
                work,
            } => {
                let (left, right) = (left.lists(), right.lists());
                traces::check(tables.lend(), left, right, *entering, trace, work).numbers()
            }
            Case::Program { input, output } => {
                *output = program::run(input);
                output.len().numbers()
            }
        }
    }

    /// The inputs as text, in the order in which the call takes them.
    pub fn inputs(&self) -> Vec<String> {
        let mut fields = Vec::new();
        match self {
            Case::Values {
                tables,
                left,
                right,
                number,
                values,
            } => {
                fields.extend(names(tables));
                fields.extend(nodes(left));
                fields.extend(nodes(right));
                fields.extend([number.to_string(), list(values)]);
            }
            Case::Number {
                tables,
                left,
                right,
                values,
            } => {
                fields.extend(names(tables));
                fields.extend(nodes(left));
                fields.extend(nodes(right));
                fields.push(list(values));
            }
            Case::Policy { tables, policy } => {
                fields.extend(names(tables));
                fields.extend(nodes(policy));
            }
            Case::Policies {
                tables,
                left,
                right,
            } => {
                fields.extend(names(tables));
                fields.extend(nodes(left));
                fields.extend(nodes(right));
            }
            Case::Read {
                tables,
                side,
                text,
                nodes: lent,
            } => {
                fields.extend(names(tables));
                fields.extend([side.to_string(), hex(text)]);
                fields.extend(nodes(lent));
            }
            Case::Search {
                tables,
                left,
                right,
                lists,
            } => {
                fields.extend(names(tables));
                fields.extend(nodes(left));
                fields.extend(nodes(right));
                fields.extend(lent(lists));
            }
            Case::Texts {
                tables,
                left,
                right,
                lists,
            } => {
                fields.extend(names(tables));
                fields.extend([hex(left), hex(right)]);
                fields.extend(lent(lists));
            }
            Case::Evidence {
                tables,
                left,
                right,
                lists,
            } => {
                fields.extend(names(tables));
                fields.extend(nodes(left));
                fields.extend(nodes(right));
                fields.extend([
                    list(&lists.packet),
                    list(&lists.left),
                    list(&lists.right),
                    list(&lists.work),
                ]);
            }
            Case::Records {
                tables,
                left,
                right,
                rows,
                work,
            } => {
                fields.extend(names(tables));
                fields.extend(nodes(left));
                fields.extend(nodes(right));
                let (packet, left_states, right_states, parent) = columns(rows);
                fields.extend([
                    list(&packet),
                    list(&left_states),
                    list(&right_states),
                    list(&parent),
                    list(work),
                ]);
            }
            Case::Trace {
                tables,
                left,
                right,
                entering,
                trace,
                work,
            } => {
                fields.extend(names(tables));
                fields.extend(nodes(left));
                fields.extend(nodes(right));
                fields.extend([entering.to_string(), list(trace), list(work)]);
            }
            Case::Program { input, .. } => fields.push(hex(input)),
        }
        fields
    }

    /// Checksums of the lists that the call may write, in the order in which it takes them; of the program, its output.
    pub fn checksums(&self) -> Vec<u64> {
        match self {
            Case::Values { values, .. } => vec![checksum(values)],
            Case::Number { .. } | Case::Policy { .. } | Case::Policies { .. } => Vec::new(),
            Case::Read { nodes, .. } => vec![
                checksum(&nodes.kind),
                checksum(&nodes.first),
                checksum(&nodes.second),
            ],
            Case::Search { lists, .. } | Case::Texts { lists, .. } => lent_checksums(lists),
            Case::Evidence { lists, .. } => vec![checksum(&lists.work)],
            Case::Records { work, .. } | Case::Trace { work, .. } => vec![checksum(work)],
            Case::Program { output, .. } => vec![checksum(output)],
        }
    }
}

#[cfg(test)]
mod tests {
    use super::*;

    #[test]
    fn lists_are_printed_short() {
        assert_eq!(list::<u16>(&[]), "0:");
        assert_eq!(list::<u16>(&[7]), "1:7");
        assert_eq!(list::<u16>(&[7, 7, 7]), "3:7");
        assert_eq!(list::<u32>(&[1, 2, 2]), "3:1 2");
        assert_eq!(list(&[u64::MAX]), "1:18446744073709551615");
        assert_eq!(list::<u8>(&[1, 2, 3]), "3:1 2 3");
    }

    #[test]
    fn checksums_are_fnv() {
        assert_eq!(checksum::<u8>(&[]), 0xcbf2_9ce4_8422_2325);
        assert_eq!(checksum(b"a"), 0xaf63_dc4c_8601_ec8c);
        assert_eq!(checksum(b"foobar"), 0x8594_4171_f739_67e8);
        assert_eq!(
            checksum::<u16>(&[0x6f66, 0x626f, 0x7261]),
            checksum(b"foobar")
        );
        assert_eq!(checksum::<u64>(&[0x61]), checksum(b"a\0\0\0\0\0\0\0"));
    }
}
