//! A case run by the verified library, through the C interface, or by the verified program.

use std::mem::{align_of, size_of};
use std::slice;

use netkat::lists::{self, Columns, Lent, Names, Nodes, Numbers, Tables};
use netkat::Row;
use netkat_reference::case::Case;
use netkat_reference::evidence::Record;
use netkat_reference::names::{OwnedTable, OwnedTables};
use netkat_reference::policy::OwnedLists;
use netkat_reference::search::Lists;

pub mod program;

fn names(table: &OwnedTable) -> Names<'_> {
    Names {
        cells: &table.cells,
        sizes: &table.sizes,
    }
}

fn both(tables: &OwnedTables) -> Tables<'_> {
    Tables {
        left: names(&tables.left),
        right: names(&tables.right),
    }
}

fn nodes(policy: &OwnedLists) -> Nodes<'_> {
    Nodes {
        kind: &policy.kind,
        first: &policy.first,
        second: &policy.second,
    }
}

fn lent(lists: &mut Lists) -> Lent<'_> {
    Lent {
        packet: &mut lists.packet,
        left: &mut lists.left,
        right: &mut lists.right,
        parent: &mut lists.parent,
        trace: &mut lists.trace,
        work: &mut lists.work,
    }
}

/// The second implementation's records as the library's rows: not copied, so that no copy is timed.
fn rows(records: &[Record]) -> &[Row] {
    const _: () = assert!(size_of::<Record>() == size_of::<Row>());
    const _: () = assert!(align_of::<Record>() == align_of::<Row>());
    // SAFETY: both have C's layout, with fields of the same types in the same order.
    unsafe { slice::from_raw_parts(records.as_ptr().cast(), records.len()) }
}

/// Runs the case on its own lists; none for the program, which is no call of the C interface.
pub fn run(case: &mut Case) -> Option<Numbers> {
    Some(match case {
        Case::Values {
            tables,
            left,
            right,
            number,
            values,
        } => lists::values(both(tables), nodes(left), nodes(right), *number, values),
        Case::Number {
            tables,
            left,
            right,
            values,
        } => lists::number(both(tables), nodes(left), nodes(right), values),
        Case::Policy { tables, policy } => lists::policy(both(tables), nodes(policy)),
        Case::Policies {
            tables,
            left,
            right,
        } => lists::policies(both(tables), nodes(left), nodes(right)),
        Case::Read {
            tables,
            side,
            text,
            nodes,
        } => {
            let (kind, first) = (&mut nodes.kind, &mut nodes.first);
            lists::read(both(tables), *side, text, kind, first, &mut nodes.second)
        }
        Case::Search {
            tables,
            left,
            right,
            lists,
        } => lists::search(both(tables), nodes(left), nodes(right), lent(lists)),
        Case::Texts {
            tables,
            left,
            right,
            lists,
        } => lists::search_texts(both(tables), left, right, lent(lists)),
        Case::Evidence {
            tables,
            left,
            right,
            lists,
        } => {
            let rows = Columns {
                packet: &lists.packet,
                left: &lists.left,
                right: &lists.right,
            };
            lists::evidence(
                both(tables),
                nodes(left),
                nodes(right),
                rows,
                &mut lists.work,
            )
        }
        Case::Records {
            tables,
            left,
            right,
            rows: records,
            work,
        } => lists::evidence_rows(both(tables), nodes(left), nodes(right), rows(records), work),
        Case::Trace {
            tables,
            left,
            right,
            entering,
            trace,
            work,
        } => lists::trace(
            both(tables),
            nodes(left),
            nodes(right),
            *entering,
            trace,
            work,
        ),
        Case::Program { .. } => return None,
    })
}
