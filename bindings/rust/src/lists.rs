//! The C interface over slices: each call with its lists lent as they are, its answer as the eight numbers.
//!
//! The signatures keep what the C interface asks: slices point to their entries, and no slice that is lent for writing
//! overlaps another. Every length and every content is allowed.

use crate::raw::{self, Row};

/// An answer's eight numbers, as `include/netkat.h` says.
pub type Numbers = [u64; 8];

/// The two lists of a table of names, of any lengths and contents.
#[derive(Clone, Copy, Debug)]
pub struct Names<'a> {
    /// A cell of 16 bytes for each name: its length, then the name.
    pub cells: &'a [u8],
    /// Its size.
    pub sizes: &'a [u16],
}

/// The tables of the left and of the right policy.
#[derive(Clone, Copy, Debug)]
pub struct Tables<'a> {
    /// Of the left policy.
    pub left: Names<'a>,
    /// Of the right policy.
    pub right: Names<'a>,
}

/// The three lists of a policy, of any lengths and contents.
#[derive(Clone, Copy, Debug)]
pub struct Nodes<'a> {
    /// Kinds.
    pub kind: &'a [u8],
    /// Field or first child.
    pub first: &'a [u16],
    /// Value or second child.
    pub second: &'a [u16],
}

/// The lists lent to a search, of any lengths and contents.
#[derive(Debug)]
pub struct Lent<'a> {
    /// Packets of the rows.
    pub packet: &'a mut [u16],
    /// Left states of the rows.
    pub left: &'a mut [u64],
    /// Right states of the rows.
    pub right: &'a mut [u64],
    /// Parents of the rows.
    pub parent: &'a mut [u16],
    /// For the telling trace.
    pub trace: &'a mut [u16],
    /// All 0 once refusal 10 has passed.
    pub work: &'a mut [u32],
}

/// The columns of a table, of any lengths and contents.
#[derive(Clone, Copy, Debug)]
pub struct Columns<'a> {
    /// Packets of the rows.
    pub packet: &'a [u16],
    /// Left states of the rows.
    pub left: &'a [u64],
    /// Right states of the rows.
    pub right: &'a [u64],
}

/// A packet's number, over the fields that two policies mention, turned into values.
pub fn values(
    tables: Tables,
    left: Nodes,
    right: Nodes,
    number: u16,
    values: &mut [u16],
) -> Numbers {
    let mut answer = [0; 8];
    // SAFETY: the slices and the answer are valid for the call, and those written overlap no other.
    unsafe {
        raw::netkat_values(
            tables.left.cells.as_ptr(),
            tables.left.cells.len(),
            tables.left.sizes.as_ptr(),
            tables.left.sizes.len(),
            tables.right.cells.as_ptr(),
            tables.right.cells.len(),
            tables.right.sizes.as_ptr(),
            tables.right.sizes.len(),
            left.kind.as_ptr(),
            left.kind.len(),
            left.first.as_ptr(),
            left.first.len(),
            left.second.as_ptr(),
            left.second.len(),
            right.kind.as_ptr(),
            right.kind.len(),
            right.first.as_ptr(),
            right.first.len(),
            right.second.as_ptr(),
            right.second.len(),
            number,
            values.as_mut_ptr(),
            values.len(),
            answer.as_mut_ptr(),
        );
    }
    answer
}

/// Values turned into a packet's number, over the fields that two policies mention.
pub fn number(tables: Tables, left: Nodes, right: Nodes, values: &[u16]) -> Numbers {
    let mut answer = [0; 8];
    // SAFETY: as in `values`.
    unsafe {
        raw::netkat_number(
            tables.left.cells.as_ptr(),
            tables.left.cells.len(),
            tables.left.sizes.as_ptr(),
            tables.left.sizes.len(),
            tables.right.cells.as_ptr(),
            tables.right.cells.len(),
            tables.right.sizes.as_ptr(),
            tables.right.sizes.len(),
            left.kind.as_ptr(),
            left.kind.len(),
            left.first.as_ptr(),
            left.first.len(),
            left.second.as_ptr(),
            left.second.len(),
            right.kind.as_ptr(),
            right.kind.len(),
            right.first.as_ptr(),
            right.first.len(),
            right.second.as_ptr(),
            right.second.len(),
            values.as_ptr(),
            values.len(),
            answer.as_mut_ptr(),
        );
    }
    answer
}

/// One policy tested.
pub fn policy(tables: Tables, nodes: Nodes) -> Numbers {
    let mut answer = [0; 8];
    // SAFETY: as in `values`.
    unsafe {
        raw::netkat_policy(
            tables.left.cells.as_ptr(),
            tables.left.cells.len(),
            tables.left.sizes.as_ptr(),
            tables.left.sizes.len(),
            tables.right.cells.as_ptr(),
            tables.right.cells.len(),
            tables.right.sizes.as_ptr(),
            tables.right.sizes.len(),
            nodes.kind.as_ptr(),
            nodes.kind.len(),
            nodes.first.as_ptr(),
            nodes.first.len(),
            nodes.second.as_ptr(),
            nodes.second.len(),
            answer.as_mut_ptr(),
        );
    }
    answer
}

/// Two policies tested.
pub fn policies(tables: Tables, left: Nodes, right: Nodes) -> Numbers {
    let mut answer = [0; 8];
    // SAFETY: as in `values`.
    unsafe {
        raw::netkat_policies(
            tables.left.cells.as_ptr(),
            tables.left.cells.len(),
            tables.left.sizes.as_ptr(),
            tables.left.sizes.len(),
            tables.right.cells.as_ptr(),
            tables.right.cells.len(),
            tables.right.sizes.as_ptr(),
            tables.right.sizes.len(),
            left.kind.as_ptr(),
            left.kind.len(),
            left.first.as_ptr(),
            left.first.len(),
            left.second.as_ptr(),
            left.second.len(),
            right.kind.as_ptr(),
            right.kind.len(),
            right.first.as_ptr(),
            right.first.len(),
            right.second.as_ptr(),
            right.second.len(),
            answer.as_mut_ptr(),
        );
    }
    answer
}

/// The text of a side read; 2 is right, any other number left.
pub fn read(
    tables: Tables,
    side: u8,
    text: &[u8],
    kind: &mut [u8],
    first: &mut [u16],
    second: &mut [u16],
) -> Numbers {
    let mut answer = [0; 8];
    // SAFETY: as in `values`.
    unsafe {
        raw::netkat_read(
            tables.left.cells.as_ptr(),
            tables.left.cells.len(),
            tables.left.sizes.as_ptr(),
            tables.left.sizes.len(),
            tables.right.cells.as_ptr(),
            tables.right.cells.len(),
            tables.right.sizes.as_ptr(),
            tables.right.sizes.len(),
            side,
            text.as_ptr(),
            text.len(),
            kind.as_mut_ptr(),
            kind.len(),
            first.as_mut_ptr(),
            first.len(),
            second.as_mut_ptr(),
            second.len(),
            answer.as_mut_ptr(),
        );
    }
    answer
}

/// Two policies searched.
pub fn search(tables: Tables, left: Nodes, right: Nodes, lent: Lent) -> Numbers {
    let mut answer = [0; 8];
    // SAFETY: as in `values`.
    unsafe {
        raw::netkat_search(
            tables.left.cells.as_ptr(),
            tables.left.cells.len(),
            tables.left.sizes.as_ptr(),
            tables.left.sizes.len(),
            tables.right.cells.as_ptr(),
            tables.right.cells.len(),
            tables.right.sizes.as_ptr(),
            tables.right.sizes.len(),
            left.kind.as_ptr(),
            left.kind.len(),
            left.first.as_ptr(),
            left.first.len(),
            left.second.as_ptr(),
            left.second.len(),
            right.kind.as_ptr(),
            right.kind.len(),
            right.first.as_ptr(),
            right.first.len(),
            right.second.as_ptr(),
            right.second.len(),
            lent.packet.as_mut_ptr(),
            lent.packet.len(),
            lent.left.as_mut_ptr(),
            lent.left.len(),
            lent.right.as_mut_ptr(),
            lent.right.len(),
            lent.parent.as_mut_ptr(),
            lent.parent.len(),
            lent.trace.as_mut_ptr(),
            lent.trace.len(),
            lent.work.as_mut_ptr(),
            lent.work.len(),
            answer.as_mut_ptr(),
        );
    }
    answer
}

/// Two texts searched.
pub fn search_texts(tables: Tables, left: &[u8], right: &[u8], lent: Lent) -> Numbers {
    let mut answer = [0; 8];
    // SAFETY: as in `values`.
    unsafe {
        raw::netkat_search_texts(
            tables.left.cells.as_ptr(),
            tables.left.cells.len(),
            tables.left.sizes.as_ptr(),
            tables.left.sizes.len(),
            tables.right.cells.as_ptr(),
            tables.right.cells.len(),
            tables.right.sizes.as_ptr(),
            tables.right.sizes.len(),
            left.as_ptr(),
            left.len(),
            right.as_ptr(),
            right.len(),
            lent.packet.as_mut_ptr(),
            lent.packet.len(),
            lent.left.as_mut_ptr(),
            lent.left.len(),
            lent.right.as_mut_ptr(),
            lent.right.len(),
            lent.parent.as_mut_ptr(),
            lent.parent.len(),
            lent.trace.as_mut_ptr(),
            lent.trace.len(),
            lent.work.as_mut_ptr(),
            lent.work.len(),
            answer.as_mut_ptr(),
        );
    }
    answer
}

/// A table checked.
pub fn evidence(
    tables: Tables,
    left: Nodes,
    right: Nodes,
    rows: Columns,
    work: &mut [u32],
) -> Numbers {
    let mut answer = [0; 8];
    // SAFETY: as in `values`.
    unsafe {
        raw::netkat_evidence(
            tables.left.cells.as_ptr(),
            tables.left.cells.len(),
            tables.left.sizes.as_ptr(),
            tables.left.sizes.len(),
            tables.right.cells.as_ptr(),
            tables.right.cells.len(),
            tables.right.sizes.as_ptr(),
            tables.right.sizes.len(),
            left.kind.as_ptr(),
            left.kind.len(),
            left.first.as_ptr(),
            left.first.len(),
            left.second.as_ptr(),
            left.second.len(),
            right.kind.as_ptr(),
            right.kind.len(),
            right.first.as_ptr(),
            right.first.len(),
            right.second.as_ptr(),
            right.second.len(),
            rows.packet.as_ptr(),
            rows.packet.len(),
            rows.left.as_ptr(),
            rows.left.len(),
            rows.right.as_ptr(),
            rows.right.len(),
            work.as_mut_ptr(),
            work.len(),
            answer.as_mut_ptr(),
        );
    }
    answer
}

/// A table of records checked.
pub fn evidence_rows(
    tables: Tables,
    left: Nodes,
    right: Nodes,
    rows: &[Row],
    work: &mut [u32],
) -> Numbers {
    let mut answer = [0; 8];
    // SAFETY: as in `values`.
    unsafe {
        raw::netkat_evidence_rows(
            tables.left.cells.as_ptr(),
            tables.left.cells.len(),
            tables.left.sizes.as_ptr(),
            tables.left.sizes.len(),
            tables.right.cells.as_ptr(),
            tables.right.cells.len(),
            tables.right.sizes.as_ptr(),
            tables.right.sizes.len(),
            left.kind.as_ptr(),
            left.kind.len(),
            left.first.as_ptr(),
            left.first.len(),
            left.second.as_ptr(),
            left.second.len(),
            right.kind.as_ptr(),
            right.kind.len(),
            right.first.as_ptr(),
            right.first.len(),
            right.second.as_ptr(),
            right.second.len(),
            rows.as_ptr(),
            rows.len(),
            work.as_mut_ptr(),
            work.len(),
            answer.as_mut_ptr(),
        );
    }
    answer
}

/// A trace checked.
pub fn trace(
    tables: Tables,
    left: Nodes,
    right: Nodes,
    entering: u16,
    trace: &[u16],
    work: &mut [u32],
) -> Numbers {
    let mut answer = [0; 8];
    // SAFETY: as in `values`.
    unsafe {
        raw::netkat_trace(
            tables.left.cells.as_ptr(),
            tables.left.cells.len(),
            tables.left.sizes.as_ptr(),
            tables.left.sizes.len(),
            tables.right.cells.as_ptr(),
            tables.right.cells.len(),
            tables.right.sizes.as_ptr(),
            tables.right.sizes.len(),
            left.kind.as_ptr(),
            left.kind.len(),
            left.first.as_ptr(),
            left.first.len(),
            left.second.as_ptr(),
            left.second.len(),
            right.kind.as_ptr(),
            right.kind.len(),
            right.first.as_ptr(),
            right.first.len(),
            right.second.as_ptr(),
            right.second.len(),
            entering,
            trace.as_ptr(),
            trace.len(),
            work.as_mut_ptr(),
            work.len(),
            answer.as_mut_ptr(),
        );
    }
    answer
}
