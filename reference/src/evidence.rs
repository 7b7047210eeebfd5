//! The evidence checker: does a table keep the four row rules?

use crate::answer::{Refusal, Ruling};
use crate::automaton::{Automaton, State, Step, START};
use crate::index::RowSet;
use crate::names::{Fields, Tables};
use crate::packets::Packets;
use crate::policy::{self, NodeLists};
use crate::search::test_lists;

/// A table of rows as a caller lends it in three lists, of any lengths and contents.
#[derive(Clone, Copy, Debug)]
pub struct Table<'a> {
    /// Packets.
    pub packet: &'a [u16],
    /// Left states.
    pub left: &'a [State],
    /// Right states.
    pub right: &'a [State],
}

/// A row of a table that is lent as one list of records. It has the layout that C gives it.
#[derive(Clone, Copy, Debug, Default, PartialEq, Eq)]
#[repr(C)]
pub struct Record {
    /// Packet.
    pub packet: u16,
    /// Left state.
    pub left: State,
    /// Right state.
    pub right: State,
    /// Parent, which is not read.
    pub parent: u16,
}

/// Packet, left and right state.
type Row = (u16, State, State);

/// Rows by their numbers, however they are lent.
trait Rows {
    fn count(&self) -> usize;
    fn row(&self, number: usize) -> Row;
}

impl Rows for Table<'_> {
    fn count(&self) -> usize {
        self.packet.len()
    }

    fn row(&self, number: usize) -> Row {
        (self.packet[number], self.left[number], self.right[number])
    }
}

impl Rows for [Record] {
    fn count(&self) -> usize {
        self.len()
    }

    fn row(&self, number: usize) -> Row {
        let record = &self[number];
        (record.packet, record.left, record.right)
    }
}

/// Checks a table in three lists. Tests the tables of names, 4 to 8, 19, 9, 3 and 10, then the rules.
pub fn check(
    tables: Tables,
    left: NodeLists,
    right: NodeLists,
    table: Table,
    work: &mut [u32],
) -> Result<Ruling, Refusal> {
    let lengths = [table.packet.len(), table.left.len(), table.right.len()];
    check_rows(tables, left, right, &table, &lengths, work)
}

/// Checks a table of records in the same way.
pub fn check_records(
    tables: Tables,
    left: NodeLists,
    right: NodeLists,
    records: &[Record],
    work: &mut [u32],
) -> Result<Ruling, Refusal> {
    check_rows(tables, left, right, records, &[records.len()], work)
}

/// Checks rows lent in lists of these lengths.
fn check_rows<R: Rows + ?Sized>(
    tables: Tables,
    left: NodeLists,
    right: NodeLists,
    rows: &R,
    lengths: &[usize],
    work: &mut [u32],
) -> Result<Ruling, Refusal> {
    let pair = policy::pair(&Fields::new(tables)?, left, right)?;
    test_lists(lengths, work.len())?;
    work.fill(0);
    let packets = Packets::new(pair.numbering);
    let mut left = Automaton::new(&packets, &pair.left);
    let mut right = Automaton::new(&packets, &pair.right);
    Ok(rule(&packets, &mut left, &mut right, rows)
        .err()
        .unwrap_or(Ruling::Accepted))
}

/// The first broken rule as an error.
fn rule<R: Rows + ?Sized>(
    packets: &Packets,
    left: &mut Automaton,
    right: &mut Automaton,
    rows: &R,
) -> Result<(), Ruling> {
    rule_a(packets, left, right, rows)?;
    let mut index = RowSet::new(packets);
    let distinct: Vec<usize> = (0..rows.count())
        .filter(|&number| {
            let (packet, left, right) = rows.row(number);
            index.insert(packet.into(), left, right)
        })
        .collect();
    rule_b(packets, &mut index)?;
    rules_c_and_d(packets, left, right, rows, &distinct, &mut index)
}

/// Packets and masks are in range.
fn rule_a<R: Rows + ?Sized>(
    packets: &Packets,
    left: &Automaton,
    right: &Automaton,
    rows: &R,
) -> Result<(), Ruling> {
    let broken = (0..rows.count()).find(|&number| {
        let (packet, left_state, right_state) = rows.row(number);
        usize::from(packet) >= packets.count() || !left.has(left_state) || !right.has(right_state)
    });
    broken.map_or(Ok(()), |row| Err(Ruling::OutOfRange { row }))
}

/// Every starting row is there.
fn rule_b(packets: &Packets, index: &mut RowSet) -> Result<(), Ruling> {
    let missing = (0..packets.count()).find(|&packet| !index.contains(packet, START, START));
    missing.map_or(Ok(()), |packet| Err(Ruling::NoStart { packet }))
}

/// In each row the outputs are equal and the next rows are there. A repeat keeps the rules as the first does.
fn rules_c_and_d<R: Rows + ?Sized>(
    packets: &Packets,
    left: &mut Automaton,
    right: &mut Automaton,
    rows: &R,
    distinct: &[usize],
    index: &mut RowSet,
) -> Result<(), Ruling> {
    let mut left_step = Step::new(packets);
    let mut right_step = Step::new(packets);
    for &row in distinct {
        let (packet, left_state, right_state) = rows.row(row);
        left.step(left_state, packet.into(), &mut left_step);
        right.step(right_state, packet.into(), &mut right_step);
        if left_step.output() != right_step.output() {
            return Err(Ruling::OutputsDiffer { row });
        }
        if let Some(packet) = missing_next(&left_step, &right_step, index) {
            return Err(Ruling::NextMissing { row, packet });
        }
    }
    Ok(())
}

/// The lowest packet whose next row is neither in the index nor has both states 0.
fn missing_next(left: &Step, right: &Step, index: &mut RowSet) -> Option<usize> {
    for (at, (l, r)) in left.marked().iter().zip(right.marked()).enumerate() {
        let mut rest = l | r;
        while rest != 0 {
            let packet = at * 64 + rest.trailing_zeros() as usize;
            rest &= rest - 1;
            if !index.contains(packet, left.next(packet), right.next(packet)) {
                return Some(packet);
            }
        }
    }
    None
}
