//! The search: rows in row order until one tells the policies apart or all are handled.

use crate::answer::{Refusal, Side, Verdict};
use crate::automaton::{Automaton, State, Step, START};
use crate::index::RowSet;
use crate::names::{Fields, Tables};
use crate::packets::{set, Packets};
use crate::policy::{self, NodeLists, Pair, Policy, MOST_NODES};
use crate::text;

/// Most rows that lists may hold.
pub const MOST_ROWS: usize = 65_535;
/// Least length of a work list.
pub const LEAST_WORK: usize = 16_384;

/// The lists lent to a search, of any lengths and contents.
#[derive(Debug)]
pub struct Lent<'a> {
    /// Packets of the rows.
    pub packet: &'a mut [u16],
    /// Left states of the rows.
    pub left: &'a mut [State],
    /// Right states of the rows.
    pub right: &'a mut [State],
    /// Parents of the rows.
    pub parent: &'a mut [u16],
    /// For the telling trace.
    pub trace: &'a mut [u16],
    /// Left all 0 by every answer that comes after 10 is tested.
    pub work: &'a mut [u32],
}

/// Lists to lend.
#[derive(Clone, Debug, PartialEq, Eq)]
pub struct Lists {
    /// Packets of the rows.
    pub packet: Vec<u16>,
    /// Left states of the rows.
    pub left: Vec<State>,
    /// Right states of the rows.
    pub right: Vec<State>,
    /// Parents of the rows.
    pub parent: Vec<u16>,
    /// For the telling trace.
    pub trace: Vec<u16>,
    /// The work list.
    pub work: Vec<u32>,
}

impl Lists {
    /// Lists of these lengths, all 0.
    pub fn new(rows: usize, trace: usize, work: usize) -> Lists {
        Lists {
            packet: vec![0; rows],
            left: vec![0; rows],
            right: vec![0; rows],
            parent: vec![0; rows],
            trace: vec![0; trace],
            work: vec![0; work],
        }
    }

    /// Lends them all.
    pub fn lend(&mut self) -> Lent<'_> {
        Lent {
            packet: &mut self.packet,
            left: &mut self.left,
            right: &mut self.right,
            parent: &mut self.parent,
            trace: &mut self.trace,
            work: &mut self.work,
        }
    }
}

/// 10 for lists of these lengths.
pub(crate) fn test_lists(rows: &[usize], work: usize) -> Result<(), Refusal> {
    let unequal = rows.iter().any(|&length| length != rows[0]);
    if unequal || rows[0] > MOST_ROWS {
        return Err(Refusal::new(10, 0));
    }
    test_work(work)
}

/// 10 for a work list of this length.
pub(crate) fn test_work(work: usize) -> Result<(), Refusal> {
    if work < LEAST_WORK {
        return Err(Refusal::new(10, 0));
    }
    Ok(())
}

/// Searches two policies. Tests the tables, then 4 to 8, 19, 9, 3, 10 to 12.
pub fn search(
    tables: Tables,
    left: NodeLists,
    right: NodeLists,
    lent: Lent,
) -> Result<Verdict, Refusal> {
    compare(&Fields::new(tables)?, left, right, lent)
}

/// Searches two texts. Tests the tables, then 14 to 17 on each text, then 4 to 8, 19, 9, 3, 10 to 12.
pub fn search_texts(
    tables: Tables,
    left: &[u8],
    right: &[u8],
    lent: Lent,
) -> Result<Verdict, Refusal> {
    let fields = Fields::new(tables)?;
    let left = text::nodes(&fields, Side::Left, left, MOST_NODES)?;
    let right = text::nodes(&fields, Side::Right, right, MOST_NODES)?;
    compare(&fields, left.lists(), right.lists(), lent)
}

/// Tests 4 to 8, 19, 9, 3 and 10, and searches.
fn compare(
    fields: &Fields,
    left: NodeLists,
    right: NodeLists,
    lent: Lent,
) -> Result<Verdict, Refusal> {
    let Pair {
        numbering,
        left,
        right,
    } = policy::pair(fields, left, right)?;
    let rows = [
        lent.packet.len(),
        lent.left.len(),
        lent.right.len(),
        lent.parent.len(),
    ];
    test_lists(&rows, lent.work.len())?;
    lent.work.fill(0);
    Search::new(&Packets::new(numbering), &left, &right, lent).run()
}

/// A search under way.
struct Search<'a> {
    packets: &'a Packets,
    left: Automaton<'a>,
    right: Automaton<'a>,
    lent: Lent<'a>,
    listed: usize,
    index: RowSet,
}

impl<'a> Search<'a> {
    fn new(packets: &'a Packets, left: &Policy, right: &Policy, lent: Lent<'a>) -> Search<'a> {
        Search {
            packets,
            left: Automaton::new(packets, left),
            right: Automaton::new(packets, right),
            lent,
            listed: 0,
            index: RowSet::new(packets),
        }
    }

    fn run(mut self) -> Result<Verdict, Refusal> {
        for packet in 0..self.packets.count() {
            self.list(packet, START, START, packet)?;
        }
        let mut left = Step::new(self.packets);
        let mut right = Step::new(self.packets);
        let mut handled = 0;
        while handled < self.listed {
            let packet = self.lent.packet[handled].into();
            self.left.step(self.lent.left[handled], packet, &mut left);
            self.right
                .step(self.lent.right[handled], packet, &mut right);
            if let Some(telling) = set::lowest_difference(left.output(), right.output()) {
                let side = if set::contains(left.output(), telling) {
                    Side::Left
                } else {
                    Side::Right
                };
                return self.different(handled, telling as u16, side);
            }
            // The rows of lower depths are handled, and a trace of n packets is told apart at depth n - 1.
            self.list_next(handled, &left, &right)
                .map_err(|full| full.agreed_to(self.depth(handled)))?;
            handled += 1;
        }
        Ok(Verdict::Equal { rows: self.listed })
    }

    /// Lists the next rows of a handled row. Where nothing is marked both states are 0.
    fn list_next(&mut self, handled: usize, left: &Step, right: &Step) -> Result<(), Refusal> {
        for (at, (l, r)) in left.marked().iter().zip(right.marked()).enumerate() {
            let mut rest = l | r;
            while rest != 0 {
                let packet = at * 64 + rest.trailing_zeros() as usize;
                rest &= rest - 1;
                self.list(packet, left.next(packet), right.next(packet), handled)?;
            }
        }
        Ok(())
    }

    /// Steps from a starting row to this one.
    fn depth(&self, mut row: usize) -> usize {
        let mut steps = 0;
        while usize::from(self.lent.parent[row]) != row {
            row = self.lent.parent[row].into();
            steps += 1;
        }
        steps
    }

    /// Appends a row unless it is listed; 11 if it must be appended and no room is left, with nothing said of traces, as for
    /// the starting rows.
    fn list(
        &mut self,
        packet: usize,
        left: State,
        right: State,
        parent: usize,
    ) -> Result<(), Refusal> {
        if !self.index.insert(packet, left, right) {
            return Ok(());
        }
        let row = self.listed;
        if row == self.lent.packet.len() {
            return Err(Refusal::new(11, row));
        }
        self.lent.packet[row] = packet as u16;
        self.lent.left[row] = left;
        self.lent.right[row] = right;
        self.lent.parent[row] = parent as u16;
        self.listed += 1;
        Ok(())
    }

    /// The answer at the first row whose outputs differ; 12 if its trace does not fit.
    fn different(self, row: usize, telling: u16, side: Side) -> Result<Verdict, Refusal> {
        let Lent {
            packet,
            parent,
            trace,
            ..
        } = self.lent;
        let mut backwards = vec![telling];
        let mut row = row;
        while usize::from(parent[row]) != row {
            backwards.push(packet[row]);
            row = parent[row].into();
        }
        let length = backwards.len();
        if length > trace.len() {
            return Err(Refusal::new(12, length));
        }
        for (entry, &packet) in trace.iter_mut().zip(backwards.iter().rev()) {
            *entry = packet;
        }
        Ok(Verdict::Different {
            side,
            length,
            entering: packet[row],
        })
    }
}
