//! NetKAT policy equivalence: a safe wrapper of the verified library.
//!
//! ```
//! use netkat::{Checker, Ruling, Side, Tables, Verdict};
//!
//! // both policies call their fields alike
//! let mut checker = Checker::new(Tables::shared(&[("sw", 2), ("port", 3)]));
//! let one = checker.read(Side::Left, b"sw=0;dup;port<-2")?;
//! let other = checker.read(Side::Right, b"dup;sw=0;port<-2")?;
//! if let Verdict::Equal(rows) = checker.search(&one, &other, 4096)? {
//!     assert_eq!(checker.evidence(&one, &other, &rows)?, Ruling::Accepted);
//! }
//! # Ok::<(), netkat::Refusal>(())
//! ```
//!
//! [`Checker`], [`Tables`] and [`Policy`] own their lists and give typed answers; [`lists`] lends slices of any lengths and gives the eight
//! numbers of the C interface; [`raw`] is that interface itself. The library is proved, this wrapper is not.
//!
//! A call needs up to 4 MiB of stack, measured at most 1997 KiB: a thread that makes calls is started with at least [`STACK`] (Rust
//! starts threads with 2 MiB). It runs to its end, on the costliest policies for minutes, and can't be cancelled.

#![warn(missing_docs)]

use std::error::Error;
use std::fmt;

pub mod lists;
pub mod raw;

use lists::{Columns, Lent, Nodes, Numbers};
pub use raw::Row;

/// Most bytes of a field's name.
pub const MOST_NAME: usize = 15;
/// Bytes of a cell: a name's length, then the name.
const CELL: usize = MOST_NAME + 1;
/// Most fields of both tables together.
pub const MOST_FIELDS: usize = 8;
/// Most nodes of a policy.
pub const MOST_NODES: usize = 512;
/// Most rows of a table.
pub const MOST_ROWS: usize = 65_535;
/// Least length of a work list.
pub const LEAST_WORK: usize = 16_384;
/// Stack, in bytes, that a call may need.
pub const STACK: usize = 4 << 20;

/// The refusal of a search that needs more rows than were lent.
pub const ROWS_FULL: u64 = 11;

/// One of the two policies.
#[derive(Clone, Copy, Debug, PartialEq, Eq)]
pub enum Side {
    /// The first.
    Left,
    /// The second.
    Right,
}

/// Why a call gives no result; `include/netkat.h` lists the numbers.
#[derive(Clone, Copy, Debug, PartialEq, Eq)]
pub struct Refusal {
    /// The cause, 1 to 17 or 19 to 21.
    pub number: u64,
    /// The policy or the table that it concerns, if it names one.
    pub side: Option<Side>,
    /// Field, node, byte, row, length or name, as the cause says.
    pub place: u64,
    /// Of 11, how far the two agree: they have the same traces of so many packets or fewer from every packet. No other cause says so.
    pub agreed: Option<u64>,
}

impl Refusal {
    /// The cause in words, and what the place counts, if it has one.
    fn words(&self) -> (&'static str, Option<&'static str>) {
        match self.number {
            1 => ("a table without names, or more than 8 fields", None),
            2 => ("a size is 0", Some("field")),
            3 => (
                "more than 1,024 packets over the mentioned fields",
                Some("up to field"),
            ),
            4 => (
                "lists that don't match, or a policy that is empty or over 512 nodes",
                None,
            ),
            5 => ("a kind over 9", Some("node")),
            6 => ("a wrong field, value or unused entry", Some("node")),
            7 => ("a child not below its parent", Some("parent node")),
            8 => ("not a child exactly once", Some("node")),
            9 => ("more than 63 dups", Some("node")),
            10 => (
                "row lists unequal, over 65,535 rows, or a short work list",
                None,
            ),
            ROWS_FULL => ("more rows needed than were lent", Some("rows lent:")),
            12 => ("a short trace list", Some("length needed:")),
            13 => ("a packet or a value out of range", Some("place")),
            14 => ("no token, or an unknown word", Some("byte")),
            15 => ("more than 64 open parentheses", Some("byte")),
            16 => ("no legal text goes on so", Some("byte")),
            17 => ("more nodes than fit", Some("nodes needed:")),
            19 => ("a negation over a change, a dup or a star", Some("node")),
            20 => (
                "a name that is malformed, there already, or drop, id or dup",
                Some("name"),
            ),
            21 => ("a name with two sizes", Some("name")),
            _ => ("an unknown cause", Some("place")),
        }
    }
}

impl fmt::Display for Refusal {
    fn fmt(&self, f: &mut fmt::Formatter) -> fmt::Result {
        let side = match self.side {
            None => "",
            Some(Side::Left) => " on the left",
            Some(Side::Right) => " on the right",
        };
        let (cause, counted) = self.words();
        write!(f, "refused by {}{side}: {cause}", self.number)?;
        if let Some(what) = counted {
            write!(f, ", {what} {}", self.place)?;
        }
        match self.agreed {
            None => Ok(()),
            Some(length) => write!(f, "; the same traces up to length {length}"),
        }
    }
}

impl Error for Refusal {}

/// The numbers of an answer that is no refusal.
fn accepted(answer: Numbers) -> Result<Numbers, Refusal> {
    let [9, number, side, place, length, ..] = answer else {
        return Ok(answer);
    };
    let side = match side {
        1 => Some(Side::Left),
        2 => Some(Side::Right),
        _ => None,
    };
    Err(Refusal {
        number,
        side,
        place,
        agreed: (number == ROWS_FULL).then_some(length),
    })
}

/// For numbers that the library is proved not to answer.
fn not_answered(answer: Numbers) -> ! {
    unreachable!("the library answers no {answer:?}")
}

/// What the evidence checker answers.
fn ruled(answer: Numbers) -> Result<Ruling, Refusal> {
    match accepted(answer)? {
        [0, ..] => Ok(Ruling::Accepted),
        [5, 1, row, ..] => Ok(Ruling::OutOfRange(row as u16)),
        [5, 2, packet, ..] => Ok(Ruling::NoStart(packet as u16)),
        [5, 3, row, ..] => Ok(Ruling::OutputsDiffer(row as u16)),
        [5, 4, row, packet, ..] => Ok(Ruling::NextMissing(row as u16, packet as u16)),
        other => not_answered(other),
    }
}

/// The names of a policy's fields, each with its size; they are tested by each call that takes them.
#[derive(Clone, Debug, Default, PartialEq, Eq)]
pub struct Table {
    cells: Vec<u8>,
    sizes: Vec<u16>,
}

impl Table {
    /// Of these names and sizes, in this order. Any name is stored, and one that is none is refused by 20.
    pub fn new(fields: &[(&str, u16)]) -> Table {
        let mut table = Table::default();
        for (name, size) in fields {
            table.cells.extend_from_slice(&cell(name.as_bytes()));
            table.sizes.push(*size);
        }
        table
    }

    fn names(&self) -> lists::Names<'_> {
        lists::Names {
            cells: &self.cells,
            sizes: &self.sizes,
        }
    }
}

/// A name's cell. The length of a name that no cell holds says so, and does not wrap round.
fn cell(name: &[u8]) -> [u8; CELL] {
    let mut cell = [0; CELL];
    let held = name.len().min(MOST_NAME);
    cell[0] = name.len().min(CELL) as u8;
    cell[1..=held].copy_from_slice(&name[..held]);
    cell
}

/// The tables of two policies. Fields are numbered as in the left one, then those that only the right one has.
#[derive(Clone, Debug, Default, PartialEq, Eq)]
pub struct Tables {
    /// Of the left policy.
    pub left: Table,
    /// Of the right policy.
    pub right: Table,
}

impl Tables {
    /// The same names and sizes in both.
    pub fn shared(fields: &[(&str, u16)]) -> Tables {
        Tables {
            left: Table::new(fields),
            right: Table::new(fields),
        }
    }

    fn lists(&self) -> lists::Tables<'_> {
        lists::Tables {
            left: self.left.names(),
            right: self.right.names(),
        }
    }
}

/// A policy as node lists; they are tested by each call that takes them.
#[derive(Clone, Debug, PartialEq, Eq)]
pub struct Policy {
    /// Kinds: 0 drop, 1 id, 2 f = v, 3 f ≠ v, 4 f ← v, 5 dup, 6 sum, 7 sequence, 8 star, 9 negation.
    pub kind: Vec<u8>,
    /// Number of a field, or first child.
    pub first: Vec<u16>,
    /// Value or second child.
    pub second: Vec<u16>,
}

/// Passes every packet.
const ID: Nodes = Nodes {
    kind: &[1],
    first: &[0],
    second: &[0],
};

impl Policy {
    fn nodes(&self) -> Nodes<'_> {
        Nodes {
            kind: &self.kind,
            first: &self.first,
            second: &self.second,
        }
    }
}

/// A table of rows, in columns. A state has bit 0 for the whole policy, bit i for what remains after dup i.
#[derive(Clone, Debug, PartialEq, Eq)]
pub struct Rows {
    /// Packets.
    pub packet: Vec<u16>,
    /// Left states.
    pub left: Vec<u64>,
    /// Right states.
    pub right: Vec<u64>,
}

/// What a search found.
#[derive(Clone, Debug, PartialEq, Eq)]
pub enum Verdict {
    /// Same traces from every packet; the rows show it.
    Equal(Rows),
    /// Exactly one policy has the trace; no shorter one tells them apart.
    Different {
        /// The policy that has it.
        side: Side,
        /// The packet it starts from.
        entering: u16,
        /// The trace, oldest packet first.
        trace: Vec<u16>,
    },
}

/// What the evidence checker says of a table.
#[derive(Clone, Copy, Debug, PartialEq, Eq)]
pub enum Ruling {
    /// The policies have the same traces from every packet.
    Accepted,
    /// Rule (a): this row has a packet or a state out of range.
    OutOfRange(u16),
    /// Rule (b): the starting row of this packet is missing.
    NoStart(u16),
    /// Rule (c): the outputs of this row differ.
    OutputsDiffer(u16),
    /// Rule (d): of this row, the next row at this packet is missing.
    NextMissing(u16, u16),
}

/// Which policies have a trace.
#[derive(Clone, Copy, Debug, PartialEq, Eq)]
pub enum Holders {
    /// One alone.
    Only(Side),
    /// Both.
    Both,
    /// None.
    Neither,
}

/// Calls over the fields of two tables, with a work list that serves them all. Every call is refused by 4 without a side, 20, 21, 1 or
/// 2 where the tables are not legal; one on policies by 3 where the fields that these mention make more than 1,024 packets.
///
/// A packet is a number over the mentioned fields, so it belongs to the policies of its call: with others the same number may be another
/// packet. [`Checker::values`] shows what it stands for.
#[derive(Clone, Debug)]
pub struct Checker {
    tables: Tables,
    work: Vec<u32>,
}

impl Checker {
    /// Over the fields of these tables, which each call tests.
    pub fn new(tables: Tables) -> Checker {
        Checker {
            tables,
            work: vec![0; LEAST_WORK],
        }
    }

    /// Reads the text of a side, as `sw=0;(dup+port<-2)*;!(sw=0;port=2)`, over the names of that side's table. Refused by 14 to 17.
    pub fn read(&self, side: Side, text: &[u8]) -> Result<Policy, Refusal> {
        let mut policy = Policy {
            kind: vec![0; MOST_NODES],
            first: vec![0; MOST_NODES],
            second: vec![0; MOST_NODES],
        };
        let Policy {
            kind,
            first,
            second,
        } = &mut policy;
        let side = match side {
            Side::Left => 1,
            Side::Right => 2,
        };
        let answer = lists::read(self.tables.lists(), side, text, kind, first, second);
        let nodes = accepted(answer)?[1] as usize;
        kind.truncate(nodes);
        first.truncate(nodes);
        second.truncate(nodes);
        Ok(policy)
    }

    /// How many fields both tables together have.
    pub fn fields(&self) -> Result<usize, Refusal> {
        // id is legal; there is a field, so that an empty list is refused by 13, which says how many there are
        match accepted(lists::number(self.tables.lists(), ID, ID, &[])) {
            Err(Refusal {
                number: 13, place, ..
            }) => Ok(place as usize),
            Err(refusal) => Err(refusal),
            Ok(answer) => not_answered(answer),
        }
    }

    /// The values of a packet's fields, from its number over the fields that two policies mention; any other field shows 0. Refused by 4 to
    /// 9, 19, each with its side, 13.
    pub fn values(&self, left: &Policy, right: &Policy, number: u16) -> Result<Vec<u16>, Refusal> {
        let mut values = vec![0; self.fields()?];
        let (left, right) = (left.nodes(), right.nodes());
        let answer = lists::values(self.tables.lists(), left, right, number, &mut values);
        accepted(answer)?;
        Ok(values)
    }

    /// The number of the packet with these values over the fields that two policies mention; values of other fields are tested and not
    /// counted. Refused by 4 to 9, 19, each with its side, 13.
    pub fn number(&self, left: &Policy, right: &Policy, values: &[u16]) -> Result<u16, Refusal> {
        let answer = lists::number(self.tables.lists(), left.nodes(), right.nodes(), values);
        Ok(accepted(answer)?[1] as u16)
    }

    /// The number of dups of a policy. Refused by 4 to 9, 19.
    pub fn dups(&self, policy: &Policy) -> Result<u8, Refusal> {
        Ok(accepted(lists::policy(self.tables.lists(), policy.nodes()))?[1] as u8)
    }

    /// The numbers of dups of two policies, left and right. Refused by 4 to 9, 19, each with its side.
    pub fn dups_of_both(&self, left: &Policy, right: &Policy) -> Result<(u8, u8), Refusal> {
        let answer = lists::policies(self.tables.lists(), left.nodes(), right.nodes());
        let answer = accepted(answer)?;
        Ok((answer[1] as u8, answer[2] as u8))
    }

    /// Have two policies the same traces from every packet? The search lists at most so many rows; if it needs more, it is
    /// refused by 11, which says how far the two agree ([`Refusal::agreed`]), and if that is over [`MOST_ROWS`], by 10. Refused by 4 to
    /// 11, 19.
    pub fn search(
        &mut self,
        left: &Policy,
        right: &Policy,
        most_rows: usize,
    ) -> Result<Verdict, Refusal> {
        let (left, right) = (left.nodes(), right.nodes());
        self.searched(most_rows, |tables, lent| {
            lists::search(tables, left, right, lent)
        })
    }

    /// The same for two texts, each over the names of its own table. Refused by 14 to 17 on the left text, then on the right, 4 to
    /// 11, 19.
    pub fn search_texts(
        &mut self,
        left: &[u8],
        right: &[u8],
        most_rows: usize,
    ) -> Result<Verdict, Refusal> {
        self.searched(most_rows, |tables, lent| {
            lists::search_texts(tables, left, right, lent)
        })
    }

    fn searched(
        &mut self,
        most_rows: usize,
        search: impl FnOnce(lists::Tables, Lent) -> Numbers,
    ) -> Result<Verdict, Refusal> {
        // one row too many is refused as any larger number is, and costs no more memory
        let most_rows = most_rows.min(MOST_ROWS + 1);
        let mut rows = Rows {
            packet: vec![0; most_rows],
            left: vec![0; most_rows],
            right: vec![0; most_rows],
        };
        // a trace is no longer than there are rows, so 12 does not come
        let (mut parent, mut trace) = (vec![0; most_rows], vec![0; most_rows]);
        let lent = Lent {
            packet: &mut rows.packet,
            left: &mut rows.left,
            right: &mut rows.right,
            parent: &mut parent,
            trace: &mut trace,
            work: &mut self.work,
        };
        let answer = search(self.tables.lists(), lent);
        let different = |side, length, entering| {
            trace.truncate(length as usize);
            Verdict::Different {
                side,
                entering: entering as u16,
                trace,
            }
        };
        match accepted(answer)? {
            [0, listed, ..] => {
                rows.packet.truncate(listed as usize);
                rows.left.truncate(listed as usize);
                rows.right.truncate(listed as usize);
                Ok(Verdict::Equal(rows))
            }
            [1, length, entering, ..] => Ok(different(Side::Left, length, entering)),
            [2, length, entering, ..] => Ok(different(Side::Right, length, entering)),
            other => not_answered(other),
        }
    }

    /// Does a table, whoever made it, show that two policies are equal? Refused by 4 to 10, 19.
    pub fn evidence(
        &mut self,
        left: &Policy,
        right: &Policy,
        rows: &Rows,
    ) -> Result<Ruling, Refusal> {
        let columns = Columns {
            packet: &rows.packet,
            left: &rows.left,
            right: &rows.right,
        };
        let work = &mut self.work;
        let answer = lists::evidence(
            self.tables.lists(),
            left.nodes(),
            right.nodes(),
            columns,
            work,
        );
        ruled(answer)
    }

    /// The same of a table of records, whose parents are not read. Refused by 4 to 10, 19.
    pub fn evidence_rows(
        &mut self,
        left: &Policy,
        right: &Policy,
        rows: &[Row],
    ) -> Result<Ruling, Refusal> {
        let work = &mut self.work;
        let answer =
            lists::evidence_rows(self.tables.lists(), left.nodes(), right.nodes(), rows, work);
        ruled(answer)
    }

    /// Which of two policies has a trace from the entering packet? Refused by 4 to 10, 13, 19.
    pub fn trace(
        &mut self,
        left: &Policy,
        right: &Policy,
        entering: u16,
        trace: &[u16],
    ) -> Result<Holders, Refusal> {
        let work = &mut self.work;
        let (left, right) = (left.nodes(), right.nodes());
        match accepted(lists::trace(
            self.tables.lists(),
            left,
            right,
            entering,
            trace,
            work,
        ))? {
            [1, ..] => Ok(Holders::Only(Side::Left)),
            [2, ..] => Ok(Holders::Only(Side::Right)),
            [3, ..] => Ok(Holders::Both),
            [4, ..] => Ok(Holders::Neither),
            other => not_answered(other),
        }
    }
}
