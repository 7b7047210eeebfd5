//! Answers and refusals, and both as eight numbers.

/// The eight numbers a call answers through a plain interface.
///
/// The first says what kind of answer it is: 0 done, equal or accepted; 1 left; 2 right; 3 both; 4 neither;
/// 5 rejected; 9 refused. What follows is said at each call's answer; numbers not used are 0.
pub type Numbers = [u64; 8];

/// A numbered cause for which a call gives no result.
#[derive(Clone, Copy, Debug, PartialEq, Eq)]
pub struct Refusal {
    /// The cause, 1 to 21.
    pub number: u8,
    /// The policy or the table of names that it concerns: 0 none, 1 left, 2 right.
    pub side: u8,
    /// Where: a field, node, byte, row, length, as the cause says.
    pub place: u64,
    /// Of 11: the two policies have the same traces of so many packets or fewer from every packet. Of any other cause 0.
    pub agreed: u64,
}

impl Refusal {
    /// A refusal that names no side and says nothing of traces.
    pub fn new(number: u8, place: usize) -> Refusal {
        Refusal {
            number,
            side: 0,
            place: place as u64,
            agreed: 0,
        }
    }

    /// The same refusal, naming a side.
    pub fn on(self, side: u8) -> Refusal {
        Refusal { side, ..self }
    }

    /// The same refusal, saying to which length the traces agree.
    pub fn agreed_to(self, length: usize) -> Refusal {
        Refusal {
            agreed: length as u64,
            ..self
        }
    }
}

/// What the search found.
#[derive(Clone, Copy, Debug, PartialEq, Eq)]
pub enum Verdict {
    /// Same traces from every packet; the row order has this many rows.
    Equal {
        /// Rows listed.
        rows: usize,
    },
    /// Exactly one policy has the trace written to the trace list.
    Different {
        /// The policy that has it.
        side: Side,
        /// The trace's length.
        length: usize,
        /// The packet it starts from.
        entering: u16,
    },
}

/// One of the two policies.
#[derive(Clone, Copy, Debug, PartialEq, Eq)]
pub enum Side {
    /// The first policy.
    Left,
    /// The second policy.
    Right,
}

impl Side {
    /// The side that a number names where a text is read: 2 is right, any other left.
    pub fn of_text(number: u8) -> Side {
        match number {
            2 => Side::Right,
            _ => Side::Left,
        }
    }
}

/// What the evidence checker says of a table.
#[derive(Clone, Copy, Debug, PartialEq, Eq)]
pub enum Ruling {
    /// All four row rules hold.
    Accepted,
    /// Rule (a): this row has a packet or a mask out of range.
    OutOfRange {
        /// The row.
        row: usize,
    },
    /// Rule (b): the starting row of this packet is missing.
    NoStart {
        /// The packet.
        packet: usize,
    },
    /// Rule (c): the outputs of this row differ.
    OutputsDiffer {
        /// The row.
        row: usize,
    },
    /// Rule (d): the next row at this packet is missing.
    NextMissing {
        /// The row.
        row: usize,
        /// The packet γ.
        packet: usize,
    },
}

/// Which policies have a trace.
#[derive(Clone, Copy, Debug, PartialEq, Eq)]
pub enum Holders {
    /// Only the left one.
    Left,
    /// Only the right one.
    Right,
    /// Both.
    Both,
    /// None.
    Neither,
}

/// An answer that has eight numbers.
pub trait Numbered {
    /// The eight numbers.
    fn numbers(&self) -> Numbers;
}

/// Pads with zeros.
fn padded(given: &[u64]) -> Numbers {
    let mut numbers = [0; 8];
    numbers[..given.len()].copy_from_slice(given);
    numbers
}

impl Numbered for Refusal {
    /// (9, number, side, place, length to which the traces agree)
    fn numbers(&self) -> Numbers {
        padded(&[
            9,
            self.number.into(),
            self.side.into(),
            self.place,
            self.agreed,
        ])
    }
}

impl Numbered for () {
    /// (0)
    fn numbers(&self) -> Numbers {
        padded(&[])
    }
}

impl Numbered for u16 {
    /// (0, packet)
    fn numbers(&self) -> Numbers {
        padded(&[0, u64::from(*self)])
    }
}

impl Numbered for usize {
    /// (0, count)
    fn numbers(&self) -> Numbers {
        padded(&[0, *self as u64])
    }
}

impl Numbered for (usize, usize) {
    /// (0, count, count)
    fn numbers(&self) -> Numbers {
        padded(&[0, self.0 as u64, self.1 as u64])
    }
}

impl Numbered for Verdict {
    /// (0, rows); (1 or 2, length, entering)
    fn numbers(&self) -> Numbers {
        match *self {
            Verdict::Equal { rows } => padded(&[0, rows as u64]),
            Verdict::Different {
                side,
                length,
                entering,
            } => {
                let kind = match side {
                    Side::Left => 1,
                    Side::Right => 2,
                };
                padded(&[kind, length as u64, entering.into()])
            }
        }
    }
}

impl Numbered for Ruling {
    /// (0); (5, rule 1 to 4, row or α, γ)
    fn numbers(&self) -> Numbers {
        match *self {
            Ruling::Accepted => padded(&[]),
            Ruling::OutOfRange { row } => padded(&[5, 1, row as u64]),
            Ruling::NoStart { packet } => padded(&[5, 2, packet as u64]),
            Ruling::OutputsDiffer { row } => padded(&[5, 3, row as u64]),
            Ruling::NextMissing { row, packet } => padded(&[5, 4, row as u64, packet as u64]),
        }
    }
}

impl Numbered for Holders {
    /// (1), (2), (3) or (4)
    fn numbers(&self) -> Numbers {
        padded(&[match self {
            Holders::Left => 1,
            Holders::Right => 2,
            Holders::Both => 3,
            Holders::Neither => 4,
        }])
    }
}

impl<T: Numbered> Numbered for Result<T, Refusal> {
    fn numbers(&self) -> Numbers {
        match self {
            Ok(answer) => answer.numbers(),
            Err(refusal) => refusal.numbers(),
        }
    }
}
