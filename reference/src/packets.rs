//! Packets: numbers in mixed radix over the fields that a call's policies mention, and sets of packets.

use crate::answer::Refusal;
use crate::names::{Fields, Tables};
use crate::policy::{self, NodeLists, Policy};

/// Most packets that mentioned fields may make.
pub const MOST_PACKETS: usize = 1024;

/// A mentioned field as a digit of packet numbers.
#[derive(Clone, Copy, Debug)]
struct Digit {
    field: usize,
    size: usize,
    /// What one step of the field's value adds to the number; the first digit varies slowest.
    stride: usize,
}

/// How packets are numbered: over the mentioned fields in their order.
#[derive(Clone, Debug)]
pub struct Numbering {
    /// By joint field.
    declared: Vec<u16>,
    digits: Vec<Digit>,
    count: usize,
}

impl Numbering {
    /// Of policies over joint fields. Tests 3.
    pub fn new(fields: &Fields, policies: &[&Policy]) -> Result<Numbering, Refusal> {
        let declared = fields.sizes().to_vec();
        let mut digits = Vec::new();
        let mut count = 1;
        for (field, &size) in declared.iter().enumerate() {
            if !policies.iter().any(|policy| policy.mentions(field)) {
                continue;
            }
            let size = usize::from(size);
            count *= size;
            if count > MOST_PACKETS {
                return Err(Refusal::new(3, field));
            }
            digits.push(Digit {
                field,
                size,
                stride: 1,
            });
        }
        let mut stride = 1;
        for digit in digits.iter_mut().rev() {
            digit.stride = stride;
            stride *= digit.size;
        }
        Ok(Numbering {
            declared,
            digits,
            count,
        })
    }

    /// How many packets there are.
    pub fn count(&self) -> usize {
        self.count
    }

    /// 13: a value list that does not have an entry for each joint field.
    fn test_length(&self, length: usize) -> Result<(), Refusal> {
        let fields = self.declared.len();
        if length == fields {
            Ok(())
        } else {
            Err(Refusal::new(13, fields))
        }
    }

    /// The values of a packet: those of its digits, and 0 of a field that nobody mentions.
    fn write_values(&self, number: u16, values: &mut [u16]) -> Result<(), Refusal> {
        self.test_length(values.len())?;
        let number = usize::from(number);
        if number >= self.count {
            return Err(Refusal::new(13, 0));
        }
        values.fill(0);
        for digit in &self.digits {
            values[digit.field] = (number / digit.stride % digit.size) as u16;
        }
        Ok(())
    }

    /// The number of a packet with these values, all of which are tested; those of mentioned fields count.
    fn number(&self, values: &[u16]) -> Result<u16, Refusal> {
        self.test_length(values.len())?;
        let outside = |(value, size): (&u16, &u16)| value >= size;
        if let Some(field) = values.iter().zip(&self.declared).position(outside) {
            return Err(Refusal::new(13, field));
        }
        let counted = |digit: &Digit| usize::from(values[digit.field]) * digit.stride;
        Ok(self.digits.iter().map(counted).sum::<usize>() as u16)
    }
}

/// Turns a packet's number into the values of all joint fields. Tests the tables and the policies as a search does, then 13.
pub fn values(
    tables: Tables,
    left: NodeLists,
    right: NodeLists,
    number: u16,
    values: &mut [u16],
) -> Result<(), Refusal> {
    let pair = policy::pair(&Fields::new(tables)?, left, right)?;
    pair.numbering.write_values(number, values)
}

/// Turns the values of all joint fields into the packet's number. Tests the same.
pub fn number(
    tables: Tables,
    left: NodeLists,
    right: NodeLists,
    values: &[u16],
) -> Result<u16, Refusal> {
    let pair = policy::pair(&Fields::new(tables)?, left, right)?;
    pair.numbering.number(values)
}

/// The packets of a numbering, with what steps ask of them.
#[derive(Clone, Debug)]
pub struct Packets {
    numbering: Numbering,
    /// By digit, then packet: the packet with that digit 0.
    cleared: Vec<u16>,
}

impl Packets {
    /// All packets of a numbering.
    pub fn new(numbering: Numbering) -> Packets {
        let count = numbering.count;
        let cleared = numbering
            .digits
            .iter()
            .flat_map(|&Digit { size, stride, .. }| {
                (0..count).map(move |packet| (packet - packet / stride % size * stride) as u16)
            })
            .collect();
        Packets { numbering, cleared }
    }

    /// How many packets there are.
    pub fn count(&self) -> usize {
        self.numbering.count
    }

    /// A mentioned field's place among the digits.
    pub fn digit(&self, field: usize) -> usize {
        let digits = self.numbering.digits.iter();
        digits.take_while(|digit| digit.field < field).count()
    }

    /// The packet with a digit changed.
    pub fn with(&self, packet: usize, digit: usize, value: usize) -> usize {
        let cleared = self.cleared[digit * self.count() + packet];
        usize::from(cleared) + value * self.numbering.digits[digit].stride
    }

    /// Has the digit this value in the packet?
    pub fn test(&self, packet: usize, digit: usize, value: usize) -> bool {
        self.with(packet, digit, value) == packet
    }

    /// Words of a set of packets.
    pub fn words(&self) -> usize {
        (self.count() + 63) / 64
    }
}

/// Sets of packets as slices of 64-bit words.
pub mod set {
    /// Puts a packet in.
    pub fn insert(set: &mut [u64], packet: usize) {
        set[packet / 64] |= 1 << (packet % 64);
    }

    /// Is the packet in?
    pub fn contains(set: &[u64], packet: usize) -> bool {
        set[packet / 64] >> (packet % 64) & 1 == 1
    }

    /// Adds another set.
    pub fn unite(set: &mut [u64], other: &[u64]) {
        for (word, other) in set.iter_mut().zip(other) {
            *word |= other;
        }
    }

    /// Keeps what is in another set.
    pub fn intersect(set: &mut [u64], other: &[u64]) {
        for (word, other) in set.iter_mut().zip(other) {
            *word &= other;
        }
    }

    /// The packets below a count that are not in.
    pub fn complement(set: &mut [u64], count: usize) {
        for (at, word) in set.iter_mut().enumerate() {
            let packets = count.saturating_sub(at * 64).min(64);
            let all = u64::MAX.checked_shr(64 - packets as u32).unwrap_or(0);
            *word = !*word & all;
        }
    }

    /// The lowest packet in exactly one of two sets.
    pub fn lowest_difference(left: &[u64], right: &[u64]) -> Option<usize> {
        left.iter().zip(right).enumerate().find_map(|(at, (l, r))| {
            let differing = l ^ r;
            (differing != 0).then(|| at * 64 + differing.trailing_zeros() as usize)
        })
    }

    /// Calls `visit` with each packet of the set, ascending.
    pub fn for_each(set: &[u64], mut visit: impl FnMut(usize)) {
        for (at, &word) in set.iter().enumerate() {
            let mut rest = word;
            while rest != 0 {
                visit(at * 64 + rest.trailing_zeros() as usize);
                rest &= rest - 1;
            }
        }
    }
}
