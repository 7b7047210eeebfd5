//! Tables of field names, one loaded with each policy, and the joint fields that the two declare.

use std::collections::{HashMap, HashSet};

use crate::answer::{Refusal, Side};

/// Bytes of a cell: a name's length, then the name.
pub const CELL: usize = 16;
/// Most bytes of a name.
pub const MOST_NAME: usize = CELL - 1;
/// Most joint fields.
pub const MOST_FIELDS: usize = 8;
/// Words that are no names.
const TAKEN: [&[u8]; 3] = [b"drop", b"id", b"dup"];

/// A table as a caller lends it: lists of any lengths and contents.
#[derive(Clone, Copy, Debug)]
pub struct NameTable<'a> {
    /// A cell for each name.
    pub cells: &'a [u8],
    /// Its size.
    pub sizes: &'a [u16],
}

/// The tables of the left and of the right policy.
#[derive(Clone, Copy, Debug)]
pub struct Tables<'a> {
    /// Of the left policy.
    pub left: NameTable<'a>,
    /// Of the right policy.
    pub right: NameTable<'a>,
}

impl<'a> NameTable<'a> {
    /// Is there a cell for each size?
    fn matches(&self) -> bool {
        self.cells.len() % CELL == 0 && self.cells.len() / CELL == self.sizes.len()
    }

    /// The names; none for a cell that says its name is longer than it holds.
    fn names(self) -> impl Iterator<Item = Option<&'a [u8]>> {
        self.cells
            .chunks_exact(CELL)
            .map(|cell| cell[1..].get(..usize::from(cell[0])))
    }

    /// 20: the lowest name that is malformed, taken, or there already.
    fn bad_name(self) -> Option<usize> {
        let mut seen = HashSet::new();
        self.names().position(|name| match name {
            Some(name) => !is_name(name) || !seen.insert(name),
            None => true,
        })
    }

    /// The names of a table that 20 lets pass, with their sizes.
    fn entries(self) -> impl Iterator<Item = (&'a [u8], u16)> {
        self.names().flatten().zip(self.sizes.iter().copied())
    }
}

/// A letter, then letters and digits, all of them small, at most fifteen; and no word that texts use otherwise.
fn is_name(name: &[u8]) -> bool {
    let begins = name.first().map_or(false, u8::is_ascii_lowercase);
    let goes_on = name
        .iter()
        .all(|byte| byte.is_ascii_lowercase() || byte.is_ascii_digit());
    begins && goes_on && name.len() <= MOST_NAME && !TAKEN.contains(&name)
}

/// A table that owns its lists.
#[derive(Clone, Debug, Default, PartialEq, Eq)]
pub struct OwnedTable {
    /// A cell for each name.
    pub cells: Vec<u8>,
    /// Its size.
    pub sizes: Vec<u16>,
}

impl OwnedTable {
    /// Appends a name of any length; of one that no cell holds, a length that says so.
    pub fn push(&mut self, name: &[u8], size: u16) {
        let mut cell = [0; CELL];
        cell[0] = name.len().min(CELL) as u8;
        let held = name.len().min(MOST_NAME);
        cell[1..=held].copy_from_slice(&name[..held]);
        self.cells.extend_from_slice(&cell);
        self.sizes.push(size);
    }

    /// The lists as slices.
    pub fn lend(&self) -> NameTable<'_> {
        NameTable {
            cells: &self.cells,
            sizes: &self.sizes,
        }
    }
}

impl<N: AsRef<[u8]>> FromIterator<(N, u16)> for OwnedTable {
    fn from_iter<I: IntoIterator<Item = (N, u16)>>(entries: I) -> OwnedTable {
        let mut table = OwnedTable::default();
        for (name, size) in entries {
            table.push(name.as_ref(), size);
        }
        table
    }
}

/// Two tables that own their lists.
#[derive(Clone, Debug, Default, PartialEq, Eq)]
pub struct OwnedTables {
    /// Of the left policy.
    pub left: OwnedTable,
    /// Of the right policy.
    pub right: OwnedTable,
}

impl OwnedTables {
    /// The names f0, f1 and so on in both tables, with these sizes.
    pub fn numbered(sizes: &[u16]) -> OwnedTables {
        let named = |(field, &size)| (format!("f{field}"), size);
        let table: OwnedTable = sizes.iter().enumerate().map(named).collect();
        OwnedTables {
            left: table.clone(),
            right: table,
        }
    }

    /// Both as slices.
    pub fn lend(&self) -> Tables<'_> {
        Tables {
            left: self.left.lend(),
            right: self.right.lend(),
        }
    }
}

/// Joint fields: the left table's names in their order, then those that only the right one has.
#[derive(Clone, Debug)]
pub struct Fields {
    sizes: Vec<u16>,
    /// What each side calls the fields that it has.
    left: HashMap<Vec<u8>, u16>,
    right: HashMap<Vec<u8>, u16>,
}

impl Fields {
    /// Tests 4 with side 0, 20, 21, 1 and 2.
    pub fn new(tables: Tables) -> Result<Fields, Refusal> {
        test_lengths(tables)?;
        test_names(tables)?;
        test_sizes_agree(tables)?;
        let fields = Fields::joined(tables);
        let empty = tables.left.sizes.is_empty() || tables.right.sizes.is_empty();
        if empty || fields.sizes.len() > MOST_FIELDS {
            return Err(Refusal::new(1, 0));
        }
        match fields.sizes.iter().position(|&size| size == 0) {
            Some(field) => Err(Refusal::new(2, field)),
            None => Ok(fields),
        }
    }

    /// Of tables that have passed 20 and 21; numbers beyond those of legal fields are never read.
    fn joined(tables: Tables) -> Fields {
        let mut sizes = Vec::new();
        let mut left = HashMap::new();
        for (name, size) in tables.left.entries() {
            left.insert(name.to_vec(), sizes.len() as u16);
            sizes.push(size);
        }
        let mut right = HashMap::new();
        for (name, size) in tables.right.entries() {
            let field = left.get(name).copied().unwrap_or_else(|| {
                sizes.push(size);
                (sizes.len() - 1) as u16
            });
            right.insert(name.to_vec(), field);
        }
        Fields { sizes, left, right }
    }

    /// The sizes of the joint fields.
    pub fn sizes(&self) -> &[u16] {
        &self.sizes
    }

    /// Is this a field with this value?
    pub fn has(&self, field: u16, value: u16) -> bool {
        let size = self.sizes.get(usize::from(field));
        size.map_or(false, |&size| value < size)
    }

    /// The joint number of a field that a side's table names.
    pub fn number(&self, side: Side, name: &[u8]) -> Option<u16> {
        let names = match side {
            Side::Left => &self.left,
            Side::Right => &self.right,
        };
        names.get(name).copied()
    }
}

/// 4: cells that are not one for each size.
fn test_lengths(tables: Tables) -> Result<(), Refusal> {
    if tables.left.matches() && tables.right.matches() {
        Ok(())
    } else {
        Err(Refusal::new(4, 0))
    }
}

fn test_names(tables: Tables) -> Result<(), Refusal> {
    for (side, table) in [(1, tables.left), (2, tables.right)] {
        if let Some(name) = table.bad_name() {
            return Err(Refusal::new(20, name).on(side));
        }
    }
    Ok(())
}

/// 21: a name with two sizes, by its index in the left table.
fn test_sizes_agree(tables: Tables) -> Result<(), Refusal> {
    let sizes: HashMap<&[u8], u16> = tables.right.entries().collect();
    let disagrees = |(name, size)| sizes.get(name).map_or(false, |&other| other != size);
    match tables.left.entries().position(disagrees) {
        Some(name) => Err(Refusal::new(21, name).on(1)),
        None => Ok(()),
    }
}
