//! Fields with names: two tables that declare joint fields of given sizes.

use super::tree::Tree;
use crate::names::{OwnedTable, OwnedTables, CELL, MOST_NAME};
use crate::random::Random;

/// Joint fields and the tables that declare them.
#[derive(Clone, Debug)]
pub struct Named {
    /// The tables.
    pub tables: OwnedTables,
    /// By joint number, the name.
    pub names: Vec<String>,
    /// By joint number, the size.
    pub sizes: Vec<u16>,
    /// Joint numbers of the fields that both tables have.
    pub shared: Vec<u16>,
}

/// Families of names: those of the requirements, names that begin alike, names that begin as other words do, and long ones
/// that differ in one byte.
const FAMILIES: &[&[&str]] = &[
    &["f0", "f1", "f2", "f3", "f4", "f5", "f6", "f7", "f8"],
    &[
        "sw", "port", "vlan", "dst", "src", "type", "tag", "ttl", "prio",
    ],
    &["a", "aa", "aaa", "ab", "aba", "b", "ba", "a0", "a00"],
    &[
        "d",
        "du",
        "dupe",
        "dup0",
        "i",
        "idd",
        "id0",
        "dro",
        "dropdropdropdro",
    ],
    &[
        "z9",
        "z09",
        "z90",
        "z99",
        "az09",
        "a9z0",
        "x1234567890123",
        "x123456789012",
        "x12345678901234",
    ],
];

/// Names of the greatest length, alike but for one byte.
fn long_names() -> Vec<String> {
    let name = |place| {
        let mut name = vec![b'n'; MOST_NAME];
        name[place] = b'm';
        String::from_utf8_lossy(&name).into_owned()
    };
    (0..MOST_NAME).map(name).collect()
}

/// So many different names.
fn names(random: &mut Random, count: usize) -> Vec<String> {
    let family = random.below(FAMILIES.len() + 1);
    let mut names: Vec<String> = match FAMILIES.get(family) {
        Some(family) => family.iter().map(|name| name.to_string()).collect(),
        None => long_names(),
    };
    random.shuffle(&mut names);
    names.extend((names.len()..count).map(|at| format!("more{at}")));
    names.truncate(count);
    names
}

/// Tables for these joint sizes: names shared and not, in different orders.
pub fn named(random: &mut Random, sizes: &[u16]) -> Named {
    let names = names(random, sizes.len());
    arranged(random, sizes, names)
}

fn arranged(random: &mut Random, sizes: &[u16], names: Vec<String>) -> Named {
    let (left, right) = own_fields(random, sizes.len());
    let mut table = |fields: &[usize]| -> OwnedTable {
        let entry = |&field: &usize| (&names[field], sizes[field]);
        let mut table = fields.iter().map(entry).collect();
        if random.one_in(3) {
            fill_unread(random, &mut table);
        }
        table
    };
    let tables = OwnedTables {
        left: table(&left),
        right: table(&right),
    };
    let shared = left.iter().filter(|field| right.contains(field));
    let shared = shared.map(|&field| field as u16).collect();
    Named {
        tables,
        names,
        sizes: sizes.to_vec(),
        shared,
    }
}

/// The joint fields that each table has, in its order: the left one has the first, and those that only the right one has
/// stand there in joint order.
fn own_fields(random: &mut Random, count: usize) -> (Vec<usize>, Vec<usize>) {
    let fewer = count > 1 && random.one_in(3);
    let own = if fewer {
        random.between(1, count - 1)
    } else {
        count
    };
    let left: Vec<usize> = (0..own).collect();
    let all_shared = random.one_in(2);
    let mut right: Vec<usize> = (0..count)
        .filter(|&field| field >= own || all_shared || !random.one_in(3))
        .collect();
    if right.is_empty() {
        right.extend(left.last());
    }
    if random.one_in(2) {
        random.shuffle(&mut right);
    }
    let mut only = own..count;
    for field in right.iter_mut().filter(|field| **field >= own) {
        *field = only.next().unwrap_or(*field);
    }
    (left, right)
}

/// Any bytes behind each name, which nobody reads.
fn fill_unread(random: &mut Random, table: &mut OwnedTable) {
    for cell in table.cells.chunks_exact_mut(CELL) {
        let length = usize::from(cell[0]);
        let unread = cell.get_mut(1 + length..).unwrap_or_default();
        unread.fill_with(|| random.bits() as u8);
    }
}

impl Named {
    /// The joint fields that texts are made over: mostly those that both tables have.
    pub fn spoken(&self, random: &mut Random) -> Vec<u16> {
        if self.shared.is_empty() || random.one_in(12) {
            (0..self.sizes.len() as u16).collect()
        } else {
            self.shared.clone()
        }
    }

    /// The sizes of some fields.
    pub fn sizes_of(&self, fields: &[u16]) -> Vec<u16> {
        let size = |&field: &u16| self.sizes[usize::from(field)];
        fields.iter().map(size).collect()
    }
}

/// A table's line in the program's input: a cell whose length says more than it holds becomes a name of that length.
pub fn line(table: &OwnedTable) -> Vec<u8> {
    let entry = |(cell, size): (&[u8], &u16)| {
        let length = usize::from(cell[0]);
        let mut name = cell[1..].to_vec();
        name.resize(length, b'n');
        name.extend_from_slice(format!("={size}").as_bytes());
        name
    };
    let entries = table.cells.chunks_exact(CELL).zip(&table.sizes);
    entries.map(entry).collect::<Vec<_>>().join(&b',')
}

/// The policy with each field's number looked up in a list.
pub fn over(fields: &[u16], policy: &Tree) -> Tree {
    let both =
        |one: &Tree, other: &Tree| (Box::new(over(fields, one)), Box::new(over(fields, other)));
    match policy {
        Tree::Field(act, field, value) => Tree::Field(*act, fields[usize::from(*field)], *value),
        Tree::Sum(one, other) => {
            let (one, other) = both(one, other);
            Tree::Sum(one, other)
        }
        Tree::Sequence(one, other) => {
            let (one, other) = both(one, other);
            Tree::Sequence(one, other)
        }
        Tree::Star(body) => Tree::Star(Box::new(over(fields, body))),
        Tree::Not(child) => Tree::Not(Box::new(over(fields, child))),
        leaf => leaf.clone(),
    }
}

#[cfg(test)]
mod tests {
    use super::*;
    use crate::answer::Side;
    use crate::names::Fields;

    #[test]
    fn tables_declare_the_joint_fields_they_were_made_for() {
        let mut random = Random::new(3);
        let (mut apart, mut turned) = (0, 0);
        for _ in 0..2000 {
            let count = random.between(1, 8);
            let sizes: Vec<u16> = (0..count).map(|_| random.between(1, 9) as u16).collect();
            let named = named(&mut random, &sizes);
            let fields = Fields::new(named.tables.lend()).expect("legal tables");
            assert_eq!(fields.sizes(), sizes);
            for (field, name) in named.names.iter().enumerate() {
                let number = |side| fields.number(side, name.as_bytes());
                let found = [number(Side::Left), number(Side::Right)];
                assert!(found.contains(&Some(field as u16)));
                let shared = named.shared.contains(&(field as u16));
                assert_eq!(found[0] == found[1], shared);
            }
            apart += usize::from(named.shared.len() < count);
            turned += usize::from(named.tables.left.cells > named.tables.right.cells);
        }
        assert!(apart > 500 && turned > 300, "{apart} {turned}");
    }
}
