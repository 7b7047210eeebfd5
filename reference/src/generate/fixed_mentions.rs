//! Fields that policies mention, and fields that they don't: cases that are always worth running. Where a mention may stand, how
//! many packets the mentioned fields make, what goes before 3 and what after it, and packets turned into values and back.

use super::fixed::{nodes, nodes_of};
use super::fixed_names::on_lists;
use crate::case::Case;
use crate::names::OwnedTables;
use crate::policy::{OwnedLists, MOST_DUPS};
use crate::search::{Lists, LEAST_WORK};

/// All of them.
pub fn cases() -> Vec<Case> {
    let mut cases: Vec<Case> = pairs().iter().flat_map(Pair::calls).collect();
    cases.extend(products().iter().flat_map(|sizes| counted(sizes)));
    cases.extend(in_order());
    cases.extend(texts_in_order());
    cases
}

/// Rows lent.
const ROWS: usize = 20;

/// Two texts over f0, f1 and so on.
struct Pair {
    sizes: Vec<u16>,
    left: String,
    right: String,
}

fn pair(sizes: &[u16], left: &str, right: &str) -> Pair {
    Pair {
        sizes: sizes.to_vec(),
        left: left.to_string(),
        right: right.to_string(),
    }
}

/// Pairs whose fields are mentioned on the left, on the right, under a negation, where nothing comes, by a change alone, or not
/// at all.
fn pairs() -> Vec<Pair> {
    let sizes = [3, 65_535, 2];
    let mut pairs: Vec<Pair> = [
        ("id", "dup"),
        ("dup*", "id+dup;dup*"),
        ("f0=1", "id"),
        ("id", "f2=1;dup"),
        ("f0=1;dup", "f2=0;dup"),
        ("f2=1;dup", "f2=1;dup;f0=0*"),
        ("!f0=0;dup", "dup;!f0=0"),
        ("!(drop;f2=0)", "id"),
        ("dup", "!!!(f0=2;drop);dup"),
        ("drop;f0=2+dup", "dup"),
        ("id", "id+drop;f2<-1"),
        ("dup;drop;f2!=1", "dup;drop"),
        ("f0<-2;dup", "dup;f0<-2"),
        ("f2<-0", "f2<-0;f2<-0"),
        ("f2<-1;f0<-1;dup", "dup;f0<-1;f2<-1"),
        // the wide field, too
        ("f1=65534", "id"),
        ("id", "id+drop;f1=0"),
        ("!(drop;f1=0)", "!(drop;f2=0)"),
        ("f0=0", "drop;f1<-65534;dup"),
        ("f1=65535", "f1=0"),
    ]
    .iter()
    .map(|(left, right)| pair(&sizes, left, right))
    .collect();
    pairs.extend([
        pair(&[1000, 2], "f1=0", "id"),
        pair(&[65_535, 65_535], "id", "dup"),
        pair(&[5, 205], "id", "id"),
        pair(&[5, 205], "f0=0;f1=0", "id"),
        pair(&[5, 205], "f0=0", "f1=0"),
        pair(&[1024, 5000, 2], "f0=0;f2=0", "id"),
        pair(&[5000, 2, 3], "f1=1;f2<-2;dup", "f1=1;dup;f2<-2"),
        pair(&[1, 65_535, 2, 1], "f0=0;dup", "f3<-0;dup"),
        pair(
            &[65_535, 3, 2, 65_535, 2, 1, 65_535, 2],
            "f1=2;f7<-1;dup",
            "dup;f7<-1;f4=0*",
        ),
    ]);
    pairs
}

impl Pair {
    fn tables(&self) -> OwnedTables {
        OwnedTables::numbered(&self.sizes)
    }

    fn policies(&self) -> (OwnedLists, OwnedLists) {
        (nodes_of(&self.left), nodes_of(&self.right))
    }

    /// Every call on the pair.
    fn calls(&self) -> Vec<Case> {
        let (left, right) = self.policies();
        let searched = Case::Search {
            tables: self.tables(),
            left: left.clone(),
            right: right.clone(),
            lists: Lists::new(ROWS, ROWS, LEAST_WORK),
        };
        let mut cases = vec![
            Case::Policy {
                tables: self.tables(),
                policy: left.clone(),
            },
            Case::Policy {
                tables: self.tables(),
                policy: right.clone(),
            },
            Case::Texts {
                tables: self.tables(),
                left: self.left.as_bytes().to_vec(),
                right: self.right.as_bytes().to_vec(),
                lists: Lists::new(ROWS, ROWS, LEAST_WORK),
            },
        ];
        cases.extend(searched.tested());
        cases.extend(self.tables_of(&searched));
        cases.extend(self.turned(searched.packets().unwrap_or(1)));
        cases.push(searched);
        cases
    }

    /// The rows that the search lists as a table, in three lists and as records, and one with a row of a packet that there is not; then
    /// traces of two packets.
    fn tables_of(&self, searched: &Case) -> Vec<Case> {
        let mut searched = searched.clone();
        searched.run();
        let (left, right) = self.policies();
        let lists = match searched {
            Case::Search { lists, .. } => lists,
            _ => return Vec::new(),
        };
        let listed = lists.left.iter().zip(&lists.right);
        let listed = listed.take_while(|(left, right)| (**left, **right) != (0, 0));
        let rows = listed.count();
        let table = |rows: usize| Case::Evidence {
            tables: self.tables(),
            left: left.clone(),
            right: right.clone(),
            lists: Lists {
                packet: lists.packet[..rows].to_vec(),
                left: lists.left[..rows].to_vec(),
                right: lists.right[..rows].to_vec(),
                ..Lists::new(0, 0, LEAST_WORK)
            },
        };
        let mut cases = vec![table(rows), table(rows.saturating_sub(1))];
        let records = cases[0].lent_otherwise();
        if let Case::Evidence { lists, .. } = &mut cases[1] {
            // no packet
            lists.packet.push(u16::MAX);
            lists.left.push(1);
            lists.right.push(1);
        }
        cases.extend(records);
        for (entering, trace) in [(0, [0, 0]), (1, [1, 1]), (5, [5, 2]), (0, [0, 6])] {
            cases.push(Case::Trace {
                tables: self.tables(),
                left: left.clone(),
                right: right.clone(),
                entering,
                trace: trace.to_vec(),
                work: vec![0; LEAST_WORK],
            });
        }
        cases
    }

    /// Numbers around so many packets turned into values; then values turned into numbers, some of them out of range in a field
    /// that is mentioned or in one that is not.
    fn turned(&self, packets: usize) -> Vec<Case> {
        let (left, right) = self.policies();
        let fields = self.sizes.len();
        let values = |number: usize, length: usize| Case::Values {
            tables: self.tables(),
            left: left.clone(),
            right: right.clone(),
            number: number as u16,
            values: vec![0; length],
        };
        let number = |values: Vec<u16>| Case::Number {
            tables: self.tables(),
            left: left.clone(),
            right: right.clone(),
            values,
        };
        let top: Vec<u16> = self.sizes.iter().map(|size| size - 1).collect();
        let mut cases = vec![
            values(0, fields),
            values(packets - 1, fields),
            values(packets, fields),
            values(packets, fields - 1),
            values(0, fields + 1),
            number(top.clone()),
            number(vec![0; fields - 1]),
            number([&top[..], &[0]].concat()),
        ];
        for field in 0..fields.min(3) {
            let mut high = top.clone();
            high[field] = self.sizes[field];
            cases.push(number(high));
            let mut alone = vec![0; fields];
            alone[field] = top[field];
            cases.push(number(alone));
        }
        cases
    }
}

/// A field's size, and whether it is mentioned.
type Field = (u16, bool);

/// Sizes of mentioned fields, some among others, that make around 1,024 packets or far more: also such as are 0, or few, in 16, 32 or
/// 64 bits.
fn products() -> Vec<Vec<Field>> {
    let all = |sizes: &[u16]| {
        sizes
            .iter()
            .map(|&size| (size, true))
            .collect::<Vec<Field>>()
    };
    let other = (65_535, false);
    let mut products: Vec<Vec<Field>> = [
        &[1023][..],
        &[1024],
        &[1025],
        &[65_535],
        &[3, 341],
        &[32, 32],
        &[5, 205],
        &[1024, 1, 1],
        &[1, 1024, 2],
        &[256, 256],
        &[1024, 64],
        &[512, 129],
        &[2, 32_769],
        &[65_535, 65_535],
        &[256, 256, 256, 256],
        &[1024, 1024, 1024, 4],
        &[1024, 5, 397, 2113],
        &[256; 8],
        &[65_535; 8],
    ]
    .iter()
    .map(|sizes| all(sizes))
    .collect();
    products.extend([
        vec![other, (1023, true)],
        vec![(1024, true), other],
        vec![other, (1025, true), (0, false)],
        vec![other, (1025, true), other],
        vec![(32, true), other, (32, true)],
        vec![(33, true), other, (31, true), other],
        vec![(5, true), other, (205, true)],
        vec![(1024, true), (5000, false), (2, true)],
        vec![(1024, true), (5000, false), (1, true)],
        vec![other; 8],
        vec![(1024, false), (1025, false), (2, true), other],
    ]);
    products
}

/// Calls on such fields: the left policy mentions the first of those that are mentioned, the right one the others.
fn counted(fields: &[Field]) -> Vec<Case> {
    let sizes: Vec<u16> = fields.iter().map(|field| field.0).collect();
    let tests = fields.iter().enumerate().filter(|(_, field)| field.1);
    let tests: Vec<String> = tests.map(|(field, _)| format!("f{field}=0")).collect();
    let (first, others) = tests.split_at(tests.len().min(1));
    let text = |tests: &[String]| [&["id".to_string()], tests].concat().join(";");
    let given = pair(&sizes, &text(first), &text(others));
    let (left, right) = given.policies();
    let searched = Case::Search {
        tables: given.tables(),
        left: left.clone(),
        right: right.clone(),
        lists: Lists::new(3, 1, LEAST_WORK),
    };
    let mut cases = vec![
        Case::Policy {
            tables: given.tables(),
            policy: nodes_of(&text(&tests)),
        },
        Case::Values {
            tables: given.tables(),
            left: left.clone(),
            right: right.clone(),
            number: 1023,
            values: vec![0; sizes.len()],
        },
        Case::Number {
            tables: given.tables(),
            left,
            right,
            values: sizes.iter().map(|size| size.saturating_sub(1)).collect(),
        },
    ];
    cases.extend(searched.tested());
    cases.push(searched);
    cases
}

/// One policy for each of the causes 4 to 8, 19 and 9, in their order.
fn broken() -> Vec<OwnedLists> {
    vec![
        nodes(&[]),
        nodes(&[(10, 0, 0)]),
        nodes(&[(1, 0, 1)]),
        nodes(&[(8, 0, 0)]),
        nodes(&[(1, 0, 0), (1, 0, 0)]),
        nodes_of("!dup"),
        nodes_of(&vec!["dup"; MOST_DUPS + 1].join(";")),
    ]
}

/// Policies that make too many packets, beside each cause before 3, and with 10 and 13 after it.
fn in_order() -> Vec<Case> {
    let tables = OwnedTables::numbered(&[2, 65_535]);
    let many = nodes_of("f0=1;f1=65534");
    let few = nodes_of("f0=1");
    let mut cases = Vec::new();
    let mut both =
        |left: &OwnedLists, right: &OwnedLists, number: u16, length: usize, work: usize| {
            cases.push(Case::Values {
                tables: tables.clone(),
                left: left.clone(),
                right: right.clone(),
                number,
                values: vec![0; length],
            });
            cases.push(Case::Number {
                tables: tables.clone(),
                left: left.clone(),
                right: right.clone(),
                values: vec![number; length],
            });
            cases.push(Case::Policies {
                tables: tables.clone(),
                left: left.clone(),
                right: right.clone(),
            });
            cases.extend(on_lists(&tables, left, right, work));
        };
    for policy in &broken() {
        both(policy, &many, 0, 2, LEAST_WORK);
        both(&many, policy, 65_535, 1, 0);
        both(&few, policy, 65_535, 3, 0);
    }
    for (left, right) in [(&many, &few), (&few, &many), (&many, &many), (&few, &few)] {
        both(left, right, 0, 2, LEAST_WORK);
        both(left, right, 2, 2, 0);
        both(left, right, 65_535, 3, LEAST_WORK - 1);
    }
    // of one policy
    for text in ["f1=0;!dup", "f1=0;f0=2", "f1=0;f0=1", "f0=1;f1=0"] {
        cases.push(Case::Policy {
            tables: tables.clone(),
            policy: nodes_of(text),
        });
    }
    let dups = format!("f1=0;{}", vec!["dup"; MOST_DUPS + 1].join(";"));
    cases.push(Case::Policy {
        tables,
        policy: nodes_of(&dups),
    });
    cases
}

/// Texts that make too many packets, beside each cause before 3, and with 10 after it.
fn texts_in_order() -> Vec<Case> {
    let dups = vec!["dup"; MOST_DUPS + 1].join(";");
    let long = format!("id{}", "*".repeat(512));
    let nested = format!("{}id{}", "(".repeat(65), ")".repeat(65));
    let mut cases = Vec::new();
    for beside in ["id", "?", &nested, "id id", &long, "f0=2", "!dup", &dups] {
        for (left, right) in [("f1=0", beside), (beside, "f1=65534")] {
            for work in [0, LEAST_WORK] {
                cases.push(Case::Texts {
                    tables: OwnedTables::numbered(&[2, 65_535]),
                    left: left.as_bytes().to_vec(),
                    right: right.as_bytes().to_vec(),
                    lists: Lists::new(ROWS, 2, work),
                });
            }
        }
    }
    cases
}

/// Inputs of the program.
pub fn inputs() -> Vec<String> {
    let same = |table: &str, left: &str, right: &str| format!("{table}\n{table}\n{left}\n{right}");
    let mut inputs = vec![
        same("f0=1000,f1=2", "f1=0", "id"),
        same("f0=65535,f1=65535", "id", "dup"),
        same("f0=5,f1=205", "id", "id"),
        same("f0=5,f1=205", "f0=0;f1=0", "id"),
        same("f0=5,f1=205", "f0=0;f1=0", "?"),
        same("f0=5,f1=205", "f0=0;f1=0", "f0=5"),
        same("f0=1024,f1=5000,f2=2", "f0=0;f2=0", "id"),
        same("f0=5000,f1=2,f2=3", "f1=1;f2<-2;dup", "f1=1;dup;f2<-2"),
        same("f0=2,f1=65535", "dup;!f0=0", "!f0=0;dup"),
        same("f0=1025", "f0=0", "id"),
    ];
    inputs.extend(
        [
            "sw=65535\nport=65535\nid\nid",
            "sw=65535\nport=65535\nsw=0\nid",
            "sw=65535\nport=65535\nid\nport=0",
            "sw=65535\nport=2\nid\nport=0",
            "sw=32\nport=32\nsw=31\nport=31",
            "sw=32\nport=33\nsw=31\nport=31",
        ]
        .map(String::from),
    );
    inputs
}
