//! Tables of names that are always worth running, in every call: legal arrangements, each of the causes 4 with side 0, 20, 21,
//! 1 and 2, and what goes before what.

use super::fixed::nodes_of;
use crate::case::Case;
use crate::evidence::Record;
use crate::names::{OwnedTable, OwnedTables, CELL, MOST_NAME};
use crate::policy::OwnedLists;
use crate::search::{Lists, LEAST_WORK};

/// All calls on these tables.
pub fn cases() -> Vec<Case> {
    let mut cases: Vec<Case> = tables().iter().flat_map(every_call).collect();
    cases.extend(spoken());
    cases
}

/// A name and its size.
type Entry<'a> = (&'a str, u16);

fn pair(left: &[Entry], right: &[Entry]) -> OwnedTables {
    OwnedTables {
        left: left.iter().copied().collect(),
        right: right.iter().copied().collect(),
    }
}

/// So many names of size 1 that begin alike.
fn many(count: usize, begin: &str) -> Vec<(String, u16)> {
    (0..count).map(|at| (format!("{begin}{at}"), 1)).collect()
}

fn many_tables(left: &[(String, u16)], right: &[(String, u16)]) -> OwnedTables {
    OwnedTables {
        left: left.iter().cloned().collect(),
        right: right.iter().cloned().collect(),
    }
}

/// One change on a side of legal tables.
fn changed(side: usize, change: fn(&mut OwnedTable)) -> OwnedTables {
    let mut tables = pair(&[("sw", 2), ("port", 3)], &[("port", 3), ("sw", 2)]);
    change(match side {
        1 => &mut tables.left,
        _ => &mut tables.right,
    });
    tables
}

const LONGEST: &str = "abcdefghijklmno";

fn tables() -> Vec<OwnedTables> {
    let mut all = legal();
    all.extend(bad_names());
    all.extend(bad_lengths());
    all.extend(too_many());
    all.extend(sizes());
    all
}

fn legal() -> Vec<OwnedTables> {
    let (sw, port, vlan) = (("sw", 2), ("port", 3), ("vlan", 2));
    let mut all = vec![
        pair(&[sw], &[sw]),
        pair(&[sw], &[port]),
        pair(&[sw, port], &[port, sw]),
        pair(&[sw, port], &[vlan, port, sw]),
        pair(&[sw, port], &[vlan]),
        pair(&[vlan], &[sw, vlan, port]),
        pair(
            &[(LONGEST, 2), ("abcdefghijklmn", 3)],
            &[("abcdefghijklmnp", 2)],
        ),
        pair(
            &[("z", 1), ("z0", 2), ("z9a", 2)],
            &[("dupe", 1), ("i", 2), ("drop0", 2)],
        ),
    ];
    let eight: Vec<(String, u16)> = many(8, "field");
    let mut turned = eight.clone();
    turned.reverse();
    all.push(many_tables(&eight, &turned));
    all.push(many_tables(&eight[..1], &turned));
    all.push(many_tables(&eight[..4], &eight[4..]));
    // what lies behind a name is not read
    for side in [1, 2] {
        all.push(changed(side, |table| table.cells[5..CELL].fill(b'$')));
        all.push(changed(side, |table| table.cells[CELL - 1] = b's'));
    }
    all
}

/// 20 in all its forms, on either side.
fn bad_names() -> Vec<OwnedTables> {
    let mut all = Vec::new();
    for name in [
        "",
        "drop",
        "id",
        "dup",
        "Sw",
        "sW",
        "0",
        "0a",
        "9z",
        "a_",
        "a-b",
        " a",
        "a ",
        "a\0",
        "\0",
        "a{",
        "a`",
        "a/",
        "a:",
        "a@",
        "a[",
        "é",
        "abcdefghijklmnO",
        "abcdefghijklmnop",
        "port",
        "sw",
    ] {
        all.push(pair(&[("sw", 2), ("port", 3), (name, 3)], &[("sw", 2)]));
        all.push(pair(&[("sw", 2)], &[("sw", 2), ("port", 3), (name, 2)]));
    }
    // both tables have one
    all.push(pair(&[("sw", 2), ("A", 1)], &[("B", 1)]));
    for side in [1, 2] {
        all.push(changed(side, |table| table.cells[0] = 0));
        all.push(changed(side, |table| table.cells[0] = 15));
        all.push(changed(side, |table| table.cells[0] = 16));
        all.push(changed(side, |table| table.cells[0] = 17));
        all.push(changed(side, |table| table.cells[0] = 255));
        all.push(changed(side, |table| table.cells[CELL] = 0));
        all.push(changed(side, |table| table.cells[CELL] = 255));
        all.push(changed(side, |table| table.cells.copy_within(..CELL, CELL)));
        all.push(changed(side, |table| table.cells.fill(0)));
        all.push(changed(side, |table| table.cells.fill(b'a')));
    }
    all
}

/// Cells that are not one for each size, on either side.
fn bad_lengths() -> Vec<OwnedTables> {
    let mut all = Vec::new();
    for side in [1, 2] {
        all.push(changed(side, |table| table.cells.push(b'a')));
        all.push(changed(side, |table| table.cells.truncate(2 * CELL - 1)));
        all.push(changed(side, |table| table.cells.truncate(CELL)));
        all.push(changed(side, |table| table.cells.truncate(2)));
        all.push(changed(side, |table| table.cells.clear()));
        all.push(changed(side, |table| table.cells.extend([0; CELL])));
        all.push(changed(side, |table| table.sizes.clear()));
        all.push(changed(side, |table| table.sizes.push(0)));
        all.push(changed(side, |table| table.sizes.truncate(1)));
        all.push(changed(side, |table| *table = OwnedTable::default()));
    }
    all
}

/// Empty tables and over eight joint fields, with 20 beyond the eighth.
fn too_many() -> Vec<OwnedTables> {
    let nine = many(9, "g");
    let mut last_bad = nine.clone();
    last_bad[8].0 = "g7".to_string();
    let mut far = many(40, "h");
    far[39].0 = "H".repeat(MOST_NAME);
    let mut no_size = nine.clone();
    no_size[0].1 = 0;
    let none: &[(String, u16)] = &[];
    vec![
        many_tables(none, none),
        many_tables(&nine, &nine),
        many_tables(&nine, none),
        many_tables(none, &nine),
        many_tables(&nine[..8], &nine),
        many_tables(&nine[..8], &nine[8..]),
        many_tables(&nine[..5], &nine[4..]),
        many_tables(&last_bad, &nine),
        many_tables(&nine, &last_bad),
        many_tables(none, &last_bad),
        many_tables(&far, &nine),
        many_tables(&nine[..1], &far),
        many_tables(&many(40, "h"), &many(40, "h")),
        many_tables(&no_size, &no_size),
        many_tables(&nine, &no_size),
        many_tables(&no_size[..1], none),
    ]
}

/// 21 and 2, and sizes that make many packets.
fn sizes() -> Vec<OwnedTables> {
    let sw = ("sw", 2);
    vec![
        pair(&[sw, ("port", 4)], &[("port", 5), sw]),
        pair(&[sw, ("port", 4)], &[("port", 5), ("sw", 3)]),
        pair(&[sw], &[("sw", 0)]),
        pair(&[("sw", 0)], &[sw]),
        pair(&[("sw", 0)], &[("sw", 0)]),
        pair(&[("a", 1)], &[("b", 0)]),
        pair(&[("a", 1)], &[("b", 0), ("a", 2)]),
        pair(&[("a", 0), ("b", 2)], &[("b", 1)]),
        pair(&[sw, ("port", 0)], &[("vlan", 0), sw]),
        pair(&[("a", 5)], &[("b", 205)]),
        pair(&[("a", 32)], &[("b", 32)]),
        pair(&[("a", 32)], &[("b", 33), ("a", 32)]),
        pair(&[("a", 65_535)], &[("a", 65_535)]),
        pair(&[("a", 1_025)], &[("b", 0)]),
    ]
}

/// Each call on the tables, with policies that pass, and with ones that a cause behind the tables refuses.
fn every_call(tables: &OwnedTables) -> Vec<Case> {
    let tables = || tables.clone();
    // any fields have this one, with this value
    let (test, none) = (nodes_of("f0=0"), OwnedLists::default());
    let mut cases = Vec::new();
    for policy in [&test, &none] {
        cases.push(Case::Values {
            tables: tables(),
            left: test.clone(),
            right: policy.clone(),
            number: 1,
            values: vec![0; 2],
        });
        cases.push(Case::Number {
            tables: tables(),
            left: policy.clone(),
            right: test.clone(),
            values: vec![1, 0],
        });
        cases.push(Case::Policy {
            tables: tables(),
            policy: policy.clone(),
        });
        cases.push(Case::Policies {
            tables: tables(),
            left: test.clone(),
            right: policy.clone(),
        });
    }
    for (side, text) in [(1, "sw=1;port<-2"), (2, "port=2;vlan!=1"), (2, "?")] {
        cases.push(Case::Read {
            tables: tables(),
            side,
            text: text.as_bytes().to_vec(),
            nodes: nodes_of("id;id;id"),
        });
    }
    for (left, right, work) in [
        ("sw=0", "port=0", LEAST_WORK),
        ("id", "dup", 0),
        ("?", "", 0),
    ] {
        cases.push(Case::Texts {
            tables: tables(),
            left: left.as_bytes().to_vec(),
            right: right.as_bytes().to_vec(),
            lists: Lists::new(8, 3, work),
        });
    }
    for (right, work) in [(&test, LEAST_WORK), (&none, 0)] {
        cases.extend(on_lists(&tables(), &test, right, work));
    }
    cases
}

/// The calls on two policies as lists that take a work list.
pub(super) fn on_lists(
    tables: &OwnedTables,
    left: &OwnedLists,
    right: &OwnedLists,
    work: usize,
) -> Vec<Case> {
    let policies = || (tables.clone(), left.clone(), right.clone());
    let searched = {
        let (tables, left, right) = policies();
        Case::Search {
            tables,
            left,
            right,
            lists: Lists::new(8, 3, work),
        }
    };
    let rows = Lists {
        packet: vec![0, 1],
        left: vec![1, 1],
        right: vec![1, 1],
        ..Lists::new(0, 0, work)
    };
    let table = {
        let (tables, left, right) = policies();
        Case::Evidence {
            tables,
            left,
            right,
            lists: rows,
        }
    };
    let records = {
        let (tables, left, right) = policies();
        Case::Records {
            tables,
            left,
            right,
            rows: vec![Record::default(); 2],
            work: vec![0; work],
        }
    };
    let (tables, left, right) = policies();
    let trace = Case::Trace {
        tables,
        left,
        right,
        entering: 1,
        trace: vec![1],
        work: vec![0; work],
    };
    vec![searched, table, records, trace]
}

/// Texts that name fields of their own table, of the other's alone, and of neither.
fn spoken() -> Vec<Case> {
    let tables = pair(
        &[("sw", 2), ("port", 2)],
        &[("vlan", 2), ("port", 2), ("sw", 2)],
    );
    let eight = many(8, "field");
    let mut turned = eight.clone();
    turned.reverse();
    let alike = pair(&[("a", 2), ("aa", 2), ("dupe", 2)], &[("aa", 2), ("a0", 2)]);
    let own = pair(&[("sw", 2)], &[("port", 2)]);
    let longest = pair(&[(LONGEST, 2)], &[("abcdefghijklmn", 2), (LONGEST, 2)]);
    let given = [
        (&own, "sw=0", "port=0"),
        (&own, "sw=0", "sw=0"),
        (&own, "port=0", "port=0"),
        (&own, "sw<-0;dup", "port<-0;dup"),
        (&tables, "sw=1;port=0", "vlan=0;port=0;sw=1"),
        (&tables, "vlan=0", "vlan=0"),
        (&tables, "sw=0", "f0=0"),
        (&tables, "sw=2", "vlan=2"),
        (&tables, "sw=1;dup;port<-0", "sw=1;dup;port<-0"),
        (&tables, "SW=0", "id"),
        (&tables, "sw0=0", "id"),
        (&tables, "s=0", "id"),
        (&alike, "a=0;aa=1;dupe<-0;dup", "aa=1;a0=0"),
        (&alike, "a0=0", "id"),
        (&alike, "aaa=0", "id"),
        (&alike, "dup e=0", "id"),
        (
            &longest,
            "abcdefghijklmno=0",
            "abcdefghijklmn=1;abcdefghijklmno=0",
        ),
        (&longest, "abcdefghijklmn=0", "id"),
        (&longest, "id", "abcdefghijklmnop=0"),
    ];
    let mut cases = Vec::new();
    for (tables, left, right) in given {
        cases.push(texts(tables, left, right));
        for side in [0, 1, 2, 3, 255] {
            cases.push(read(tables, side, left));
            cases.push(read(tables, side, right));
        }
    }
    let eight = many_tables(&eight, &turned);
    for field in 0..8 {
        for side in [1, 2] {
            cases.push(read(&eight, side, &format!("field{field}=0;field0<-0")));
        }
    }
    cases
}

fn texts(tables: &OwnedTables, left: &str, right: &str) -> Case {
    Case::Texts {
        tables: tables.clone(),
        left: left.as_bytes().to_vec(),
        right: right.as_bytes().to_vec(),
        lists: Lists::new(30, 3, LEAST_WORK),
    }
}

fn read(tables: &OwnedTables, side: u8, text: &str) -> Case {
    Case::Read {
        tables: tables.clone(),
        side,
        text: text.as_bytes().to_vec(),
        nodes: nodes_of("id;id;id;id;id"),
    }
}

/// Inputs of the program that speak of tables.
pub fn inputs() -> Vec<String> {
    let mut inputs: Vec<String> = [
        "sw=2\nport=2\nsw=0\nport=0",
        "sw=2\r\nport=2\r\nsw=0\r\nport=0\r\n",
        "sw=2,port=2\nvlan=2,port=2,sw=2\nsw=1\nvlan=0;sw=1",
        "sw=2\nport=2\nport=0\nsw=0",
        "sw=2\nsw=2\nport=0\nsw=0",
        "sw=2,port=4\nport=5,sw=2\nid\nid",
        "sw=2,sw=2\nsw=2\nid\nid",
        "sw=2\ndup=1\nid\nid",
        "a=1\nb=0\nid\nid",
        "a=2\na=0\nid\nid",
        "a=5\nb=205\nid\nid",
        "\n\n\n\n",
        "\nsw=2\nid\nid",
        "sw=2\n\nid\nid",
        "\r\nsw=2\r\nid\r\nid\r\n",
        "sw=2\nid\nid\n",
        "sw=2\nsw=2\nid\nid\nid",
        "a=1,b=1,c=1,d=1,e=1,f=1,g=1,h=1\nh=1,g=1,f=1,e=1,d=1,c=1,b=1,a=1\nh=0\na=0",
        "a=1,b=1,c=1,d=1,e=1,f=1,g=1,h=1\ni=1\nid\nid",
        "a=1,b=1,c=1,d=1,e=1,f=1,g=1,h=1,I=1\ni=1\nid\nid",
    ]
    .map(String::from)
    .to_vec();
    for entry in [
        "a==1", "a=1,", ",a=1", "a=1,,b=1", "a", "a=", "=", "a=1=", "a=01", "a=1 ", "a= 1",
        "a=65536", "a=65535", "a=x", "a=1;b=1", "=1", "A=1", "a =1", " a=1", "a\t=1", "a\r=1",
        "a=1\r", "a\0=1", "0=1", "id=1", "drop=1", "dup=1",
    ] {
        inputs.push(format!("{entry}\na=1\nid\nid"));
        inputs.push(format!("a=1\n{entry}\nid\nid"));
        inputs.push(format!("A=1\n{entry}\n?\n?"));
    }
    for length in [
        14, 15, 16, 17, 254, 255, 256, 257, 258, 270, 271, 272, 511, 512, 513, 30_000,
    ] {
        let name = "a".repeat(length);
        inputs.push(format!("{name}=1\na=1\nid\nid"));
        inputs.push(format!("a=1\n{name}=1\nid\nid"));
    }
    // thousands of entries
    let names = |count: usize| many_line(count);
    inputs.push(format!("{}\na=1\nid\nid", names(3_000)));
    inputs.push(format!("{}\n{}\nid\nid", names(1_500), names(1_500)));
    inputs.push(format!("a=1\n{},x0=1\nid\nid", names(3_000)));
    inputs.push(format!("a=1\n{},x2999=2,y=\nid\nid", names(3_000)));
    for length in [32_768, 32_769] {
        let mut table = names(3_500);
        table.push(',');
        let name = length - table.len() - "=1\na=1\nid\nid".len();
        inputs.push(format!("{table}{}=1\na=1\nid\nid", "y".repeat(name)));
    }
    inputs
}

/// A line of so many entries.
fn many_line(count: usize) -> String {
    let entries: Vec<String> = (0..count).map(|at| format!("x{at}=1")).collect();
    entries.join(",")
}
