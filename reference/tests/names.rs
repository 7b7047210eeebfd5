//! Tables of names: what passes, what is refused where, in every call, and which field a name is.

mod common;

use common::{calls_on_lists, mentioning, nodes};
use netkat_reference::answer::{Numbered, Refusal, Side};
use netkat_reference::case::Case;
use netkat_reference::generate::named;
use netkat_reference::names::{Fields, OwnedTable, OwnedTables, Tables, CELL};
use netkat_reference::policy::OwnedLists;
use netkat_reference::search::{search_texts, Lists, LEAST_WORK};
use netkat_reference::{packets, program, text};

type Entry<'a> = (&'a str, u16);

fn tables(left: &[Entry], right: &[Entry]) -> OwnedTables {
    OwnedTables {
        left: left.iter().copied().collect(),
        right: right.iter().copied().collect(),
    }
}

/// Entries as in the program's lines.
fn lines(left: &str, right: &str) -> OwnedTables {
    let table = |line: &str| -> OwnedTable {
        let entries = line.split(',').filter(|entry| !entry.is_empty());
        let entry = |entry: &str| {
            let (name, size) = entry.split_once('=').expect("a size");
            (name.to_string(), size.parse().expect("a size"))
        };
        entries.map(entry).collect()
    };
    OwnedTables {
        left: table(left),
        right: table(right),
    }
}

/// The refusal of tables by 4 with side 0, 20, 21, 1 or 2: number, side, place.
fn refused(tables: &OwnedTables) -> Option<(u8, u8, u64)> {
    let refusal = Fields::new(tables.lend()).err()?;
    Some((refusal.number, refusal.side, refusal.place))
}

fn of_lines(left: &str, right: &str) -> Option<(u8, u8, u64)> {
    refused(&lines(left, right))
}

#[test]
fn names_that_pass() {
    for name in [
        "a",
        "z",
        "sw",
        "port",
        "vlan",
        "a0",
        "z9",
        "abcdefghijklmno",
        "d",
        "du",
        "dups",
        "dup0",
        "i",
        "idd",
        "id0",
        "dro",
        "drops",
        "f0",
        "f8",
        "a00000000000000",
    ] {
        let own = [(name, 2)];
        assert_eq!(refused(&tables(&own, &own)), None, "{name}");
        assert_eq!(refused(&tables(&[("other", 1)], &own)), None, "{name}");
    }
}

#[test]
fn names_that_are_none() {
    for name in [
        "",
        "0",
        "0a",
        "9",
        "A",
        "aA",
        "Sw",
        "sW",
        "a_",
        "_a",
        "a-",
        "a b",
        " a",
        "a ",
        "a\t",
        "a\0",
        "\0",
        "a\0b",
        "a=",
        "a`",
        "`a",
        "a{",
        "{",
        "a@",
        "a[",
        "a/",
        "a:",
        "é",
        "a\u{7f}",
        "drop",
        "id",
        "dup",
        "abcdefghijklmnop",
        "abcdefghijklmnO",
    ] {
        let bad = tables(&[("sw", 2), (name, 1)], &[("sw", 2)]);
        assert_eq!(refused(&bad), Some((20, 1, 1)), "{name:?}");
        let bad = tables(&[("sw", 2)], &[("sw", 2), (name, 1)]);
        assert_eq!(refused(&bad), Some((20, 2, 1)), "{name:?}");
    }
}

#[test]
fn a_length_does_not_wrap_round() {
    for length in [16, 17, 255, 256, 257, 258, 271, 272, 512, 513, 30_000] {
        let name = "a".repeat(length);
        let mut table = OwnedTable::default();
        table.push(name.as_bytes(), 1);
        assert!(table.cells[0] > 15 && table.cells.len() == CELL);
        let both = OwnedTables {
            left: table.clone(),
            right: table,
        };
        assert_eq!(refused(&both), Some((20, 1, 0)), "{length}");
        assert_eq!(run(&format!("{name}=1\na=1\nid\nid")), "refused,20,0\r\n");
        assert_eq!(
            run(&format!("a=1\na=1,{name}=1\nid\nid")),
            "refused,20,1\r\n"
        );
    }
    for length in [1, 14, 15] {
        let name = "a".repeat(length);
        assert_eq!(
            run(&format!("{name}=1\n{name}=1\nid\nid")),
            "equal,1,0\r\n0,1,1\r\n"
        );
    }
}

#[test]
fn cells_of_any_contents() {
    let mut both = tables(&[("sw", 2), ("port", 3)], &[("port", 3), ("sw", 2)]);
    // What lies behind a name is not read.
    both.left.cells[3..CELL].fill(0xff);
    both.right.cells[CELL + 3..].fill(b'x');
    assert_eq!(refused(&both), None);
    let with = |at: usize, byte: u8| {
        let mut other = both.clone();
        other.left.cells[at] = byte;
        refused(&other)
    };
    for length in [0, 16, 17, 128, 254, 255] {
        assert_eq!(with(0, length), Some((20, 1, 0)), "{length}");
        assert_eq!(with(CELL, length), Some((20, 1, 1)), "{length}");
    }
    // One byte fewer is another name, and one more is no name here.
    assert_eq!(with(0, 1), None);
    assert_eq!(with(0, 3), Some((20, 1, 0)));
    assert_eq!(with(1, 0), Some((20, 1, 0)));
    assert_eq!(with(2, b'W'), Some((20, 1, 0)));
    // The same length and the same bytes up to it are the same name.
    let mut twice = tables(&[("ab", 2), ("ac", 2)], &[("ab", 2)]);
    assert_eq!(refused(&twice), None);
    twice.left.cells[CELL] = 1;
    assert_eq!(refused(&twice), None);
    twice.left.cells[0] = 1;
    assert_eq!(refused(&twice), Some((20, 1, 1)));
}

#[test]
fn cells_that_do_not_match_the_sizes() {
    let legal = tables(&[("sw", 2), ("port", 3)], &[("port", 3), ("sw", 2)]);
    let changes: [fn(&mut OwnedTable); 8] = [
        |table| table.cells.push(0),
        |table| table.cells.truncate(31),
        |table| table.cells.truncate(16),
        |table| table.cells.truncate(2),
        |table| table.cells.clear(),
        |table| table.sizes.push(2),
        |table| table.sizes.truncate(1),
        |table| table.sizes.clear(),
    ];
    for change in changes {
        let mut left = legal.clone();
        change(&mut left.left);
        assert_eq!(refused(&left), Some((4, 0, 0)));
        let mut right = legal.clone();
        change(&mut right.right);
        assert_eq!(refused(&right), Some((4, 0, 0)));
        // Before 20 of either table.
        right.left.cells[0] = 0;
        assert_eq!(refused(&right), Some((4, 0, 0)));
        left.right.cells[0] = 0;
        assert_eq!(refused(&left), Some((4, 0, 0)));
    }
}

#[test]
fn twenty_goes_over_all_names_left_table_first() {
    assert_eq!(of_lines("sw=2,sw=2", "sw=2"), Some((20, 1, 1)));
    assert_eq!(of_lines("sw=2", "dup=1"), Some((20, 2, 0)));
    assert_eq!(of_lines("sw=2,A=1", "B=1"), Some((20, 1, 1)));
    assert_eq!(of_lines("sw=2,a=1,b=1,a=1,A=1", "sw=2"), Some((20, 1, 3)));
    assert_eq!(of_lines("a=1,B=1,a=1", "a=1"), Some((20, 1, 1)));
    // The same name in both tables is no repeat.
    assert_eq!(of_lines("sw=2", "sw=2"), None);
    // Also beyond eight, and before 21, 1 and 2.
    let nine = "a=1,b=1,c=1,d=1,e=1,f=1,g=1,h=1";
    assert_eq!(of_lines(&format!("{nine},I=1"), "a=1"), Some((20, 1, 8)));
    assert_eq!(of_lines("a=1", &format!("{nine},a=1")), Some((20, 2, 8)));
    assert_eq!(of_lines(&format!("{nine},i=1"), "A=1"), Some((20, 2, 0)));
    assert_eq!(of_lines("a=1,b=0", "a=2,id=1"), Some((20, 2, 1)));
    assert_eq!(of_lines("", "A=0"), Some((20, 2, 0)));
}

#[test]
fn twenty_one_has_the_left_index() {
    assert_eq!(of_lines("sw=2,port=4", "port=5,sw=2"), Some((21, 1, 1)));
    assert_eq!(of_lines("sw=2,port=4", "port=5,sw=3"), Some((21, 1, 0)));
    assert_eq!(of_lines("a=1,b=2", "b=3,c=1,d=1"), Some((21, 1, 1)));
    // Before 1 and 2.
    assert_eq!(of_lines("a=2", "a=0"), Some((21, 1, 0)));
    assert_eq!(of_lines("b=0,a=2", "a=1"), Some((21, 1, 1)));
    let nine = "a=1,b=1,c=1,d=1,e=1,f=1,g=1,h=1,i=1";
    assert_eq!(of_lines(nine, "i=2"), Some((21, 1, 8)));
    assert_eq!(of_lines("i=2", nine), Some((21, 1, 0)));
}

#[test]
fn one_and_two_speak_of_joint_fields() {
    assert_eq!(of_lines("", ""), Some((1, 0, 0)));
    assert_eq!(of_lines("a=1", ""), Some((1, 0, 0)));
    assert_eq!(of_lines("", "a=0"), Some((1, 0, 0)));
    let (eight, turned) = (
        "a=1,b=1,c=1,d=1,e=1,f=1,g=1,h=1",
        "h=1,g=1,f=1,e=1,d=1,c=1,b=1,a=1",
    );
    assert_eq!(of_lines(eight, turned), None);
    assert_eq!(of_lines(eight, "a=1"), None);
    assert_eq!(of_lines("h=1", eight), None);
    assert_eq!(of_lines(eight, "i=1"), Some((1, 0, 0)));
    assert_eq!(of_lines("i=1", eight), Some((1, 0, 0)));
    assert_eq!(of_lines("a=1,b=1,c=1,d=1", "e=1,f=1,g=1,h=1"), None);
    assert_eq!(
        of_lines("a=1,b=1,c=1,d=1,i=0", "e=1,f=1,g=1,h=1"),
        Some((1, 0, 0))
    );
    assert_eq!(of_lines("a=1", "b=0"), Some((2, 0, 1)));
    assert_eq!(of_lines("a=1,b=0", "c=0,b=0"), Some((2, 0, 1)));
    assert_eq!(of_lines("a=2,b=2", "c=0,b=2,d=0"), Some((2, 0, 2)));
}

#[test]
fn joint_fields_go_by_the_left_table() {
    let both = lines("sw=2,port=3", "vlan=5,port=3,sw=2");
    let fields = Fields::new(both.lend()).expect("legal tables");
    assert_eq!(fields.sizes(), [2, 3, 5]);
    let number = |side, name: &str| fields.number(side, name.as_bytes());
    assert_eq!(number(Side::Left, "sw"), Some(0));
    assert_eq!(number(Side::Left, "port"), Some(1));
    assert_eq!(number(Side::Left, "vlan"), None);
    assert_eq!(number(Side::Right, "vlan"), Some(2));
    assert_eq!(number(Side::Right, "port"), Some(1));
    assert_eq!(number(Side::Right, "sw"), Some(0));
    let read = |side, text: &str| {
        let mut lent = nodes("id;id");
        let (kind, first) = (&mut lent.kind, &mut lent.first);
        let answer = text::read(
            both.lend(),
            side,
            text.as_bytes(),
            kind,
            first,
            &mut lent.second,
        );
        answer.map(|_| (lent.kind[0], lent.first[0], lent.second[0]))
    };
    assert_eq!(read(Side::Right, "vlan=0"), Ok((2, 2, 0)));
    assert_eq!(read(Side::Left, "port<-9"), Ok((4, 1, 9)));
    // A name of the other table alone is a bad word, as is f0.
    assert_eq!(read(Side::Left, "vlan=0"), Err(Refusal::new(14, 0)));
    assert_eq!(read(Side::Left, "f0=0"), Err(Refusal::new(14, 0)));
    assert_eq!(read(Side::Right, " swport=0"), Err(Refusal::new(14, 1)));
    assert_eq!(read(Side::Right, "sw=0;VLAN=0"), Err(Refusal::new(14, 5)));
    // Packets count over the joint fields, where all are mentioned.
    let policy = mentioning(3);
    let policy = policy.lists();
    let number = |values: &[u16]| packets::number(both.lend(), policy, policy, values);
    let mut values = [9; 3];
    let answer = packets::values(both.lend(), policy, policy, 28, &mut values);
    assert_eq!(answer, Ok(()));
    assert_eq!(values, [1, 2, 3]);
    assert_eq!(number(&[1, 2, 3]), Ok(28));
    assert_eq!(number(&[1, 2, 5]), Err(Refusal::new(13, 2)));
    assert_eq!(number(&[1, 2]), Err(Refusal::new(13, 3)));
}

#[test]
fn any_side_but_two_is_left() {
    for side in 0..=255 {
        let expected = if side == 2 { Side::Right } else { Side::Left };
        assert_eq!(Side::of_text(side), expected);
    }
}

#[test]
fn the_reader_tests_the_tables_first() {
    let read = |left: &str, right: &str| {
        let tables = lines(left, right);
        let answer = text::read(tables.lend(), Side::Left, b"?", &mut [], &mut [], &mut []);
        answer.map_err(|refusal| (refusal.number, refusal.side, refusal.place))
    };
    assert_eq!(read("A=1", "a=1"), Err((20, 1, 0)));
    assert_eq!(read("a=1", "a=2"), Err((21, 1, 0)));
    assert_eq!(read("a=1", ""), Err((1, 0, 0)));
    assert_eq!(read("a=1", "b=0"), Err((2, 0, 1)));
    // It does not test 3.
    assert_eq!(read("a=1024", "b=1024"), Err((14, 0, 0)));
    let mut cells = lines("a=1", "a=1");
    cells.right.cells.pop();
    let answer = text::read(cells.lend(), Side::Left, b"?", &mut [], &mut [], &mut []);
    assert_eq!(answer, Err(Refusal::new(4, 0)));
}

/// Every call on these tables, on lists that a later cause refuses.
fn every_call(tables: &OwnedTables) -> Vec<Case> {
    let given = || (tables.clone(), OwnedLists::default(), nodes("!dup"));
    let text = || b"?".to_vec();
    let (tables, left, right) = given();
    let mut cases = vec![
        Case::Values {
            tables: tables.clone(),
            left: left.clone(),
            right: right.clone(),
            number: 65_535,
            values: vec![9; 20],
        },
        Case::Number {
            tables: tables.clone(),
            left: right.clone(),
            right: left.clone(),
            values: vec![9; 20],
        },
        Case::Policy {
            tables: tables.clone(),
            policy: left.clone(),
        },
        Case::Policies {
            tables: tables.clone(),
            left: right,
            right: left,
        },
        Case::Texts {
            tables,
            left: text(),
            right: text(),
            lists: Lists::new(3, 3, 3),
        },
    ];
    cases.extend(calls_on_lists(given));
    cases
}

/// The answer of every call, which is the same.
fn every_answer(tables: &OwnedTables) -> [u64; 4] {
    let mut found = None;
    for mut case in every_call(tables) {
        let before = case.checksums();
        let [nine, number, side, place, ..] = case.run();
        let answer = [nine, number, side, place];
        assert_eq!(*found.get_or_insert(answer), answer, "{}", case.name());
        assert_eq!(case.checksums(), before);
    }
    found.expect("an answer")
}

#[test]
fn every_call_tests_the_tables_first() {
    let of = |left: &str, right: &str| every_answer(&lines(left, right));
    assert_eq!(of("a=1,A=1", "b=1"), [9, 20, 1, 1]);
    assert_eq!(of("a=1", "b=1,b=1"), [9, 20, 2, 1]);
    assert_eq!(of("a=1,b=2", "b=1"), [9, 21, 1, 1]);
    assert_eq!(of("a=1", ""), [9, 1, 0, 0]);
    assert_eq!(of("a=1", "b=0"), [9, 2, 0, 1]);
    let mut cells = lines("A=1", "a=1");
    cells.right.sizes.push(0);
    assert_eq!(every_answer(&cells), [9, 4, 0, 0]);
}

fn run(input: &str) -> String {
    String::from_utf8(program::run(input.as_bytes())).expect("text")
}

#[test]
fn the_program_reads_two_tables() {
    assert_eq!(run("sw=2\nport=2\nsw=0\nport=0"), "left,1,1\r\n1,1,1\r\n");
    assert_eq!(
        run("sw=2\r\nport=2\r\nsw=0\r\nport=0\r\n"),
        "left,1,1\r\n1,1,1\r\n"
    );
    assert_eq!(run("sw=2\nport=2\nport=0\nsw=0"), "refused,14,0\r\n");
    assert_eq!(run("sw=2\nport=2\nsw=0\nid;sw=0"), "refused,14,3\r\n");
    assert_eq!(run("sw=2,port=4\nport=5,sw=2\nid\nid"), "refused,21,1\r\n");
    assert_eq!(run("sw=2,sw=2\nsw=2\nid\nid"), "refused,20,1\r\n");
    assert_eq!(run("sw=2\ndup=1\nid\nid"), "refused,20,0\r\n");
    assert_eq!(run("a=1\nb=0\nid\nid"), "refused,2,1\r\n");
    assert_eq!(run("\na=1\nid\nid"), "refused,1,0\r\n");
    assert_eq!(run("a=1\n\nid\nid"), "refused,1,0\r\n");
    assert_eq!(run("\r\n\r\n\r\n\r\n"), "refused,1,0\r\n");
    assert_eq!(run("\n\n\n"), "refused,18,0\r\n");
    assert_eq!(run("a=1\na=1\nid\n"), "refused,18,0\r\n");
    assert_eq!(run("a=1\na=1\nid\nid\nid"), "refused,18,0\r\n");
    assert_eq!(run("a=1\na=1\nid\n\n"), "refused,16,0\r\n");
}

#[test]
fn malformed_entries_and_bad_names() {
    for entry in [
        "a==1", "a=1,", ",a=1", ",", "a=1,,b=1", "a", "a=", "=", "==", "a=1=", "a=01", "a=00",
        "a=1 ", "a= 1", "a=+1", "a=-1", "a=65536", "a=100000", "a=b", "a=1;b=1", "a=1\r\r",
        "a=1\0", "a b", "A", "a=1,b",
    ] {
        let malformed = "refused,18,0\r\n";
        assert_eq!(
            run(&format!("{entry}\na=1\nid\nid")),
            malformed,
            "{entry:?}"
        );
        assert_eq!(
            run(&format!("a=1\n{entry}\nid\nid")),
            malformed,
            "{entry:?}"
        );
        // Of both table lines before 20.
        assert_eq!(
            run(&format!("A=1\n{entry}\nid\nid")),
            malformed,
            "{entry:?}"
        );
    }
    for entry in [
        "=1", "A=1", "a =1", " a=1", "a\t=1", "a\0=1", "\r=1", "0=1", "a;b=1", "id=65535", "=0",
    ] {
        let bad = "refused,20,0\r\n";
        assert_eq!(run(&format!("{entry}\na=1\nid\nid")), bad, "{entry:?}");
        assert_eq!(run(&format!("a=1\n{entry}\nid\nid")), bad, "{entry:?}");
    }
}

#[test]
fn tables_of_thousands_of_names() {
    let many = |count: usize| -> String {
        let entries: Vec<String> = (0..count).map(|at| format!("x{at}=1")).collect();
        entries.join(",")
    };
    assert_eq!(
        run(&format!("{}\na=1\nid\nid", many(3_000))),
        "refused,1,0\r\n"
    );
    let repeat = format!("a=1\n{},x0=1\nid\nid", many(3_000));
    assert_eq!(run(&repeat), "refused,20,3000\r\n");
    let two_sizes = format!("{},y=1\ny=2\nid\nid", many(3_000));
    assert_eq!(run(&two_sizes), "refused,21,3000\r\n");
    let table = many(3_600);
    let padded = |length: usize| {
        let rest = "\na=1\nid\nid";
        run(&format!(
            "{table}{rest}{}",
            " ".repeat(length - table.len() - rest.len())
        ))
    };
    assert_eq!(padded(32_768), "refused,1,0\r\n");
    assert_eq!(padded(32_769), "refused,18,0\r\n");
    let far: OwnedTable = (0..70_000).map(|at| (format!("y{at}"), 1)).collect();
    let mut both = OwnedTables {
        left: far.clone(),
        right: far,
    };
    assert_eq!(refused(&both), Some((1, 0, 0)));
    both.right.push(b"y0", 1);
    assert_eq!(refused(&both), Some((20, 2, 70_000)));
    both.right.sizes[69_999] = 2;
    both.right.cells.truncate(70_000 * CELL);
    both.right.sizes.truncate(70_000);
    assert_eq!(refused(&both), Some((21, 1, 69_999)));
}

#[test]
fn names_do_not_change_a_verdict() {
    let search = |tables: Tables, left: &str, right: &str| {
        let mut lists = Lists::new(99, 99, LEAST_WORK);
        let answer = search_texts(tables, left.as_bytes(), right.as_bytes(), lists.lend());
        (answer.numbers(), lists)
    };
    let numbered = OwnedTables::numbered(&[2, 3]);
    let named = lines("sw=2,port=3", "port=3,sw=2");
    for (left, right) in [
        ("f0=0;dup;f1<-2", "f0=0;f1<-2;dup"),
        ("dup;!f0=0", "!f0=0;dup"),
        ("(f1=0;f1<-1;dup)*", "id+f1=0;f1<-1;dup"),
        ("f0=0", "f1=0"),
    ] {
        let renamed = |text: &str| text.replace("f0", "sw").replace("f1", "port");
        let (answer, lists) = search(numbered.lend(), left, right);
        let (again, same) = search(named.lend(), &renamed(left), &renamed(right));
        assert_eq!((answer, lists), (again, same), "{left} {right}");
    }
}

#[test]
fn lines_print_what_tables_hold() {
    let table: OwnedTable = [("sw", 2), ("port", 65_535)].into_iter().collect();
    assert_eq!(named::line(&table), b"sw=2,port=65535");
    assert_eq!(named::line(&OwnedTable::default()), b"");
    let long: OwnedTable = [("abcdefghijklmnop", 1)].into_iter().collect();
    assert_eq!(named::line(&long), b"abcdefghijklmnon=1");
}
