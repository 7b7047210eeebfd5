//! Fields that policies mention, and fields that nobody mentions: how many packets there are, which numbers they have, and where 3
//! is tested.

mod common;

use common::{calls_on_lists, nodes, search, tables};
use netkat_reference::answer::{Holders, Refusal, Ruling, Side, Verdict};
use netkat_reference::case::Case;
use netkat_reference::evidence::{self, Table};
use netkat_reference::policy::{self, OwnedLists};
use netkat_reference::search::{search_texts, Lists, LEAST_WORK};
use netkat_reference::{packets, program, traces};

/// Two texts over f0, f1 and so on.
struct Pair {
    sizes: Vec<u16>,
    left: String,
    right: String,
}

fn pair(sizes: &[u16], left: &str, right: &str) -> Pair {
    Pair {
        sizes: sizes.to_vec(),
        left: left.to_string(),
        right: right.to_string(),
    }
}

impl Pair {
    /// The answer of the search, and the trace where that is one.
    fn verdict(&self) -> (Result<Verdict, Refusal>, Vec<u16>) {
        let outcome = search(&self.sizes, &self.left, &self.right);
        let length = match outcome.answer {
            Ok(Verdict::Different { length, .. }) => length,
            _ => 0,
        };
        (outcome.answer, outcome.lists.trace[..length].to_vec())
    }

    fn equal(&self, rows: usize) {
        assert_eq!(self.verdict().0, Ok(Verdict::Equal { rows }));
    }

    fn different(&self, side: Side, entering: u16, trace: &[u16]) {
        let verdict = Verdict::Different {
            side,
            length: trace.len(),
            entering,
        };
        assert_eq!(self.verdict(), (Ok(verdict), trace.to_vec()));
        let holders = match side {
            Side::Left => Holders::Left,
            Side::Right => Holders::Right,
        };
        assert_eq!(self.trace(entering, trace), Ok(holders));
    }

    fn refused(&self, number: u8, place: usize) {
        assert_eq!(self.verdict().0, Err(Refusal::new(number, place)));
    }

    fn values(&self, number: u16) -> Result<Vec<u16>, Refusal> {
        let mut values = vec![9; self.sizes.len()];
        let (left, right) = (nodes(&self.left), nodes(&self.right));
        let (left, right) = (left.lists(), right.lists());
        packets::values(tables(&self.sizes).lend(), left, right, number, &mut values)
            .map(|()| values)
    }

    fn number(&self, values: &[u16]) -> Result<u16, Refusal> {
        let (left, right) = (nodes(&self.left), nodes(&self.right));
        let (left, right) = (left.lists(), right.lists());
        packets::number(tables(&self.sizes).lend(), left, right, values)
    }

    fn trace(&self, entering: u16, trace: &[u16]) -> Result<Holders, Refusal> {
        let (left, right) = (nodes(&self.left), nodes(&self.right));
        let (left, right) = (left.lists(), right.lists());
        let mut work = vec![1; LEAST_WORK];
        let names = tables(&self.sizes);
        traces::check(names.lend(), left, right, entering, trace, &mut work)
    }

    fn ruling(&self, rows: &[(u16, u64, u64)]) -> Result<Ruling, Refusal> {
        let (left, right) = (nodes(&self.left), nodes(&self.right));
        let (left, right) = (left.lists(), right.lists());
        let packet: Vec<u16> = rows.iter().map(|row| row.0).collect();
        let left_states: Vec<u64> = rows.iter().map(|row| row.1).collect();
        let right_states: Vec<u64> = rows.iter().map(|row| row.2).collect();
        let table = Table {
            packet: &packet,
            left: &left_states,
            right: &right_states,
        };
        let names = tables(&self.sizes);
        let mut work = vec![1; LEAST_WORK];
        evidence::check(names.lend(), left, right, table, &mut work)
    }

    /// How many packets there are: the lowest number that is none.
    fn packets(&self) -> u16 {
        let none = |number: &u16| self.values(*number) == Err(Refusal::new(13, 0));
        (0..=1024).find(none).expect("at most 1,024 packets")
    }
}

fn refusal<T>(number: u8, place: usize) -> Result<T, Refusal> {
    Err(Refusal::new(number, place))
}

#[test]
fn a_wide_field_that_nobody_mentions() {
    let pair = pair(&[1000, 2], "f1=0", "id");
    pair.different(Side::Right, 1, &[1]);
    assert_eq!(pair.packets(), 2);
    assert_eq!(pair.values(0), Ok(vec![0, 0]));
    assert_eq!(pair.values(1), Ok(vec![0, 1]));
    assert_eq!(pair.values(2), refusal(13, 0));
    assert_eq!(pair.number(&[999, 1]), Ok(1));
    assert_eq!(pair.number(&[999, 0]), Ok(0));
    assert_eq!(pair.number(&[1000, 1]), refusal(13, 0));
    assert_eq!(pair.number(&[1000, 2]), refusal(13, 0));
    assert_eq!(pair.number(&[999, 2]), refusal(13, 1));
    assert_eq!(pair.number(&[1]), refusal(13, 2));
    assert_eq!(pair.number(&[0, 0, 0]), refusal(13, 2));
}

#[test]
fn no_field_is_mentioned() {
    let pair = pair(&[65_535, 65_535], "id", "dup");
    pair.different(Side::Left, 0, &[0]);
    assert_eq!(pair.packets(), 1);
    assert_eq!(pair.values(0), Ok(vec![0, 0]));
    assert_eq!(pair.number(&[65_534, 65_534]), Ok(0));
    assert_eq!(pair.number(&[65_534, 65_535]), refusal(13, 1));
    assert_eq!(pair.trace(0, &[1]), refusal(13, 1));
    assert_eq!(pair.trace(1, &[]), refusal(13, 0));
}

#[test]
fn only_mentioned_fields_count() {
    pair(&[5, 205], "id", "id").equal(1);
    pair(&[5, 205], "f0=0;f1=0", "id").refused(3, 1);
    pair(&[5, 205], "f0=0", "f1=0").refused(3, 1);
    pair(&[5, 205], "f0=0", "f0=0;f0=0").equal(5);
    pair(&[5, 205], "f1=0", "f1=0;f1=0").equal(205);
    pair(&[1024, 5000, 2], "f0=0;f2=0", "id").refused(3, 2);
    pair(&[1024, 5000, 1], "f0=0;f2=0", "f2=0;f0=0").equal(1024);
    pair(&[1024, 5000, 2], "f1=0", "id").refused(3, 1);
    pair(&[32, 65_535, 32], "f0=0", "f2=0").different(Side::Left, 1, &[1]);
    pair(&[32, 65_535, 33], "f0=0", "f2=0").refused(3, 2);
    // P1 lists one row now.
    let outcome = search(&[2], "drop", "id");
    assert_eq!(outcome.rows(2), [(0, 1, 1), (0, 0, 0)]);
    pair(&[2], "drop", "id").different(Side::Right, 0, &[0]);
}

#[test]
fn numbers_go_over_the_mentioned_fields_in_their_order() {
    let pair = pair(&[5000, 2, 3], "f1=1;f2<-2;dup", "f1=1;dup;f2<-2");
    pair.different(Side::Right, 3, &[3, 5]);
    assert_eq!(pair.packets(), 6);
    assert_eq!(pair.values(3), Ok(vec![0, 1, 0]));
    assert_eq!(pair.values(5), Ok(vec![0, 1, 2]));
    for number in 0..6 {
        assert_eq!(pair.values(number), Ok(vec![0, number / 3, number % 3]));
        assert_eq!(pair.number(&[4999, number / 3, number % 3]), Ok(number));
    }
    assert_eq!(pair.number(&[5000, 0, 0]), refusal(13, 0));
    // Rows have these numbers, too.
    let starts: Vec<(u16, u64, u64)> = (0..6).map(|packet| (packet, 1, 1)).collect();
    assert_eq!(pair.ruling(&starts[..5]), Ok(Ruling::NoStart { packet: 5 }));
    let none = [&starts[..], &[(6, 1, 1)]].concat();
    assert_eq!(pair.ruling(&none), Ok(Ruling::OutOfRange { row: 6 }));
}

#[test]
fn a_mention_may_stand_anywhere() {
    // By the policy, how many packets a field of three values makes beside one that nobody mentions.
    let count = |left: &str, right: &str| pair(&[65_535, 3], left, right).packets();
    for mentioning in [
        "f1=0",
        "f1!=2",
        "f1<-1",
        "!f1=0",
        "!!!f1=2",
        "!(drop;f1=0)",
        "f1=0*",
        "drop;f1=1",
        "dup;drop;f1<-1",
        "id+drop;(dup;f1!=0)*",
        "drop;!(id;f1=1)",
    ] {
        assert_eq!(count(mentioning, "id"), 3, "{mentioning}");
        assert_eq!(count("dup*", mentioning), 3, "{mentioning}");
        assert_eq!(count(mentioning, mentioning), 3, "{mentioning}");
        let wide = mentioning.replace("f1", "f0");
        pair(&[65_535, 3], &wide, "id").refused(3, 0);
        pair(&[65_535, 3], "id", &wide).refused(3, 0);
    }
    assert_eq!(count("dup;id", "drop+dup*"), 1);
}

#[test]
fn a_policy_alone_is_tested_over_its_own_fields() {
    let check = |text: &str| policy::check(tables(&[32, 65_535, 33]).lend(), nodes(text).lists());
    assert_eq!(check("f0=0;dup"), Ok(1));
    assert_eq!(check("f2=0;dup"), Ok(1));
    assert_eq!(check("f0=0;f2=0"), refusal(3, 2));
    assert_eq!(check("f2=0;f0=0"), refusal(3, 2));
    assert_eq!(check("f1=65534"), refusal(3, 1));
    assert_eq!(check("f2=0;f1=0;f0=0"), refusal(3, 1));
    let both = |left: &str, right: &str| {
        let names = tables(&[32, 65_535, 33]);
        policy::check_pair(names.lend(), nodes(left).lists(), nodes(right).lists())
    };
    assert_eq!(both("f0=0;dup", "f0=0"), Ok((1, 0)));
    assert_eq!(both("f0=0", "f2=0"), refusal(3, 2));
    assert_eq!(both("f2=0", "f0=0"), refusal(3, 2));
}

#[test]
fn products_are_not_cut_off() {
    let mentioned = |sizes: &[u16]| {
        let tests: Vec<String> = (0..sizes.len())
            .map(|field| format!("f{field}=0"))
            .collect();
        policy::check(tables(sizes).lend(), nodes(&tests.join(";")).lists())
    };
    for (sizes, place) in [
        (&[1025][..], 0),
        (&[2, 513], 1),
        (&[256, 256], 1),
        (&[1024, 64], 1),
        (&[512, 129], 1),
        (&[256; 4], 1),
        (&[1024, 5, 397, 2113], 1),
        (&[1, 1, 1, 65_535, 65_535], 3),
        (&[256; 8], 1),
        (&[65_535; 8], 0),
        (&[2, 2, 2, 2, 2, 2, 4, 5], 7),
    ] {
        assert_eq!(mentioned(sizes), refusal(3, place), "{sizes:?}");
    }
    for sizes in [
        &[1023][..],
        &[1024],
        &[32, 32],
        &[3, 11, 31],
        &[2, 2, 2, 2, 2, 2, 4, 4],
    ] {
        assert_eq!(mentioned(sizes), Ok(0), "{sizes:?}");
    }
}

/// Every call on two policies over fields of 2 and of 65,535 values, with lists that 10 and 13 refuse where they can.
fn every_call(left: &OwnedLists, right: &OwnedLists) -> Vec<Case> {
    let tables = tables(&[2, 65_535]);
    let given = || (tables.clone(), left.clone(), right.clone());
    let mut cases = Vec::new();
    let (tables, left, right) = given();
    cases.push(Case::Values {
        tables,
        left,
        right,
        number: 65_535,
        values: vec![9; 3],
    });
    let (tables, left, right) = given();
    cases.push(Case::Number {
        tables,
        left,
        right,
        values: vec![65_535; 3],
    });
    let (tables, left, right) = given();
    cases.push(Case::Policies {
        tables,
        left,
        right,
    });
    cases.extend(calls_on_lists(given));
    cases
}

/// Number, side and place of the refusal of every call, which is the same; it leaves every list as found.
fn every_refusal(left: &OwnedLists, right: &OwnedLists) -> [u64; 3] {
    let mut found = None;
    for mut case in every_call(left, right) {
        let before = case.checksums();
        let [nine, number, side, place, ..] = case.run();
        assert_eq!(nine, 9, "{}", case.name());
        let refused = [number, side, place];
        assert_eq!(*found.get_or_insert(refused), refused, "{}", case.name());
        assert_eq!(case.checksums(), before, "{}", case.name());
    }
    found.expect("a refusal")
}

#[test]
fn three_goes_after_the_policies_and_before_the_lists() {
    let lists = |given: &[(u8, u16, u16)]| {
        let mut lists = OwnedLists::default();
        for &(kind, first, second) in given {
            lists.push(kind, first, second);
        }
        lists
    };
    let (many, few) = (nodes("f0=1;f1=65534"), nodes("f0=1"));
    let broken = [
        (4, 0, lists(&[])),
        (5, 1, lists(&[(2, 1, 0), (10, 0, 0)])),
        (6, 0, lists(&[(2, 1, 65_535)])),
        (6, 1, nodes("f1=0;f0=2")),
        (7, 1, lists(&[(2, 1, 0), (8, 1, 0)])),
        (8, 0, lists(&[(2, 1, 0), (1, 0, 0)])),
        (19, 2, nodes("f1=0;!dup")),
        // before each dup a test or a sum
        (9, 127, nodes(&format!("f1=0+{}", ["dup"; 64].join("+")))),
    ];
    for (number, place, policy) in broken {
        assert_eq!(every_refusal(&policy, &many), [number, 1, place]);
        assert_eq!(every_refusal(&many, &policy), [number, 2, place]);
        assert_eq!(every_refusal(&few, &policy), [number, 2, place]);
    }
    assert_eq!(every_refusal(&many, &few), [3, 0, 1]);
    assert_eq!(every_refusal(&few, &many), [3, 0, 1]);
    assert_eq!(every_refusal(&many, &many), [3, 0, 1]);
    // What comes after it.
    for mut case in every_call(&few, &few) {
        let answer = case.run();
        match case {
            Case::Values { .. } | Case::Number { .. } => assert_eq!(answer[..4], [9, 13, 0, 2]),
            Case::Policies { .. } => assert_eq!(answer[..3], [0, 0, 0]),
            _ => assert_eq!(answer[..4], [9, 10, 0, 0]),
        }
    }
}

#[test]
fn three_goes_after_the_texts() {
    let answer = |left: &str, right: &str| search(&[2, 65_535], left, right).answer;
    let dups = ["dup"; 64].join(";");
    let long = format!("id{}", "*".repeat(512));
    let nested = format!("{}id{}", "(".repeat(65), ")".repeat(65));
    for (beside, refused, sided) in [
        ("?", Refusal::new(14, 0), false),
        (&nested[..], Refusal::new(15, 64), false),
        ("id id", Refusal::new(16, 3), false),
        (&long, Refusal::new(17, 513), false),
        ("f0=2", Refusal::new(6, 0), true),
        ("!dup", Refusal::new(19, 1), true),
        (&dups, Refusal::new(9, 125), true),
    ] {
        let on = |side| if sided { refused.on(side) } else { refused };
        assert_eq!(answer("f1=0", beside), Err(on(2)), "{beside}");
        assert_eq!(answer(beside, "f1=0"), Err(on(1)), "{beside}");
    }
    assert_eq!(answer("f1=0", "id"), refusal(3, 1));
    assert_eq!(answer("id", "f1=0"), refusal(3, 1));
    // Before 10, and with every list as it was.
    let mut lists = Lists::new(3, 3, 3);
    lists.work.fill(9);
    let before = lists.clone();
    let names = tables(&[2, 65_535]);
    let refused = search_texts(names.lend(), b"f1=0", b"id", lists.lend());
    assert_eq!(refused, refusal(3, 1));
    assert_eq!(lists, before);
    let refused = search_texts(names.lend(), b"f0=0", b"id", lists.lend());
    assert_eq!(refused, refusal(10, 0));
    let run = |input: &str| String::from_utf8(program::run(input.as_bytes())).expect("text");
    let of = |left: &str, right: &str| run(&format!("a=5\nb=205\n{left}\n{right}"));
    assert_eq!(of("id", "id"), "equal,1,0\r\n0,1,1\r\n");
    assert_eq!(of("a=0", "b=0"), "refused,3,1\r\n");
    assert_eq!(of("a=0", "b=205"), "refused,6,0\r\n");
    assert_eq!(of("a=0", "?"), "refused,14,0\r\n");
    assert_eq!(run("a=5\nb=205=\na=0\nb=0"), "refused,18,0\r\n");
    assert_eq!(run("a=5\nb=0\na=0\nb=0"), "refused,2,1\r\n");
    let names = "a=1000,b=2\nb=2,a=1000";
    assert_eq!(run(&format!("{names}\nb=0\nid")), "right,1,1\r\n1,1,1\r\n");
}

#[test]
fn damaged_policies_are_not_turned() {
    let names = tables(&[2, 65_535]);
    let (legal, empty) = (nodes("f0=1"), OwnedLists::default());
    let turned = |left: &OwnedLists, right: &OwnedLists| {
        let (left, right) = (left.lists(), right.lists());
        let mut values = [9; 2];
        let refused = packets::values(names.lend(), left, right, 0, &mut values).unwrap_err();
        assert_eq!(values, [9; 2]);
        let number = packets::number(names.lend(), left, right, &[0, 0]);
        assert_eq!(number, Err(refused));
        refused
    };
    assert_eq!(turned(&empty, &legal), Refusal::new(4, 0).on(1));
    assert_eq!(turned(&legal, &empty), Refusal::new(4, 0).on(2));
    assert_eq!(turned(&legal, &nodes("f2=0")), Refusal::new(6, 0).on(2));
    assert_eq!(turned(&nodes("f0=2"), &empty), Refusal::new(4, 0).on(2));
    assert_eq!(
        turned(&nodes("f1=0"), &nodes("!dup")),
        Refusal::new(19, 1).on(2)
    );
    assert_eq!(turned(&nodes("f1=0"), &legal), Refusal::new(3, 1));
}
