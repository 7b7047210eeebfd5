//! Every call of the safe wrapper, the calls of `examples/c/calls.c`, on threads with the stack that the wrapper states. Three switches
//! with two ports each, so six packets where both fields are mentioned; the two tables name the fields in different orders, and the
//! left one's counts.

use std::thread;

use netkat::{
    Checker, Holders, Policy, Refusal, Row, Rows, Ruling, Side, Table, Tables, Verdict, ROWS_FULL,
    STACK,
};

/// Rows lent to a search.
const ROWS: usize = 64;

/// Runs a test on a thread with the stack that a call may need.
fn within_bound(test: fn()) {
    let thread = thread::Builder::new().stack_size(STACK);
    let done = thread.spawn(test).expect("a thread").join();
    assert!(done.is_ok(), "the test failed");
}

/// Over the fields of two tables.
fn over(left: &[(&str, u16)], right: &[(&str, u16)]) -> Checker {
    Checker::new(Tables {
        left: Table::new(left),
        right: Table::new(right),
    })
}

/// Over one field of this size.
fn one_field(size: u16) -> Checker {
    Checker::new(Tables::shared(&[("sw", size)]))
}

/// Over f0, f1, .. of these sizes.
fn numbered(sizes: &[u16]) -> Checker {
    let names = ["f0", "f1", "f2", "f3", "f4", "f5", "f6", "f7"];
    let fields: Vec<(&str, u16)> = names.into_iter().zip(sizes.iter().copied()).collect();
    Checker::new(Tables::shared(&fields))
}

/// Two texts read, of the left policy and of the right one.
fn pair(checker: &Checker, left: &str, right: &str) -> (Policy, Policy) {
    let read = |side, text: &str| checker.read(side, text.as_bytes()).expect("a legal text");
    (read(Side::Left, left), read(Side::Right, right))
}

fn checker() -> Checker {
    over(&[("sw", 3), ("port", 2)], &[("port", 2), ("sw", 3)])
}

/// A policy over `sw` and `port`.
fn policy(text: &str) -> Policy {
    checker()
        .read(Side::Left, text.as_bytes())
        .expect("a legal text")
}

fn refusal(number: u64, side: Option<Side>, place: u64) -> Refusal {
    Refusal {
        number,
        side,
        place,
        agreed: None,
    }
}

/// Refusal 11 with so many rows lent: the same traces up to this length.
fn full(rows: u64, length: u64) -> Refusal {
    Refusal {
        agreed: Some(length),
        ..refusal(ROWS_FULL, None, rows)
    }
}

/// Left and right policies of the examples: the first two are equal, the third is not.
fn policies() -> (Policy, Policy, Policy) {
    (
        policy("sw=0;dup"),
        policy("dup;sw=0"),
        policy("sw=0;port<-1;dup"),
    )
}

#[test]
fn packets_turned() {
    within_bound(|| {
        let checker = checker();
        let (id, mut bad) = (policy("id"), policy("id"));
        let both = policy("sw=0;port<-1");
        for (left, right) in [(&both, &id), (&id, &both), (&both, &both)] {
            let values = |number| checker.values(left, right, number);
            let number = |values: &[u16]| checker.number(left, right, values);
            assert_eq!(values(5), Ok(vec![2, 1]));
            assert_eq!(number(&[2, 1]), Ok(5));
            assert_eq!(values(6), Err(refusal(13, None, 0)));
            assert_eq!(number(&[1, 2]), Err(refusal(13, None, 1)));
            assert_eq!(number(&[1]), Err(refusal(13, None, 2)));
        }
        assert_eq!(checker.fields(), Ok(2));
        bad.kind[0] = 10;
        let refused = refusal(5, Some(Side::Left), 0);
        assert_eq!(checker.values(&bad, &id, 9), Err(refused));
        assert_eq!(checker.number(&bad, &bad, &[]), Err(refused));
        let refused = refusal(5, Some(Side::Right), 0);
        assert_eq!(checker.values(&id, &bad, 9), Err(refused));
    });
}

/// Every call on two policies refuses these so, whatever packets and lists it is lent.
fn refused_by_all(checker: &mut Checker, left: &str, right: &str, refused: Refusal) {
    let (one, other) = pair(checker, left, right);
    let rows = Rows {
        packet: vec![9],
        left: vec![0],
        right: Vec::new(),
    };
    assert_eq!(checker.values(&one, &other, 65_535), Err(refused));
    assert_eq!(checker.number(&one, &other, &[]), Err(refused));
    assert_eq!(checker.dups_of_both(&one, &other), Err(refused));
    let verdict = checker.search(&one, &other, usize::MAX);
    assert_eq!(verdict, Err(refused));
    let verdict = checker.search_texts(left.as_bytes(), right.as_bytes(), usize::MAX);
    assert_eq!(verdict, Err(refused));
    let ruling = checker.evidence(&one, &other, &rows);
    assert_eq!(ruling, Err(refused));
    let ruling = checker.evidence_rows(&one, &other, &[]);
    assert_eq!(ruling, Err(refused));
    let holders = checker.trace(&one, &other, 65_535, &[65_535]);
    assert_eq!(holders, Err(refused));
}

#[test]
fn fields_nobody_mentions() {
    within_bound(|| {
        let different = |side, entering, trace| {
            Ok(Verdict::Different {
                side,
                entering,
                trace,
            })
        };
        let mut checker = numbered(&[1000, 2]);
        let (one, id) = pair(&checker, "f1=0", "id");
        let verdict = checker.search(&one, &id, ROWS);
        assert_eq!(verdict, different(Side::Right, 1, vec![1]));
        let holders = checker.trace(&one, &id, 1, &[1]);
        assert_eq!(holders, Ok(Holders::Only(Side::Right)));
        assert_eq!(checker.values(&one, &id, 1), Ok(vec![0, 1]));
        assert_eq!(checker.values(&one, &id, 2), Err(refusal(13, None, 0)));
        let number = |values: &[u16]| checker.number(&one, &id, values);
        assert_eq!(number(&[999, 1]), Ok(1));
        assert_eq!(number(&[1000, 1]), Err(refusal(13, None, 0)));
        assert_eq!(number(&[999]), Err(refusal(13, None, 2)));
        // with other policies the same number is another packet
        let (other, _) = pair(&checker, "f0=0", "id");
        assert_eq!(checker.values(&other, &id, 1), Ok(vec![1, 0]));
        assert_eq!(checker.values(&id, &id, 1), Err(refusal(13, None, 0)));

        let mut checker = numbered(&[5000, 2, 3]);
        let (one, other) = pair(&checker, "f1=1;f2<-2;dup", "f1=1;dup;f2<-2");
        let verdict = checker.search(&one, &other, ROWS);
        assert_eq!(verdict, different(Side::Right, 3, vec![3, 5]));
        assert_eq!(checker.values(&one, &other, 3), Ok(vec![0, 1, 0]));
        assert_eq!(checker.values(&one, &other, 5), Ok(vec![0, 1, 2]));

        let verdict = numbered(&[65_535, 65_535]).search_texts(b"id", b"dup", ROWS);
        assert_eq!(verdict, different(Side::Left, 0, vec![0]));
    });
}

#[test]
fn packets_of_mentioned_fields() {
    within_bound(|| {
        let mut checker = numbered(&[5, 205]);
        let one_row = Rows {
            packet: vec![0],
            left: vec![1],
            right: vec![1],
        };
        let verdict = checker.search_texts(b"id", b"id", ROWS);
        assert_eq!(verdict, Ok(Verdict::Equal(one_row)));
        let (wide, id) = pair(&checker, "f0=0;f1=0", "id");
        assert_eq!(checker.dups(&wide), Err(refusal(3, None, 1)));
        assert_eq!(checker.dups(&id), Ok(0));
        for (left, right) in [("f0=0;f1=0", "id"), ("id", "f0=0;f1=0"), ("f0=0", "f1<-0")] {
            refused_by_all(&mut checker, left, right, refusal(3, None, 1));
        }
        // a policy's own causes come first
        let refused = refusal(6, Some(Side::Right), 0);
        refused_by_all(&mut checker, "f0=0;f1=0", "f1=205", refused);
        let refused = refusal(3, None, 2);
        refused_by_all(&mut numbered(&[1024, 5000, 2]), "f0=0;f2=0", "id", refused);
    });
}

#[test]
fn fields_named() {
    within_bound(|| {
        let (left, right) = ([("sw", 2), ("port", 3)], [("vlan", 5), ("port", 3)]);
        let checker = over(&left, &right);
        assert_eq!(checker.fields(), Ok(3));
        let (one, other) = pair(&checker, "sw=0;port=0", "vlan=0");
        assert_eq!(checker.values(&one, &other, 28), Ok(vec![1, 2, 3]));
        let read = |side, text: &str| checker.read(side, text.as_bytes());
        let field = |side, text| read(side, text).map(|policy| policy.first[0]);
        assert_eq!(field(Side::Left, "sw=1"), Ok(0));
        assert_eq!(field(Side::Left, "port=1"), Ok(1));
        assert_eq!(field(Side::Right, "port=1"), Ok(1));
        assert_eq!(field(Side::Right, "vlan=1"), Ok(2));
        // of the other table alone
        assert_eq!(field(Side::Left, "vlan=1"), Err(refusal(14, None, 0)));
        assert_eq!(field(Side::Right, "id;sw=1"), Err(refusal(14, None, 3)));
        let mut apart = over(&[("sw", 2)], &[("port", 2)]);
        let verdict = apart.search_texts(b"sw=0", b"port=0", ROWS);
        let different = Verdict::Different {
            side: Side::Left,
            entering: 1,
            trace: vec![1],
        };
        assert_eq!(verdict, Ok(different));
    });
}

#[test]
fn tables_refused() {
    within_bound(|| {
        let refused = |left: &[(&str, u16)], right: &[(&str, u16)]| {
            let mut checker = over(left, right);
            let refusal = checker.fields().expect_err("a refusal");
            let (negated, id) = (policy("!dup"), policy("id"));
            assert_eq!(checker.number(&negated, &id, &[0]), Err(refusal));
            assert_eq!(checker.read(Side::Right, b"?"), Err(refusal));
            assert_eq!(checker.dups(&negated), Err(refusal));
            assert_eq!(checker.search_texts(b"?", b"?", 0), Err(refusal));
            assert_eq!(checker.trace(&negated, &id, 9, &[]), Err(refusal));
            refusal
        };
        let sw = ("sw", 2);
        let (on_left, on_right) = (Some(Side::Left), Some(Side::Right));
        assert_eq!(refused(&[sw, sw], &[sw]), refusal(20, on_left, 1));
        assert_eq!(refused(&[sw], &[("dup", 1)]), refusal(20, on_right, 0));
        assert_eq!(refused(&[sw, ("", 1)], &[sw]), refusal(20, on_left, 1));
        let two_sizes = refused(&[sw, ("port", 4)], &[("port", 5), sw]);
        assert_eq!(two_sizes, refusal(21, on_left, 1));
        assert_eq!(refused(&[sw], &[]), refusal(1, None, 0));
        assert_eq!(refused(&[sw], &[("port", 0)]), refusal(2, None, 1));
        // however long it is
        for length in [16, 17, 255, 256, 257, 271, 30_000] {
            let name = "s".repeat(length);
            let long = refused(&[(&name, 1)], &[sw]);
            assert_eq!(long, refusal(20, on_left, 0), "{length}");
        }
        let longest = "s".repeat(15);
        assert_eq!(over(&[(&longest, 1)], &[sw]).fields(), Ok(2));
    });
}

#[test]
fn policies_read_and_tested() {
    within_bound(|| {
        let (one, same, other) = policies();
        assert_eq!(one.kind.len(), 3);
        assert_eq!(same.kind.len(), 3);
        assert_eq!(other.kind.len(), 5);
        assert_eq!(
            checker().read(Side::Left, b"sw=0;?"),
            Err(refusal(14, None, 5))
        );
        assert_eq!(checker().dups(&one), Ok(1));
        let both = policy("dup;dup");
        assert_eq!(checker().dups_of_both(&one, &both), Ok((1, 2)));
        let field = policy("port=2");
        let refused = checker().dups_of_both(&one, &field);
        assert_eq!(refused, Err(refusal(6, Some(Side::Right), 0)));
        let nodes = "id+".repeat(256) + "id";
        assert_eq!(
            checker().read(Side::Left, nodes.as_bytes()),
            Err(refusal(17, None, 513)),
            "more nodes needed than any lists have"
        );
    });
}

#[test]
fn equal_with_evidence() {
    within_bound(|| {
        let (one, same, _) = policies();
        let mut checker = checker();
        let expected = Rows {
            packet: vec![0, 1, 2, 0, 1, 2],
            left: vec![1, 1, 1, 2, 0, 0],
            right: vec![1, 1, 1, 2, 2, 2],
        };
        let verdict = checker.search(&one, &same, ROWS);
        assert_eq!(verdict, Ok(Verdict::Equal(expected.clone())));
        let ruling = checker.evidence(&one, &same, &expected);
        assert_eq!(ruling, Ok(Ruling::Accepted));

        let mut short = expected.clone();
        short.packet.pop();
        short.left.pop();
        short.right.pop();
        let ruling = checker.evidence(&one, &same, &short);
        assert_eq!(ruling, Ok(Ruling::NextMissing(2, 2)));

        short.packet.pop();
        let ruling = checker.evidence(&one, &same, &short);
        assert_eq!(ruling, Err(refusal(10, None, 0)));
    });
}

/// A table as records with these parents.
fn records(rows: &Rows, parent: fn(usize) -> u16) -> Vec<Row> {
    let record = |row| Row {
        packet: rows.packet[row],
        left: rows.left[row],
        right: rows.right[row],
        parent: parent(row),
    };
    (0..rows.packet.len()).map(record).collect()
}

#[test]
fn evidence_of_records() {
    within_bound(|| {
        let (one, same, _) = policies();
        let mut checker = checker();
        let rows = match checker.search(&one, &same, ROWS) {
            Ok(Verdict::Equal(rows)) => rows,
            other => panic!("equal policies, and {other:?}"),
        };
        let parents: [fn(usize) -> u16; 2] = [|_| 65_535, |row| row as u16];
        for parent in parents {
            let mut table = records(&rows, parent);
            let ruling = checker.evidence_rows(&one, &same, &table);
            assert_eq!(ruling, Ok(Ruling::Accepted));
            let ruling = checker.evidence_rows(&one, &same, &table[..5]);
            assert_eq!(ruling, Ok(Ruling::NextMissing(2, 2)));
            let ruling = checker.evidence_rows(&one, &same, &table[1..]);
            assert_eq!(ruling, Ok(Ruling::NoStart(0)));
            table[4].right = 1;
            let ruling = checker.evidence_rows(&one, &same, &table);
            assert_eq!(ruling, Ok(Ruling::NextMissing(1, 1)));
            table[4].left = 1 << 63;
            let ruling = checker.evidence_rows(&one, &same, &table);
            assert_eq!(ruling, Ok(Ruling::OutOfRange(4)));
            table.resize(netkat::MOST_ROWS + 1, table[0]);
            let ruling = checker.evidence_rows(&one, &same, &table);
            assert_eq!(ruling, Err(refusal(10, None, 0)));
        }
        let ruling = checker.evidence_rows(&one, &same, &[]);
        assert_eq!(ruling, Ok(Ruling::NoStart(0)));
        let refused = checker.evidence_rows(&one, &policy("port=2"), &[]);
        assert_eq!(refused, Err(refusal(6, Some(Side::Right), 0)));
    });
    assert_eq!(std::mem::size_of::<Row>(), 32);
}

#[test]
fn sixty_three_dups() {
    within_bound(|| {
        let dups = |count: usize, join: &str| policy(&vec!["dup"; count].join(join));
        let mut checker = one_field(1);
        assert_eq!(checker.dups(&dups(63, "+")), Ok(63));
        assert_eq!(checker.dups(&dups(64, "+")), Err(refusal(9, None, 125)));
        // the mask 2^63 is one of 63 dups, and of no fewer
        let starts = Rows {
            packet: vec![0; 3],
            left: vec![1, u64::MAX - 1, 1 << 63],
            right: vec![1, 2, 2],
        };
        let one = policy("dup");
        let verdict = checker.search(&dups(63, "+"), &one, ROWS);
        let rows = match verdict {
            Ok(Verdict::Equal(rows)) => rows,
            other => panic!("equal policies, and {other:?}"),
        };
        assert_eq!(rows.left, starts.left[..2]);
        let ruling = checker.evidence(&dups(63, "+"), &one, &starts);
        assert_eq!(ruling, Ok(Ruling::Accepted));
        let mut starts = records(&starts, |_| 9);
        let ruling = checker.evidence_rows(&dups(63, "+"), &one, &starts);
        assert_eq!(ruling, Ok(Ruling::Accepted));
        starts[1].left = (1 << 63) - 2;
        let ruling = checker.evidence_rows(&dups(62, "+"), &one, &starts);
        assert_eq!(ruling, Ok(Ruling::OutOfRange(2)));
        // a chain comes to the last bit
        let verdict = checker.search(&dups(63, ";"), &dups(63, ";"), ROWS);
        let states: Vec<u64> = (0..64).map(|bit| 1 << bit).collect();
        assert!(matches!(verdict, Ok(Verdict::Equal(Rows { left, .. })) if left == states));
        let verdict = checker.search(&dups(62, ";"), &dups(63, ";"), ROWS);
        let trace = vec![0; 63];
        let side = Side::Left;
        assert_eq!(
            verdict,
            Ok(Verdict::Different {
                side,
                entering: 0,
                trace
            })
        );
    });
}

#[test]
fn different_with_a_trace() {
    within_bound(|| {
        let (one, same, other) = policies();
        let mut checker = checker();
        let different = |side| Verdict::Different {
            side,
            entering: 0,
            trace: vec![0, 0],
        };
        let verdict = checker.search(&one, &other, ROWS);
        assert_eq!(verdict, Ok(different(Side::Left)));
        let holders = checker.trace(&one, &other, 0, &[0, 0]);
        assert_eq!(holders, Ok(Holders::Only(Side::Left)));
        let holders = checker.trace(&one, &same, 0, &[0, 0]);
        assert_eq!(holders, Ok(Holders::Both));
        let holders = checker.trace(&one, &same, 0, &[]);
        assert_eq!(holders, Ok(Holders::Neither));

        let verdict = checker.search_texts(b"sw=0;port<-1;dup", b"sw=0;dup", ROWS);
        assert_eq!(verdict, Ok(different(Side::Right)));
    });
}

#[test]
fn refusals_name_a_side() {
    within_bound(|| {
        let (one, _, mut other) = policies();
        let mut checker = checker();
        let verdict = checker.search_texts(b"id", b"port=2", ROWS);
        assert_eq!(verdict, Err(refusal(6, Some(Side::Right), 0)));
        other.kind[1] = 10;
        let verdict = checker.search(&one, &other, ROWS);
        assert_eq!(verdict, Err(refusal(5, Some(Side::Right), 1)));
        let verdict = checker.search(&other, &one, ROWS);
        assert_eq!(verdict, Err(refusal(5, Some(Side::Left), 1)));
        assert_eq!(checker.dups(&other), Err(refusal(5, None, 1)));
        let trace = checker.trace(&one, &one, 0, &[0, 3]);
        assert_eq!(trace, Err(refusal(13, None, 2)));
    });
}

#[test]
fn rows_run_out() {
    within_bound(|| {
        let (one, same, _) = policies();
        let mut checker = checker();
        // three packets: 0 to 2 rows don't hold the starting rows, and 3 to 5 run out while these are handled
        for rows in 0..6 {
            let verdict = checker.search(&one, &same, rows);
            assert_eq!(verdict, Err(full(rows as u64, 0)));
        }
        // six packets, mentioned where none comes: the rows after a second dup are needed by the first row of depth 1
        let mentioning = b"dup*+drop;sw=0;sw=1;port=0";
        for (rows, length) in [(11, 0), (12, 1), (17, 1)] {
            let verdict = checker.search_texts(mentioning, b"id+dup;dup*", rows);
            assert_eq!(verdict, Err(full(rows as u64, length)));
        }
        let mut one_packet = one_field(1);
        let (left, right) = (
            policy("dup;dup;dup"),
            policy("dup;dup;dup;drop+dup;dup;dup"),
        );
        assert_eq!(one_packet.search(&left, &right, 3), Err(full(3, 2)));
        let chain = policy(&vec!["dup"; 63].join(";"));
        for rows in 1..64 {
            let verdict = one_packet.search(&chain, &chain, rows);
            assert_eq!(verdict, Err(full(rows as u64, rows as u64 - 1)));
        }
    });
}

#[test]
fn negated_tests() {
    within_bound(|| {
        let mut checker = checker();
        let verdict = checker.search_texts(b"!(sw=0;port=0)", b"sw!=0+port!=0", ROWS);
        let starting = Rows {
            packet: (0..6).collect(),
            left: vec![1; 6],
            right: vec![1; 6],
        };
        assert_eq!(verdict, Ok(Verdict::Equal(starting)));
        let (before, behind) = (policy("!sw=0;dup"), policy("dup;!sw=0"));
        let rows = match checker.search(&before, &behind, ROWS) {
            Ok(Verdict::Equal(rows)) => rows,
            other => panic!("equal policies, and {other:?}"),
        };
        let ruling = checker.evidence(&before, &behind, &rows);
        assert_eq!(ruling, Ok(Ruling::Accepted));
        let holders = checker.trace(&before, &policy("dup;sw=0"), 2, &[2, 2]);
        assert_eq!(holders, Ok(Holders::Only(Side::Left)));

        let negated = policy("!(sw=0+dup)");
        assert_eq!(checker.dups(&negated), Err(refusal(19, None, 3)));
        let verdict = checker.search_texts(b"id", b"!!dup", ROWS);
        assert_eq!(verdict, Err(refusal(19, Some(Side::Right), 1)));
        assert_eq!(
            checker.read(Side::Left, b"sw ! = 0"),
            Err(refusal(16, None, 3))
        );
        let deep = policy(&("!".repeat(511) + "sw=0"));
        let verdict = checker.search(&deep, &policy("sw!=0"), ROWS);
        assert!(matches!(verdict, Ok(Verdict::Equal(_))));
    });
}

#[test]
fn refusals_in_words() {
    let said = |number, side, place| refusal(number, side, place).to_string();
    assert_eq!(
        said(6, Some(Side::Right), 3),
        "refused by 6 on the right: a wrong field, value or unused entry, node 3"
    );
    assert_eq!(
        said(3, None, 1),
        "refused by 3: more than 1,024 packets over the mentioned fields, up to field 1"
    );
    assert_eq!(
        said(1, None, 0),
        "refused by 1: a table without names, or more than 8 fields"
    );
    assert_eq!(
        said(20, Some(Side::Right), 2),
        "refused by 20 on the right: a name that is malformed, there already, or drop, id or dup, name 2"
    );
    assert_eq!(
        said(21, Some(Side::Left), 1),
        "refused by 21 on the left: a name with two sizes, name 1"
    );
    assert_eq!(
        said(19, Some(Side::Left), 3),
        "refused by 19 on the left: a negation over a change, a dup or a star, node 3"
    );
    assert_eq!(
        said(17, None, 513),
        "refused by 17: more nodes than fit, nodes needed: 513"
    );
    assert_eq!(
        full(4, 1).to_string(),
        "refused by 11: more rows needed than were lent, rows lent: 4; the same traces up to length 1"
    );
}

#[test]
fn deep_policies_within_bound() {
    within_bound(|| {
        let deep = policy(&("(".repeat(64) + "dup" + &")*".repeat(64) + &"*".repeat(447)));
        assert_eq!(deep.kind.len(), 512);
        // 1,024 packets: of each field all values but one are named
        let mut checker = numbered(&[2, 2, 2, 2, 2, 2, 4, 4]);
        let named = "f0=0;f1=0;f2=0;f3=0;f4=0;f5=0;f6=0;f6=1;f6=2;f7=0;f7=1;f7=2";
        let (_, loops) = pair(&checker, "id", &format!("dup*+drop;{named}"));
        let rows = match checker.search(&deep, &loops, 4096) {
            Ok(Verdict::Equal(rows)) => rows,
            other => panic!("equal policies, and {other:?}"),
        };
        assert_eq!(rows.packet.len(), 2048);
        let ruling = checker.evidence(&deep, &loops, &rows);
        assert_eq!(ruling, Ok(Ruling::Accepted));
        let holders = checker.trace(&deep, &loops, 1023, &[1023, 1023]);
        assert_eq!(holders, Ok(Holders::Both));
        let holders = checker.trace(&deep, &loops, 1023, &[1024]);
        assert_eq!(holders, Err(refusal(13, None, 1)));
        assert_eq!(
            checker.values(&deep, &loops, 1023),
            Ok(vec![1, 1, 1, 1, 1, 1, 3, 3])
        );
    });
}

#[test]
fn any_number_of_rows_asked() {
    within_bound(|| {
        let mut checker = checker();
        let (one, same, _) = policies();
        let verdict = checker.search(&one, &same, usize::MAX);
        assert_eq!(verdict, Err(refusal(10, None, 0)));
        let verdict = checker.search(&one, &same, netkat::MOST_ROWS);
        assert!(matches!(verdict, Ok(Verdict::Equal(_))));
    });
}
