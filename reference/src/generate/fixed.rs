//! Cases that are always worth running: the pairs and edges that the requirements name, and each refusal.

use super::fixed_mentions;
use super::fixed_names;
use super::heavy::{self, THOUSAND};
use super::lent::fill;
use crate::answer::Side;
use crate::automaton::State;
use crate::case::Case;
use crate::evidence::Record;
use crate::names::{Fields, OwnedTables, MOST_FIELDS};
use crate::policy::{kind, OwnedLists, MOST_DUPS, MOST_NODES};
use crate::search::{Lists, LEAST_WORK, MOST_ROWS};
use crate::text;

/// All fixed cases.
pub fn cases() -> Vec<Case> {
    let mut cases = Vec::new();
    cases.extend(turning());
    cases.extend(policies());
    cases.extend(texts().iter().map(|text| read(text, 512)));
    cases.extend(long_texts().iter().map(|text| read(text, 5)));
    cases.extend([read("dup*;id", 4), read("dup*;id", 3), read("id", 0)]);
    for pair in pairs() {
        cases.push(search_nodes(&pair, lent(&pair)));
        cases.push(search_texts(&pair, lent(&pair)));
    }
    cases.extend(run_out());
    cases.extend(text_edges());
    cases.extend(list_edges());
    cases.extend(tables());
    cases.extend(wide_tables());
    cases.extend(record_tables());
    cases.extend(traces());
    cases.extend(large_tables());
    cases.extend(fixed_names::cases());
    cases.extend(fixed_mentions::cases());
    cases.extend(inputs().into_iter().map(program));
    cases.extend(fixed_names::inputs().into_iter().map(program));
    cases.extend(fixed_mentions::inputs().into_iter().map(program));
    for (at, case) in cases.iter_mut().enumerate() {
        fill(case, at);
    }
    cases
}

/// Packets of fields that are all mentioned.
fn turning() -> Vec<Case> {
    let all = |sizes: &[u16]| {
        let tests: Vec<String> = (0..sizes.len())
            .map(|field| format!("f{field}=0"))
            .collect();
        (nodes_of(&tests.join(";")), nodes_of("id"))
    };
    let values = |sizes: &[u16], number, length| {
        let (left, right) = all(sizes);
        Case::Values {
            tables: OwnedTables::numbered(sizes),
            left,
            right,
            number,
            values: vec![0; length],
        }
    };
    let number = |sizes: &[u16], values: &[u16]| {
        let (left, right) = all(sizes);
        Case::Number {
            tables: OwnedTables::numbered(sizes),
            left,
            right,
            values: values.to_vec(),
        }
    };
    vec![
        values(&[], 0, 0),
        values(&[1; 9], 0, 9),
        values(&[1025, 0], 0, 2),
        values(&[5, 205], 0, 2),
        values(&[32, 32], 1023, 2),
        values(&[32, 32], 1024, 2),
        values(&[32, 32], 1024, 3),
        values(&[2, 3, 4], 23, 3),
        values(&[2; 8], 165, 8),
        values(&[65_535; 8], 0, 8),
        number(&[], &[]),
        number(&[0; 9], &[]),
        number(&[2, 0], &[2]),
        number(&[5, 205], &[0, 0]),
        number(&[32, 32], &[31, 31]),
        number(&[32, 32], &[31, 32]),
        number(&[32, 32], &[32, 32]),
        number(&[32, 32], &[32]),
        number(&[2, 3, 4], &[1, 2, 3]),
        number(&[2; 8], &[1, 0, 1, 0, 0, 1, 0, 1]),
    ]
}

/// Lists from nodes.
pub(super) fn nodes(given: &[(u8, u16, u16)]) -> OwnedLists {
    let mut lists = OwnedLists::default();
    for &(kind, first, second) in given {
        lists.push(kind, first, second);
    }
    lists
}

/// The fields f0 to f7.
pub fn eight_fields() -> OwnedTables {
    OwnedTables::numbered(&[2; MOST_FIELDS])
}

/// The nodes of a legal text over f0 to f7; none of another.
pub fn nodes_of(text: &str) -> OwnedLists {
    let fields = Fields::new(eight_fields().lend());
    let nodes = |fields| text::nodes(&fields, Side::Left, text.as_bytes(), MOST_NODES);
    fields.and_then(nodes).unwrap_or_default()
}

/// Nodes of a kind with one child on a leaf, so many nodes in all.
fn on_one(leaf: (u8, u16, u16), kind: u8, count: usize) -> OwnedLists {
    let mut lists = nodes(&[leaf]);
    while lists.kind.len() < count {
        lists.push(kind, lists.kind.len() as u16 - 1, 0);
    }
    lists
}

fn stars(count: usize) -> OwnedLists {
    on_one((kind::ID, 0, 0), kind::STAR, count)
}

/// So many negations of what follows.
fn negations(count: usize) -> String {
    "!".repeat(count)
}

fn dups(count: usize, join: &str) -> String {
    vec!["dup"; count].join(join)
}

fn policies() -> Vec<Case> {
    let mut unequal = stars(3);
    unequal.second.push(0);
    let lists = [
        nodes(&[]),
        unequal,
        stars(512),
        stars(513),
        nodes(&[(6, 9, 9), (10, 0, 0)]),
        nodes(&[(1, 0, 1)]),
        nodes(&[(2, 1, 2)]),
        nodes(&[(3, 2, 0)]),
        nodes(&[(4, 0, 2)]),
        nodes(&[(1, 0, 0), (8, 0, 1)]),
        nodes(&[(8, 0, 0)]),
        nodes(&[(1, 0, 0), (6, 0, 1)]),
        nodes(&[(1, 0, 0), (7, 0, 0)]),
        nodes(&[(1, 0, 0), (1, 0, 0), (8, 0, 0)]),
        nodes(&[(5, 0, 0), (1, 0, 0), (5, 0, 0), (6, 2, 1), (7, 3, 0)]),
        nodes_of(&dups(32, "+")),
        nodes_of(&dups(MOST_DUPS, "+")),
        nodes_of(&dups(MOST_DUPS + 1, "+")),
        nodes_of("!dup"),
        nodes(&[(1, 0, 0), (9, 0, 0)]),
        nodes(&[(1, 0, 0), (9, 0, 1)]),
        nodes(&[(9, 0, 0)]),
        nodes(&[(1, 0, 0), (9, 1, 0)]),
        nodes(&[(1, 0, 0), (1, 0, 0), (9, 0, 0)]),
        nodes_of("!(f0=0;!(f1=2+drop);f1!=1)"),
        nodes_of("!(f0=0*)"),
        nodes_of("!!dup"),
        nodes_of("!(f0=0+dup)"),
        nodes_of("!f0<-1"),
        nodes_of("!(id;!(f0=0;(id+dup)))"),
        nodes_of("!(f0=0;!f0=1;f0<-1)"),
        nodes_of("!id+!dup"),
        nodes(&[(5, 0, 0), (1, 0, 0), (9, 1, 0), (9, 0, 0), (6, 3, 2)]),
        on_one((2, 0, 1), kind::NOT, 512),
        on_one((2, 0, 1), kind::NOT, 513),
        on_one((5, 0, 0), kind::NOT, 512),
        on_one((4, 0, 1), kind::NOT, 500),
        nodes_of("!dup"),
        nodes_of(&dups(MOST_DUPS + 1, ";")),
        nodes_of("!f0=0"),
    ];
    let policy = |policy| Case::Policy {
        tables: OwnedTables::numbered(&[2, 3]),
        policy,
    };
    // each beside the next, on either side
    let pairs = lists.windows(2).map(|two| Case::Policies {
        tables: OwnedTables::numbered(&[2, 3]),
        left: two[0].clone(),
        right: two[1].clone(),
    });
    let mut cases: Vec<Case> = pairs.collect();
    cases.extend(lists.into_iter().map(policy));
    cases
}

fn read(text: &str, room: usize) -> Case {
    let nodes = OwnedLists {
        kind: vec![0; room],
        first: vec![0; room + 1],
        second: vec![0; room + 2],
    };
    Case::Read {
        tables: eight_fields(),
        side: 1,
        text: text.as_bytes().to_vec(),
        nodes,
    }
}

fn nested(open: usize) -> String {
    format!("{}id{}", "(".repeat(open), ")".repeat(open))
}

fn texts() -> Vec<String> {
    let mut texts: Vec<String> = [
        "drop",
        "id",
        "dup",
        "f0=0",
        "f7!=65535",
        "f3<-10",
        "id;id;id+dup+drop",
        "(id)",
        "id**",
        " f0 = 0 ",
        "\tf0\t<-\t1\t",
        "ID",
        "f8",
        "f",
        "00",
        "01",
        "65536",
        "id0",
        "\u{e9}",
        "id\n",
        "id\r",
        "f0 ! = 0",
        "f0 < - 0",
        "f0!",
        "f0<",
        ") id id (",
        ") id id ( $",
        "",
        "  ",
        "id id",
        "id;",
        "id; \t",
        "id+*",
        "+id",
        "*",
        "()",
        "(id",
        "(id ",
        "(id))",
        "id)",
        "f0",
        "f0;id",
        "f0=",
        "f0=id",
        "f0=f1",
        "f0==0",
        "0",
        "f0=0 1",
        "id(id)",
        "(id)(id)",
        "=",
        "!id",
        "!!f0=0",
        " ! !\tf1!=2;!id+!dup",
        "!f0=0*",
        "!(f0=0*)",
        "!(f0=0;f1=0)",
        "!(id;!(drop))",
        "!f0<-1",
        "!",
        "! ",
        "!!",
        "!=",
        "!=0",
        "!!=0",
        "! =0",
        "!)",
        "(!)",
        "!+id",
        "!;id",
        "!*",
        "!0",
        "!f0",
        "f0 !",
        "f0!!=0",
        "f0=!0",
        "id!",
        "id !id",
        "(id)!id",
        "id*!",
    ]
    .map(String::from)
    .to_vec();
    for count in [500, 511, 512, 513] {
        texts.push(format!("{}id", negations(count)));
    }
    texts.push(format!("{}=0", negations(600)));
    texts.push(format!("{}id{}", "!(".repeat(64), ")".repeat(64)));
    texts.push(format!("{}id{}", "!(".repeat(65), ")".repeat(65)));
    texts.push(nested(64));
    texts.push(nested(65));
    texts.push(format!(")))*{}", "(".repeat(65)));
    texts.push(format!("id{}", "*".repeat(511)));
    texts.push(format!("id{}", "*".repeat(512)));
    texts.push(format!("id{};", "*".repeat(512)));
    texts.push(vec!["id"; 300].join("+"));
    texts
}

/// Texts of about a megabyte.
fn long_texts() -> Vec<String> {
    const MEGABYTE: usize = 1 << 20;
    vec![
        " ".repeat(MEGABYTE),
        "1".repeat(MEGABYTE),
        "( ".repeat(MEGABYTE / 2),
        format!("dup{}", "*".repeat(MEGABYTE - 3)),
        format!("dup{}!", "*".repeat(MEGABYTE - 4)),
        format!("dup{}$", "*".repeat(MEGABYTE - 4)),
        negations(MEGABYTE),
        format!("{}id", negations(MEGABYTE - 2)),
        format!("{}=0", negations(MEGABYTE - 2)),
        format!("{}(f0=0)*", "! ".repeat(MEGABYTE / 2 - 4)),
        format!("id{}", ";id".repeat(MEGABYTE / 3 - 1)),
        format!("id{};", "+id".repeat(MEGABYTE / 3 - 1)),
        format!("{}{}?", nested(64), " ".repeat(MEGABYTE - 131)),
    ]
}

/// Sizes, two texts, rows and trace to lend.
type Pair = (Vec<u16>, String, String, usize, usize);

fn pair(sizes: &[u16], left: &str, right: &str, rows: usize, trace: usize) -> Pair {
    let texts = (left.to_string(), right.to_string());
    (sizes.to_vec(), texts.0, texts.1, rows, trace)
}

fn pairs() -> Vec<Pair> {
    let most = |join| dups(MOST_DUPS, join);
    let too_many = |join| dups(MOST_DUPS + 1, join);
    let naming = heavy::naming;
    vec![
        pair(&[2], "drop", "id", 9, 3),
        pair(&[2], "f0=0;dup", "dup;f0=0", 9, 3),
        pair(&[2], "f0=0+f0=1", "id", 9, 3),
        pair(&[3], "f0=0+f0=1", "id", 9, 3),
        pair(&[1], "dup*", "id+dup;dup*", 9, 3),
        pair(&[1], "dup*", "id+dup;dup*", 2, 3),
        pair(&[1], "dup*", "id+dup;dup*", 3, 0),
        pair(&[1], "dup", "dup;dup", 9, 3),
        pair(&[1], "dup", "dup;dup", 9, 2),
        pair(&[1], "dup", "dup;dup", 9, 1),
        pair(&[2], "f0<-1;f0=1", "f0<-1", 9, 3),
        pair(&[2], "f0<-0+f0<-1", "id", 9, 3),
        pair(&[1], "dup;drop", "drop", 9, 3),
        pair(&[2, 2], "id", "f0=0;f1=0;drop", 3, 3),
        pair(&[2, 2], "id", "f0=0;f1=0;drop", 0, 3),
        pair(&[2, 2], "id", "f0=0;f1=0;drop", 4, 0),
        pair(&[32, 32], &naming(&[32, 32]), "f0=3;f0<-3+f0!=3", 1030, 3),
        pair(&THOUSAND, "id", &naming(&THOUSAND), 1024, 3),
        pair(&THOUSAND, "id", &naming(&THOUSAND), 1023, 3),
        pair(&[2], &most(";"), &format!("f0=0*;{}", most(";")), 140, 3),
        pair(&[2], &most(";"), &format!("f0=0*;{}", most(";")), 127, 3),
        pair(&[1], &most("+"), "dup", 9, 3),
        pair(
            &[3],
            &dups(32, "+"),
            &format!("{};({})", naming(&[3]), dups(33, "+")),
            9,
            3,
        ),
        pair(&[1], &dups(62, ";"), &most(";"), 80, 70),
        pair(&[1], &most(";"), &dups(62, ";"), 80, 62),
        pair(
            &[2],
            &format!("(({});f0<-1)*", most("+")),
            "(f0<-0;drop;dup+dup;f0<-1)*",
            9,
            3,
        ),
        pair(
            &[3],
            &format!("drop;{};f0<-1+dup*", dups(62, ";")),
            "id+dup;dup*",
            20,
            9,
        ),
        pair(&[2], &too_many(";"), "f0=0", 80, 3),
        pair(&[2], "f0=1", &too_many("+"), 80, 3),
        pair(&[2], &too_many(";"), "id;f0=2", 80, 3),
        pair(&[2], "f0=2", "f1=0", 9, 3),
        pair(
            &[2],
            "(f0=0;f0<-1;dup+f0=1;f0<-0;dup)*",
            "(f0=0;f0<-1;dup+f0<-0;dup)*",
            20,
            9,
        ),
        pair(&[2, 2], "!(f0=0;f1=0)", "f0!=0+f1!=0", 9, 3),
        pair(&[2], "dup;!f0=0", "!f0=0;dup", 9, 3),
        pair(&[2], "!f0=0*", "id", 9, 3),
        pair(&[3], "(f0<-1;!f0=0)*", "id+f0<-1", 9, 3),
        pair(&[3], "(f0<-0+f0<-1);!f0=0", "f0<-1", 9, 3),
        pair(&[3], "!f0=0", "f0=1", 9, 3),
        pair(&[2], "!f0=0", "f0=0", 9, 3),
        pair(&[2], "dup;!f0=0", "dup", 9, 3),
        pair(&[65], "!!f0=64;dup", "f0=64;!drop;dup", 99, 3),
        pair(
            &[5, 13],
            &format!("{};!!(f0=4;f1=12);dup", naming(&[5, 13])),
            "f0=4;f1=12;!drop;dup",
            99,
            3,
        ),
        pair(&[33], "!(f0=32+!f0!=0)", "f0!=0;!f0=32", 99, 3),
        pair(
            &[3, 11],
            &format!("{};!(f0=2;f1=10+!(f0!=0+f1!=0))", naming(&[3, 11])),
            "(f0!=0+f1!=0);!(f0=2;f1=10)",
            99,
            3,
        ),
        pair(
            &[2, 3],
            "(!(f0=0;f1=0);f1<-0;dup)*",
            "((f0!=0+f1!=0);f1<-0;dup)*",
            99,
            3,
        ),
        pair(&[1024], &format!("{}f0=3", negations(500)), "f0=3", 1030, 3),
        pair(
            &THOUSAND,
            &format!("{}f0=3", negations(500)),
            &format!("{};f0=3", naming(&THOUSAND)),
            1030,
            3,
        ),
        pair(
            &THOUSAND,
            &format!("{}f0=3", negations(511)),
            &format!("{};f0!=3", naming(&THOUSAND)),
            1030,
            3,
        ),
        pair(
            &THOUSAND,
            &format!("{}f0=3", negations(500)),
            &format!("{};!f0=3", naming(&THOUSAND)),
            1030,
            3,
        ),
        pair(&[2], "!(f0=0*)", "id", 9, 3),
        pair(&[2], "id", "!!dup", 9, 3),
        pair(&[2], "!(f0=0+dup)", "!!dup", 9, 3),
        pair(&[2], "!f0<-1", "id", 9, 3),
        pair(&[2], &too_many(";"), "!dup", 80, 3),
        pair(&[2], "!dup", &too_many(";"), 80, 3),
        pair(&[2], "!dup", "id;f0=2", 9, 3),
    ]
}

fn lent(pair: &Pair) -> Lists {
    Lists::new(pair.3, pair.4, LEAST_WORK)
}

fn search_nodes(pair: &Pair, lists: Lists) -> Case {
    let (sizes, left, right, ..) = pair;
    Case::Search {
        tables: OwnedTables::numbered(sizes),
        left: nodes_of(left),
        right: nodes_of(right),
        lists,
    }
}

fn search_texts(pair: &Pair, lists: Lists) -> Case {
    let (sizes, left, right, ..) = pair;
    Case::Texts {
        tables: OwnedTables::numbered(sizes),
        left: left.as_bytes().to_vec(),
        right: right.as_bytes().to_vec(),
        lists,
    }
}

/// Texts refused: 14 to 17 of the left text go before those of the right, and before the causes of policies.
fn text_edges() -> Vec<Case> {
    let long = format!("id{}", "*".repeat(512));
    let pairs = [
        pair(&[2], &long, "$", 9, 9),
        pair(&[2], "id", &long, 9, 9),
        pair(&[2], &nested(65), "$", 9, 9),
        pair(&[2], &nested(64), &nested(65), 9, 9),
        pair(&[2], "id id", "$", 9, 9),
        pair(&[2], "f0=2", "id id", 9, 9),
        pair(&[2], "f0=2", "?", 9, 9),
        pair(&[2], "!dup", "f0 ! = 0", 9, 9),
        pair(&[2], "!", "?", 9, 9),
        pair(&[], "?", "?", 9, 9),
        pair(&[2, 0], "?", "?", 9, 9),
    ];
    pairs
        .iter()
        .map(|pair| search_texts(pair, lent(pair)))
        .collect()
}

/// Pairs with every number of rows lent up to the last that is needed, and deep ones with a few numbers of rows.
fn run_out() -> Vec<Case> {
    let pairs = [
        pair(&[1], "dup*", "id+dup;dup*", 3, 9),
        pair(&[2], "f0=0;dup", "dup;f0=0", 4, 9),
        pair(&[1], "dup;dup;dup", "dup;dup;dup;drop+dup;dup;dup", 4, 9),
        pair(
            &[3],
            &dups(4, ";"),
            &format!("(f0=0+f0=1)*;{}", dups(4, ";")),
            15,
            9,
        ),
        pair(
            &[2, 2],
            "dup;dup;f0<-1;dup",
            "f1=0*;dup;dup;dup;f0<-1",
            16,
            2,
        ),
        pair(&[5], &way(5), "f0=0;(f0<-1+f0!=0;f0<-2);dup", 7, 9),
        pair(&[9], &way(9), &way(8), 18, 9),
    ];
    let mut lent_rows: Vec<(&Pair, usize)> = Vec::new();
    for pair in &pairs {
        lent_rows.extend((0..=pair.3).map(|rows| (pair, rows)));
    }
    let longer = format!("f0=0*;{}", dups(61, ";"));
    let chain = pair(&[2], &dups(60, ";"), &longer, 0, 70);
    lent_rows.extend([1, 2, 3, 60, 61, 119, 120, 121, 122].map(|rows| (&chain, rows)));
    let mut cases = Vec::new();
    for (pair, rows) in lent_rows {
        let lists = || Lists::new(rows, pair.4, LEAST_WORK);
        cases.push(search_nodes(pair, lists()));
        cases.push(search_texts(pair, lists()));
    }
    cases
}

/// From value 0 of a field to the last of so many, each recorded.
fn way(values: usize) -> String {
    let step = |value| format!("f0={value};f0<-{}", value + 1);
    let steps: Vec<String> = (0..values - 1).map(step).collect();
    format!("f0=0;(({});dup)*;f0={}", steps.join("+"), values - 1)
}

/// Searches that list tens of thousands of rows, some of them with fewer lent than they need; the second lists one row after
/// the other.
fn large_tables() -> Vec<Case> {
    let (cycles, way) = (heavy::cycles(), heavy::long_way());
    [(cycles, [MOST_ROWS, 40_000]), (way, [43_042, 1_000])]
        .iter()
        .flat_map(|(given, lent)| lent.map(|rows| (given, rows)))
        .map(|(given, rows)| pair(&given.sizes, &given.left, &given.right, rows, 3))
        .map(|pair| search_texts(&pair, lent(&pair)))
        .collect()
}

/// Lists refused by 10, and the longest that are not.
fn list_edges() -> Vec<Case> {
    let pair = pair(&[1], "id", "drop", 4, 4);
    let with = |rows: usize, work: usize, change: fn(&mut Lists)| {
        let mut lists = Lists::new(rows, 4, work);
        change(&mut lists);
        search_nodes(&pair, lists)
    };
    vec![
        with(4, LEAST_WORK, |lists| lists.packet.push(0)),
        with(4, LEAST_WORK, |lists| lists.left.truncate(3)),
        with(4, LEAST_WORK, |lists| lists.right.push(0)),
        with(4, LEAST_WORK, |lists| lists.parent.clear()),
        with(4, LEAST_WORK - 1, |_| ()),
        with(4, 0, |_| ()),
        with(4, LEAST_WORK + 9, |_| ()),
        with(MOST_ROWS, LEAST_WORK, |_| ()),
        with(MOST_ROWS + 1, LEAST_WORK, |_| ()),
    ]
}

/// A row.
type Row = (u16, State, State);

fn table(left: &str, right: &str, rows: &[Row], work: usize) -> Case {
    let mut lists = Lists::new(0, 0, work);
    for &(packet, left, right) in rows {
        lists.packet.push(packet);
        lists.left.push(left);
        lists.right.push(right);
    }
    Case::Evidence {
        tables: OwnedTables::numbered(&[2]),
        left: nodes_of(left),
        right: nodes_of(right),
        lists,
    }
}

fn tables() -> Vec<Case> {
    let rows = [(0, 1, 1), (1, 1, 1), (0, 2, 2), (1, 0, 2)];
    let mut others = rows.to_vec();
    others.reverse();
    others.extend([(0, 2, 2), (1, 0, 0)]);
    let mut damaged = others.clone();
    damaged.extend([(0, 4, 1), (2, 1, 1)]);
    let tables: [&[Row]; 9] = [
        &rows,
        &rows[..3],
        &others,
        &damaged,
        &[],
        &[(0, 1, 0), (1, 1, 1)],
        &[(0, 1, 1), (0, 1, 0), (2, 1, 1)],
        &[(0, 1, 1), (0, 1, 2), (1, 1, 1)],
        &[(0, 2, 1), (0, 1, 1), (1, 1, 1)],
    ];
    let first = |rows, work| table("f0=0;dup", "dup;f0=0", rows, work);
    let mut cases: Vec<Case> = tables.iter().map(|rows| first(rows, LEAST_WORK)).collect();
    cases.push(first(&rows, LEAST_WORK - 1));
    let rows = [(0, 1, 1), (1, 1, 1), (0, 2, 0), (1, 2, 2), (1, 2, 0)];
    for rows in [&rows[..4], &rows[..3], &rows[..2], &rows[1..], &rows] {
        cases.push(table("dup;!f0=0", "!f0=0;dup", rows, LEAST_WORK));
    }
    cases.push(table("dup;!!f0=0", "!f0=0;dup", &rows[..4], LEAST_WORK));
    cases.push(table("id", "!!dup", &rows, LEAST_WORK - 1));
    let many = dups(MOST_DUPS + 1, "+");
    cases.push(table("!(f0=0*)", &many, &rows, LEAST_WORK));
    cases.push(table("id", &many, &rows, LEAST_WORK - 1));
    cases
}

/// Tables of policies with as many dups as may be, or one fewer: masks that have only the bits of their policy, or one more.
fn wide_tables() -> Vec<Case> {
    const LAST: State = 1 << MOST_DUPS;
    let starts = [(0, 1, 1), (1, 1, 1)];
    // every dup is marked at once, and nothing after
    let all = |dups: usize| State::MAX >> (63 - dups) & !1;
    let mut cases = Vec::new();
    // of two packets, for a test of the field changes nothing
    let both = |dups: &str| format!("f0=0*;({dups})");
    for (left, right) in [(63, 63), (63, 62), (62, 63)] {
        let policies = (dups(left, "+"), both(&dups(right, "+")));
        let (l, r) = (all(left), all(right));
        let order = [&starts[..], &[(0, l, r), (1, l, r)]].concat();
        let mut push = |rows: &[Row]| {
            cases.push(table(&policies.0, &policies.1, rows, LEAST_WORK));
        };
        push(&order);
        push(&order[..3]);
        for (left, right) in [
            (LAST, LAST),
            (LAST, 1),
            (LAST, LAST / 2),
            (LAST / 2, LAST),
            (State::MAX, State::MAX),
            (1 << 31, 1 << 32),
        ] {
            push(&[&order[..], &[(0, left, right)]].concat());
        }
        push(&[&[(1, LAST, LAST)], &order[..]].concat());
    }
    // a chain: each bit in its turn, to the last
    let chain: Vec<Row> = (0..64)
        .flat_map(|bit| [(0, 1 << bit, 1 << bit), (1, 1 << bit, 1 << bit)])
        .collect();
    for (left, right) in [(63, 63), (63, 62)] {
        for rows in [&chain[..], &chain[..127], &chain[1..], &chain[..64]] {
            let policies = (both(&dups(left, ";")), dups(right, ";"));
            cases.push(table(&policies.0, &policies.1, rows, LEAST_WORK));
        }
    }
    cases
}

fn records(left: &str, right: &str, rows: &[Row], parent: fn(usize) -> u16, work: usize) -> Case {
    let record = |(number, &(packet, left, right)): (usize, &Row)| Record {
        packet,
        left,
        right,
        parent: parent(number),
    };
    Case::Records {
        tables: OwnedTables::numbered(&[2]),
        left: nodes_of(left),
        right: nodes_of(right),
        rows: rows.iter().enumerate().map(record).collect(),
        work: vec![0; work],
    }
}

/// The tables above lent as records, and the edges of 10.
fn record_tables() -> Vec<Case> {
    let tables = tables().into_iter().chain(wide_tables());
    let mut cases: Vec<Case> = tables.filter_map(|case| case.lent_otherwise()).collect();
    let rows = [(0, 1, 1), (1, 1, 1), (0, 2, 2), (1, 0, 2)];
    let parents: [fn(usize) -> u16; 4] =
        [|_| 65_535, |_| 0, |row| row as u16, |row| 3 - row as u16];
    let pair = |rows: &[Row], parent, work| records("f0=0;dup", "dup;f0=0", rows, parent, work);
    for parent in parents {
        cases.push(pair(&rows, parent, LEAST_WORK));
        cases.push(pair(&rows[..3], parent, LEAST_WORK));
    }
    for work in [0, LEAST_WORK - 1, LEAST_WORK + 9] {
        cases.push(pair(&rows, parents[0], work));
    }
    for count in [MOST_ROWS - 1, MOST_ROWS, MOST_ROWS + 1, MOST_ROWS + 2] {
        let mut many = rows.to_vec();
        many.resize(count, rows[3]);
        cases.push(pair(&many, parents[0], LEAST_WORK));
        many[count - 1] = (0, 1 << 63, 1);
        cases.push(pair(&many, parents[0], LEAST_WORK));
        many[count - 1] = (0, 2, 0);
        cases.push(pair(&many, parents[1], LEAST_WORK));
    }
    // the causes before 10
    let many = dups(MOST_DUPS + 1, ";");
    let refused = |left, right| records(left, right, &[(9, 0, State::MAX)], parents[0], 0);
    cases.extend([
        refused("!dup", &many),
        refused(&many, "id"),
        refused("id", "f0=2"),
    ]);
    cases
}

fn traces() -> Vec<Case> {
    let given: [(u16, &[u16], usize); 9] = [
        (0, &[], LEAST_WORK),
        (0, &[0], LEAST_WORK),
        (1, &[1, 1], LEAST_WORK),
        (1, &[1, 0], LEAST_WORK),
        (0, &[0, 0, 0, 0, 0], LEAST_WORK + 3),
        (2, &[2, 0], LEAST_WORK),
        (2, &[], LEAST_WORK),
        (0, &[1, 2, 3], LEAST_WORK),
        (2, &[2], LEAST_WORK - 1),
    ];
    let trace = |left: &str, right: &str| {
        let (left, right) = (nodes_of(left), nodes_of(right));
        given.map(|(entering, trace, work)| Case::Trace {
            tables: OwnedTables::numbered(&[2]),
            left: left.clone(),
            right: right.clone(),
            entering,
            trace: trace.to_vec(),
            work: vec![0; work],
        })
    };
    let mut cases = trace("f0=0*;dup*", "dup;dup*").to_vec();
    cases.extend(trace("dup*", "dup;dup*"));
    cases.extend(trace("dup;dup", "f0=1*;(id+dup;dup)"));
    cases.extend(trace("(dup;!f0=0)*", "(!f0=1;dup)*"));
    cases.extend(trace("id", "!(f0=0+dup)"));
    cases
}

/// So many dups at 1,024 packets.
pub fn recorded(count: usize) -> heavy::Pair {
    let dups = dups(count, ";");
    heavy::Pair {
        name: format!("{count} dups"),
        sizes: THOUSAND.to_vec(),
        left: dups.clone(),
        right: format!("{};{dups}", heavy::naming(&THOUSAND)),
    }
}

fn program(input: String) -> Case {
    Case::Program {
        input: input.into_bytes(),
        output: Vec::new(),
    }
}

fn inputs() -> Vec<String> {
    let mut inputs: Vec<String> = [
        "f0=2\nf0=2\nf0=0;dup\ndup;f0=0\n",
        "f0=2\r\nf0=2\r\nf0=0;dup\r\ndup;f0=0\r\n",
        "f0=2\r\nf0=2\r\nf0=0;dup\ndup;f0=0",
        "f0=1\nf0=1\ndup\ndup;dup\n",
        "f0=3\nf0=3\nf0=0+f0=1\nid",
        "",
        "\n",
        "f0=2\nf0=2\nid\n",
        "f0=2\nf0=2\nid\n\n",
        "f0=2\nf0=2\nid\n\r\n",
        "f0=2\nf0=2\nid\nid\n\n",
        "f0=2\nf0=2\nid\nid\n\r",
        "f0=2\nf0=2\nid\nid\r",
        "f0=2\nf0=2\nid\r\r\nid",
        "f0=2\r\r\nf0=2\nid\nid",
        "f0=2\n\nid\nid",
        "2\n2\nid\nid",
        "f0=2, f1=2\nf0=2\nid\nid",
        "f0=02\nf0=02\nid\nid",
        "f0=65536\nf0=65536\nid\nid",
        "f0=65535\nf0=65535\n?\nid",
        "f0=0\nf0=0\n?\nid",
        "f0=1,f1=1,f2=1,f3=1,f4=1,f5=1,f6=1,f7=1,f8=0\nf0=1,f1=1,f2=1,f3=1,f4=1,f5=1,f6=1,f7=1,f8=0\n?\nid",
        "f0=5,f1=205\nf0=5,f1=205\n?\nid",
        "f0=32,f1=32\nf0=32,f1=32\nf0=31\nf0=31;f1<-31",
        "f0=2\nf0=2\n?\n?",
        "f0=2\nf0=2\nid\n id ?",
        "f0=2\nf0=2\nid;f0=2\nf0=2",
        "f0=2\nf0=2\nid\nid;f1=0",
        "f0=2\nf0=2\ndup;!f0=0\n!f0=0;dup\n",
        "f0=2,f1=2\nf0=2,f1=2\n!(f0=0;f1=0)\nf0!=0+f1!=0",
        "f0=3\nf0=3\n!f0=0\nf0=1",
        "f0=2\nf0=2\n!(f0=0*)\nid",
        "f0=2\nf0=2\nid\n!!dup",
        "f0=2\nf0=2\n!(f0=0+dup)\n!dup",
        "f0=2\nf0=2\nid\nf0 ! = 0",
        "f0=2\nf0=2\n!!=0\n!",
        "f0=2\nf0=2\n!\nid",
    ]
    .map(String::from)
    .to_vec();
    inputs.push(format!("f0=2\nf0=2\nid\n{}", nested(65)));
    inputs.push(format!("f0=2\nf0=2\nid\nid{}", "*".repeat(512)));
    inputs.push(format!(
        "f0=2\nf0=2\n{}\n{}",
        dups(MOST_DUPS, "+"),
        dups(62, "+")
    ));
    inputs.push(format!("f0=2\nf0=2\n{}\nid", dups(MOST_DUPS + 1, "+")));
    inputs.push(format!("f0=2\nf0=2\n{}\n!dup", dups(MOST_DUPS + 1, "+")));
    inputs.push(heavy::long_lines().input());
    inputs.push(format!("f0=2\nf0=2\n{0}id\n{0}drop", negations(511)));
    inputs.push(format!("f0=2\nf0=2\nid\n{}id", negations(513)));
    inputs.push(format!("f0=2\nf0=2\n{}id\nid", negations(32_753)));
    for count in [3, 4] {
        inputs.push(recorded(count).input());
    }
    // a text that ends next to the end of a block of 4,096 bytes
    for width in [4_076, 4_077, 4_078, 8_173] {
        inputs.push(format!("f0=2\nf0=2\n{:>width$}\ndup;f0=0", "f0=0;dup"));
    }
    inputs.push(format!("{:<32768}", "f0=2\nf0=2\nid\nid"));
    inputs.push(format!("{:<32769}", "f0=2\nf0=2\nid\nid"));
    inputs
}
