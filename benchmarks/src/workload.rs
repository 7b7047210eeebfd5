//! What is timed.

use netkat_reference::case::Case;
use netkat_reference::generate::cases;
use netkat_reference::generate::fixed::{eight_fields, nodes_of};
use netkat_reference::generate::heavy::{self, Pair};
use netkat_reference::generate::tree;
use netkat_reference::names::OwnedTables;
use netkat_reference::policy::{OwnedLists, MOST_NODES};
use netkat_reference::random::Random;
use netkat_reference::search::{Lists, LEAST_WORK, MOST_ROWS};

use crate::names;
use crate::report::thousands;
use crate::tables;
use crate::traces;
use crate::unmentioned;

/// How much is run.
#[derive(Clone, Copy, Debug, PartialEq, Eq)]
pub enum Extent {
    /// Row lists of the greatest length.
    Full,
    /// Shorter ones where they cost seconds.
    Quick,
}

impl Extent {
    /// Rows of a hostile table.
    pub fn hostile_rows(self) -> usize {
        match self {
            Extent::Full => MOST_ROWS,
            Extent::Quick => 3_000,
        }
    }

    /// Rows lent to the searches that show the time per row.
    fn rows_lent(self) -> &'static [usize] {
        match self {
            Extent::Full => &[1_000, 2_000, 4_000, 8_000, 16_000, 32_000, MOST_ROWS],
            Extent::Quick => &[1_000, 8_000],
        }
    }

    /// Names of a table that has far too many.
    pub fn names(self) -> usize {
        match self {
            Extent::Full => 4_000,
            Extent::Quick => 500,
        }
    }

    /// Places of `many_rows`: each doubles the rows.
    fn places(self) -> usize {
        match self {
            Extent::Full => 5,
            Extent::Quick => 1,
        }
    }
}

/// A benchmark's part of the report.
#[derive(Clone, Copy, Debug, PartialEq, Eq)]
pub enum Group {
    /// Document 000, section 7.2.
    Combinatorial,
    /// Networks and their slices.
    Networks,
    /// Nested stars, and the other pairs that cost much.
    Heavy,
    /// Negations against the same spelled out.
    Negations,
    /// Searches of policies with 63 dups, and their tables.
    Wide,
    /// Searches of one to ten rows.
    Small,
    /// Searches of the same pair with more and more rows lent, by the pair's name.
    Rows(&'static str),
    /// Searches whose rows run out: deep ones, and many rows at each depth.
    RunOut,
    /// Evidence tables.
    Evidence,
    /// Evidence tables lent as records.
    Records,
    /// Traces checked.
    Traces,
    /// Long texts.
    Text,
    /// Long names, and many.
    Names,
    /// Few fields mentioned among wide ones.
    Unmentioned,
    /// Checks one after the other.
    Checks,
    /// Random pairs.
    Sweep,
}

impl Group {
    /// Its name in the report.
    pub fn name(self) -> &'static str {
        match self {
            Group::Combinatorial => "combinatorial",
            Group::Networks => "networks",
            Group::Heavy => "heavy pairs",
            Group::Negations => "negations",
            Group::Wide => "63 dups",
            Group::Small => "small",
            Group::Rows(_) => "rows",
            Group::RunOut => "rows run out",
            Group::Evidence => "evidence",
            Group::Records => "records",
            Group::Traces => "traces",
            Group::Text => "text",
            Group::Names => "names",
            Group::Unmentioned => "unmentioned",
            Group::Checks => "forty checks",
            Group::Sweep => "random sweep",
        }
    }
}

/// Calls that are timed together.
#[derive(Clone, Debug)]
pub struct Benchmark {
    pub group: Group,
    pub name: String,
    pub cases: Vec<Case>,
}

impl Benchmark {
    /// Of one call.
    pub fn new(group: Group, name: &str, case: Case) -> Benchmark {
        Benchmark {
            group,
            name: name.to_string(),
            cases: vec![case],
        }
    }

    /// Group and name.
    pub fn title(&self) -> String {
        format!("{}: {}", self.group.name(), self.name)
    }
}

/// All of them, in the order of the report.
pub fn benchmarks(extent: Extent) -> Vec<Benchmark> {
    let searches = |group, pairs: Vec<Pair>| {
        pairs
            .into_iter()
            .map(move |pair| Benchmark::new(group, &pair.name, search(&pair, MOST_ROWS)))
    };
    let mut all = Vec::new();
    all.extend(searches(Group::Combinatorial, heavy::combinatorial()));
    all.extend(searches(Group::Networks, heavy::networks()));
    all.extend(searches(Group::Networks, heavy::leaks()));
    all.extend(searches(Group::Heavy, heavy_pairs(extent)));
    all.extend(searches(Group::Negations, heavy::negations()));
    all.extend(searches(Group::Wide, heavy::wide()));
    all.extend(tables::wide(extent));
    all.extend(small());
    all.extend(rows(extent));
    all.extend(run_out(extent));
    all.extend(tables::benchmarks(extent));
    all.extend(tables::records(extent));
    all.extend(traces::benchmarks());
    all.extend(texts());
    all.extend(names::benchmarks(extent));
    all.extend(unmentioned::benchmarks());
    all.push(checks());
    all
}

fn heavy_pairs(extent: Extent) -> Vec<Pair> {
    vec![
        heavy::nested_stars(500, "id"),
        heavy::nested_stars(500, "dup"),
        heavy::many_dups(31),
        heavy::own_continuations(31),
        heavy::many_rows(extent.places()),
    ]
}

/// The nodes of a legal text over f0 to f7.
pub fn nodes(text: &str) -> OwnedLists {
    let nodes = nodes_of(text);
    assert!(!nodes.kind.is_empty(), "no legal text: {text}");
    nodes
}

/// The search of a pair with so many rows lent.
pub fn search(pair: &Pair, rows: usize) -> Case {
    Case::Search {
        tables: pair.tables(),
        left: nodes(&pair.left),
        right: nodes(&pair.right),
        lists: Lists::new(rows, rows, LEAST_WORK),
    }
}

/// Rows lent to the searches of one to ten rows.
const FEW_ROWS: usize = 16;

/// Searches that are done in microseconds, the last of them by a difference at the first row.
fn small() -> Vec<Benchmark> {
    let mut pairs = heavy::small();
    pairs.push(Pair {
        name: "different at the first of 10 rows".to_string(),
        ..heavy::all_but_first()
    });
    pairs
        .iter()
        .map(|pair| Benchmark::new(Group::Small, &pair.name, search(pair, FEW_ROWS)))
        .collect()
}

/// The same pair with more and more rows lent: does the time per row stay flat?
fn rows(extent: Extent) -> Vec<Benchmark> {
    let family = |name, pair: Pair| {
        extent.rows_lent().iter().map(move |&rows| {
            let title = format!("{name}, {} rows lent", thousands(rows));
            Benchmark::new(Group::Rows(name), &title, search(&pair, rows))
        })
    };
    let mut all = Vec::new();
    all.extend(family("cycles", heavy::cycles()));
    all.extend(family("many states", heavy::many_states(15)));
    all
}

/// Too few rows lent: of a long way, where each row has one next row; and of pairs with hundreds of rows at each depth, the last
/// with no room for the starting rows.
fn run_out(extent: Extent) -> Vec<Benchmark> {
    let many_rows = || heavy::many_rows(extent.places());
    let searches = [
        (heavy::long_way(), 10_000),
        (heavy::long_way(), 43_042),
        (heavy::full_table(), MOST_ROWS - 1),
        (many_rows(), 1_024 << extent.places()),
        (many_rows(), 1_023),
    ];
    let benchmark = |(pair, rows): (Pair, usize)| {
        let title = format!("{}, {} rows lent", pair.name, thousands(rows));
        Benchmark::new(Group::RunOut, &title, search(&pair, rows))
    };
    searches.map(benchmark).to_vec()
}

/// Pairs of the random sweep.
const SWEPT: usize = 300;

/// Random pairs, from a fixed seed: as the comparison makes them, but none damaged, and rows lent as many as may be.
pub fn sweep() -> impl Iterator<Item = Benchmark> {
    let mut random = Random::new(16);
    (0..SWEPT).map(move |pair| {
        let (sizes, left, right) = cases::numbered_pair(&mut random, cases::Extent::Large);
        let case = Case::Search {
            tables: OwnedTables::numbered(&sizes),
            left,
            right,
            lists: Lists::new(MOST_ROWS, MOST_ROWS, LEAST_WORK),
        };
        Benchmark::new(Group::Sweep, &format!("pair {pair}"), case)
    })
}

/// Bytes of a long text.
pub const MEGABYTE: usize = 1 << 20;

/// 256 times `id` in a sum, each in 64 parentheses, with blanks between up to a megabyte: legal texts are no longer
/// without blanks, for a text has at most 512 nodes.
fn legal_text() -> Vec<u8> {
    let item = format!("{}id{}", "(".repeat(64), ")".repeat(64));
    let mut text = vec![item; 256].join("+");
    let gap = " ".repeat((MEGABYTE - text.len()) / 255);
    text = text.replace('+', &format!("{gap}+"));
    text.push_str(&" ".repeat(MEGABYTE - text.len()));
    text.into_bytes()
}

/// A megabyte of `!` before `id`.
fn long_negation() -> Vec<u8> {
    let mut text = vec![b'!'; MEGABYTE - 2];
    text.extend_from_slice(b"id");
    text
}

/// A megabyte of `id+`, with these last bytes.
fn long_sum(end: &str) -> Vec<u8> {
    let mut text = "id+".repeat((MEGABYTE - end.len()) / 3);
    text.push_str(end);
    text.into_bytes()
}

fn texts() -> Vec<Benchmark> {
    let read = |name: &str, text| {
        let nodes = OwnedLists {
            kind: vec![0; MOST_NODES],
            first: vec![0; MOST_NODES],
            second: vec![0; MOST_NODES],
        };
        let tables = eight_fields();
        let case = Case::Read {
            tables,
            side: 1,
            text,
            nodes,
        };
        Benchmark::new(Group::Text, name, case)
    };
    vec![
        read("a megabyte, 511 nodes and blanks", legal_text()),
        read("a megabyte of nodes", long_sum("id")),
        read("a megabyte, cut off at its end", long_sum("id+")),
        read("a megabyte, no token at its end", long_sum("?")),
        read("a megabyte of negations", long_negation()),
        read("a megabyte of letters", vec![b'x'; MEGABYTE]),
        read("a megabyte of digits", vec![b'1'; MEGABYTE]),
        read("a megabyte of marks", b"+;*=()".repeat(MEGABYTE / 6)),
    ]
}

/// Document 01's pairs with their sizes.
const PAIRS: [(u16, &str, &str); 10] = [
    (2, "drop", "id"),
    (2, "f0=0;dup", "dup;f0=0"),
    (2, "f0=0+f0=1", "id"),
    (3, "f0=0+f0=1", "id"),
    (1, "dup*", "id+dup;dup*"),
    (1, "dup", "dup;dup"),
    (2, "f0<-1;f0=1", "f0<-1"),
    (2, "f0<-0+f0<-1", "id"),
    (1, "dup;drop", "drop"),
    (1, "dup*", "(dup;dup)*"),
];

/// Rows lent to each check.
const CHECK_ROWS: usize = 4_096;
/// Checks of one sitting.
const CHECKS: usize = 40;

/// Checks of texts one after the other, small ones, networks and random ones mixed.
fn checks() -> Benchmark {
    let check = |sizes: &[u16], left: &[u8], right: &[u8]| Case::Texts {
        tables: OwnedTables::numbered(sizes),
        left: left.to_vec(),
        right: right.to_vec(),
        lists: Lists::new(CHECK_ROWS, CHECK_ROWS, LEAST_WORK),
    };
    let mut cases: Vec<Case> = PAIRS
        .iter()
        .map(|(size, left, right)| check(&[*size], left.as_bytes(), right.as_bytes()))
        .collect();
    for pair in heavy::networks().iter().chain(&heavy::leaks()) {
        cases.push(check(
            &pair.sizes,
            pair.left.as_bytes(),
            pair.right.as_bytes(),
        ));
    }
    let mut random = Random::new(40);
    while cases.len() < CHECKS {
        let sizes = random.pick(&[&[2u16, 3][..], &[4, 4, 4], &[16, 16], &[8, 8, 8]]);
        let policy = tree::tree(&mut random, sizes, 24, 6);
        let other = match cases.len() % 2 {
            0 => tree::same(&mut random, sizes, &policy),
            _ => tree::changed(&mut random, sizes, &policy),
        };
        let other = tree::sequence(tree::naming(sizes), other);
        let names: Vec<String> = (0..sizes.len()).map(|field| format!("f{field}")).collect();
        let left = tree::text(&mut random, &names, &policy);
        let right = tree::text(&mut random, &names, &other);
        cases.push(check(sizes, &left, &right));
    }
    random.shuffle(&mut cases);
    Benchmark {
        group: Group::Checks,
        name: "texts one after the other".to_string(),
        cases,
    }
}
