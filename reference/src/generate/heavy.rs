//! Pairs that cost a search much, for benchmarks. No two packets are alike to any of them: of each field that a pair mentions
//! it names all values but one, at least.

use super::network::{ring, tree};
use crate::names::{OwnedTables, MOST_FIELDS};

/// A pair of texts over the fields f0, f1 and so on, with their sizes.
#[derive(Clone, Debug)]
pub struct Pair {
    /// What it puts weight on.
    pub name: String,
    /// Sizes of the fields.
    pub sizes: Vec<u16>,
    /// Left text.
    pub left: String,
    /// Right text.
    pub right: String,
}

impl Pair {
    /// Its tables, with all names in both.
    pub fn tables(&self) -> OwnedTables {
        OwnedTables::numbered(&self.sizes)
    }

    /// The same with its fields at these places, in ascending order, among eight, of which the others are as wide as may be.
    pub fn among_wide(&self, places: &[usize]) -> Pair {
        let mut sizes = vec![u16::MAX; MOST_FIELDS];
        for (&place, &size) in places.iter().zip(&self.sizes) {
            sizes[place] = size;
        }
        // the last field first: a place is not below the field that goes there
        let moved = |text: &str| {
            let fields = places.iter().enumerate().rev();
            fields.fold(text.to_string(), |text, (field, place)| {
                text.replace(&format!("f{field}"), &format!("f{place}"))
            })
        };
        Pair {
            name: self.name.clone(),
            sizes,
            left: moved(&self.left),
            right: moved(&self.right),
        }
    }

    /// The program's input that asks of the pair.
    pub fn input(&self) -> String {
        let sizes = self.sizes.iter().enumerate();
        let table = joined(",", sizes.map(|(field, size)| format!("f{field}={size}")));
        format!("{table}\n{table}\n{}\n{}\n", self.left, self.right)
    }
}

/// Eight fields that make 1,024 packets; twelve tests name all values of each but the last.
pub const THOUSAND: [u16; MOST_FIELDS] = [4, 4, 2, 2, 2, 2, 2, 2];

/// Tests of all values of each field but the last, if it has others.
fn named(sizes: &[u16]) -> Vec<String> {
    let of_field = |(field, &size): (usize, &u16)| {
        let last = size.max(2) - 1;
        (0..last).map(move |value| format!("f{field}={value}"))
    };
    sizes.iter().enumerate().flat_map(of_field).collect()
}

/// Passes every packet, and has these tests.
fn passing(tests: &[String]) -> String {
    format!("!(drop;({}))", tests.join("+"))
}

/// Passes every packet, and names all values of each field but the last, if it has others.
pub fn naming(sizes: &[u16]) -> String {
    passing(&named(sizes))
}

/// The same in two, for the two policies of a pair.
fn naming_by_halves(sizes: &[u16]) -> (String, String) {
    let tests = named(sizes);
    let (one, other) = tests.split_at(tests.len() / 2);
    (passing(one), passing(other))
}

/// All of them. Each is equal, with at most 65,535 rows.
pub fn pairs() -> Vec<Pair> {
    let mut pairs = combinatorial();
    pairs.extend(networks());
    pairs.extend([
        nested_stars(511, "id"),
        nested_stars(500, "dup"),
        counter(),
        one_way(),
        full_table(),
        cycles(),
        long_way(),
        many_dups(31),
        many_states(14),
        many_rows(5),
        own_continuations(31),
    ]);
    pairs.extend(negations());
    pairs.extend(wide());
    pairs.extend(among_wide());
    pairs
}

/// Few fields mentioned among eight, the others as wide as may be; the first mentions none.
pub fn among_wide() -> Vec<Pair> {
    let none = Pair {
        name: "no field".to_string(),
        sizes: Vec::new(),
        left: "dup*".to_string(),
        right: "id+dup;dup*".to_string(),
    };
    vec![
        none.among_wide(&[]),
        ring(14).rule_orders().among_wide(&[2, 5]),
        tree(3).slices().among_wide(&[0, 3, 7]),
        rule_list(40).among_wide(&[1, 6]),
        many_dups(31).among_wide(&[0, 2, 3, 6, 7]),
    ]
}

/// Policies with 63 dups, or nearly so many.
pub fn wide() -> Vec<Pair> {
    vec![
        many_dups(63),
        own_continuations(63),
        wide_cycles(),
        chain(),
        long_lines(),
    ]
}

/// Policies with negations, against the same with none.
pub fn negations() -> Vec<Pair> {
    vec![
        blocked(48),
        rule_list(40),
        nested_negations(500, "f0=3"),
        nested_negations(501, "f0!=3"),
    ]
}

/// Inc, flip and nondet of document 000, section 7.2: over bits, of which there are at most eight, and over the larger
/// digits that make 1,024 packets.
pub fn combinatorial() -> Vec<Pair> {
    vec![
        inc(8, 2),
        inc(5, 4),
        flip(8, 2),
        flip(5, 4),
        nondet(8, 2),
        nondet(5, 4),
        nondet(2, 32),
    ]
}

/// Rings and trees with shortest-path forwarding, as many switches as 512 nodes can forward, and their slices.
pub fn networks() -> Vec<Pair> {
    vec![
        ring(14).reachability(0, 7),
        ring(14).rule_orders(),
        ring(9).slices(),
        tree(3).reachability(7, 14),
        tree(3).rule_orders(),
        tree(3).slices(),
    ]
}

/// Slices of which one hands packets to the other: two pairs that are different.
pub fn leaks() -> Vec<Pair> {
    vec![ring(9).leak(), tree(3).leak()]
}

/// So many stars on one another.
pub fn nested_stars(stars: usize, body: &str) -> Pair {
    let once = if body == "id" { "" } else { "*" };
    Pair {
        name: format!("{stars} stars on {body}"),
        sizes: THOUSAND.to_vec(),
        left: format!("{body}{}", "*".repeat(stars)),
        right: format!("{};{body}{once}", naming(&THOUSAND)),
    }
}

/// So many negations of one test, and the test that they are.
fn nested_negations(count: usize, test: &str) -> Pair {
    Pair {
        name: format!("{count} negations of a test"),
        sizes: THOUSAND.to_vec(),
        left: format!("{}f0=3;dup", "!".repeat(count)),
        right: format!("{};dup;{test}", naming(&THOUSAND)),
    }
}

/// Field 0 gets any value, recorded at each change, and so many packets are blocked: as the negation of their sum, and
/// spelled out.
fn blocked(count: usize) -> Pair {
    let values = |packet: usize| (0..5).map(move |field| packet >> (2 * field) & 3);
    let packets = || (0..count).map(|at| at * 21 % 1024);
    let tests = |packet, act: &str, operator| {
        let test = |(field, value)| format!("f{field}{act}{value}");
        joined(operator, values(packet).enumerate().map(test))
    };
    let sum = joined("+", packets().map(|packet| tests(packet, "=", ";")));
    let product = joined(
        ";",
        packets().map(|packet| format!("({})", tests(packet, "!=", "+"))),
    );
    let step = any(1, 4);
    Pair {
        name: format!("{count} packets blocked"),
        sizes: vec![4; 5],
        left: format!("({step};!({sum});dup)*"),
        right: format!("({step};{product};dup)*"),
    }
}

/// A list of so many rules, of which the first that matches counts: its pattern and its change, or what is left of the list
/// for packets that don't match. With negations of the patterns, and spelled out.
fn rule_list(rules: usize) -> Pair {
    let list = |others: fn(usize, usize) -> String| {
        (0..rules).rev().fold("f1<-0".to_string(), |rest, rule| {
            let (place, label) = (rule % 32, rule * 7 % 32);
            let change = format!("f0<-{}", (place + rule) % 32);
            let others = others(place, label);
            format!("f0={place};f1={label};{change}+{others};({rest})")
        })
    };
    let negated = list(|place, label| format!("!(f0={place};f1={label})"));
    let spelled_out = list(|place, label| format!("(f0!={place}+f1!={label})"));
    Pair {
        name: format!("list of {rules} rules"),
        sizes: vec![32, 32],
        left: format!("(({negated});dup)*"),
        right: format!("(({spelled_out});dup)*"),
    }
}

/// Texts joined by an operator.
pub(super) fn joined(operator: &str, texts: impl IntoIterator<Item = String>) -> String {
    texts.into_iter().collect::<Vec<_>>().join(operator)
}

/// Every field to or at one value.
fn all(fields: usize, act: &str, value: u16) -> String {
    joined(
        ";",
        (0..fields).map(|field| format!("f{field}{act}{value}")),
    )
}

/// Adds one to digits of a base, the last field the lowest; nothing follows the highest number.
fn increment(digits: usize, base: u16) -> String {
    let carries = (0..digits).rev().map(|digit| {
        let top = base - 1;
        let cleared: String = (digit + 1..digits)
            .map(|low| format!("f{low}={top};f{low}<-0;"))
            .collect();
        let up = (0..top).map(|value| format!("f{digit}={value};f{digit}<-{}", value + 1));
        format!("{cleared}({})", joined("+", up))
    });
    joined("+", carries)
}

/// Repeated incrementing turns the lowest number into the highest.
fn inc(digits: usize, base: u16) -> Pair {
    let (lowest, highest) = (all(digits, "=", 0), all(digits, "=", base - 1));
    Pair {
        name: format!("inc, {digits} digits to base {base}"),
        sizes: vec![base; digits],
        left: format!("{lowest};({})*;{highest}", increment(digits, base)),
        right: format!("{lowest};{}", all(digits, "<-", base - 1)),
    }
}

/// Turning every digit on by one, as often as the base says, returns the packet.
fn flip(digits: usize, base: u16) -> Pair {
    let turned = joined(";", (0..digits).map(|digit| turn(digit, base)));
    Pair {
        name: format!("flip, {digits} digits to base {base}"),
        sizes: vec![base; digits],
        left: joined(";", vec![turned; base.into()]),
        right: "id".to_string(),
    }
}

/// Any value in each field.
fn any(fields: usize, size: u16) -> String {
    let field = |field: usize| joined("+", (0..size).map(|value| format!("f{field}<-{value}")));
    joined(";", (0..fields).map(|at| format!("({})", field(at))))
}

/// Setting the fields to any values twice is the same as once.
fn nondet(fields: usize, size: u16) -> Pair {
    let once = any(fields, size);
    Pair {
        name: format!("nondet, {fields} fields of {size}"),
        sizes: vec![size; fields],
        left: format!("{once};{once}"),
        right: once,
    }
}

/// A counter that is recorded at each count, and the same unrolled once.
fn counter() -> Pair {
    let round = format!("({});dup", increment(8, 2));
    Pair {
        name: "counter".to_string(),
        sizes: vec![2; 8],
        left: format!("({round})*"),
        right: format!("id+({round});({round})*"),
    }
}

/// The counter unrolled once, and unrolled twice with this test at its end: several hundred nodes.
pub fn long_counters(end: &str) -> Pair {
    let round = format!("({});dup", increment(8, 2));
    let once = format!("id+{round};({round})*");
    Pair {
        name: "long counters".to_string(),
        sizes: vec![2; 8],
        left: once.clone(),
        right: format!("(id+{round};({once}));{end}"),
    }
}

/// One digit turned on by one, as often as its base says, which returns the packet; and the same for all packets but the
/// first: ten starting rows, of which the first breaks rule (c). Several hundred nodes.
pub fn all_but_first() -> Pair {
    let turned = flip(1, 10);
    Pair {
        name: "all but the first".to_string(),
        right: format!("f0!=0;{}", turned.left),
        ..turned
    }
}

/// Searches of one to ten rows, as their names say.
pub fn small() -> Vec<Pair> {
    let pair = |name: &str, size, left: &str, right: &str| Pair {
        name: name.to_string(),
        sizes: vec![size],
        left: left.to_string(),
        right: right.to_string(),
    };
    vec![
        pair("1 row", 1, "id", "id*"),
        pair("2 rows", 2, "f0<-1;f0=1", "f0<-1"),
        pair("3 rows, a dup", 1, "dup*", "id+dup;dup*"),
        pair("5 rows", 5, "f0!=0", "f0=1+f0=2+f0=3+f0=4"),
        pair(
            "10 rows",
            10,
            "(f0=0+f0=1;f0<-2)*;f0!=1",
            "f0=0+f0=1;f0<-2+f0=2+f0=3+f0=4+f0=5+f0=6+f0=7+f0=8+f0=9",
        ),
        pair(
            "10 rows, a dup",
            5,
            "dup;f0!=0",
            "(f0=1+f0=2+f0=3+f0=4);dup",
        ),
        pair(
            "10 rows, a negation",
            5,
            "dup;!f0=0",
            "!(f0!=1;f0!=2;f0!=3;f0!=4);dup",
        ),
    ]
}

/// A ring of 32 switches that forwards one way, recorded at each switch, and its rules in another order.
fn one_way() -> Pair {
    let hop = |switch| format!("f0={switch};f1!={switch};f0<-{}", (switch + 1) % 32);
    Pair {
        name: "one-way ring of 32".to_string(),
        sizes: vec![32, 32],
        left: format!("(({});dup)*", joined("+", (0..32).map(hop))),
        right: format!("(({});dup)*", joined("+", (0..32).rev().map(hop))),
    }
}

/// `dup*` as rounds of so many dups and a rest of fewer.
fn rounds(dups: usize) -> String {
    let round = vec!["dup"; dups].join(";");
    let rest = (1..dups).fold("id".to_string(), |rest, _| format!("(id+dup;{rest})"));
    format!("({round})*;{rest}")
}

/// `dup*` in rounds of two numbers of dups. If they have no common divisor, their product and 1 are the pairs of states
/// at each packet, and each row has one next row.
fn in_rounds(name: &str, sizes: &[u16], left: usize, right: usize) -> Pair {
    let (one, other) = naming_by_halves(sizes);
    Pair {
        name: name.to_string(),
        sizes: sizes.to_vec(),
        left: format!("{one};{}", rounds(left)),
        right: format!("{other};{}", rounds(right)),
    }
}

/// 85 pairs of states at 771 packets: 65,535 rows, as many as there may be.
pub fn full_table() -> Pair {
    in_rounds("full table", &[3, 257], 7, 12)
}

/// 241 pairs of states at 270 packets, 65,070 rows: fewer packets, so that few rows are starting rows.
pub fn cycles() -> Pair {
    in_rounds("cycles", &[5, 6, 9], 15, 16)
}

/// The same with 63 dups on the left and 61 on the right: 993 pairs of states at 65 packets.
pub fn wide_cycles() -> Pair {
    in_rounds("wide cycles", &[5, 13], 32, 31)
}

/// 63 dups in a row, grouped to the left and to the right, at 1,023 packets: 65,472 rows, each with one mark a side.
pub fn chain() -> Pair {
    let grouped = (1..63).fold("dup".to_string(), |rest, _| format!("dup;({rest})"));
    let sizes = vec![3, 11, 31];
    let (one, other) = naming_by_halves(&sizes);
    Pair {
        name: "chain of 63 dups".to_string(),
        sizes,
        left: format!("{one};{}", ["dup"; 63].join(";")),
        right: format!("{other};({})", grouped.replace("(dup)", "dup")),
    }
}

/// One digit to a base turned on by one.
fn turn(digit: usize, base: u16) -> String {
    let on = |value| format!("f{digit}={value};f{digit}<-{}", (value + 1) % base);
    format!("({})", joined("+", (0..base).map(on)))
}

/// From packet 0 through all 1,001 packets and round again, each recorded 21 times, and the same in rounds of two packets:
/// 42,042 rows in one chain behind the starting rows.
pub fn long_way() -> Pair {
    let sizes = vec![7, 11, 13];
    let turned = joined(
        ";",
        sizes.iter().enumerate().map(|(at, &base)| turn(at, base)),
    );
    let recorded = format!("{turned}{}", ";dup".repeat(21));
    let begin = all(sizes.len(), "=", 0);
    Pair {
        name: "long way".to_string(),
        sizes,
        left: format!("{begin};({recorded})*"),
        right: format!("{begin};(({recorded});({recorded}))*;(id+{recorded})"),
    }
}

/// From any packet to any packet with so many dups.
pub fn many_dups(dups: usize) -> Pair {
    let dups = vec!["dup"; dups].join("+");
    let policy = format!("({};({dups}))*", any(5, 4));
    Pair {
        name: "many dups".to_string(),
        sizes: vec![4; 5],
        left: policy.clone(),
        right: policy,
    }
}

/// Records any packets, and stops so many packets after one of the marked ones: a state for each set of places.
fn window(any: &str, mark: &str, places: usize) -> String {
    let step = format!(";{any};dup").repeat(places);
    format!("({any};dup)*;{any};{mark};dup{step}")
}

/// So many dups, at most 64, under one star, each followed by a change or a test of its own; and the summands in reverse order.
pub fn own_continuations(dups: usize) -> Pair {
    let acts = |act: &'static str| {
        (0..5).flat_map(move |field| (0..4).map(move |value| format!("dup;f{field}{act}{value}")))
    };
    let both = (0..4).map(|value| format!("dup;f0={value};f1<-{value}"));
    let summands = acts("<-").chain(acts("!=")).chain(acts("=")).chain(both);
    let summands: Vec<String> = summands.take(dups).collect();
    Pair {
        name: format!("{dups} dups, each with its continuation"),
        sizes: vec![4; 5],
        left: format!("({})*", joined("+", summands.clone())),
        right: format!("({})*", joined("+", summands.into_iter().rev())),
    }
}

/// Two packets, and a state for each set of so many places and two more.
pub fn many_states(places: usize) -> Pair {
    let policy = window("(f0<-0+f0<-1)", "f0=1", places);
    Pair {
        name: "many states".to_string(),
        sizes: vec![2],
        left: policy.clone(),
        right: policy,
    }
}

/// Rows that the program prints in long lines: `dup*` in rounds beside three stars whose dups, the last of 63, are always marked,
/// so that every state but the first has twenty digits. 813 pairs of states at 5 packets.
pub fn long_lines() -> Pair {
    let policy = |dups: usize| {
        let unreached = vec!["dup"; 63 - 3 - (2 * dups - 1)].join(";");
        format!("drop;{unreached}+{}+dup*+dup*+dup*", rounds(dups))
    };
    Pair {
        name: "long lines".to_string(),
        sizes: vec![5],
        left: policy(29),
        right: format!("{};({})", naming(&[5]), policy(28)),
    }
}

/// 1,024 packets, and rows for each set of so many places, each row with 1,024 next rows.
pub fn many_rows(places: usize) -> Pair {
    let policy = window(&format!("({})", any(5, 4)), "f0=0", places);
    Pair {
        name: "many rows".to_string(),
        sizes: vec![4; 5],
        left: policy.clone(),
        right: policy,
    }
}
