//! Few fields mentioned among eight, of which the others are as wide as may be: every kind of call.

use netkat_reference::case::Case;
use netkat_reference::generate::heavy::{self, Pair};
use netkat_reference::generate::network;
use netkat_reference::search::{Lists, LEAST_WORK, MOST_ROWS};

use crate::tables;
use crate::traces;
use crate::workload::{nodes, search, Benchmark, Group};

/// The search on the texts of a pair.
fn texts(pair: &Pair) -> Benchmark {
    let case = Case::Texts {
        tables: pair.tables(),
        left: pair.left.clone().into_bytes(),
        right: pair.right.clone().into_bytes(),
        lists: Lists::new(MOST_ROWS, MOST_ROWS, LEAST_WORK),
    };
    let name = format!("texts of {}", pair.name);
    Benchmark::new(Group::Unmentioned, &name, case)
}

/// The table of a pair, in row order.
fn table(pair: &Pair) -> Benchmark {
    let (rows, _) = tables::row_order(pair);
    Benchmark {
        group: Group::Unmentioned,
        ..tables::evidence(&format!("table of {}", pair.name), pair, &rows)
    }
}

/// The trace by which the search tells a pair apart.
fn trace(pair: &Pair) -> Benchmark {
    let (entering, trace) = traces::difference(pair);
    let name = format!("trace of {}", pair.name);
    Benchmark {
        group: Group::Unmentioned,
        ..traces::check(&name, pair, entering, trace)
    }
}

/// A pair's last packet turned into values, and values with the highest of each field turned into that packet.
fn turned(pair: &Pair) -> [Benchmark; 2] {
    let highest: Vec<u16> = pair.sizes.iter().map(|size| size - 1).collect();
    let packets = search(pair, 0).packets().expect("legal policies");
    let (left, right) = (nodes(&pair.left), nodes(&pair.right));
    let values = Case::Values {
        tables: pair.tables(),
        left: left.clone(),
        right: right.clone(),
        number: (packets - 1) as u16,
        values: vec![0; highest.len()],
    };
    let number = Case::Number {
        tables: pair.tables(),
        left,
        right,
        values: highest,
    };
    [("values of a packet", values), ("packet of values", number)].map(|(what, case)| {
        let name = format!("{what}, {}", pair.name);
        Benchmark::new(Group::Unmentioned, &name, case)
    })
}

/// All of them.
pub fn benchmarks() -> Vec<Benchmark> {
    let mut pairs = heavy::among_wide();
    let (none, ring) = (pairs[0].clone(), pairs[1].clone());
    let leak = network::tree(3).leak().among_wide(&[1, 4, 6]);
    pairs.push(leak.clone());
    let mut all: Vec<Benchmark> = pairs
        .iter()
        .map(|pair| Benchmark::new(Group::Unmentioned, &pair.name, search(pair, MOST_ROWS)))
        .collect();
    all.extend([texts(&none), texts(&ring), table(&ring), trace(&leak)]);
    all.extend(turned(&none));
    all.extend(turned(&ring));
    all
}
