//! Traces to be checked, on policies of several hundred nodes.

use netkat_reference::answer::Verdict;
use netkat_reference::case::Case;
use netkat_reference::generate::heavy::{self, Pair};
use netkat_reference::generate::network;
use netkat_reference::packets;
use netkat_reference::search::{self, Lists, LEAST_WORK, MOST_ROWS};

use crate::workload::{nodes, Benchmark, Group};

pub fn check(name: &str, pair: &Pair, entering: u16, trace: Vec<u16>) -> Benchmark {
    let case = Case::Trace {
        tables: pair.tables(),
        left: nodes(&pair.left),
        right: nodes(&pair.right),
        entering,
        trace,
        work: vec![0; LEAST_WORK],
    };
    Benchmark::new(Group::Traces, name, case)
}

/// Entering packet and trace by which the search tells two policies apart.
pub fn difference(pair: &Pair) -> (u16, Vec<u16>) {
    let mut lists = Lists::new(MOST_ROWS, MOST_ROWS, LEAST_WORK);
    let (left, right) = (nodes(&pair.left), nodes(&pair.right));
    let answer = search::search(
        pair.tables().lend(),
        left.lists(),
        right.lists(),
        lists.lend(),
    );
    match answer {
        Ok(Verdict::Different {
            length, entering, ..
        }) => (entering, lists.trace[..length].to_vec()),
        _ => panic!("{}: {answer:?}", pair.name),
    }
}

/// Everything that a counter of bits records on its way from 0 to its highest number, which then leaves.
fn counted(pair: &Pair) -> Vec<u16> {
    let bits = pair.sizes.len();
    let (left, right) = (nodes(&pair.left), nodes(&pair.right));
    let packet = |count: u32| {
        let values: Vec<u16> = (0..bits)
            .map(|field| (count >> (bits - 1 - field) & 1) as u16)
            .collect();
        let (left, right) = (left.lists(), right.lists());
        packets::number(pair.tables().lend(), left, right, &values).expect("a packet")
    };
    let last = (1 << bits) - 1;
    (1..=last).chain([last]).map(packet).collect()
}

/// A trace of one packet, one that the search finds, and two long ones.
pub fn benchmarks() -> Vec<Benchmark> {
    let ring = network::ring(14).rule_orders();
    let leak = network::tree(3).leak();
    let (entering, found) = difference(&leak);
    let (both, one) = (heavy::long_counters("f0=1"), heavy::long_counters("f0=0"));
    let count = counted(&both);
    vec![
        check("1 packet", &ring, 0, vec![0]),
        check("of the leak in a tree of 15", &leak, entering, found),
        check("256 packets", &both, 0, count.clone()),
        check("256 packets, of one policy", &one, 0, count),
    ]
}
