//! The ratios of the run that was published before, in `before.txt`: lines of group, benchmark and ratio, as they stood in
//! the table. To be written anew, by hand, when a change is to be measured against the table of that time.

use crate::workload::Benchmark;

/// Group, benchmark and ratio.
fn lines() -> impl Iterator<Item = (&'static str, &'static str, f64)> {
    include_str!("../before.txt").lines().map(|line| {
        let cells: Vec<&str> = line.split(" | ").collect();
        match cells[..] {
            [group, name, ratio] => (group, name, ratio.parse().expect("a ratio")),
            _ => panic!("before.txt: {line}"),
        }
    })
}

fn is(benchmark: &Benchmark, group: &str, name: &str) -> bool {
    benchmark.group.name() == group && benchmark.name == name
}

/// The ratio before; none of a benchmark that was not there.
pub fn ratio(benchmark: &Benchmark) -> Option<f64> {
    lines()
        .find(|(group, name, _)| is(benchmark, group, name))
        .map(|line| line.2)
}

/// Every ratio is that of a benchmark.
pub fn test(benchmarks: &[Benchmark]) {
    for (group, name, _) in lines() {
        let known = benchmarks.iter().any(|one| is(one, group, name));
        assert!(known, "before.txt: no benchmark {group}: {name}");
    }
}
