//! Networks with shortest-path forwarding: field 0 is the switch, field 1 the destination, field 2 of slices the tag.

use super::heavy::{joined, Pair};

/// A network: for each switch and destination, the switch that is next on a shortest path.
#[derive(Clone, Debug)]
pub struct Network {
    name: String,
    next: Vec<Vec<usize>>,
}

/// Switches in a ring; of two ways that are equally long, the one to higher numbers.
pub fn ring(switches: usize) -> Network {
    let next = |switch: usize, destination: usize| {
        let ahead = (destination + switches - switch) % switches;
        match ahead {
            0 => switch,
            _ if ahead <= switches / 2 => (switch + 1) % switches,
            _ => (switch + switches - 1) % switches,
        }
    };
    Network::new(format!("ring of {switches}"), switches, next)
}

/// A binary tree with so many levels below its root, switch 0; the children of i are 2i + 1 and 2i + 2.
pub fn tree(levels: u32) -> Network {
    let switches = (1 << (levels + 1)) - 1;
    let next = |switch: usize, destination: usize| {
        if switch == destination {
            return switch;
        }
        let mut below = destination;
        while below > 0 {
            let above = (below - 1) / 2;
            if above == switch {
                return below;
            }
            below = above;
        }
        (switch - 1) / 2
    };
    Network::new(format!("tree of {switches}"), switches, next)
}

impl Network {
    fn new(name: String, switches: usize, next: impl Fn(usize, usize) -> usize) -> Network {
        let row = |switch| (0..switches).map(|to| next(switch, to)).collect();
        Network {
            name,
            next: (0..switches).map(row).collect(),
        }
    }

    fn switches(&self) -> usize {
        self.next.len()
    }

    /// The test that the destination is one of these, in the fewer nodes.
    fn towards(&self, destinations: &[usize]) -> String {
        if 2 * destinations.len() <= self.switches() {
            let tests = destinations.iter().map(|to| format!("f1={to}"));
            return format!("({})", joined("+", tests));
        }
        let others = (0..self.switches()).filter(|to| !destinations.contains(to));
        joined(";", others.map(|to| format!("f1!={to}")))
    }

    /// A switch's rules: one for each neighbour that packets go to.
    fn rules(&self, switch: usize) -> Vec<String> {
        let next = &self.next[switch];
        let neighbours = (0..self.switches()).filter(|&to| to != switch && next.contains(&to));
        neighbours
            .map(|neighbour| {
                let through: Vec<usize> = (0..self.switches())
                    .filter(|&to| next[to] == neighbour)
                    .collect();
                format!("f0={switch};{};f0<-{neighbour}", self.towards(&through))
            })
            .collect()
    }

    /// One hop towards the destination.
    fn hop(&self, switches: impl IntoIterator<Item = usize>) -> String {
        joined("+", switches.into_iter().flat_map(|s| self.rules(s)))
    }

    fn sizes(&self) -> Vec<u16> {
        vec![self.switches() as u16; 2]
    }

    /// Packets for one switch at another get there.
    pub fn reachability(&self, from: usize, to: usize) -> Pair {
        let entering = format!("f0={from};f1={to}");
        let hop = self.hop(0..self.switches());
        Pair {
            name: format!("{}, reachability", self.name),
            sizes: self.sizes(),
            left: format!("{entering};({hop})*;f0={to}"),
            right: format!("{entering};f0<-{to}"),
        }
    }

    /// The order of the rules does not matter to the paths.
    pub fn rule_orders(&self) -> Pair {
        let hop = self.hop(0..self.switches());
        let backwards = self.hop((0..self.switches()).rev());
        Pair {
            name: format!("{}, rule orders", self.name),
            sizes: self.sizes(),
            left: format!("(({hop});dup)*"),
            right: format!("(({backwards});dup)*"),
        }
    }

    /// Two slices side by side are isolated: document 000's query.
    pub fn slices(&self) -> Pair {
        self.isolation("slices", "")
    }

    /// The same where the first slice's packets change over at switch 0.
    pub fn leak(&self) -> Pair {
        self.isolation("leak", ";(f0!=0+f0=0;f2<-1)")
    }

    fn isolation(&self, query: &str, after_first: &str) -> Pair {
        let hop = self.hop(0..self.switches());
        let first = format!("f2=0;({hop}){after_first};dup");
        let second = format!("f2=1;({hop});dup");
        let mut sizes = self.sizes();
        sizes.push(2);
        Pair {
            name: format!("{}, {query}", self.name),
            sizes,
            left: format!("({first})*+({second})*"),
            right: format!("({first}+{second})*"),
        }
    }
}
