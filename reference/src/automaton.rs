//! Output and next of a state at a packet.
//!
//! A policy becomes a graph of points through which packets flow. Compiling a node with the point that follows it
//! yields right spines for nothing: what follows a dup is what remains after it. A step pushes packet sets through the
//! graph; what arrives at a dup is marked next there, what arrives at the end is the output. Each point passes a packet
//! on once, so nested stars cost no more than other nodes. A negation is one filter, worked out when it is compiled. Steps
//! of single remainders are remembered; a state's step is the union of its remainders' steps.

use std::collections::hash_map::DefaultHasher;
use std::collections::HashMap;
use std::hash::{Hash, Hasher};
use std::ops::Range;

use crate::packets::{set, Packets};
use crate::policy::{Act, Node, Policy};

/// A state: bit 0 for the whole policy, bit i for what remains after dup i.
pub type State = u64;

/// The state that the whole policy is.
pub const START: State = 1;

/// A point of the graph.
#[derive(Clone, Copy, Debug)]
enum Point {
    /// The end of the policy.
    End,
    /// Passes on to two points.
    Fork(usize, usize),
    /// Passes on what is in a set of packets, kept at this place of `Automaton::filters`.
    Filter { filter: usize, to: usize },
    /// Changes a digit.
    Set {
        digit: usize,
        value: usize,
        to: usize,
    },
    /// Stops at a dup.
    Dup(usize),
}

/// The point that nothing flows through.
const NOWHERE: usize = usize::MAX;
/// The end's point.
const END: usize = 0;

/// The step of a state at a packet. Made once and filled again for each step.
#[derive(Clone, Debug)]
pub struct Step {
    output: Vec<u64>,
    /// By packet; 0 where nothing is marked.
    next: Vec<State>,
    /// The packets where something is marked.
    marked: Vec<u64>,
}

impl Step {
    /// An empty step.
    pub fn new(packets: &Packets) -> Step {
        Step {
            output: vec![0; packets.words()],
            next: vec![0; packets.count()],
            marked: vec![0; packets.words()],
        }
    }

    /// The output, a set of packets.
    pub fn output(&self) -> &[u64] {
        &self.output
    }

    /// The state next at a packet.
    pub fn next(&self, packet: usize) -> State {
        self.next[packet]
    }

    /// The set of packets at which next is not 0.
    pub fn marked(&self) -> &[u64] {
        &self.marked
    }

    fn clear(&mut self) {
        for (word, next) in self.marked.iter_mut().zip(self.next.chunks_mut(64)) {
            if *word != 0 {
                next.fill(0);
                *word = 0;
            }
        }
        self.output.fill(0);
    }
}

/// Steps of single remainders.
#[derive(Debug)]
struct Memo {
    /// By remainder, then packet: the step's number from 1, or 0 where it is not known.
    known: Vec<u32>,
    /// By step: its output.
    outputs: Vec<u64>,
    /// By step: the packets where something is marked.
    marked: Vec<u64>,
    /// By step: where the states next at these packets begin.
    starts: Vec<usize>,
    next: Vec<State>,
    /// States past which it starts anew.
    most: usize,
    /// By hash of a step's content: its number. Packets that are overwritten at once have the same step.
    same: HashMap<u64, usize>,
}

/// States that a memo holds before it starts anew.
const MOST_REMEMBERED: usize = 1 << 23;

impl Memo {
    fn new(entries: usize) -> Memo {
        Memo {
            known: vec![0; entries],
            outputs: Vec::new(),
            marked: Vec::new(),
            starts: Vec::new(),
            next: Vec::new(),
            most: MOST_REMEMBERED,
            same: HashMap::new(),
        }
    }

    /// Forgets everything if there is too much of it.
    fn trim(&mut self) {
        if self.next.len() > self.most {
            self.known.fill(0);
            self.outputs.clear();
            self.marked.clear();
            self.starts.clear();
            self.next.clear();
            self.same.clear();
        }
    }

    /// Keeps a step and says its number: that of an equal one if there is any.
    fn keep(&mut self, output: &[u64], step: &Step) -> usize {
        let start = self.next.len();
        set::for_each(&step.marked, |packet| self.next.push(step.next[packet]));
        let mut hasher = DefaultHasher::new();
        (output, &step.marked, &self.next[start..]).hash(&mut hasher);
        let number = self.starts.len() + 1;
        let known = *self.same.entry(hasher.finish()).or_insert(number);
        if known < number && self.equals(known, output, &step.marked, &self.next[start..]) {
            self.next.truncate(start);
            return known;
        }
        self.outputs.extend_from_slice(output);
        self.marked.extend_from_slice(&step.marked);
        self.starts.push(start);
        number
    }

    /// Has a step this content?
    fn equals(&self, number: usize, output: &[u64], marked: &[u64], next: &[State]) -> bool {
        let words = output.len();
        let range = (number - 1) * words..number * words;
        let start = self.starts[number - 1];
        self.outputs[range.clone()] == *output
            && self.marked[range] == *marked
            && self.next[start..start + next.len()] == *next
    }

    /// Adds a step, numbered from 1, to another.
    fn add(&self, number: usize, step: &mut Step) {
        let words = step.output.len();
        let range = (number - 1) * words..number * words;
        set::unite(&mut step.output, &self.outputs[range.clone()]);
        let marked = &self.marked[range];
        set::unite(&mut step.marked, marked);
        let mut next = &self.next[self.starts[number - 1]..];
        for (word, into) in marked.iter().zip(step.next.chunks_mut(64)) {
            if *word == u64::MAX {
                for (state, added) in into.iter_mut().zip(next) {
                    *state |= added;
                }
            } else {
                let mut at = 0;
                set::for_each(&[*word], |packet| {
                    into[packet] |= next[at];
                    at += 1;
                });
            }
            next = &next[word.count_ones() as usize..];
        }
    }
}

/// A range of words.
#[derive(Clone, Copy, Debug)]
struct Span {
    start: u8,
    end: u8,
}

impl Span {
    const EMPTY: Span = Span { start: 255, end: 0 };

    /// The span of one packet's word.
    fn of(packet: usize) -> Span {
        let word = (packet / 64) as u8;
        Span {
            start: word,
            end: word + 1,
        }
    }

    fn with(self, other: Span) -> Span {
        Span {
            start: self.start.min(other.start),
            end: self.end.max(other.end),
        }
    }

    fn range(self) -> Range<usize> {
        self.start.into()..self.end.into()
    }

    fn is_empty(self) -> bool {
        self.start >= self.end
    }
}

/// Packet sets on their way through the graph. Sets are often small, so each comes with the span of its words that may
/// not be 0; other words are not looked at.
#[derive(Debug)]
struct Flow {
    words: usize,
    /// By point: what has arrived so far.
    seen: Vec<u64>,
    /// By point: what has arrived and was not passed on yet.
    pending: Vec<u64>,
    /// By point: the span of what has arrived.
    spans: Vec<Span>,
    /// The points with something pending, as bits.
    active: Vec<u64>,
    /// The points where something arrived, to clean up.
    visited: Vec<usize>,
    /// A set being passed on, and its span.
    moving: Vec<u64>,
    span: Span,
}

impl Flow {
    fn new(points: usize, words: usize) -> Flow {
        Flow {
            words,
            seen: vec![0; points * words],
            pending: vec![0; points * words],
            spans: vec![Span::EMPTY; points],
            active: vec![0; (points + 63) / 64],
            visited: Vec::new(),
            moving: vec![0; words],
            span: Span::EMPTY,
        }
    }

    /// Lets one packet move.
    fn start(&mut self, packet: usize) {
        self.span = Span::of(packet);
        self.moving[packet / 64] = 1 << (packet % 64);
    }

    /// Lets the moving packets arrive at a point.
    fn arrive(&mut self, point: usize) {
        if point == NOWHERE || self.span.is_empty() {
            return;
        }
        let range = self.words(point, self.span);
        let mut fresh = 0;
        for ((seen, pending), arriving) in self.seen[range.clone()]
            .iter_mut()
            .zip(&mut self.pending[range])
            .zip(&self.moving[self.span.range()])
        {
            let new = arriving & !*seen;
            fresh |= new;
            *pending |= new;
            *seen |= new;
        }
        if fresh != 0 {
            set::insert(&mut self.active, point);
            if self.spans[point].is_empty() {
                self.visited.push(point);
            }
            self.spans[point] = self.spans[point].with(self.span);
        }
    }

    /// Takes the pending set of the highest active point. Points are numbered against the flow except for the way back
    /// in a star, so a loop settles before anything flows on.
    fn take(&mut self) -> Option<usize> {
        let word = self.active.iter().rposition(|&word| word != 0)?;
        let bit = 63 - self.active[word].leading_zeros() as usize;
        self.active[word] ^= 1 << bit;
        let point = word * 64 + bit;
        self.span = self.spans[point];
        let range = self.words(point, self.span);
        self.moving[self.span.range()].copy_from_slice(&self.pending[range.clone()]);
        self.pending[range].fill(0);
        Some(point)
    }

    /// Keeps the moving packets that are in a set.
    fn keep(&mut self, filter: &[u64]) {
        let range = self.span.range();
        for (word, filter) in self.moving[range.clone()].iter_mut().zip(&filter[range]) {
            *word &= filter;
        }
    }

    /// Changes the moving packets; `changed` is for scratch.
    fn change(&mut self, changed: &mut Vec<u64>, change: impl Fn(usize) -> usize) {
        changed.clear();
        changed.resize(self.words, 0);
        let mut span = Span::EMPTY;
        let base = usize::from(self.span.start) * 64;
        set::for_each(&self.moving[self.span.range()], |packet| {
            let packet = change(base + packet);
            set::insert(changed, packet);
            span = span.with(Span::of(packet));
        });
        std::mem::swap(&mut self.moving, changed);
        self.span = span;
    }

    /// Where a point's words of a span stand.
    fn words(&self, point: usize, span: Span) -> Range<usize> {
        let base = point * self.words;
        base + usize::from(span.start)..base + usize::from(span.end)
    }

    /// All that arrived at a point.
    fn seen(&self, point: usize) -> &[u64] {
        &self.seen[point * self.words..(point + 1) * self.words]
    }

    fn clear(&mut self) {
        while let Some(point) = self.visited.pop() {
            let range = self.words(point, self.spans[point]);
            self.seen[range].fill(0);
            self.spans[point] = Span::EMPTY;
        }
    }
}

/// A policy ready to step.
#[derive(Debug)]
pub struct Automaton<'a> {
    packets: &'a Packets,
    points: Vec<Point>,
    filters: Vec<u64>,
    /// By mark: the number of its remainder. Marks whose dups are followed by the same point share one.
    remainder_of: Vec<u8>,
    /// By remainder: where it begins.
    remainders: Vec<usize>,
    memo: Memo,
    flow: Flow,
    changed: Vec<u64>,
    scratch: Step,
}

impl<'a> Automaton<'a> {
    /// Compiles a policy.
    pub fn new(packets: &'a Packets, policy: &Policy) -> Automaton<'a> {
        let mut compiler = Compiler {
            packets,
            nodes: policy.nodes(),
            points: vec![Point::End],
            filters: Vec::new(),
            remainders: vec![NOWHERE; policy.dups() + 1],
        };
        compiler.remainders[0] = compiler.compile(policy.nodes().len() - 1, END);
        let (remainder_of, remainders) = distinct(&compiler.remainders);
        Automaton {
            packets,
            memo: Memo::new(remainders.len() * packets.count()),
            flow: Flow::new(compiler.points.len(), packets.words()),
            changed: Vec::new(),
            scratch: Step::new(packets),
            points: compiler.points,
            filters: compiler.filters,
            remainder_of,
            remainders,
        }
    }

    /// Does the state mark only bits that the policy has?
    pub fn has(&self, state: State) -> bool {
        let dups = self.remainder_of.len() - 1;
        state >> dups < 2
    }

    /// The step of a state, all of whose marks the policy has, at a packet.
    pub fn step(&mut self, state: State, packet: usize, step: &mut Step) {
        step.clear();
        let mut rest = self.marked_remainders(state);
        while rest != 0 {
            let number = self.known(rest.trailing_zeros() as usize, packet);
            rest &= rest - 1;
            self.memo.add(number, step);
        }
    }

    /// The remainders that a state marks, as bits.
    fn marked_remainders(&self, state: State) -> u64 {
        let mut remainders = 0;
        let mut rest = state;
        while rest != 0 {
            remainders |= 1 << self.remainder_of[rest.trailing_zeros() as usize];
            rest &= rest - 1;
        }
        remainders
    }

    /// The number of one remainder's step, remembered or worked out.
    fn known(&mut self, remainder: usize, packet: usize) -> usize {
        let entry = remainder * self.packets.count() + packet;
        if self.memo.known[entry] == 0 {
            self.memo.trim();
            self.run(self.remainders[remainder], packet);
            self.memo.known[entry] = self.remember() as u32;
        }
        self.memo.known[entry] as usize
    }

    /// Lets a packet flow from a point until nothing moves.
    fn run(&mut self, from: usize, packet: usize) {
        self.flow.clear();
        self.flow.start(packet);
        self.flow.arrive(from);
        while let Some(point) = self.flow.take() {
            self.pass_on(point);
        }
    }

    /// Passes the moving packets through a point.
    fn pass_on(&mut self, point: usize) {
        let packets = self.packets;
        match self.points[point] {
            Point::End | Point::Dup(_) => {}
            Point::Fork(one, other) => {
                self.flow.arrive(one);
                self.flow.arrive(other);
            }
            Point::Filter { filter, to } => {
                self.flow
                    .keep(&self.filters[filter..filter + packets.words()]);
                self.flow.arrive(to);
            }
            Point::Set { digit, value, to } => {
                self.flow.change(&mut self.changed, |packet| {
                    packets.with(packet, digit, value)
                });
                self.flow.arrive(to);
            }
        }
    }

    /// Keeps what the last run found and says the step's number.
    fn remember(&mut self) -> usize {
        let scratch = &mut self.scratch;
        scratch.clear();
        for &point in &self.flow.visited {
            if let Point::Dup(dup) = self.points[point] {
                let seen = self.flow.seen(point);
                set::unite(&mut scratch.marked, seen);
                set::for_each(seen, |packet| scratch.next[packet] |= 1 << dup);
            }
        }
        self.memo.keep(self.flow.seen(END), scratch)
    }
}

/// Numbers the distinct points: each mark's number, and the points by number.
fn distinct(points: &[usize]) -> (Vec<u8>, Vec<usize>) {
    let mut found: Vec<usize> = Vec::new();
    let numbers = points
        .iter()
        .map(|point| {
            let known = found.iter().position(|other| other == point);
            known.unwrap_or_else(|| {
                found.push(*point);
                found.len() - 1
            }) as u8
        })
        .collect();
    (numbers, found)
}

/// Builds the graph.
struct Compiler<'a> {
    packets: &'a Packets,
    nodes: &'a [Node],
    points: Vec<Point>,
    filters: Vec<u64>,
    remainders: Vec<usize>,
}

impl Compiler<'_> {
    fn point(&mut self, point: Point) -> usize {
        self.points.push(point);
        self.points.len() - 1
    }

    /// The point where a node begins that `then` follows.
    fn compile(&mut self, node: usize, then: usize) -> usize {
        match self.nodes[node] {
            Node::Drop => NOWHERE,
            Node::Id => then,
            Node::Field {
                act: Act::Set,
                field,
                value,
            } => self.change(field, value, then),
            Node::Field { .. } | Node::Not(_) => self.filter(node, then),
            Node::Dup(dup) => {
                self.remainders[dup] = then;
                self.point(Point::Dup(dup))
            }
            Node::Sum(one, other) => {
                let one = self.compile(one, then);
                let other = self.compile(other, then);
                self.fork(one, other)
            }
            Node::Sequence(one, other) => {
                let other = self.compile(other, then);
                self.compile(one, other)
            }
            Node::Star(body) => {
                let star = self.point(Point::Fork(NOWHERE, then));
                let body = self.compile(body, star);
                self.points[star] = Point::Fork(body, then);
                star
            }
        }
    }

    /// The packets that pass a node of tests alone.
    fn passed(&self, node: usize) -> Vec<u64> {
        let mut passed = vec![0; self.packets.words()];
        match self.nodes[node] {
            Node::Id => set::complement(&mut passed, self.packets.count()),
            Node::Field { act, field, value } => {
                let keep = act == Act::Equals;
                let digit = self.packets.digit(field);
                for packet in 0..self.packets.count() {
                    if self.packets.test(packet, digit, value) == keep {
                        set::insert(&mut passed, packet);
                    }
                }
            }
            Node::Sum(one, other) => {
                passed = self.passed(one);
                set::unite(&mut passed, &self.passed(other));
            }
            Node::Sequence(one, other) => {
                passed = self.passed(one);
                set::intersect(&mut passed, &self.passed(other));
            }
            Node::Not(child) => {
                passed = self.passed(child);
                set::complement(&mut passed, self.packets.count());
            }
            // ⊥; the others are no tests
            Node::Drop | Node::Dup(_) | Node::Star(_) => {}
        }
        passed
    }

    /// The point that passes on what passes a node of tests alone.
    fn filter(&mut self, node: usize, to: usize) -> usize {
        if to == NOWHERE {
            return NOWHERE;
        }
        let filter = self.filters.len();
        let passed = self.passed(node);
        self.filters.extend(passed);
        self.point(Point::Filter { filter, to })
    }

    fn fork(&mut self, one: usize, other: usize) -> usize {
        match (one, other) {
            (NOWHERE, point) | (point, NOWHERE) => point,
            _ if one == other => one,
            _ => self.point(Point::Fork(one, other)),
        }
    }

    fn change(&mut self, field: usize, value: usize, to: usize) -> usize {
        if to == NOWHERE {
            return NOWHERE;
        }
        let digit = self.packets.digit(field);
        self.point(Point::Set { digit, value, to })
    }
}

#[cfg(test)]
mod tests {
    use super::*;
    use crate::generate::tree::tree;
    use crate::names::{Fields, OwnedTables};
    use crate::policy::pair;
    use crate::random::Random;

    /// A memo that forgets gives the same steps.
    #[test]
    fn forgetting_changes_nothing() {
        let mut random = Random::new(21);
        let sizes = [3, 50];
        let fields = Fields::new(OwnedTables::numbered(&sizes).lend()).unwrap();
        for _ in 0..300 {
            let nodes = random.between(5, 40);
            let lists = tree(&mut random, &sizes, nodes, 8).lists();
            let pair = pair(&fields, lists.lists(), lists.lists()).unwrap();
            let (packets, policy) = (Packets::new(pair.numbering), pair.left);
            let (mut one, mut other) = (Step::new(&packets), Step::new(&packets));
            let mut remembering = Automaton::new(&packets, &policy);
            let mut forgetting = Automaton::new(&packets, &policy);
            forgetting.memo.most = 0;
            for _ in 0..40 {
                let state = random.below(1 << (policy.dups() + 1)) as State;
                let packet = random.below(packets.count());
                remembering.step(state, packet, &mut one);
                forgetting.step(state, packet, &mut other);
                assert_eq!(one.output, other.output);
                assert_eq!(one.next, other.next);
                assert_eq!(one.marked, other.marked);
            }
        }
    }
}
