#!/usr/bin/env python3
"""Writes the input and the expected output of the program engine_cases, worked out from document 01, "States and
rows", and document 02, A.1 and A.2, by way of document 004's right spines.

    tools/engine_cases.py            write crates/engine_cases/stdin and stdout
    tools/engine_cases.py --check    compare them with what is stored
"""
import itertools
import random
import sys

from calls import quarters
from policy_cases import chain, negated, negations
from stored import store

DROP, ID, EQ, NE, SET, DUP, SUM, SEQ, STAR, NOT = range(10)
sys.setrecursionlimit(10000)


class Term:
    """A policy as a term; terms are shared, so that results can be kept for each."""

    def __init__(self, kind, a=None, b=None):
        self.kind, self.a, self.b = kind, a, b
        self.passed, self.reached = {}, {}


ONE = Term(ID)


def terms(nodes):
    """The term of the last node; dups are numbered in node order."""
    made, dups = [], 0
    for kind, a, b in nodes:
        if kind in (SUM, SEQ):
            made.append(Term(kind, made[a], made[b]))
        elif kind in (STAR, NOT):
            made.append(Term(kind, made[a]))
        elif kind == DUP:
            dups += 1
            made.append(Term(kind, dups))
        else:
            made.append(Term(kind, a, b))
    return made[-1]


def spines(term):
    """rsp: for each dup the term that remains after it."""
    if term.kind == DUP:
        return {term.a: ONE}
    if term.kind == SUM:
        return {**spines(term.a), **spines(term.b)}
    if term.kind == SEQ:
        first = {i: Term(SEQ, r, term.b) for i, r in spines(term.a).items()}
        return {**first, **spines(term.b)}
    if term.kind == STAR:
        return {i: Term(SEQ, r, term) for i, r in spines(term.a).items()}
    return {}


class World:
    """Packets of fields, of which all that have a size count; or of the fields that are given with theirs."""

    def __init__(self, sizes):
        self.sizes = sizes if isinstance(sizes, dict) else dict(enumerate(sizes))
        self.count, self.strides = 1, {}
        for field in sorted(self.sizes, reverse=True):
            self.strides[field] = self.count
            self.count *= self.sizes[field]

    def value(self, field, packet):
        return packet // self.strides[field] % self.sizes[field]

    def action(self, term, packets):
        if term.kind == EQ:
            return frozenset(p for p in packets if self.value(term.a, p) == term.b)
        if term.kind == NE:
            return frozenset(p for p in packets if self.value(term.a, p) != term.b)
        return frozenset(p + (term.b - self.value(term.a, p)) * self.strides[term.a] for p in packets)

    def passes(self, term, packets):
        """The packets of one-packet traces from the given ones."""
        if packets not in term.passed:
            term.passed[packets] = self.passing(term, packets)
        return term.passed[packets]

    def passing(self, term, packets):
        if term.kind in (DROP, DUP) or not packets:
            return frozenset()
        if term.kind == ID:
            return packets
        if term.kind == SUM:
            return self.passes(term.a, packets) | self.passes(term.b, packets)
        if term.kind == SEQ:
            return self.passes(term.b, self.passes(term.a, packets))
        if term.kind == STAR:
            found = packets
            while True:
                more = found | self.passes(term.a, found)
                if more == found:
                    return found
                found = more
        if term.kind == NOT:
            return frozenset(p for p in packets if not self.passes(term.a, frozenset([p])))
        return self.action(term, packets)

    def reaches(self, term, packets):
        """For each dup the packets with which it is reached before any other."""
        if packets not in term.reached:
            term.reached[packets] = self.reaching(term, packets)
        return term.reached[packets]

    def reaching(self, term, packets):
        if not packets:
            return {}
        if term.kind == DUP:
            return {term.a: packets}
        if term.kind == SUM:
            return joined(self.reaches(term.a, packets), self.reaches(term.b, packets))
        if term.kind == SEQ:
            return joined(self.reaches(term.a, packets), self.reaches(term.b, self.passes(term.a, packets)))
        if term.kind == STAR:
            return self.reaches(term.a, self.passes(term, packets))
        return {}


def joined(a, b):
    return {i: a.get(i, frozenset()) | b.get(i, frozenset()) for i in {**a, **b}}


def stepped(world, policy, state, packet):
    """The output of a state at a packet, and the packets at which a state is next, with that state."""
    remainders = {0: policy, **spines(policy)}
    output, following = frozenset(), {}
    for i, remainder in remainders.items():
        if state >> i & 1:
            start = frozenset([packet])
            output |= world.passes(remainder, start)
            for dup, packets in world.reaches(remainder, start).items():
                for p in packets:
                    following[p] = following.get(p, 0) | 1 << dup
    return output, following


def step(sizes, nodes, state, packet):
    output, following = stepped(World(sizes), terms(nodes), state, packet)
    return (
        "output" + "".join(" %d" % p for p in sorted(output))
        + ", next" + "".join(" %d:%d" % (p, m) for p, m in sorted(following.items()))
    )


def random_policy(rng, sizes, count):
    """A legal list in an order that need not be postfix: loose nodes are joined at random until one is left."""
    leaves = max(1, count // 2)
    nodes, loose = [], []
    for _ in range(leaves):
        kind = rng.choice((DROP, ID, EQ, NE, SET, SET, DUP, DUP, EQ))
        if kind == DUP and sum(k == DUP for k, _, _ in nodes) >= 63:
            kind = ID
        if kind in (EQ, NE, SET):
            field = rng.randrange(len(sizes))
            nodes.append((kind, field, rng.randrange(sizes[field])))
        else:
            nodes.append((kind, 0, 0))
        loose.append(len(nodes) - 1)
    while len(loose) > 1 or rng.random() < 0.3:
        a = loose.pop(rng.randrange(len(loose)))
        if rng.random() < 0.25 or not loose:
            nodes.append((STAR, a, 0))
        else:
            b = loose.pop(rng.randrange(len(loose)))
            nodes.append((rng.choice((SUM, SEQ)), a, b))
        loose.append(len(nodes) - 1)
    return nodes


def carries():
    """A counter over two fields, one step at a time: its star comes through every packet."""
    nodes, total = [], None

    def add(*parts):
        nonlocal total
        at = None
        for part in parts:
            nodes.append(part)
            if at is not None:
                nodes.append((SEQ, at, len(nodes) - 1))
            at = len(nodes) - 1
        if total is not None:
            nodes.append((SUM, total, at))
            at = len(nodes) - 1
        total = at

    for v in range(31):
        add((EQ, 1, v), (SET, 1, v + 1))
        add((EQ, 1, 31), (EQ, 0, v), (SET, 1, 0), (SET, 0, v + 1))
    nodes.append((STAR, total, 0))
    return nodes


def cases():
    stars = [(ID, 0, 0)] + [(STAR, i, 0) for i in range(500)]
    yield [32, 32], stars, 1, 1023
    yield [32, 32], [(SET, 1, 5)] + stars[1:], 1, 7
    yield [32, 32], [(DUP, 0, 0)] + stars[1:], 3, 7
    # without a record of what has entered a node, each level would double the work
    deep = [(ID, 0, 0)]
    for k in range(170):
        child = len(deep) - 1
        deep += [(SET, 0, k), (SEQ, len(deep), child), (STAR, len(deep) + 1, 0)]
    yield [1024], deep, 1, 1000
    yield [32, 32], carries(), 1, 0
    yield [2], [(DUP, 0, 0), (STAR, 0, 0), (STAR, 1, 0), (SET, 0, 1), (SEQ, 3, 2)], 3, 0
    yield [2], [(EQ, 0, 0), (DUP, 0, 0), (SEQ, 0, 1)], 1, 0
    yield [2], [(EQ, 0, 0), (DUP, 0, 0), (SEQ, 0, 1)], 1, 1
    yield [1], [(DUP, 0, 0), (DROP, 0, 0), (SEQ, 0, 1)], 1, 0
    yield [1], [(DUP, 0, 0), (DUP, 0, 0), (SEQ, 1, 0)], 1, 0
    yield [1], [(DUP, 0, 0), (DUP, 0, 0), (SEQ, 1, 0)], 4, 0
    for count in (31, 32, 33, 1024):
        nodes, loose = [], []
        for v in range(min(count, 40) - 1):
            nodes += [(EQ, 0, v), (SET, 0, v + 1)]
            nodes.append((SEQ, len(nodes) - 2, len(nodes) - 1))
            loose.append(len(nodes) - 1)
        total = loose[0]
        for n in loose[1:]:
            nodes.append((SUM, total, n))
            total = len(nodes) - 1
        nodes.append((STAR, total, 0))
        yield [count], nodes, 1, 0
        yield [count], nodes, 1, count - 1
        nodes = nodes + [(DUP, 0, 0), (SEQ, len(nodes) - 1, len(nodes))]
        yield [count], nodes, 1, 0
        yield [count], nodes, 3, 5
    rng = random.Random(2)
    for sizes in ([1], [2], [31], [32], [33], [2, 3], [3, 1, 4], [2, 2, 2, 2], [32, 32], [1024], [4, 8, 8]):
        world = World(sizes)
        for length, times in ((4, 3), (8, 3), (16, 3), (30, 2), (60, 1)):
            for _ in range(times):
                nodes = random_policy(rng, sizes, length)
                dups = sum(kind == DUP for kind, _, _ in nodes)
                yield sizes, nodes, rng.choice((1, (2 << dups) - 1, rng.randrange(2 << dups))), rng.randrange(world.count)


def negation_cases():
    """Under stars and behind changes, beside dups, in remainders, and as deep as can be."""
    yield [32, 32], negations(500, (EQ, 1, 31)), 1, 63
    yield [33], negations(41, (EQ, 0, 32)), 1, 32
    yield [33], negations(41, (EQ, 0, 32)), 1, 31
    # the negation of a sum of all values but one, and of all
    for size, tested in ((3, 2), (8, 8), (33, 7)):
        nodes = [(EQ, 0, size - 1)]
        for value in range(1, tested):
            nodes += [(EQ, 0, size - 1 - value), (SUM, len(nodes) - 1, len(nodes))]
        nodes.append((NOT, len(nodes) - 1, 0))
        for packet in (0, size - 1):
            yield [size], nodes, 1, packet
    # (f0<-1;!f0=0)*, and with dups before and behind
    star = [(SET, 0, 1), (EQ, 0, 0), (NOT, 1, 0), (SEQ, 0, 2), (STAR, 3, 0)]
    recorded = [(DUP, 0, 0), (EQ, 0, 0), (NOT, 1, 0), (SEQ, 0, 2), (STAR, 3, 0), (DUP, 0, 0), (SEQ, 4, 5)]
    for packet in range(3):
        yield [3], star, 1, packet
        for state in (1, 2, 7):
            yield [3], recorded, state, packet
    # many packets reach a negation at once, and each is asked by itself
    many = [(SET, 0, 0)]
    for value in (7, 31, 32, 33, 39):
        many += [(SET, 0, value), (SUM, len(many) - 1, len(many))]
    at = len(many)
    tested = [(NE, 0, 7), (NE, 0, 33), (SEQ, at, at + 1), (NOT, at + 2, 0), (SEQ, at - 1, at + 3)]
    yield [40], many + tested, 1, 3
    yield [40], many + tested + [(DUP, 0, 0), (SEQ, at + 4, at + 5)], 1, 3
    rng = random.Random(22)
    for sizes in ([1], [2], [31], [32], [33], [2, 3], [3, 1, 4], [2, 2, 2, 2], [32, 32]):
        world = World(sizes)
        for length in (6, 12):
            nodes = negated(rng, random_policy(rng, sizes, length))
            dups = sum(kind == DUP for kind, _, _ in nodes)
            yield sizes, nodes, rng.choice((1, (2 << dups) - 1, rng.randrange(2 << dups))), rng.randrange(world.count)


def wide_cases():
    """63 dups: one after the other, all marked; and all reached from the last, under a star."""
    dups = [(DUP, 0, 0)] * 63
    yield [1], chain(dups), (1 << 64) - 1, 0
    yield [2], chain(dups, SUM) + [(STAR, 124, 0)], 1 << 63, 1


def spread(xs):
    return "%d%s" % (len(xs), "".join(" %d" % x for x in xs))


def main():
    given, expected = [], []
    for sizes, nodes, state, packet in itertools.chain(cases(), negation_cases(), wide_cases()):
        columns = list(zip(*nodes))
        given.append(" ".join([spread(sizes)] + [spread(c) for c in columns] + [str(n) for n in (*quarters(state), packet)]))
        expected.append(step(sizes, nodes, state, packet))
    store("engine_cases", given, expected, sys.argv[1:] == ["--check"])


if __name__ == "__main__":
    main()
