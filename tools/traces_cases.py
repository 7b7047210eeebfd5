"""Traces checked, with what the trace checker answers worked out from documents 01 and 02 (A.1, A.2, A.4, A.6) by a reading of document 000's Figure 1: which
part of a trace each node of a policy can have written, and, for short traces, the sets of traces themselves."""
import random
import sys

from calls import TRACE, call, cleared, distinct, lists_of, numbers_of
from policy_cases import DROP, ID, EQ, NE, SET, DUP, SUM, SEQ, STAR, NOT, chain, gathered, legal, lists, naming, negated, negations, stars
from policy_cases import answer as legality
from tables import mentioned, tables_of

sys.setrecursionlimit(10000)
WORDS = 16384


class Packets:
    """Packets as numbers over the fields that count, given with their sizes, the first varying slowest."""

    def __init__(self, counted):
        self.sizes = counted
        self.count, self.strides = 1, {}
        for field in sorted(counted, reverse=True):
            self.strides[field] = self.count
            self.count *= counted[field]

    def value(self, field, packet):
        return packet // self.strides[field] % self.sizes[field]

    def acted(self, kind, field, value, packet):
        """The packet behind a test or a change, or None."""
        old = self.value(field, packet)
        if kind == SET:
            return packet + (value - old) * self.strides[field]
        return packet if (old == value) == (kind == EQ) else None


def joined(before, then):
    """Figure 1's sequence: all ab where aβ is a trace of the first and b one of the second from β."""
    return {a[:-1] + b for a in before for b in then(a[-1], len(a) - 1)}


def traces(packets, nodes, n, packet, most):
    """Figure 1's traces of node n from a packet, those of at most so many packets."""
    kind, a, b = nodes[n]
    if most < 1 or kind == DROP:
        return set()
    if kind == ID:
        return {(packet,)}
    if kind in (EQ, NE, SET):
        end = packets.acted(kind, a, b, packet)
        return set() if end is None else {(end,)}
    if kind == DUP:
        return {(packet, packet)} if most > 1 else set()
    if kind == SUM:
        return traces(packets, nodes, a, packet, most) | traces(packets, nodes, b, packet, most)
    if kind == SEQ:
        return joined(traces(packets, nodes, a, packet, most), lambda p, used: traces(packets, nodes, b, p, most - used))
    if kind == NOT:
        # the child's traces, which are tests alone, have one packet
        return set() if traces(packets, nodes, a, packet, most) else {(packet,)}
    power = {(packet,)}
    found = set(power)
    while power:
        power = joined(power, lambda p, used: traces(packets, nodes, a, p, most - used)) - found
        found |= power
    return found


class Written:
    """Of one trace: from a packet and a place, at which packet and place a node can end that wrote what stands between."""

    def __init__(self, packets, nodes, trace):
        self.packets, self.nodes, self.trace = packets, nodes, trace
        self.known = {}

    def ends(self, n, packet, place):
        at = (n, packet, place)
        if at not in self.known:
            self.known[at] = self.ending(n, packet, place)
        return self.known[at]

    def ending(self, n, packet, place):
        kind, a, b = self.nodes[n]
        if kind == DROP:
            return frozenset()
        if kind == ID:
            return frozenset([(packet, place)])
        if kind in (EQ, NE, SET):
            end = self.packets.acted(kind, a, b, packet)
            return frozenset() if end is None else frozenset([(end, place)])
        if kind == DUP:
            # the last packet of a trace is no record
            fits = place + 1 < len(self.trace) and self.trace[place] == packet
            return frozenset([(packet, place + 1)]) if fits else frozenset()
        if kind == SUM:
            return self.ends(a, packet, place) | self.ends(b, packet, place)
        if kind == SEQ:
            return frozenset(e for p, i in self.ends(a, packet, place) for e in self.ends(b, p, i))
        if kind == NOT:
            return frozenset() if self.ends(a, packet, place) else frozenset([(packet, place)])
        found, new = set(), [(packet, place)]
        while new:
            end = new.pop()
            if end not in found:
                found.add(end)
                new.extend(self.ends(a, *end))
        return frozenset(found)


def has(packets, nodes, packet, trace):
    if not trace:
        return False
    root = len(nodes) - 1
    answer = (trace[-1], len(trace) - 1) in Written(packets, nodes, trace).ends(root, packet, 0)
    if len(trace) <= 4 and packets.count <= 6 and len(nodes) <= 20:
        assert answer == (tuple(trace) in traces(packets, nodes, root, packet, len(trace)))
    return answer


def answer(fields, left, right, entering, trace, words):
    refused = legality(fields, [left, right])
    if refused.startswith("refused"):
        return refused, False
    if words < WORDS:
        return "refused 10 0 0", False
    packets = Packets(mentioned(tables_of(fields).sizes(), (left, right)))
    for place, packet in enumerate([entering] + trace):
        if packet >= packets.count:
            return "refused 13 0 %d" % place, True
    found = tuple(has(packets, list(zip(*p)), entering, trace) for p in (left, right))
    return {(True, True): "both", (True, False): "left", (False, True): "right", (False, False): "neither"}[found], True


class Case:
    """A call; fields are tables, or the sizes of f0, f1, .. in both."""

    def __init__(self, fields, left, right, entering, rest, words=WORDS, times=0, part=()):
        self.fields, self.entering, self.words, self.times = fields, entering, words, times
        self.left, self.right = (p if isinstance(p, tuple) else lists(p) for p in (left, right))
        self.part, self.rest = list(part), list(rest)

    def call(self):
        trace = self.part * self.times + self.rest
        said, done = answer(self.fields, self.left, self.right, self.entering, trace, self.words)
        parts = numbers_of([(self.times, self.part), (1, self.rest)])
        inputs = [*lists_of(self.fields, self.left, self.right), self.entering, *parts, self.words]
        return said, call(TRACE, inputs, said, cleared(self.words, done))


def leaf(kind, a=0, b=0):
    return [(kind, a, b)]


drop, one, dup = leaf(DROP), leaf(ID), leaf(DUP)


def join(kind, p, q):
    n = len(p)
    moved = [(k, a + n if k in (SUM, SEQ, STAR, NOT) else a, b + n if k in (SUM, SEQ) else b) for k, a, b in q]
    return p + moved + [(kind, n - 1, n + len(q) - 1)]


def star(p):
    return p + [(STAR, len(p) - 1, 0)]


def no(p):
    return p + [(NOT, len(p) - 1, 0)]


def named(p, sizes):
    """The policy, and beside it tests that no packet comes to and that name of each field every value but the last."""
    return join(SUM, p, join(SEQ, drop, naming(sizes)))


def packets_of(sizes, *policies):
    """The packets of policies as nodes."""
    return Packets(mentioned(sizes, [lists(p) for p in policies]))


# 1,024 packets, and 33
MOST, SOME = [2, 2, 2, 2, 2, 2, 4, 4], [3, 11]


def pairs():
    """Document 01's pairs, each with the trace that tells it apart and with others."""
    for no_field, packet in ((drop, 0), (drop, 1), (named(drop, [2]), 0), (named(drop, [2]), 1)):
        yield Case([2], no_field, one, 0, [packet])
    first = join(SEQ, leaf(EQ, 0, 0), dup), join(SEQ, dup, leaf(EQ, 0, 0))
    for entering in (0, 1):
        for trace in ([0], [0, 0], [1, 0], [0, 0, 0]):
            yield Case([2], *first, entering, trace)
    values = join(SUM, leaf(EQ, 0, 0), leaf(EQ, 0, 1))
    yield Case([2], values, one, 1, [1])
    yield Case([3], values, one, 1, [1])
    yield Case([3], values, one, 2, [2])
    for n in range(5):
        yield Case([1], star(dup), join(SUM, one, join(SEQ, dup, star(dup))), 0, [0] * n)
        yield Case([1], dup, join(SEQ, dup, dup), 0, [0] * n)
    for trace in ([0], [1], [0, 1]):
        yield Case([2], join(SEQ, leaf(SET, 0, 1), leaf(EQ, 0, 1)), leaf(SET, 0, 1), 0, trace)
        yield Case([2], join(SUM, leaf(SET, 0, 0), leaf(SET, 0, 1)), one, 0, trace)
        yield Case([2], one, join(SUM, leaf(SET, 0, 0), leaf(SET, 0, 1)), 0, trace)
    yield Case([1], join(SEQ, dup, drop), drop, 0, [0, 0])


def out_of_range():
    """Length 0, and 13 at each place."""
    pair = star(dup), named(one, [2])
    yield Case([2], *pair, 0, [])
    yield Case([2], *pair, 1, [])
    for bad in (2, 3, 65535):
        yield Case([2], *pair, bad, [])
        yield Case([2], *pair, bad, [0, bad])
        yield Case([2], *pair, 0, [bad])
        yield Case([2], *pair, 0, [bad, 0, 0])
        yield Case([2], *pair, 0, [0, bad, 0])
        yield Case([2], *pair, 0, [0, bad, bad])
        yield Case([2], *pair, 0, [0, 0, bad])
    most = star(dup), named(one, MOST)
    yield Case(MOST, *most, 1023, [1023, 1023])
    yield Case(MOST, *most, 1024, [1023, 1023])
    yield Case(MOST, *most, 1023, [1023, 1024])
    yield Case([1], one, one, 0, [1], times=65535, part=[0])
    # a packet out of range behind one that no policy has
    yield Case([2], one, named(one, [2]), 0, [1, 2])


def work_lists():
    for words in (0, 1, WORDS - 1, WORDS, WORDS + 1, 20000):
        yield Case([2], one, named(dup, [2]), 0, [0], words)
        yield Case([2], one, dup, 0, [0, 0], words)
        yield Case([2], one, dup, 0, [], words)
        yield Case([2], one, named(dup, [2]), 0, [2], words)


def refusals():
    """Up to 10, each with the causes behind it: a work list too short or long enough, a packet out of range."""
    good = lists(one)
    bad = [lists([]), ([1], [0], [])]
    bad += [lists(leaf(*node)) for node in ((10,), (ID, 0, 1), (EQ, 0, 2), (EQ, 1, 0), (STAR, 0, 0))]
    bad += [lists(one + one), lists(one + [(SUM, 0, 0)]), lists(chain(dup * 64))]
    for words in (WORDS - 1, WORDS):
        for sizes in ([], [2] * 9, [2, 0], [0] * 9, [1024, 2, 0]):
            yield Case(sizes, bad[0], bad[0], 65535, [65535], words)
        yield Case([5, 205], leaf(EQ, 0, 4), leaf(SET, 1, 0), 65535, [65535], words)
        for policy in bad:
            yield Case([2], policy, good, 65535, [65535], words)
            yield Case([2], good, policy, 65535, [65535], words)
        for left, right in zip(bad, bad[1:]):
            yield Case([2], left, right, 0, [0], words)
            yield Case([2], right, left, 0, [0], words)
        yield Case([2], good, good, 65535, [65535], words)
    yield Case([2], lists(stars(513)), good, 65535, [65535])
    yield Case([2], good, lists(stars(513)), 65535, [65535])
    yield Case([2], stars(512), named(chain(dup * 63), [2]), 1, [1] * 64)
    yield Case([2], stars(512), named(chain(dup * 63), [2]), 1, [1] * 63)
    yield Case([2], chain(dup * 63), named(chain(dup * 62), [2]), 1, [1] * 64)
    yield Case([2], chain(dup * 63, SUM), named(chain(dup * 32, SUM), [2]), 1, [1] * 2)


def counter(n):
    """Counts a field from 0 to n - 1 and round again, recording each."""
    steps = None
    for v in range(n):
        step = join(SEQ, leaf(EQ, 0, v), join(SEQ, dup, leaf(SET, 0, (v + 1) % n)))
        steps = step if steps is None else join(SUM, steps, step)
    return star(steps)


def long():
    turn = counter(5)
    for times, rest in ((100, [0]), (100, [1]), (100, [0, 0]), (60, [0, 1, 2]), (60, [1, 2])):
        yield Case([5], turn, star(dup), 0, rest, times=times, part=range(5))
        yield Case([5], star(dup), turn, 0, rest, times=times, part=range(5))
    yield Case([5], drop, turn, 0, [0], times=13107, part=range(5))
    yield Case([5], turn, star(join(SUM, turn, dup)), 3, [3, 4, 0, 0, 0], times=70, part=[3, 4, 0, 1, 2])
    yield Case([1], star(dup), star(join(SEQ, dup, dup)), 0, [0], times=65535, part=[0])
    yield Case([1], star(dup), star(join(SEQ, dup, dup)), 0, [0, 0], times=65534, part=[0])
    loops = star(dup), named(star(dup), [2])
    yield Case([2], *loops, 0, [1], times=65535, part=[0])
    yield Case([2], *loops, 0, [0, 0], times=65535, part=[0])
    # the wrong packet comes early, and both states are 0 from then on
    yield Case([2], *loops, 0, [0], times=65535, part=[1])


def random_pairs():
    rng = random.Random(4)
    for sizes in ([1], [2], [3], [2, 2], [2, 3], [3, 2], [2, 1, 2], [31], SOME, MOST):
        for leaves in (2, 3, 4, 7):
            for count in range(3 if leaves < 7 else 2):
                left, right = legal(rng, sizes, leaves), legal(rng, sizes, leaves)
                if len(sizes) > 1 and count:
                    right = named(right, sizes)
                packets = packets_of(sizes, left, right)
                entering = rng.randrange(packets.count)
                short = packets.count <= 6 and leaves <= 4
                found = [
                    sorted(traces(packets, p, len(p) - 1, entering, 4)) if short else []
                    for p in (left, right, join(SUM, left, right))
                ]
                for some in found:
                    if some:
                        yield Case(sizes, left, right, entering, rng.choice(some))
                trace = [entering] * rng.randrange(4) + [rng.randrange(packets.count)]
                yield Case(sizes, left, right, entering, trace)


def negation_pairs():
    """Negations before and behind a dup, in a star, as deep as can be; and 19 with the causes around it."""
    zero = leaf(EQ, 0, 0)
    two = join(SEQ, dup, no(zero)), join(SEQ, no(zero), dup)
    for entering in (0, 1):
        for trace in ([entering], [0, 0], [1, 1], [0, 1], [1, 1, 1]):
            yield Case([2], *two, entering, trace)
            yield Case([2], two[0], join(SEQ, no(no(zero)), dup), entering, trace)
            yield Case([2], star(two[0]), star(join(SUM, two[1], dup)), entering, trace)
    both = no(join(SEQ, zero, leaf(EQ, 1, 0))), join(SUM, leaf(NE, 0, 0), leaf(NE, 1, 0))
    for packet in range(4):
        yield Case([2, 2], *both, packet, [packet])
        yield Case([2, 2], both[0], no(both[1]), packet, [packet])
    turned = star(join(SEQ, leaf(SET, 0, 1), no(zero))), join(SUM, one, leaf(SET, 0, 1))
    for entering in range(3):
        for last in range(3):
            yield Case([3], *turned, entering, [last])
    for count in (500, 511):
        for packet in (3, 4, 1023):
            yield Case(MOST, negations(count, (EQ, 7, 3)), named(leaf(EQ, 7, 3), MOST), packet, [packet])
    guarded = star(join(SEQ, no(leaf(EQ, 0, 4)), dup)), named(star(dup), [5])
    yield Case([5], *guarded, 3, [3], times=65535, part=[3])
    yield Case([5], *guarded, 4, [4], times=500, part=[4])
    good, many = lists(one), lists(gathered(64))
    bad = [lists(no(p)) for p in (no(dup), star(zero), join(SUM, zero, dup), leaf(SET, 0, 1))]
    for words in (WORDS - 1, WORDS):
        for policy in bad:
            yield Case([2], policy, good, 65535, [65535], words)
            yield Case([2], good, policy, 65535, [65535], words)
            yield Case([2], many, policy, 0, [0], words)
            yield Case([2], policy, many, 0, [0], words)
            yield Case([2], policy, lists(one + one), 0, [0], words)
        yield Case([2], bad[2], bad[1], 0, [0], words)
        yield Case([2, 0], bad[0], bad[1], 0, [0], words)
    rng = random.Random(14)
    for sizes in ([1], [2], [3], [2, 2], [2, 3], SOME):
        for leaves in (2, 3, 4, 7):
            for count in range(3):
                left, right = (negated(rng, legal(rng, sizes, leaves)) for _ in range(2))
                if len(sizes) > 1 and count:
                    right = named(right, sizes)
                packets = packets_of(sizes, left, right)
                entering = rng.randrange(packets.count)
                short = packets.count <= 6 and leaves <= 4
                for p in (left, right) if short else ():
                    some = sorted(traces(packets, p, len(p) - 1, entering, 4))
                    if some:
                        yield Case(sizes, left, right, entering, rng.choice(some))
                yield Case(sizes, left, right, entering, [entering] * rng.randrange(4) + [rng.randrange(packets.count)])


@distinct
def calls():
    groups = (pairs, out_of_range, work_lists, refusals, long, random_pairs, negation_pairs)
    cases = [c.call() for group in groups for c in group()]
    for word in ("left", "right", "both", "neither"):
        assert sum(said == word for said, _ in cases) > 20, word
    return [stored for _, stored in cases]
