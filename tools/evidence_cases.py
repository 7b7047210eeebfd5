"""Tables checked, with what the evidence checker answers worked out from document 01, "Row rules for evidence" and "Causes,
in the order tested", and document 02, A.1, A.2, A.4 and A.6; output and next by way of document 004's right spines."""
import itertools
import random

from calls import EVIDENCE, RECORDS, call, cleared, distinct, fields_of, lists_of, numbers_of, plain, quarters, runs
from engine_cases import DROP, DUP, EQ, ID, NE, NOT, SEQ, SET, STAR, SUM, World, random_policy, stepped, terms
from policy_cases import answer as legality
from policy_cases import chain, gathered, lists, naming, negated, negations
from tables import mentioned, tables_of

WORK = 16384
RULES = ["a", "b", "c", "d"]


class Pair:
    """Two legal policies, and what rows say of them."""

    def __init__(self, sizes, left, right):
        self.world = World(mentioned(sizes, (lists(left), lists(right))))
        self.sides = [(terms(nodes), sum(kind == DUP for kind, _, _ in nodes)) for nodes in (left, right)]
        self.known = {}

    def handled(self, row):
        """Are the outputs equal, and which row is next at each packet?"""
        if row not in self.known:
            packet, *states = row
            steps = [stepped(self.world, term, state, packet) for (term, _), state in zip(self.sides, states)]
            following = [(g, steps[0][1].get(g, 0), steps[1][1].get(g, 0)) for g in range(self.world.count)]
            self.known[row] = (steps[0][0] == steps[1][0], following)
        return self.known[row]

    def fits(self, row):
        packet, *states = row
        return packet < self.world.count and all(s < 2 << dups for s, (_, dups) in zip(states, self.sides))

    def check(self, rows):
        for i, row in enumerate(rows):
            if not self.fits(row):
                return "a %d" % i
        present = set(rows)
        for alpha in range(self.world.count):
            if (alpha, 1, 1) not in present:
                return "b %d" % alpha
        kept = set()
        for i, row in enumerate(rows):
            if row in kept:
                continue
            same, following = self.handled(row)
            if not same:
                return "c %d" % i
            for gamma, left, right in following:
                if (left or right) and (gamma, left, right) not in present:
                    return "d %d %d" % (i, gamma)
            kept.add(row)
        return "accepted"

    def row_order(self, most):
        """The row order of an equal pair; None if it has more rows."""
        rows = [(alpha, 1, 1) for alpha in range(self.world.count)]
        listed = set(rows)
        for row in rows:
            same, following = self.handled(row)
            assert same
            for new in following:
                if (new[1] or new[2]) and new not in listed:
                    listed.add(new)
                    rows.append(new)
            if len(rows) > most:
                return None
        return rows


def answer(fields, policies, rows, lengths, words, last):
    """The answer with the rows again and again in lists of these lengths, a row put last instead, and so many words; and
    whether the work list is set to 0. Fields are tables, or the sizes of f0, f1, .. in both."""
    said = legality(fields, policies)
    if said.startswith("refused"):
        return said, False
    if len(set(lengths)) > 1 or lengths[0] > 65535 or words < WORK:
        return "refused 10 0 0", False
    pair = Pair(tables_of(fields).sizes(), *(list(zip(*policy)) for policy in policies))
    table = list(itertools.islice(itertools.cycle(rows), lengths[0])) if rows else [(0, 0, 0)] * lengths[0]
    if last and table:
        table[-1] = tuple(last)
    return pair.check(table), True


# ---- policies

P2 = ([2], [(EQ, 0, 0), (DUP, 0, 0), (SEQ, 0, 1)], [(DUP, 0, 0), (EQ, 0, 0), (SEQ, 0, 1)])
P2_ROWS = [(0, 1, 1), (1, 1, 1), (0, 2, 2), (1, 0, 2)]
P5 = ([1], [(DUP, 0, 0), (STAR, 0, 0)], [(ID, 0, 0), (DUP, 0, 0), (DUP, 0, 0), (STAR, 2, 0), (SEQ, 1, 3), (SUM, 0, 4)])
P5_ROWS = [(0, 1, 1), (0, 2, 2), (0, 2, 4)]
P10 = ([1], [(DUP, 0, 0), (DROP, 0, 0), (SEQ, 0, 1)], [(DROP, 0, 0)])
P10_ROWS = [(0, 1, 1), (0, 2, 0)]
# dup;!f0=0 and !f0=0;dup
NEGATED = ([2], [(DUP, 0, 0), (EQ, 0, 0), (NOT, 1, 0), (SEQ, 0, 2)], [(EQ, 0, 0), (NOT, 0, 0), (DUP, 0, 0), (SEQ, 1, 2)])
NEGATED_ROWS = [(0, 1, 1), (1, 1, 1), (0, 2, 0), (1, 2, 2)]
# 65 packets, over two words of a packet set; and 1,024
MANY = [5, 13]
MOST = [2, 2, 2, 2, 2, 2, 4, 4]


def starts(count):
    return [(alpha, 1, 1) for alpha in range(count)]


def shifted(nodes, by):
    return [(k, a + by if k in (SUM, SEQ, STAR, NOT) else a, b + by if k in (SUM, SEQ) else b) for k, a, b in nodes]


def sum_of(a, b):
    return a + shifted(b, len(a)) + [(SUM, len(a) - 1, len(a) + len(b) - 1)]


def seq_of(a, b):
    return a + shifted(b, len(a)) + [(SEQ, len(a) - 1, len(a) + len(b) - 1)]


def starred(a):
    return a + [(STAR, len(a) - 1, 0)]


def negation(a):
    return a + [(NOT, len(a) - 1, 0)]


def dups(count):
    nodes = [(DUP, 0, 0)]
    for _ in range(count - 1):
        nodes = seq_of(nodes, [(DUP, 0, 0)])
    return nodes


def named(nodes, sizes):
    """The policy, and beside it tests that no packet comes to and that name of each field every value but the last: every field counts,
    and all its values are told apart. Dups keep their numbers."""
    return sum_of(nodes, seq_of([(DROP, 0, 0)], naming(sizes)))


def equal_pairs(rng):
    """Pairs that are equal by the laws of NetKAT; of several fields all count."""
    for sizes in ([1], [2], [3], [2, 3], [3, 11]):
        for length in (6, 10):
            a = random_policy(rng, sizes, length)
            b = random_policy(rng, sizes, length // 2)
            for left, right in (
                (a, sum_of(a, a)), (seq_of([(ID, 0, 0)], a), sum_of(a, [(DROP, 0, 0)])), (sum_of(a, b), sum_of(b, a)),
                (starred(a), starred(starred(a))), (starred(a), sum_of([(ID, 0, 0)], seq_of(a, starred(a)))),
            ):
                yield sizes, left, named(right, sizes) if len(sizes) > 1 else right


def equal_negations(rng):
    """Pairs that are equal by the laws of tests, each beside policies that are not; of several fields all count."""
    for sizes in ([2], [3], [2, 3], [3, 11]):
        for length in (2, 4, 8):
            a, b = ([node for node in negated(rng, tests(rng, sizes, length))] for _ in range(2))
            rest = seq_of([(DUP, 0, 0)], random_policy(rng, sizes, 5))
            for left, right in (
                (negation(negation(a)), a),
                (negation(sum_of(a, b)), seq_of(negation(a), negation(b))),
                (negation(seq_of(a, b)), sum_of(negation(b), negation(a))),
                (sum_of(a, negation(a)), [(ID, 0, 0)]),
                (seq_of(negation(a), a), [(DROP, 0, 0)]),
            ):
                left, right = (starred(seq_of(tested, rest)) for tested in (left, right))
                yield sizes, left, named(right, sizes) if len(sizes) > 1 else right


def tests(rng, sizes, count):
    """A random policy of tests alone."""
    if count < 2:
        field = rng.randrange(len(sizes))
        return [rng.choice(((DROP, 0, 0), (ID, 0, 0), *[(kind, field, rng.randrange(sizes[field])) for kind in (EQ, NE)]))]
    share = rng.randrange(1, count)
    return rng.choice((sum_of, seq_of))(tests(rng, sizes, share), tests(rng, sizes, count - share))


# ---- tables

def broken(rng, pair, rows, tries):
    """Tables with one row more or less, one for each rule and place of the spot: first, middle, last."""
    found = {}
    for _ in range(tries):
        table = list(rows)
        at = rng.choice((0, rng.randrange(len(table) + 1), len(table)))
        bits = [2 << d for _, d in pair.sides]
        choice = rng.random()
        if choice < 0.5:
            table.insert(at, (rng.randrange(pair.world.count), rng.randrange(bits[0]), rng.randrange(bits[1])))
        elif choice < 0.6:
            table.insert(at, rng.choice(((pair.world.count, 1, 1), (0, bits[0], 1), (0, 1, bits[1]), (65535, 0, 0))))
        elif choice < 0.8:
            rng.shuffle(table)
            table.pop()
        else:
            table.pop(rng.randrange(len(table)))
        if not table:
            continue
        said = pair.check(table).split()
        if said[0] == "accepted":
            continue
        last = pair.world.count - 1 if said[0] == "b" else len(table) - 1
        spot = int(said[1])
        place = "first" if spot == 0 else "last" if spot == last else "middle"
        found.setdefault((said[0], place), table)
    return [found[key] for key in sorted(found)]


def tables():
    """Sizes, two policies as nodes, rows."""
    yield (*P2, P2_ROWS)
    yield (*P2, P2_ROWS[:3])
    yield (*P5, P5_ROWS)
    yield (*P10, P10_ROWS)
    yield (*P10, P10_ROWS[:1])
    # P1, P4, P7, P9: no table is accepted
    yield [2], [(DROP, 0, 0)], [(ID, 0, 0)], [(0, 1, 1)]
    yield [3], [(EQ, 0, 0), (EQ, 0, 1), (SUM, 0, 1)], [(ID, 0, 0)], [(0, 1, 1), (1, 1, 1), (2, 1, 1)]
    yield [1], [(DUP, 0, 0)], dups(2), [(0, 1, 1), (0, 2, 2), (0, 0, 4)]
    yield [2], [(SET, 0, 0), (SET, 0, 1), (SUM, 0, 1)], [(ID, 0, 0)], [(0, 1, 1), (1, 1, 1)]
    # rows with both states 0, repeats, another order
    yield (*P2, P2_ROWS + [(0, 0, 0), (1, 0, 0)])
    yield (*P2, [(1, 0, 0)] + P2_ROWS[::-1] * 3)
    yield (*P2, [(2, 0, 0)] + P2_ROWS)
    # a stray bit just above the dups, on either side, and far above
    for left, right in ((4, 0), (0, 4), (1 << 31, 0), (0, 1 << 31), (1 << 32, 2), (2, 1 << 63), (1 << 63, 1), (3, 3)):
        yield (*P2, P2_ROWS + [(0, left, right)])
        yield (*P2, [(0, left, right)] + P2_ROWS)
    # 31 and 32 dups, on either side of a half
    marks = [(0, 1 << i, 1 << i) for i in range(64)]
    for count in (31, 32):
        yield [1], dups(count), dups(count), marks[:count + 1]
        yield [1], dups(count), dups(count), marks[:count + 2]
    yield from wide_tables(marks)
    # outputs that differ in the last word alone
    all_but_one = named(negation(seq_of([(EQ, 0, 4)], [(EQ, 1, 12)])), MANY)
    yield MANY, [(ID, 0, 0)], named([(ID, 0, 0)], MANY), starts(65)
    yield MANY, [(ID, 0, 0)], all_but_one, starts(65)
    yield MANY, seq_of([(SET, 0, 4)], [(SET, 1, 12)]), named(seq_of([(SET, 0, 2)], [(SET, 1, 6)]), MANY), starts(65)
    yield [1], [(ID, 0, 0)], [(ID, 0, 0)], [(0, 1, 1)]
    # as many packets as there may be
    yield MOST, [(ID, 0, 0)], named([(ID, 0, 0)], MOST), starts(1024)
    yield MOST, named([(ID, 0, 0)], MOST), [(ID, 0, 0)], starts(1023)
    yield MOST, [(ID, 0, 0)], named([(ID, 0, 0)], MOST), starts(1025)
    yield MOST, [(NE, 7, 3)], named([(ID, 0, 0)], MOST), starts(1024)
    rng = random.Random(8)
    for sizes, left, right in (P2, P5, P10):
        pair = Pair(sizes, left, right)
        for table in broken(rng, pair, pair.row_order(99), 400):
            yield sizes, left, right, table
    for sizes, left, right in equal_pairs(rng):
        pair = Pair(sizes, left, right)
        if any(d > 63 for _, d in pair.sides):
            continue
        rows = pair.row_order(60)
        if rows is None or len(rows) < 2 * pair.world.count:
            continue
        yield sizes, left, right, rows
        table = rows + [rng.choice(rows) for _ in range(4)] + [(rng.randrange(pair.world.count), 0, 0)]
        rng.shuffle(table)
        yield sizes, left, right, table
        few = [table for table in broken(rng, pair, rows, 120) if len(table) < 20]
        for table in rng.sample(few, min(3, len(few))):
            yield sizes, left, right, table
    yield from negation_tables()


def wide_tables(marks):
    """63 dups: bit 63 belongs to the last."""
    yield [1], dups(63), dups(63), marks
    yield [1], dups(63), dups(63), marks[:-1]
    yield [1], dups(63), dups(63), marks[::-1]
    yield [1], dups(63), dups(63), marks + [(0, (1 << 64) - 1, (1 << 64) - 1)]
    yield [1], dups(63), dups(62), marks
    yield [1], dups(62), dups(63), marks
    # a sum marks all at once; on the other side one dup
    for count in (62, 63):
        summed, every = chain([(DUP, 0, 0)] * count, SUM), (2 << count) - 2
        masks = [every, 1 << 31, 1 << 32, 1 << 62, 1 << 63]
        rows = [(0, 1, 1)] + [(0, mask, 2) for mask in masks]
        for table in (rows, rows[:5], rows[:1], rows[::-1], rows[:2] + [(0, 1 << 63, 1)], rows[:2] + [(0, (1 << 64) - 1, 3)]):
            yield [1], summed, [(DUP, 0, 0)], table
            yield [1], [(DUP, 0, 0)], summed, [(packet, right, left) for packet, left, right in table]


def negation_tables():
    sizes, left, right = NEGATED
    yield sizes, left, right, NEGATED_ROWS
    for at in range(4):
        yield sizes, left, right, NEGATED_ROWS[:at] + NEGATED_ROWS[at + 1:]
    # one side passes what the other drops
    for row in ((1, 2, 0), (0, 0, 2), (0, 2, 2)):
        yield sizes, left, right, NEGATED_ROWS + [row]
        yield sizes, left, right, [row] + NEGATED_ROWS
    yield sizes, left, negation(negation(left[1:2])) + shifted(left[:1], 3) + [(SEQ, 3, 2)], NEGATED_ROWS
    yield sizes, [(EQ, 0, 0), (NOT, 0, 0)], [(EQ, 0, 1)], NEGATED_ROWS[:2]
    yield [3], [(EQ, 0, 0), (NOT, 0, 0)], [(EQ, 0, 1)], [(0, 1, 1), (1, 1, 1), (2, 1, 1)]
    for count in (500, 501):
        for kind in (EQ, NE):
            yield MANY, negations(count, (EQ, 1, 12)), named([(kind, 1, 12)], MANY), starts(65)
    rng = random.Random(28)
    pair = Pair(*NEGATED)
    for table in broken(rng, pair, NEGATED_ROWS, 400):
        yield sizes, left, right, table
    for sizes, left, right in equal_negations(rng):
        pair = Pair(sizes, left, right)
        rows = pair.row_order(60)
        if rows is None or len(rows) < 2 * pair.world.count or any(d > 63 for _, d in pair.sides):
            continue
        yield sizes, left, right, rows
        few = [table for table in broken(rng, pair, rows, 60) if len(table) < 20]
        for table in rng.sample(few, min(2, len(few))):
            yield sizes, left, right, table


def damaged():
    """The causes before 10, on either side and together with others, as sizes and two policies as lists."""
    sizes, left, right = P2
    good, also = lists(left), lists(right)
    for bad in ([], [2] * 9, [2, 0], [0, 2]):
        yield bad, good, also
    for wide in ([5, 205], [1024, 2], [32, 33]):
        yield wide, good, lists([(SET, 1, 0)])
        yield wide, lists([(NE, 1, 0)]), also
    wrong = [
        ([5], [0], []), ([], [], []), ([5, 1], [0], [0]),
        ([10], [0], [0]), ([1, 200, 7], [0, 0, 0], [0, 0, 1]),
        ([2], [1], [0]), ([4], [0], [2]), ([1], [0], [1]), ([5], [1], [0]),
        ([8], [0], [0]), ([1, 1, 7], [0, 0, 0], [0, 0, 2]),
        ([1, 1], [0, 0], [0, 0]), ([1, 6], [0, 0], [0, 0]),
        lists(gathered(64)),
    ]
    for policy in wrong:
        yield sizes, policy, also
        yield sizes, good, policy
    yield sizes, wrong[-1], wrong[0]
    yield sizes, wrong[0], wrong[-1]
    yield sizes, wrong[3], wrong[4]
    yield [2, 0], wrong[0], wrong[-1]
    # 19, which goes before 9 and behind 8
    no_tests = [
        lists([(DUP, 0, 0), (NOT, 0, 0), (NOT, 1, 0)]), lists([(EQ, 0, 0), (STAR, 0, 0), (NOT, 1, 0)]),
        lists([(EQ, 0, 0), (DUP, 0, 0), (SUM, 0, 1), (NOT, 2, 0)]), lists([(SET, 0, 1), (NOT, 0, 0)]),
    ]
    for policy in no_tests:
        yield sizes, policy, also
        yield sizes, good, policy
        yield sizes, wrong[-1], policy
        yield sizes, policy, wrong[-1]
        yield sizes, policy, wrong[-2]
    yield sizes, no_tests[2], no_tests[1]
    yield [2, 0], no_tests[0], also


def cases():
    """Sizes, two policies as lists, rows, the lengths of the lent lists, the words of the work list, a last row."""
    sizes, left, right = P2
    policies = (lists(left), lists(right))
    for words in (0, 16383, 16384, 16385, 20000):
        for rows in (P2_ROWS, P2_ROWS[:3], P2_ROWS[1:], P2_ROWS + [(0, 2, 0)], P2_ROWS + [(2, 0, 0)]):
            yield sizes, policies, rows, [len(rows)] * 3, words, []
    for lengths in ([0] * 3, [1] * 3, [2] * 3, [4] * 3, [65534] * 3, [65535] * 3, [65536] * 3, [65537] * 3,
                    [4, 4, 5], [4, 5, 4], [5, 4, 4], [4, 3, 4], [0, 0, 4], [65535, 65535, 65536], [65536, 65535, 65535]):
        yield sizes, policies, P2_ROWS, lengths, WORK, []
    # the last of so many rows breaks a rule, or none
    for row in ((0, 2, 0), (1, 4, 2), (0, 0, 4), (2, 0, 0), (1, 1, 3), (0, 1, 0), (1, 0, 1), (0, 0, 0), (0, 1 << 63, 0), (1, 0, 1 << 32)):
        yield sizes, policies, P2_ROWS, [65535] * 3, WORK, list(row)
        yield sizes, policies, P2_ROWS, [260] * 3, WORK, list(row)
        yield sizes, policies, P2_ROWS, [5] * 3, WORK, list(row)
    yield [1], (lists([(ID, 0, 0)]),) * 2, [], [0] * 3, WORK, []
    yield [1], (lists([(ID, 0, 0)]),) * 2, [], [3] * 3, WORK, []
    yield [1], (lists([(ID, 0, 0)]),) * 2, [(0, 1, 1)], [1] * 3, WORK, []
    for given, a, b in damaged():
        yield given, (a, b), P2_ROWS, [4] * 3, WORK, []
    yield [2, 0], policies, P2_ROWS, [4, 4, 65536], 3, []
    yield sizes, (policies[0], lists(gathered(64))), P2_ROWS, [4, 4, 5], WORK, []
    for sizes, left, right, rows in tables():
        yield sizes, (lists(left), lists(right)), rows, [len(rows)] * 3, WORK, []


def repeated(entries, length, last):
    """The parts of a list of so many entries: these again and again, but the last."""
    if length == len(entries) and not last:
        return runs(entries)
    again, rest = divmod(length - len(last), len(entries))
    return [(again, entries), (1, entries[:rest]), (1, last)]


def parents(count):
    """Parents of so many rows, which are not read: all alike, in their order, or as far as can be from it."""
    return ([65535] * count, list(range(count)), [65535 - row for row in range(count)])[count % 3]


def record_calls():
    """P2's table and P11's with any parents."""
    sizes, left, right = P2
    inputs = lists_of(sizes, lists(left), lists(right))
    for given in ([65535] * 4, [0] * 4, [0, 1, 2, 3], [3, 2, 1, 0], [1, 0, 65535, 32768]):
        records = [(*row, parent) for row, parent in zip(P2_ROWS, given)]
        for table, said in ((records, "accepted"), (records[:3], "rejected 4 1 1"), (records[1:], "rejected 2 0")):
            yield call(RECORDS, inputs + numbers_of([(1, table)], fields_of) + [WORK], said, cleared(WORK, True))


def table_calls(fields, policies, rows, lengths, words, last):
    """The answer, and the calls: the table as three lists and, where these are equally long, as records."""
    answered, done = answer(fields, policies, rows, lengths, words, last)
    word, *spot = answered.split()
    said = " ".join(["rejected", str(RULES.index(word) + 1), *spot]) if word in RULES else answered
    rows, inputs, stored = rows or [(0, 0, 0)], lists_of(fields, *policies), []
    columns = []
    for place, (entries, length) in enumerate(zip(zip(*rows), lengths)):
        parts = repeated(list(entries), length, last[place:place + 1])
        columns += numbers_of(parts, quarters if place else plain)
    stored.append(call(EVIDENCE, inputs + columns + [words], said, cleared(words, done)))
    if len(set(lengths)) == 1:
        records = [(*row, parent) for row, parent in zip(rows, parents(len(rows)))]
        table = numbers_of(repeated(records, lengths[0], [(*last, 9)] if last else []), fields_of)
        stored.append(call(RECORDS, inputs + table + [words], said, cleared(words, done)))
    return answered, stored


@distinct
def calls():
    places = set()
    for sizes, policies, rows, lengths, words, last in cases():
        said, stored = table_calls(sizes, policies, rows, lengths, words, last)
        word, *spot = said.split()
        if word in RULES:
            spots = World(mentioned(sizes, policies)).count if word == "b" else lengths[0]
            places.add((word, spot[0] == "0", int(spot[0]) == spots - 1))
        yield from stored
    yield from record_calls()
    # each rule is broken at a first, a middle and a last spot
    for rule, place in itertools.product(RULES, ((True, False), (False, False), (False, True))):
        assert (rule, *place) in places, (rule, place)
    for count, said in ((63, "accepted"), (62, "a 2")):
        pair = Pair([1], chain([(DUP, 0, 0)] * count, SUM), [(DUP, 0, 0)])
        assert pair.check([(0, 1, 1), (0, (2 << count) - 2, 2), (0, 1 << 63, 2)]) == said
    assert Pair(*P2).row_order(9) == P2_ROWS and Pair(*P5).row_order(9) == P5_ROWS and Pair(*P10).row_order(9) == P10_ROWS
    assert Pair(*P2).check(P2_ROWS) == "accepted" and Pair(*P2).check(P2_ROWS[:3]) == "d 1 1"
    assert Pair(*NEGATED).row_order(9) == NEGATED_ROWS and Pair(*NEGATED).check(NEGATED_ROWS) == "accepted"
