"""Searches, with what they answer and leave in the lists worked out from document 01, "States and rows" and "Causes, in the
order tested", and document 02, A.1 to A.4 and A.6; output and next by way of document 004's right spines."""
import itertools
import random

from calls import SEARCH, TEXTS, call, cleared, distinct, lists_of, numbers_of, table_lists, total
from engine_cases import DROP, DUP, EQ, ID, NE, SET, SUM, World, random_policy, stepped, terms
from evidence_cases import MANY, MOST, NEGATED, NEGATED_ROWS, P2, P5, P10, damaged, dups, equal_negations, equal_pairs
from evidence_cases import named, negation, seq_of, starred, starts, sum_of
from policy_cases import answer as legality
from policy_cases import chain, gathered, lists, negated, negations, stars
from tables import mentioned, refusal, tables_of
from text_cases import Refused, joined, naming_text, nodes_of, parts_of

WORK = 16384


def run(sizes, policies, room, most):
    """The answer as text, the rows with their parents, and the trace or nothing, with room for so many rows and packets."""
    return run_over(World(mentioned(sizes, policies)), policies, room, most)


def run_over(world, policies, room, most):
    """The same over any packets."""
    sides = [terms(list(zip(*policy))) for policy in policies]
    rows, depths, listed = [], [], set()

    def append(row, parent, depth):
        if row in listed:
            return True
        if len(rows) == room:
            return False
        listed.add(row)
        rows.append((*row, parent))
        depths.append(depth)
        return True

    def full(depth):
        """The lists are full while a row of this depth is handled; depth 0 if the starting rows don't fit."""
        return "refused 11 0 %d %d" % (room, depth), rows, None

    for alpha in range(world.count):
        if not append((alpha, 1, 1), alpha, 0):
            return full(0)
    i = 0
    while i < len(rows):
        packet, left, right, _ = rows[i]
        (lout, lnext), (rout, rnext) = (stepped(world, term, state, packet) for term, state in zip(sides, (left, right)))
        if lout != rout:
            last = min(lout ^ rout)
            trace, at = [last], i
            while rows[at][3] != at:
                trace.append(rows[at][0])
                at = rows[at][3]
            trace.reverse()
            if len(trace) > most:
                return "refused 12 0 %d" % len(trace), rows, None
            return "%s %d %d" % ("left" if last in lout else "right", len(trace), rows[at][0]), rows, trace
        for gamma in sorted({**lnext, **rnext}):
            if not append((gamma, lnext.get(gamma, 0), rnext.get(gamma, 0)), i, depths[i] + 1):
                return full(depths[i])
        i += 1
    return "equal %d" % len(rows), rows, None


def answer(fields, policies, lengths):
    """The answer in words, and the sums over the lent lists; fields are tables, or the sizes of f0, f1, .. in both."""
    *row_lists, most, words = lengths
    said, rows, trace, done = legality(fields, policies), [], None, False
    if not said.startswith("refused"):
        if len(set(row_lists)) > 1 or row_lists[0] > 65535 or words < WORK:
            said = "refused 10 0 0"
        else:
            said, rows, trace = run(tables_of(fields).sizes(), policies, row_lists[0], most)
            done = True
    return said, sums_of(lengths, rows, trace, done)


def sums_of(lengths, rows=(), trace=None, done=False):
    """The sums over the lent lists with these rows and this trace first, the work list cleared or as it was."""
    *row_lists, most, words = lengths
    columns = [total([row[column] for row in rows], length, wide=column in (1, 2)) for column, length in enumerate(row_lists)]
    return [*columns, total(trace or [], most), cleared(words, done)]


def texts_answer(fields, texts, lengths):
    """The same of two texts as parts: the tables, each text, then all else."""
    tables = tables_of(fields)
    policies, refused = [], refusal(tables)
    try:
        if refused:
            raise Refused(*refused)
        policies = [lists(nodes_of(tables, side, joined(text))) for side, text in enumerate(texts, 1)]
    except Refused as refused:
        return "refused %d %d %d" % refused.answer, sums_of(lengths)
    return answer(tables, policies, lengths)


def search_call(fields, policies, lengths):
    """The answer in words, and the call."""
    said, sums = answer(fields, policies, lengths)
    return said, call(SEARCH, lists_of(fields, *policies) + lengths, said, *sums)


def texts_call(fields, texts, lengths):
    """The same of two texts as parts."""
    said, sums = texts_answer(fields, texts, lengths)
    written = [number for text in texts for number in numbers_of(text)]
    return said, call(TEXTS, table_lists(fields) + written + lengths, said, *sums)


# ---- cases

ONE, NONE, RECORD = [(ID, 0, 0)], [(DROP, 0, 0)], [(DUP, 0, 0)]


def test(field, value):
    return [(EQ, field, value)]


def change(field, value):
    return [(SET, field, value)]


PAIRS = {
    "P1": ([2], NONE, ONE),
    "P2": P2,
    "P3": ([2], sum_of(test(0, 0), test(0, 1)), ONE),
    "P4": ([3], sum_of(test(0, 0), test(0, 1)), ONE),
    "P5": P5,
    "P7": ([1], RECORD, seq_of(RECORD, RECORD)),
    "P8": ([2], seq_of(change(0, 1), test(0, 1)), change(0, 1)),
    "P9": ([2], sum_of(change(0, 0), change(0, 1)), ONE),
    "P10": P10,
}


def other(field, value):
    return [(NE, field, value)]


# 33 packets, one more than a word of a packet set has
SOME = [3, 11]

# sizes, policies, answer, rows
NEGATIONS = [
    ([2, 2], negation(seq_of(test(0, 0), test(1, 0))), sum_of(other(0, 0), other(1, 0)), "equal 4", starts(4)),
    (*NEGATED, "equal 4", NEGATED_ROWS),
    ([2], starred(negation(test(0, 0))), ONE, "equal 2", starts(2)),
    ([3], starred(seq_of(change(0, 1), negation(test(0, 0)))), sum_of(ONE, change(0, 1)), "equal 3", starts(3)),
    # two packets come to a negation that one of them passes
    ([3], seq_of(sum_of(change(0, 0), change(0, 1)), negation(test(0, 0))), change(0, 1), "equal 3", starts(3)),
    ([2], negation(starred(test(0, 0))), ONE, "refused 19 1 2", []),
    ([2], ONE, negation(negation(RECORD)), "refused 19 2 1", []),
    ([2], negation(sum_of(test(0, 0), RECORD)), ONE, "refused 19 1 3", []),
    ([2], dups(64), negation(RECORD), "refused 19 2 1", []),
    ([2], negation(change(0, 1)), dups(64), "refused 19 1 1", []),
    (SOME, negations(500, (EQ, 1, 3)), named(test(1, 3), SOME), "equal 33", starts(33)),
    (SOME, negations(511, (EQ, 1, 3)), named(other(1, 3), SOME), "equal 33", starts(33)),
    (SOME, negations(500, (EQ, 1, 3)), named(negation(test(1, 3)), SOME), "right 1 0", starts(33)),
    ([3], negation(test(0, 0)), test(0, 1), "left 1 2", starts(3)),
    ([2], negation(test(0, 0)), test(0, 0), "right 1 0", starts(2)),
    ([2], negation(NONE), ONE, "equal 1", starts(1)),
    ([2], negation(ONE), NONE, "equal 1", starts(1)),
    (MANY, negation(negation(test(1, 12))), named(negation(other(1, 12)), MANY), "equal 65", starts(65)),
]


def counter(digits, base):
    """From packet 0, one up and recorded, again and again, until all digits are the highest."""
    total = None
    for digit in range(digits):
        lower = None
        for below in range(digit + 1, digits):
            part = seq_of(test(below, base - 1), change(below, 0))
            lower = part if lower is None else seq_of(lower, part)
        for value in range(base - 1):
            part = seq_of(test(digit, value), change(digit, value + 1))
            if lower is not None:
                part = seq_of(lower, part)
            total = part if total is None else sum_of(total, part)
    ends = [test(digit, 0) for digit in range(digits)], [test(digit, base - 1) for digit in range(digits)]
    begin, end = (sequence(parts) for parts in ends)
    return seq_of(seq_of(begin, starred(seq_of(total, RECORD))), end)


def sequence(parts):
    nodes = parts[0]
    for part in parts[1:]:
        nodes = seq_of(nodes, part)
    return nodes


# sizes of random cases
RANDOM = ([1], [2], [3], [2, 2], [5], [3, 11])


def cases():
    """Sizes, two policies as lists, the lengths of the lent packet, left, right, parent, trace and work lists."""
    for sizes, left, right in PAIRS.values():
        yield sizes, (lists(left), lists(right)), [8] * 5 + [WORK]
        yield sizes, (lists(right), lists(left)), [8] * 5 + [WORK]
    # P6, and fewer rows
    for rows in range(5):
        yield P5[0], (lists(P5[1]), lists(P5[2])), [rows] * 4 + [0, WORK]
    # row lists of every length that matters: 0, N - 1, N, 65,535 and 65,536
    sizes, left, right = P2
    pair = (lists(left), lists(right))
    for rows in (0, 1, 2, 3, 4, 5, 65534, 65535, 65536, 65537):
        yield sizes, pair, [rows] * 4 + [5, WORK]
    for rows in (0, 32, 33, 34):
        yield SOME, (lists(ONE), lists(named(sum_of(ONE, test(1, 7)), SOME))), [rows] * 4 + [5, WORK]
    for odd in range(4):
        for length in (4, 6, 65536):
            yield sizes, pair, [length if column == odd else 5 for column in range(4)] + [5, WORK]
    # work lists
    for words in (0, 1, 16383, 16384, 16385, 20000):
        yield sizes, pair, [4] * 5 + [words]
        yield PAIRS["P7"][0], tuple(lists(p) for p in PAIRS["P7"][1:]), [4] * 5 + [words]
        yield sizes, pair, [3] * 5 + [words]
    # traces too short
    for most in range(4):
        yield PAIRS["P7"][0], tuple(lists(p) for p in PAIRS["P7"][1:]), [4] * 4 + [most, 16390]
        yield PAIRS["P1"][0], tuple(lists(p) for p in PAIRS["P1"][1:]), [4] * 4 + [most, 16390]
    # a counter of 343 steps
    long = (lists(counter(3, 7)), lists(NONE))
    for most in (342, 343, 344):
        yield [7, 7, 7], long, [2000] * 4 + [most, WORK]
        yield [7, 7, 7], long[::-1], [65535] * 4 + [most, WORK]
    yield [7, 7, 7], long, [500] * 4 + [400, WORK]
    # 511 nested stars at N = 1,024, and more rows than the smaller index holds
    yield MOST, (lists(stars(512)), lists(named(stars(400), MOST))), [65535] * 4 + [65535, WORK]
    for rows in (8191, 8192):
        yield MOST, (lists(dups(7)), lists(named(dups(7), MOST))), [rows] * 4 + [0, WORK]
    for given, a, b in damaged():
        yield given, (a, b), [4] * 5 + [WORK]
    yield sizes, (pair[0], lists(gathered(64))), [4, 4, 4, 5, 4, WORK]
    rng = random.Random(6)
    for sizes, left, right in equal_pairs(rng):
        yield sizes, (lists(left), lists(right)), [300] * 4 + [300, WORK]
    for count in range(60):
        sizes = rng.choice(RANDOM)
        left = random_policy(rng, sizes, rng.choice((3, 6, 12, 20)))
        right = random_policy(rng, sizes, rng.choice((3, 6, 12, 20))) if count % 2 else sum_of(left, random_policy(rng, sizes, 4))
        if count % 3:
            right = named(right, sizes)
        yield sizes, (lists(left), lists(right)), [rng.choice((7, 40, 400))] * 4 + [rng.choice((1, 8, 40)), WORK]


def wide_cases():
    """Policies with 32 to 63 dups."""
    chained, summed = dups(63), lists(chain(RECORD * 63, SUM))
    for rows in (127, 128, 129):
        yield [2], (lists(chained), lists(named(chained, [2]))), [rows] * 4 + [9, WORK]
    yield [1], (lists(chained), lists(dups(62))), [99] * 4 + [99, WORK]
    for most in (62, 63):
        yield [1], (lists(dups(62)), lists(chained)), [99] * 4 + [most, WORK]
    yield [2], (summed, lists(named(RECORD, [2]))), [9] * 4 + [9, WORK]
    yield [1], (lists(chain(RECORD * 32, SUM)), lists(chain(RECORD * 33, SUM))), [9] * 4 + [9, WORK]
    looped = starred(seq_of(chain(RECORD * 63, SUM), change(0, 1)))
    yield [2], (lists(looped), lists(starred(seq_of(RECORD, change(0, 1))))), [9] * 4 + [9, WORK]
    # 62 dups that nothing reaches, and one that is
    late = sum_of(seq_of(NONE, dups(62)), seq_of(RECORD, test(0, 0)))
    yield [2], (lists(late), lists(seq_of(test(0, 0), RECORD))), [9] * 4 + [9, WORK]
    yield [2], (lists(late), lists(seq_of(test(0, 1), RECORD))), [9] * 4 + [9, WORK]
    found = run([1], (summed, lists(RECORD)), 9, 9)
    assert found[:2] == ("equal 2", [(0, 1, 1, 0), (0, 2 ** 64 - 2, 2, 0)])
    assert run([2], (lists(late), lists(seq_of(test(0, 0), RECORD))), 9, 9)[1][2:] == [(0, 1 << 63, 2, 0), (1, 1 << 63, 0, 1)]


def negation_cases():
    for sizes, left, right, said, rows in NEGATIONS:
        pair = (lists(left), lists(right))
        if said.startswith("refused"):
            assert legality(sizes, pair) == said
        else:
            found = run(sizes, pair, 99, 9)
            assert (found[0], [row[:3] for row in found[1]]) == (said, rows)
        for policies in (pair, pair[::-1]):
            yield sizes, policies, [len(rows) + 2] * 4 + [9, WORK]
        yield sizes, pair, [len(rows) + 2] * 4 + [0, WORK]
    yield MOST, (lists(negations(500, (EQ, 7, 3))), lists(named(test(7, 3), MOST))), [1024] * 4 + [0, WORK]
    # the lists are full, or 10 refuses them; 19 goes before it
    sizes, left, right = NEGATED
    for rows in range(5):
        yield sizes, (lists(left), lists(right)), [rows] * 4 + [4, WORK]
    for policies in ((lists(left), lists(right)), (lists(negation(RECORD)), lists(right))):
        yield sizes, policies, [4, 4, 4, 5, 4, WORK]
        yield sizes, policies, [4] * 5 + [WORK - 1]
    rng = random.Random(36)
    for sizes, left, right in equal_negations(rng):
        yield sizes, (lists(left), lists(right)), [300] * 4 + [300, WORK]
    for count in range(60):
        sizes = rng.choice(RANDOM)
        left, right = (negated(rng, random_policy(rng, sizes, rng.choice((3, 6, 12, 20)))) for _ in range(2))
        if count % 2:
            right = sum_of(left, negated(rng, random_policy(rng, sizes, 4)))
        if count % 3:
            right = named(right, sizes)
        yield sizes, (lists(left), lists(right)), [rng.choice((7, 40, 400))] * 4 + [rng.choice((1, 8, 40)), WORK]


# sizes, two texts, how far the two agree with 0, 1, .. rows lent until they are enough, the answer then
RUN_OUT = [
    ([1], "dup*", "id+dup;dup*", [0, 0, 1], "equal 3"),
    ([2], "f0=0;dup", "dup;f0=0", [0] * 4, "equal 4"),
    ([1], "dup;dup;dup", "dup;dup;dup;drop+dup;dup;dup", [0, 0, 1, 2], "equal 4"),
    ([1], "dup;drop", "drop", [0, 0], "equal 2"),
    ([2], "dup;!f0=0", "!f0=0;dup", [0] * 4, "equal 4"),
    # no row but the starting rows
    ([2, 2], "id", "drop", [0], "left 1 0"),
    ([2, 2], "id", naming_text([2, 2]), [0] * 4, "left 1 0"),
    ([5], "f0!=4", "!f0=4", [0] * 5, "equal 5"),
    # each depth has a row for each packet
    ([3], "dup;dup", "dup;(dup;id)+" + naming_text([3]), [0] * 6 + [1] * 3, "equal 9"),
    ([2, 2], "dup;dup;dup", "dup;dup;dup+" + naming_text([2, 2]), [0] * 8 + [1] * 4 + [2] * 4, "equal 16"),
    # the rows next of a row that is handled later are listed already
    ([2], "(f0<-0+f0<-1);dup;(f0<-0+f0<-1);dup", "(f0<-1+f0<-0);dup;(f0<-1+f0<-0);dup", [0] * 4 + [1] * 2, "equal 6"),
    # from packet 0 on, one after the other
    ([4], "f0=0;((f0=0;f0<-1+f0=1;f0<-2+f0=2;f0<-3);dup)*", "f0=0;((f0=2;f0<-3+f0=1;f0<-2+f0=0;f0<-1);dup)*", [0] * 5 + [1, 2], "equal 7"),
    # a longer trace tells them apart
    ([1], "dup", "dup;dup", [0, 0], "left 2 0"),
    ([2], "dup;dup;f0=0", "dup;dup", [0] * 4 + [1] * 2, "right 3 1"),
    ([1], "dup;dup;dup;drop", "dup;dup;dup", [0, 0, 1, 2], "right 4 0"),
]


def in_rounds(count):
    """dup* in rounds of so many dups and a rest of fewer."""
    rest = "id"
    for _ in range(count - 1):
        rest = "(id+dup;%s)" % rest
    return "(%s)*;%s" % (";".join(["dup"] * count), rest)


# sizes, two texts, numbers of rows; of the row order, the rows of each depth
DEEP = [
    ([1], ";".join(["dup"] * 60), ";".join(["dup"] * 60), (0, 1, 2, 30, 59, 60, 61), 1),
    ([2], ";".join(["dup"] * 60), ";".join(["dup"] * 61) + "+" + naming_text([2]), (1, 2, 3, 4, 5, 119, 120, 121), 2),
    ([1], in_rounds(5), in_rounds(7), (1, 2, 3, 20, 34, 35, 36), 1),
    ([3], in_rounds(4), in_rounds(3) + "+" + naming_text([3]), (2, 3, 4, 6, 7, 20, 37, 38, 39), 3),
    (SOME, "dup;dup", "dup;(id+drop);dup+" + naming_text(SOME), (0, 1, 32, 33, 34, 65, 66, 67, 98, 99), 33),
    (MOST, "dup", "dup+" + naming_text(MOST), (1023, 1024, 2048), 1024),
]


def policies_of(sizes, texts):
    return tuple(lists(nodes_of(sizes, side, text.encode())) for side, text in enumerate(texts, 1))


def run_out_cases():
    """Sizes, two texts, the rows lent."""
    for sizes, left, right, lengths, said in RUN_OUT:
        pair = policies_of(sizes, (left, right))
        for rows, length in enumerate(lengths):
            assert run(sizes, pair, rows, 9)[0] == "refused 11 0 %d %d" % (rows, length)
        assert run(sizes, pair, len(lengths), 9)[0] == said
        for rows in range(len(lengths) + 2):
            yield sizes, (left, right), rows
            if rows % 2:
                yield sizes, (right, left), rows
    for sizes, left, right, numbers, wide in DEEP:
        for rows in numbers:
            said = run(sizes, policies_of(sizes, (left, right)), rows, 99)[0].split()
            assert said[0] != "refused" or int(said[4]) == max(rows // wide - 1, 0)
            yield sizes, (left, right), rows


def random_run_out():
    """Pairs that are equal by laws, some with a test behind one of them, all behind a few dups: sizes, two policies, the rows lent."""
    rng = random.Random(63)
    for sizes, left, right in itertools.chain(equal_pairs(rng), equal_negations(rng)):
        recorded = dups(rng.randrange(1, 5))
        right = rng.choice((right, seq_of(right, test(0, 0))))
        pair = lists(seq_of(recorded, left)), lists(seq_of(recorded, right))
        if legality(sizes, pair).startswith("refused"):
            continue
        starting, needed = World(mentioned(sizes, pair)).count, len(run(sizes, pair, 200, 200)[1])
        yield sizes, pair, rng.choice((rng.randrange(starting + 1), rng.randrange(starting, needed), needed - 1))


def run_out_calls():
    """Node lists and texts with few rows lent."""
    found = set()
    for sizes, texts, rows in run_out_cases():
        lengths = [rows] * 4 + [rows % 7, WORK]
        policies = policies_of(sizes, texts)
        said, of_lists = search_call(sizes, policies, lengths)
        also_said, of_texts = texts_call(sizes, [parts_of(text) for text in texts], lengths)
        assert said == also_said
        yield of_lists
        yield of_texts
    for sizes, policies, rows in random_run_out():
        lengths = [rows] * 4 + [9, WORK]
        said, stored = search_call(sizes, policies, lengths)
        found.add(int(said.split()[4]))
        yield stored
    assert found >= set(range(5))


@distinct
def calls():
    found = set()
    for sizes, policies, lengths in itertools.chain(cases(), negation_cases(), wide_cases()):
        said, stored = search_call(sizes, policies, lengths)
        found.add(" ".join(said.split()[:2]) if said.startswith("refused") else said.split()[0])
        yield stored
    assert found == {"equal", "left", "right"} | {"refused %d" % number for number in (*range(1, 13), 19)}
    yield from run_out_calls()
