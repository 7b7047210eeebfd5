"""Every call over fields that the policies mention and fields that they don't, with what it answers worked out from document 02, A.6: N and the
numbers of packets, the values shown, and of 3 and another cause that hold at once the earlier."""
import itertools
import random

from calls import POLICY, distinct
from engine_cases import DROP, DUP, EQ, ID, SEQ, STAR, World, random_policy
from evidence_cases import named, negation, seq_of, starts, sum_of, table_calls
from names_cases import CAUSED, SAID, TABLE_CAUSES, TEXT_CAUSES, WRONG, caused, of_policies, text_of
from policy_cases import answer as legality
from policy_cases import chain, gathered, lists, tested_call
from search_cases import WORK, policies_of, run, run_over, search_call, texts_call
from tables import Table, Tables, cell, mentioned
from text_cases import parts_of
from traces_cases import Case
from turning_cases import number_call, number_of, values_call, values_of

ONE = lists([(ID, 0, 0)])
# rows and packets lent
ROOM = 40


# ---- every call on a pair

def top_values(sizes):
    return [size - 1 for size in sizes]


def last_packet(sizes, policies):
    """The last packet's values, and what lies just beyond."""
    count = World(mentioned(sizes, policies)).count
    for number in (count - 1, count):
        yield values_call(sizes, policies, min(number, 65535), len(sizes))
    yield number_call(sizes, policies, top_values(sizes))


def turned(sizes, policies):
    """Numbers and values at the edges; of a value list each field in turn, and all of them, out of range."""
    top = top_values(sizes)
    yield from last_packet(sizes, policies)
    for number in (0, 65535):
        yield values_call(sizes, policies, number, len(sizes))
    for length in (len(sizes) - 1, len(sizes) + 1):
        yield values_call(sizes, policies, 0, length)
        yield number_call(sizes, policies, [65535] * length)
    for values in ([0] * len(sizes), sizes):
        yield number_call(sizes, policies, values)
    for field in range(len(sizes)):
        yield number_call(sizes, policies, [value + (at == field) for at, value in enumerate(top)])


def judged(sizes, policies):
    """Tables and traces: what the search finds, and a little less or more."""
    said, rows, trace = run(sizes, policies, ROOM, ROOM)
    rows, count = [row[:3] for row in rows], World(mentioned(sizes, policies)).count
    given = [rows, rows[:-1], rows[1:], rows + [(count, 1, 1)]] if said.startswith("equal") else [starts(min(count, ROOM))]
    for found in given:
        yield from table_calls(sizes, policies, found, [len(found)] * 3, WORK, [])[1]
    entering, trace = (int(said.split()[2]), trace) if trace else (0, [count - 1])
    yield Case(sizes, *policies, entering, trace).call()[1]
    yield Case(sizes, *policies, entering, trace + [count - 1]).call()[1]
    yield Case(sizes, *policies, entering, trace + [count]).call()[1]
    yield Case(sizes, *policies, count, trace).call()[1]


def searched(sizes, texts):
    """The policies of two texts over f0, f1, .. tested and searched, as texts too."""
    policies, lengths = policies_of(sizes, texts), [ROOM] * 5 + [WORK]
    said, stored = search_call(sizes, policies, lengths)
    also, of_texts = texts_call(sizes, [parts_of(text) for text in texts], lengths)
    assert said == also
    yield from (stored, of_texts, tested_call(sizes, policies))
    for policy in policies:
        yield tested_call(sizes, [policy])


# ---- pairs with what is found of them

# sizes, two texts, what the search answers, and its trace
RESULTS = [
    ([1000, 2], "f1=0", "id", "right 1 1", [1]),
    ([65535, 65535], "id", "dup", "left 1 0", [0]),
    ([5, 205], "id", "id", "equal 1", None),
    ([5, 205], "f0=0;f1=0", "id", "refused 3 0 1", None),
    ([1024, 5000, 2], "f0=0;f2=0", "id", "refused 3 0 2", None),
    ([5000, 2, 3], "f1=1;f2<-2;dup", "f1=1;dup;f2<-2", "right 2 3", [3, 5]),
    ([2], "drop", "id", "right 1 0", [0]),
]

# sizes, two texts, a number and its values
SHOWN = [
    ([1000, 2], "f1=0", "id", 1, [0, 1]), ([5000, 2, 3], "f1=1;f2<-2;dup", "f1=1;dup;f2<-2", 3, [0, 1, 0]),
    ([5000, 2, 3], "f1=1;f2<-2;dup", "f1=1;dup;f2<-2", 5, [0, 1, 2]), ([65535, 65535], "id", "dup", 0, [0, 0]),
    # the same number with other policies
    ([3, 2], "f0=0", "id", 1, [1, 0]), ([3, 2], "id", "f1=0", 1, [0, 1]), ([3, 2], "f1=0", "f0=0", 1, [0, 1]), ([3, 2], "f1=0", "f0=0", 2, [1, 0]),
]

# sizes, two texts, values and their number or what refuses them
NUMBERED = [
    ([1000, 2], "f1=0", "id", [999, 1], "done 1"), ([1000, 2], "f1=0", "id", [1000, 1], "refused 13 0 0"),
    ([1000, 2], "f1=0", "id", [1], "refused 13 0 2"), ([1000, 2], "id", "id", [999, 1], "done 0"), ([1000, 2], "id", "id", [999, 2], "refused 13 0 1"),
    ([1000, 2], "id", "f0=0", [999, 1], "done 999"),
]

# over 3, 5,000 and 2 values: two texts, and N or the field of 3
MENTIONING = [
    # nothing is mentioned, though there are nodes with the numbers of fields
    ("id", "id", 1), ("dup", "dup;dup", 1), ("dup*", "id+dup;dup*", 1), ("!id", "drop", 1), ("id+drop;id+dup", "dup+id", 1),
    # on the left alone, on the right alone, on both sides, one field on either side
    ("f0=0", "id", 3), ("id", "f0=0", 3), ("f0=0", "f0=2", 3), ("f0=0", "f2=1", 6), ("f2=0", "f0!=2", 6), ("f2!=0", "id", 2),
    # by changes alone
    ("f0<-2", "id", 3), ("id", "f0<-2;f2<-1", 6), ("dup;f2<-0", "dup", 2),
    # under negations
    ("!f0=0", "id", 3), ("!(f0=0;!f2=1)", "id", 6), ("id", "!!f2=0", 2), ("!(f2!=0+drop)", "f2=0", 2),
    # where no packet comes
    ("drop;f0<-2", "drop", 3), ("id+drop;f0=1;dup", "id", 3), ("f0=1;f2=0;drop", "drop", 6), ("(drop;f2!=0)*", "dup*", 2), ("f0=0;f0=1;f2=0", "drop", 6),
    ("dup", "dup+drop;!f2=1", 2),
    # the wide field, in each way
    ("f1=0", "id", "1"), ("id", "f1!=0", "1"), ("f1<-4999", "id", "1"), ("id", "!f1=7", "1"), ("id", "drop;f1=0", "1"), ("(drop;f1<-7)*", "id", "1"),
    ("f0=0;f1=0;f2=0", "id", "1"), ("f2=0", "f1=0", "1"), ("f2=0", "f0=0;f1=0", "1"),
]


def found_of(sizes, policies):
    """N, or as a string the field of 3."""
    said = legality(sizes, policies)
    return said[len("refused 3 0 "):] if said.startswith("refused 3") else World(mentioned(sizes, policies)).count


def results():
    for sizes, *texts, said, trace in RESULTS:
        policies = policies_of(sizes, texts)
        refused = legality(sizes, policies).startswith("refused")
        found, _, shown = (legality(sizes, policies), [], None) if refused else run(sizes, policies, ROOM, ROOM)
        assert (found, shown) == (said, trace)
    # P1 lists one row
    assert len(run([2], policies_of([2], ("drop", "id")), ROOM, ROOM)[1]) == 1
    for sizes, *texts, number, values in SHOWN:
        policies = policies_of(sizes, texts)
        assert values_of(sizes, policies, number, len(sizes)) == ("done", values)
        yield values_call(sizes, policies, number, len(sizes))
        yield number_call(sizes, policies, values)
    for sizes, *texts, values, said in NUMBERED:
        policies = policies_of(sizes, texts)
        assert number_of(sizes, policies, values) == said
        yield number_call(sizes, policies, values)
    for sizes, *texts, said, _ in RESULTS:
        policies = policies_of(sizes, texts)
        yield from searched(sizes, texts)
        yield from turned(sizes, policies)
        if said.startswith("refused"):
            yield from table_calls(sizes, policies, starts(1), [1] * 3, WORK, [])[1]
            yield Case(sizes, *policies, 0, [0]).call()[1]
        else:
            yield from judged(sizes, policies)


def ways():
    """The ways in which a field is mentioned."""
    sizes = [3, 5000, 2]
    for *texts, found in MENTIONING:
        policies = policies_of(sizes, texts)
        assert found_of(sizes, policies) == found
        yield from searched(sizes, texts)
        yield from last_packet(sizes, policies)
        packet = 0 if isinstance(found, str) else found - 1
        yield from table_calls(sizes, policies, starts(packet + 1), [packet + 1] * 3, WORK, [])[1]
        yield Case(sizes, *policies, packet, [packet]).call()[1]
    # a policy by itself may have fewer packets than the pair
    for policies in ((lists([(EQ, 0, 0)]), lists([(EQ, 1, 0)])), (lists([(EQ, 1, 0)]), ONE)):
        for policy in policies:
            yield tested_call([1024, 2], [policy])
        yield tested_call([1024, 2], policies)


# ---- running products

# sizes, the fields that are mentioned, and N or the field of 3; where few values are needed for it, each but the last is named
PRODUCTS = [
    ([4, 65535, 4, 65535, 4, 4, 65535, 4], (0, 2, 4, 5, 7), 1024), ([5, 65535, 5, 60000, 41], (0, 2, 4), "4"), ([5, 65535, 5, 60000, 41], (0, 2), 25),
    ([5, 65535, 5, 60000, 41], (0, 2, 3), "3"), ([2, 2, 2, 2, 2, 2, 4, 4], range(8), 1024), ([2, 2, 2, 2, 2, 2, 4, 5], range(8), "7"),
    ([1024, 65535], (0,), 1024), ([1024, 65535], (1,), "1"), ([1024, 65535], (0, 1), "1"), ([65535] * 8, (), 1), ([65535] * 8, (7,), "7"),
    ([65535] * 8, range(8), "0"), ([65535] * 8, (3, 5), "3"), ([2, 65535, 512, 65535], (0, 2), 1024), ([2, 65535, 513], (0, 2), "2"),
    ([1, 65535, 1024, 1], (0, 2, 3), 1024), ([1, 65535, 1025, 1], (0, 2, 3), "2"), ([1025], (0,), "0"), ([1024], (0,), 1024),
    # over 16, 32 and 64 bits
    ([256, 2, 256], (0, 2), "2"), ([1024, 64, 65535, 2], (0, 1, 3), "1"), ([1024, 65535, 65535, 65535, 65535], range(5), "1"),
]


def named_values(sizes, fields):
    """Of these fields a value, and of a small one each but the last."""
    return [(field, value) for field in fields for value in range(sizes[field] - 1 if 1 < sizes[field] < 42 else 1)]


def naming_fields(sizes, fields):
    """Tests that mention these fields, and no other."""
    return chain([(EQ, *test) for test in named_values(sizes, fields)] or [(ID, 0, 0)])


def products():
    for sizes, fields, found in PRODUCTS:
        whole = naming_fields(sizes, fields)
        halves = [lists(naming_fields(sizes, part)) for part in (fields[::2], fields[1::2])]
        for policies in ((lists(whole), ONE), halves[::-1]):
            assert found_of(sizes, policies) == found
            yield search_call(sizes, policies, [ROOM] * 5 + [WORK])[1]
            yield from last_packet(sizes, policies)
        text = ";".join(["id"] + ["f%d=%d" % test for test in named_values(sizes, fields)])
        yield texts_call(sizes, (parts_of("id"), parts_of(text)), [ROOM] * 5 + [WORK])[1]
        yield tested_call(sizes, [lists(whole)])
        yield tested_call(sizes, halves)
        yield Case(sizes, *halves, 1023, [1023, 1024]).call()[1]
        yield from table_calls(sizes, halves, [(1024, 1, 1), (0, 1, 1)], [2] * 3, WORK, [])[1]
    # the row order over as many packets as there may be, between fields that are in no number
    sizes = PRODUCTS[0][0]
    record = [(DUP, 0, 0)]
    policies = lists(sum_of(record, seq_of([(DROP, 0, 0)], naming_fields(sizes, PRODUCTS[0][1])))), lists(record)
    for rows in (1023, 1024, 2047, 2048):
        yield search_call(sizes, policies, [rows] * 4 + [3, WORK])[1]
    for packet in (1023, 1024):
        yield Case(sizes, *policies, packet, [packet] * 2).call()[1]


# ---- 3 and another cause

# sw, port, wide and vlan: two of them have too many packets
WIDE = [(EQ, 0, 0), (EQ, 2, 0), (SEQ, 0, 1)]
# policies that mention them and that a cause holds of
WIDE_WRONG = {
    4: (lists(WIDE)[0], lists(WIDE)[1], lists(WIDE)[2][:-1]), 5: lists(WIDE + [(10, 0, 0)]), 6: lists(seq_of(WIDE, [(EQ, 0, 2)])),
    7: lists(WIDE + [(STAR, 3, 0)]), 8: lists(WIDE + [(ID, 0, 0)]), 19: lists(seq_of(WIDE, negation([(DUP, 0, 0)]))), 9: lists(seq_of(WIDE, gathered(64))),
}


def wide_tables(causes=()):
    """Tables with the wide field, of which these causes hold."""
    both = caused(causes)
    left = Table(both.left.cells[:32] + cell("wide") + both.left.cells[32:], both.left.sizes[:2] + [1024] + both.left.sizes[2:])
    return Tables(left, both.right)


def expect(stored, number):
    """The calls, all of which are refused by this number."""
    for line, answer in stored:
        assert answer.startswith(" 9 %d " % number), (line, answer, number)
        yield line, answer


def with_policies():
    """3 behind each cause of the tables and of a policy, on the side that mentions the fields and on the other, before 10 and 13."""
    both, wide = wide_tables(), lists(WIDE)
    for kind, later in CAUSED:
        for early in TABLE_CAUSES:
            yield from expect(of_policies(kind, wide_tables((early,)), ONE, wide), early)
        for cause in WRONG:
            yield from expect(of_policies(kind, both, ONE, WIDE_WRONG[cause]), cause)
            if kind != POLICY:
                yield from expect(of_policies(kind, both, WIDE_WRONG[cause], ONE), cause)
                yield from expect(of_policies(kind, both, wide, WRONG[cause]), cause)
                yield from expect(of_policies(kind, both, WRONG[cause], wide), cause)
        for lent in [(), *[(cause,) for cause in later], later]:
            yield from expect(of_policies(kind, both, ONE, wide, lent), 3)
            if kind != POLICY:
                yield from expect(of_policies(kind, both, wide, ONE, lent), 3)


def with_texts():
    """3 behind each cause of the tables and of either text and behind those of a policy that a text can say, before 10."""
    both, wide, good = wide_tables(), "sw=0;wide=0", text_of(())
    lengths, short = [ROOM] * 5 + [WORK], [ROOM] * 5 + [WORK - 1]

    def searched(tables, left, right, number, lent=lengths):
        return expect([texts_call(tables, (left, right), lent)[1]], number)

    for early in TABLE_CAUSES:
        yield from searched(wide_tables((early,)), parts_of(wide), good, early)
    for cause in TEXT_CAUSES:
        yield from searched(both, text_of((cause,), wide), good, cause)
        yield from searched(both, parts_of(wide), text_of((cause,)), cause)
    for cause, said in SAID.items():
        yield from searched(both, parts_of(wide, ";", said), good, cause)
        yield from searched(both, parts_of(wide), parts_of(said.replace("sw", "port")), cause)
    for lent in (lengths, short, [ROOM, ROOM, ROOM, ROOM + 1, ROOM, WORK]):
        yield from searched(both, parts_of(wide), good, 3, lent)
        yield from searched(both, parts_of("sw=0;drop;!wide=3"), parts_of("dup"), 3, lent)


# ---- random policies

def moved(nodes, places):
    """The policy with its fields at other places."""
    return [(kind, places[first] if kind in (2, 3, 4) else first, second) for kind, first, second in nodes]


def random_pair(rng):
    """Small fields, of which the policies may mention some, and others between them that they leave alone; all sizes, and the policies."""
    own = [rng.choice((1, 2, 2, 3)) for _ in range(rng.randrange(1, 4))]
    left, right = (random_policy(rng, own, rng.choice((2, 6, 10))) for _ in range(2))
    right = rng.choice((right, sum_of(left, left), seq_of(left, [(ID, 0, 0)]), sum_of(left, right)))
    if rng.random() < 0.3:
        right = named(right, own)
    places = sorted(rng.sample(range(6), len(own)))
    sizes = [own[places.index(at)] if at in places else 0 for at in range(max(places) + rng.randrange(1, 3))]
    return sizes, tuple(lists(moved(nodes, places)) for nodes in (left, right))


def declared(sizes, policies):
    """A verdict over all packets of small fields must be the one over those that are mentioned: each row stands there once for each
    value of the fields left alone, and what is shown has 0 in them."""
    small = [size or 2 for size in sizes]
    counted = mentioned(small, policies)
    said, rows, trace = run(small, policies, 400, 400)
    if said.startswith("refused"):
        return
    every, every_row, every_trace = run_over(World(small), policies, 40000, 400)
    assert every.split()[0] == said.split()[0]
    if trace is None:
        assert len(every_row) * World(counted).count == len(rows) * World(small).count
    else:
        for shown, found in zip([int(said.split()[2])] + trace, [int(every.split()[2])] + every_trace):
            values = values_of(small, policies, shown, len(small))[1]
            assert number_of(small, [lists(chain([(EQ, field, 0) for field in range(len(small))])), ONE], values) == "done %d" % found


def random_pairs():
    rng = random.Random(6)
    found = set()
    for count in range(200):
        sizes, policies = random_pair(rng)
        declared(sizes, policies)
        if count % 8:
            continue
        sizes = [size or rng.choice((2, 7, 1024, 1025, 65535)) for size in sizes]
        said, stored = search_call(sizes, policies, [ROOM] * 5 + [WORK])
        found.add(said.split()[0])
        yield stored
        # of the tables and traces some
        yield from itertools.islice(judged(sizes, policies), 0, None, 3)
        for values in ([rng.randrange(size) for size in sizes], [rng.randrange(size + 1) for size in sizes]):
            yield number_call(sizes, policies, values)
        yield values_call(sizes, policies, rng.randrange(World(mentioned(sizes, policies)).count), len(sizes))
    assert found >= {"equal", "left", "right"}, found


@distinct
def calls():
    yield from results()
    yield from ways()
    yield from products()
    yield from with_policies()
    yield from with_texts()
    yield from random_pairs()
