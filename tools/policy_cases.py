"""Tests of one policy and of two, with what they answer worked out from document 01, "Policies" and "Causes, in the order
tested", and document 02, A.1, A.2, A.4 and A.6. Two policies are tested by themselves, many of
them also by a search with no room at all: where they pass, it refuses by 10."""
import itertools
import random

from calls import POLICIES, POLICY, SEARCH, call, distinct, lists_of, total
from tables import mentioned, packets_refusal, refusal, tables_of

DROP, ID, EQ, NE, SET, DUP, SUM, SEQ, STAR, NOT = range(10)


def children(kind, first, second):
    return {SUM: [first, second], SEQ: [first, second], STAR: [first], NOT: [first]}.get(kind, [])


def lengths(sizes, kind, first, second):
    good = len(kind) == len(first) == len(second) and 1 <= len(kind) <= 512
    return None if good else 0


def kinds(sizes, kind, first, second):
    return next((i for i, k in enumerate(kind) if k > 9), None)


def entries(sizes, kind, first, second):
    for i, (k, a, b) in enumerate(zip(kind, first, second)):
        if k in (EQ, NE, SET):
            if a >= len(sizes) or b >= sizes[a]:
                return i
        elif k in (DROP, ID, DUP):
            if a or b:
                return i
        elif k in (STAR, NOT) and b:
            return i
    return None


def below(sizes, kind, first, second):
    for i, node in enumerate(zip(kind, first, second)):
        if any(c >= i for c in children(*node)):
            return i
    return None


def once(sizes, kind, first, second):
    parents = [0] * len(kind)
    for node in zip(kind, first, second):
        for c in children(*node):
            parents[c] += 1
    return next((i for i, n in enumerate(parents[:-1]) if n != 1), None)


def negated_tests(sizes, kind, first, second):
    """Of each negation, all that stands below it."""
    for i, k in enumerate(kind):
        found, open_now = set(), [i] if k == NOT else []
        while open_now:
            at = open_now.pop()
            found.add(kind[at])
            open_now += children(kind[at], first[at], second[at])
        if found & {SET, DUP, STAR}:
            return i
    return None


def few_dups(sizes, kind, first, second):
    places = [i for i, k in enumerate(kind) if k == DUP]
    return places[63] if len(places) > 63 else None


def answer(fields, policies):
    """The answer in words; fields are tables, or the sizes of f0, f1, .. in both."""
    tables = tables_of(fields)
    refused = refusal(tables)
    if refused:
        return "refused %d %d %d" % refused
    sizes = tables.sizes()
    causes = ((4, lengths), (5, kinds), (6, entries), (7, below), (8, once), (19, negated_tests), (9, few_dups))
    for number, cause in causes:
        for side, policy in enumerate(policies, 1):
            place = cause(sizes, *policy)
            if place is not None:
                return "refused %d %d %d" % (number, side if len(policies) > 1 else 0, place)
    refused = packets_refusal(mentioned(sizes, policies))
    if refused:
        return "refused %d %d %d" % refused
    return "legal" + "".join(" %d" % policy[0].count(DUP) for policy in policies)


def lists(nodes):
    return tuple(list(column) for column in zip(*nodes)) if nodes else ([], [], [])


def chain(leaves, join=SEQ):
    """The leaves joined to the left, in postfix order."""
    nodes = [leaves[0]]
    for leaf in leaves[1:]:
        last = len(nodes) - 1
        nodes += [leaf, (join, last, last + 1)]
    return nodes


def gathered(count):
    """So many dups, and behind them the sums that join them."""
    return [(DUP, 0, 0)] * count + [(SUM, count - 2, count - 1)] + [(SUM, count - 3 - i, count + i) for i in range(count - 2)]


def naming(sizes):
    """Tests that name of each field every value but the last, one after the other. So all fields count, and all their values are
    told apart."""
    return chain([(EQ, field, value) for field, size in enumerate(sizes) for value in range(max(size - 1, 1))])


def stars(count):
    """A leaf under stars, so many nodes in all."""
    return [(ID, 0, 0)] + [(STAR, i, 0) for i in range(count - 1)]


def negations(count, leaf=(EQ, 0, 1)):
    """A leaf under so many negations."""
    return [leaf] + [(NOT, i, 0) for i in range(count)]


def leaf(rng, sizes):
    kind = rng.choice((DROP, ID, EQ, NE, SET, DUP))
    if kind in (EQ, NE, SET):
        field = rng.randrange(len(sizes))
        return (kind, field, rng.randrange(sizes[field]))
    return (kind, 0, 0)


def legal(rng, sizes, leaves):
    """A legal policy with its nodes in any order that keeps children below parents."""
    nodes, roots = [], []
    left = leaves
    while left or len(roots) > 1:
        choice = rng.random()
        if left and (len(roots) < 2 or choice < 0.4):
            nodes.append(leaf(rng, sizes))
            left -= 1
        elif choice < 0.5:
            nodes.append((STAR, roots.pop(rng.randrange(len(roots))), 0))
        else:
            a = roots.pop(rng.randrange(len(roots)))
            b = roots.pop(rng.randrange(len(roots)))
            nodes.append((rng.choice((SUM, SEQ)), a, b))
        roots.append(len(nodes) - 1)
    return nodes


def negated(rng, nodes, odds=0.3, anything=False):
    """The policy with negations over some of its nodes, which are tests alone or anything."""
    made, number, tests = [], [], []
    for kind, a, b in nodes:
        below = children(kind, a, b)
        moved = [number[child] for child in below] + [a, b][len(below):]
        made.append((kind, *moved))
        tests.append(kind not in (SET, DUP, STAR) and all(tests[child] for child in below))
        while (tests[-1] or anything) and rng.random() < odds:
            made.append((NOT, len(made) - 1, 0))
        number.append(len(made) - 1)
    return made


def damaged(rng, policy):
    """One or two entries changed, or a list cut or grown. No kind becomes a negation: there are cases of these by themselves."""
    policy = tuple(list(column) for column in policy)
    for _ in range(rng.choice((1, 1, 2))):
        column = policy[rng.randrange(3)]
        if rng.random() < 0.1:
            if rng.random() < 0.5 or not column:
                column.append(0)
            else:
                column.pop()
        elif column:
            top = 10 if column is policy[0] else rng.choice((3, len(column) + 2, 65536))
            entry = rng.randrange(top)
            column[rng.randrange(len(column))] = 10 if column is policy[0] and entry == NOT else entry
    return policy


def edges():
    sizes = [2, 3]
    good = lists([(ID, 0, 0)])
    for count in (1, 2, 512, 513):
        yield sizes, [lists(stars(count))]
    for count in (31, 32, 33, 62, 63, 64):
        yield sizes, [lists(chain([(DUP, 0, 0)] * count))]
    for count in (63, 64, 65):
        yield sizes, [lists(chain([(DUP, 0, 0)] * count, SUM))]
    # the last dups are the last nodes of their kind, wherever they stand in the tree
    yield sizes, [lists(gathered(64))]
    yield sizes, [lists(chain([(DUP, 0, 0)] * 63)), lists(chain([(DUP, 0, 0)] * 64, SUM))]
    yield sizes, [lists(chain([(DUP, 0, 0)] * 64)), lists(chain([(DUP, 0, 0)] * 65, SUM))]
    yield sizes, [lists(chain([(DUP, 0, 0)] * 63)), lists(chain([(DUP, 0, 0)] * 62, SUM))]
    yield sizes, [lists([(DUP, 0, 0), (SUM, 0, 0)])]
    yield sizes, [lists([(ID, 0, 0), (ID, 0, 0), (SEQ, 1, 1)])]
    yield sizes, [lists([(ID, 0, 0), (STAR, 0, 0), (SUM, 1, 1)])]
    for field in (0, 6, 7, 8):
        yield [1, 2, 1, 2, 1, 2, 1, 2], [lists([(EQ, field, 1)])]
    yield sizes, [lists([(ID, 0, 0), (STAR, 0, 1)])]
    yield sizes, [lists([(ID, 0, 0), (ID, 0, 0)])]
    for kind in (EQ, NE, SET):
        for field, value in ((0, 1), (0, 2), (1, 2), (1, 3), (2, 0), (65535, 65535)):
            yield sizes, [lists([(kind, field, value)])]
    for kind in (DROP, ID, DUP):
        for a, b in ((0, 0), (1, 0), (0, 1)):
            yield sizes, [lists([(kind, a, b)])]
    for kind in (5, 6, 7, 8, 10, 11, 12):
        yield sizes, [lists([(kind, 0, 0)])]
    yield sizes, [lists([(255, 0, 0)])]
    yield sizes, [([], [], [])]
    for policy in (([1], [0], []), ([1], [], [0]), ([], [0], [0]), ([1, 1], [0], [0]), ([1], [0, 0], [0, 0])):
        yield sizes, [policy]
        yield sizes, [good, policy]
        yield sizes, [policy, good]
    # children in no postfix order
    yield sizes, [lists([(ID, 0, 0), (DUP, 0, 0), (DROP, 0, 0), (SUM, 2, 0), (SEQ, 1, 3)])]
    yield sizes, [lists([(ID, 0, 0), (DUP, 0, 0), (STAR, 0, 0), (STAR, 1, 0), (SUM, 3, 2)])]
    # of two bad nodes the lower, of two causes the earlier, of two sides the left
    bad = {
        4: ([1], [0], []),
        5: lists([(ID, 0, 0), (10, 0, 0), (11, 0, 0)]),
        6: lists([(EQ, 0, 1), (EQ, 0, 2), (EQ, 2, 0)]),
        7: lists([(ID, 0, 0), (STAR, 1, 0), (STAR, 2, 0)]),
        8: lists([(ID, 0, 0), (ID, 0, 0), (ID, 0, 0), (STAR, 2, 0)]),
        19: lists([(DUP, 0, 0), (NOT, 0, 0), (NOT, 1, 0)]),
        9: lists(gathered(64)),
    }
    for left in bad:
        yield sizes, [bad[left]]
        yield sizes, [bad[left], good]
        yield sizes, [good, bad[left]]
        for right in bad:
            yield sizes, [bad[left], bad[right]]
    yield sizes, [lists([(10, 1, 1), (STAR, 5, 1), (EQ, 9, 9)])]
    yield sizes, [lists([(STAR, 5, 1), (EQ, 9, 9), (10, 1, 1)])]
    yield sizes, [lists([(STAR, 5, 0), (EQ, 9, 9)])]
    # causes 1 and 2 come first
    for odd in ([], [1] * 9, [0], [2, 0], [1] * 8):
        yield odd, [good]
        yield odd, [bad[4]]
        yield odd, [good, bad[5]]


def negation_edges():
    """Kind 9: legal, each cause that speaks of it, and 19 by side and place."""
    sizes = [2, 3]
    good, dup, test = lists([(ID, 0, 0)]), (DUP, 0, 0), (EQ, 0, 1)
    for leaf in ((DROP, 0, 0), (ID, 0, 0), test, (NE, 1, 2), (SET, 0, 1), dup, (EQ, 0, 2)):
        yield sizes, [lists([leaf, (NOT, 0, 0)])]
    for node in ((NOT, 0, 0), (NOT, 1, 0), (NOT, 0, 1), (NOT, 65535, 0)):
        yield sizes, [lists([node])]
        yield sizes, [lists([(ID, 0, 0), node])]
    # a child twice, and no child at all
    yield sizes, [lists([(ID, 0, 0), (NOT, 0, 0), (NOT, 0, 0), (SUM, 1, 2)])]
    yield sizes, [lists([(ID, 0, 0), (ID, 0, 0), (NOT, 0, 0)])]
    yield sizes, [lists([(ID, 0, 0), (NOT, 0, 0), (ID, 0, 0)])]
    # sums, sequences and negations below
    for join in (SUM, SEQ):
        for leaf in (test, dup, (SET, 1, 0)):
            yield sizes, [lists([test, leaf, (join, 0, 1), (NOT, 2, 0)])]
            yield sizes, [lists([leaf, test, (join, 0, 1), (NOT, 2, 0)])]
            yield sizes, [lists([leaf, (NOT, 0, 0), test, (join, 1, 2), (NOT, 3, 0)])]
            yield sizes, [lists([test, (NOT, 0, 0), leaf, (join, 1, 2), (NOT, 3, 0)])]
            yield sizes, [lists([test, test, leaf, (join, 1, 2), (SUM, 0, 3), test, (SEQ, 4, 5), (NOT, 6, 0)])]
    yield sizes, [lists([test, (STAR, 0, 0), (NOT, 1, 0)])]
    yield sizes, [lists([test, (NOT, 0, 0), (STAR, 1, 0)])]
    yield sizes, [lists([test, (NOT, 0, 0), (STAR, 1, 0), (NOT, 2, 0)])]
    yield sizes, [lists([dup, (NOT, 0, 0), (NOT, 1, 0)])]
    yield sizes, [lists([test, dup, (SUM, 0, 1), (NOT, 2, 0)])]
    # dups beside a negation, and of two negations the lower number
    yield sizes, [lists([test, (NOT, 0, 0), dup, (SEQ, 1, 2)])]
    yield sizes, [lists([dup, test, (NOT, 1, 0), (SEQ, 0, 2), (STAR, 3, 0)])]
    yield sizes, [lists([dup, test, (NOT, 1, 0), (NOT, 0, 0), (SUM, 2, 3)])]
    yield sizes, [lists([dup, (SET, 0, 0), (NOT, 1, 0), (NOT, 0, 0), (SUM, 3, 2)])]
    # as deep as can be
    for count in (1, 2, 499, 500, 511, 512):
        yield sizes, [lists(negations(count))]
        yield sizes, [lists(negations(count, dup))]
    yield sizes, [lists(negations(500)), lists(negations(500, (SET, 0, 0)))]
    # 19 goes before 9 and behind 8, on either side
    many = lists(gathered(64))
    wrong = {place: lists([test] * (place - 1) + [dup, (NOT, place - 1, 0)] + [(SUM, i, place + i) for i in range(place - 1)])
             for place in (1, 2, 4)}
    apart = lists([(ID, 0, 0), (ID, 0, 0)])
    for one in wrong.values():
        yield sizes, [one]
        yield sizes, [one, good]
        yield sizes, [good, one]
        yield sizes, [many, one]
        yield sizes, [one, many]
        yield sizes, [one, apart]
        yield sizes, [apart, one]
        for two in wrong.values():
            yield sizes, [one, two]
    both = lists(chain([dup] * 64) + [(NOT, 126, 0)])
    yield sizes, [both]
    yield sizes, [many, both]
    yield sizes, [both, many]
    for odd in ([], [1] * 9, [0], [2, 0]):
        yield odd, [wrong[1]]


def random_cases():
    rng = random.Random(20261115)
    for _ in range(70):
        sizes = [rng.randint(1, 4) for _ in range(rng.randint(1, 3))]
        one = lists(legal(rng, sizes, rng.randint(1, 7)))
        two = lists(legal(rng, sizes, rng.randint(1, 7)))
        yield sizes, [one]
        yield sizes, [damaged(rng, one)]
        yield sizes, [one, damaged(rng, two)]
        yield sizes, [damaged(rng, one), damaged(rng, two)]
    for _ in range(8):
        sizes = [4, 4]
        yield sizes, [lists(legal(rng, sizes, 40))]
    rng = random.Random(19)
    for _ in range(45):
        sizes = [rng.randint(1, 4) for _ in range(rng.randint(1, 3))]
        one, two = (legal(rng, sizes, rng.randint(1, 7)) for _ in range(2))
        yield sizes, [lists(negated(rng, one))]
        yield sizes, [lists(negated(rng, one, 0.2, anything=True))]
        yield sizes, [lists(negated(rng, one)), lists(negated(rng, two, 0.2, anything=True))]
        yield sizes, [lists(negated(rng, one, 0.2, anything=True)), lists(negated(rng, two, 0.2, anything=True))]
        yield sizes, [damaged(rng, lists(negated(rng, one, 0.2, anything=True))), damaged(rng, lists(negated(rng, two)))]


def tested_call(fields, policies):
    """One policy tested, or two."""
    said = answer(fields, policies).replace("legal", "done")
    return call(POLICY if len(policies) == 1 else POLICIES, lists_of(fields, *policies), said)


def searched_call(fields, policies):
    """Two policies searched with no room at all."""
    said = answer(fields, policies)
    said = said if said.startswith("refused") else "refused 10 0 0"
    return call(SEARCH, lists_of(fields, *policies) + [0] * 6, said, *[total([], 0)] * 6)


@distinct
def calls():
    sums = [lists(chain([(DUP, 0, 0)] * count, SUM)) for count in (63, 64)]
    assert [answer([2], [policy]) for policy in sums] == ["legal 63", "refused 9 0 125"]
    for fields, policies in itertools.chain(edges(), negation_edges()):
        yield tested_call(fields, policies)
        if len(policies) > 1:
            yield searched_call(fields, policies)
    for at, (fields, policies) in enumerate(random_cases()):
        yield tested_call(fields, policies)
        if len(policies) > 1 and at % 3 == 0:
            yield searched_call(fields, policies)
