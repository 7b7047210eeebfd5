"""Calls that turn numbers into values and back, with what they answer worked out from document 01, "Packets", and document 02, A.4 and A.6."""
from calls import BEFORE, NUMBER, VALUES, call, distinct, lists_of, numbers_of, once, total
from policy_cases import EQ, ID, chain, lists, naming
from policy_cases import answer as legality
from tables import mentioned, tables_of


def tested(tables, policies, length):
    """The refusal in words or nothing: what a search refuses tables and policies by, then 13 for a list of another length than there are
    fields."""
    said = legality(tables, policies)
    if said.startswith("refused"):
        return said
    return None if length == len(tables.sizes()) else "refused 13 0 %d" % len(tables.sizes())


def values_of(fields, policies, number, length):
    """The answer in words, and the values written."""
    tables = tables_of(fields)
    refused, values = tested(tables, policies, length), [0] * length
    if not refused:
        counted = mentioned(tables.sizes(), policies)
        for field in sorted(counted, reverse=True):
            number, values[field] = divmod(number, counted[field])
        if number:
            refused = "refused 13 0 0"
    return (refused, [BEFORE] * length) if refused else ("done", values)


def number_of(fields, policies, values):
    tables = tables_of(fields)
    refused = tested(tables, policies, len(values))
    if refused:
        return refused
    for field, (size, value) in enumerate(zip(tables.sizes(), values)):
        if value >= size:
            return "refused 13 0 %d" % field
    number = 0
    for field, size in sorted(mentioned(tables.sizes(), policies).items()):
        number = number * size + values[field]
    return "done %d" % number


def values_call(fields, policies, number, length):
    said, values = values_of(fields, policies, number, length)
    return call(VALUES, lists_of(fields, *policies) + [number, length], said, total(values, length))


def number_call(fields, policies, values):
    return call(NUMBER, lists_of(fields, *policies) + numbers_of(once(values)), number_of(fields, policies, values))


# ---- cases

ONE = lists([(ID, 0, 0)])
# sizes that are refused whatever the policies are
ILLEGAL = [[1025, 0], [0, 0], [0], [], [2] * 9, [0] * 9, [1] * 9, [4, 0, 999, 0]]
# every field is mentioned
MENTIONED = [
    [32, 32], [5, 205], [1024, 2], [1], [1024], [1025], [65535], [2] * 8, [1] * 8, [3, 4, 5], [3, 4, 5, 2], [1024, 1, 1], [1, 1, 1024], [1, 1, 1025],
    [512, 2, 1, 2],
]
# every value but the last of each field is named
NAMED = [[2, 2, 2, 2, 2, 2, 4, 4], [4, 4, 4, 4, 4], [5, 5, 41], [3, 4, 5]]


def mentioning(sizes):
    """Two policies that mention each field, the left one those with even numbers."""
    return [lists(chain([(EQ, field, 0) for field in range(side, len(sizes), 2)] or [(ID, 0, 0)])) for side in (0, 1)]


def over(sizes, policies, numbers, fields):
    """Calls with these numbers, with lists of a wrong length, and with values at and beyond the edges of these fields."""
    for number in numbers:
        yield values_call(sizes, policies, number, len(sizes))
    for length in (len(sizes) - 1, len(sizes) + 1):
        yield values_call(sizes, policies, 0, length)
        yield values_call(sizes, policies, 65535, length)
        yield number_call(sizes, policies, [65535] * length)
    top = [size - 1 for size in sizes]
    yield number_call(sizes, policies, top)
    yield number_call(sizes, policies, [0] * len(sizes))
    for field in fields:
        yield number_call(sizes, policies, top[:field] + [sizes[field]] + top[field + 1:])
        yield number_call(sizes, policies, [0] * field + [65535] * (len(sizes) - field))
        yield number_call(sizes, policies, [value if at == field else 0 for at, value in enumerate(top)])


@distinct
def calls():
    for sizes in ILLEGAL:
        for policies in ((ONE, ONE), mentioning(sizes)):
            yield values_call(sizes, policies, 0, len(sizes))
            yield values_call(sizes, policies, 65535, len(sizes) + 1)
            yield number_call(sizes, policies, [0] * len(sizes))
            yield number_call(sizes, policies, [65535])
    for sizes in MENTIONED:
        yield from over(sizes, mentioning(sizes), (0, 1, 11, 12, 33, 59, 60, 119, 120, 129, 1023, 1024, 65535), range(len(sizes)))
    for sizes in NAMED:
        yield from over(sizes, (lists(naming(sizes)), ONE), (0, 1, 33, 59, 60, 1023, 1024, 65535), (0, len(sizes) - 1))
