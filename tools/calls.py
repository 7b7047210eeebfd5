"""Calls of the C interface as they are stored, and what must be written of each (crates/vectors/src/main.rt; for records
differential/src/bin/stored.rs)."""
import itertools

from tables import tables_of

VALUES, NUMBER, POLICY, READ, SEARCH, EVIDENCE, TRACE, TEXTS, POLICIES, RECORDS = range(10)
# each entry of a list that a call may write, before the call
BEFORE = 7
PRIME = 4294967291
FACTOR = 65599
# a stored table's sizes and its bytes of names are no more
MOST_SIZES, MOST_CELLS = 4200, 66000
# so many equal entries in a row are a part of their own
RUN = 5


def once(entries):
    """A list that a call reads, in one part."""
    return [(1, entries)]


def plain(entry):
    return [entry]


def quarters(entry):
    """An entry of 64 bits: its quarters, the highest first."""
    return [entry >> shift & 65535 for shift in (48, 32, 16, 0)]


def fields_of(record):
    """A row record: packet, left, right, parent."""
    packet, left, right, parent = record
    return [packet, *quarters(left), *quarters(right), parent]


def numbers_of(parts, shown=plain):
    """A list that a call reads: the number of its parts, and for each how often it stands there, its length and its entries, each shown
    as one number or several."""
    parts = [(times, part) for times, part in parts if times and part]
    numbers = [len(parts)]
    for times, part in parts:
        numbers += [times, len(part)]
        for entry in part:
            numbers += shown(entry)
    return numbers


def runs(entries):
    """The parts of a list, those in which one entry is repeated by themselves."""
    parts, plain_part = [], []
    for entry, repeats in itertools.groupby(entries):
        count = len(list(repeats))
        if count < RUN:
            plain_part += [entry] * count
        else:
            parts += [(1, plain_part), (count, [entry])]
            plain_part = []
    return parts + [(1, plain_part)]


def table_lists(fields):
    """The four lists of the tables, which may be given by the sizes of f0, f1, .. in both."""
    given = tables_of(fields).lists()
    for cells, sizes in (given[:2], given[2:]):
        assert len(cells) <= MOST_CELLS and len(sizes) <= MOST_SIZES
    return [n for entries in given for n in numbers_of(runs(entries))]


def lists_of(fields, *policies):
    """The lists of the tables and those of policies."""
    return table_lists(fields) + [n for policy in policies for entries in policy for n in numbers_of(runs(entries))]


def total(first, length, rest=BEFORE, wide=False):
    """The sum over a list with these entries first and the same number, below 2^32, in all others; an entry of 64 bits counts as its upper
    and its lower half."""
    sum_so_far = 1
    for entry in first:
        for number in (entry >> 32, entry & 0xffffffff) if wide else (entry,):
            sum_so_far = (sum_so_far * FACTOR + number) % PRIME
    step = FACTOR * FACTOR if wide else FACTOR
    power = pow(step, length - len(first), PRIME)
    return (sum_so_far * power + rest * (power - 1) * pow(step - 1, -1, PRIME)) % PRIME


def cleared(length, done):
    """The sum over a work list, set to 0 or as it was."""
    return total([], length, 0 if done else BEFORE)


def distinct(calls):
    """The calls of a script, each of them once."""
    return lambda: list(dict.fromkeys(calls()))


WORDS = {"done": 0, "equal": 0, "accepted": 0, "left": 1, "right": 2, "both": 3, "neither": 4, "rejected": 5, "refused": 9}


def call(number, inputs, said, *sums):
    """The stored call, and what is written of it where the answer is said in words, as "refused 10 0 0"."""
    word, *numbers = said.split()
    answer = ([WORDS[word]] + [int(n) for n in numbers] + [0] * 8)[:8]
    return " ".join(str(n) for n in [number, *inputs]), "".join(" %d" % n for n in [*answer, *sums])
