"""Every call on tables of names, with what it answers worked out from document 02, A.4: tables that pass and that don't, texts over the names of
their side, and of each two causes that hold at once the earlier."""
import itertools
import random

from calls import EVIDENCE, NUMBER, POLICIES, POLICY, SEARCH, TRACE, VALUES, distinct
from evidence_cases import table_calls
from policy_cases import DUP, EQ, ID, NE, NOT, SET, STAR, chain, gathered, lists, tested_call
from search_cases import search_call, texts_call
from tables import CELL, Table, Tables, cell, refusal, table
from text_cases import nodes_of, parts_of, read_call
from traces_cases import Case
from turning_cases import number_call, values_call

WORK = 16384
ONE = lists([(ID, 0, 0)])
LONGEST = "abcdefghijklmno"


def line(text):
    """The table of a program's line."""
    entries = [entry.split("=") for entry in text.split(",")] if text else []
    return table([(name, int(size)) for name, size in entries])


def lines(left, right):
    return Tables(line(left), line(right))


# ---- tables, with what refuses them or nothing

EIGHT, TURNED = "a=1,b=1,c=1,d=1,e=1,f=1,g=1,h=1", "h=1,g=1,f=1,e=1,d=1,c=1,b=1,a=1"
LINES = [
    ("sw=2", "sw=2", None), ("sw=2", "port=2", None), ("sw=2,port=3", "port=3,sw=2", None), ("sw=2,port=3", "vlan=2,port=3,sw=2", None),
    ("vlan=2", "sw=2,vlan=2,port=3", None), ("f0=2,f1=3", "f0=2,f1=3", None), ("d=2,du=1,dups=2", "i=2,idd=1,drop0=2", None),
    (LONGEST + "=2", "abcdefghijklmn=2", None), ("z0=2,z9=2", "z=1,z00=1", None), (EIGHT, TURNED, None), (EIGHT, "h=1", None), ("h=1", EIGHT, None),
    ("a=1,b=1,c=1,d=1", "e=1,f=1,g=1,h=1", None), ("a=32", "b=32", None),
    # 20
    ("sw=2,sw=2", "sw=2", (20, 1, 1)), ("sw=2", "dup=1", (20, 2, 0)), ("id=1", "id=1", (20, 1, 0)), ("sw=2,drop=0", "dup=1", (20, 1, 1)),
    ("Sw=2", "sw=2", (20, 1, 0)), ("sw=2", "sW=2", (20, 2, 0)), ("sw=2,0a=1", "sw=2", (20, 1, 1)), ("a=1,b=1,a=2", "B=1", (20, 1, 2)),
    ("a_=1", "a=1", (20, 1, 0)), ("a=1,b =1", "a=1", (20, 1, 1)), ("a=1,=1", "a=1", (20, 1, 1)), (LONGEST + "p=1", "a=1", (20, 1, 0)),
    ("abcdefghijklmnO=1", "a=1", (20, 1, 0)), ("a{=1", "a=1", (20, 1, 0)), ("a=1", "`a=1", (20, 2, 0)), ("a/=1", "a:=1", (20, 1, 0)),
    (EIGHT + ",I=1", "a=1", (20, 1, 8)), ("a=1", EIGHT + ",a=1", (20, 2, 8)), (EIGHT + ",i=1", "A=1", (20, 2, 0)), ("", "A=0", (20, 2, 0)),
    # 21
    ("sw=2,port=4", "port=5,sw=2", (21, 1, 1)), ("sw=2,port=4", "port=5,sw=3", (21, 1, 0)), ("a=2", "a=0", (21, 1, 0)), ("a=0", "a=2", (21, 1, 0)),
    ("b=0,a=2", "c=1,a=1", (21, 1, 1)), (EIGHT + ",i=1", "i=2", (21, 1, 8)), ("i=2", EIGHT + ",i=1", (21, 1, 0)), ("a=1,b=1", "c=1,b=65535", (21, 1, 1)),
    # 1
    ("", "", (1, 0, 0)), ("a=1", "", (1, 0, 0)), ("", "a=1", (1, 0, 0)), ("", "a=0", (1, 0, 0)), (EIGHT, "i=1", (1, 0, 0)), ("i=1", EIGHT, (1, 0, 0)),
    ("a=1,b=1,c=1,d=1,i=0", "e=1,f=1,g=1,h=1", (1, 0, 0)), (EIGHT + ",i=1", EIGHT + ",i=1", (1, 0, 0)),
    # 2
    ("a=1", "b=0", (2, 0, 1)), ("a=0", "a=0", (2, 0, 0)), ("a=2,b=2", "c=0,b=2,d=0", (2, 0, 2)), ("a=2,b=0", "c=0,a=2", (2, 0, 1)),
    # more packets than there may be, where policies mention all fields
    ("a=5", "b=205", None), ("a=32", "b=33,a=32", None), ("a=65535", "b=65535", None), ("a=2,b=2", "c=2,d=129", None),
]


def with_cells(change, side):
    """Two fields in both tables, and the cells of one changed."""
    both = lines("sw=2,port=3", "port=3,sw=2")
    given = both.left if side == 1 else both.right
    cells = bytearray(given.cells)
    change(cells)
    given.cells = bytes(cells)
    return both


def put(at, *entries):
    def change(cells):
        cells[at:at + len(entries)] = bytes(entries)
    return change


def resized(length):
    def change(cells):
        cells[:] = (bytes(cells) + bytes(99))[:length]
    return change


# what is done to the cells, and what refuses them on the side where it is done: the number and the name
CELLS = [
    # what lies behind a name is not read
    (put(5, *[255] * 11), None), (put(CELL - 1, ord("x")), None), (put(5, 0, 36, 65), None),
    # lengths
    (put(0, 0), 0), (put(0, 15), 0), (put(0, 16), 0), (put(0, 17), 0), (put(0, 128), 0), (put(0, 255), 0), (put(CELL, 0), 1), (put(CELL, 16), 1),
    (put(CELL, 255), 1),
    # bytes
    (put(1, 0), 0), (put(2, 0), 0), (put(2, 0x41), 0), (put(2, 0x80), 0), (put(2, 0xf7), 0), (put(1, 0x30), 0), (put(2, 0x30), None),
    (put(CELL + 1, 0x60), 1), (put(CELL + 1, 0x7b), 1), (put(CELL + 2, 0x2f), 1), (put(CELL + 2, 0x3a), 1), (put(CELL + 2, 0x20), 1),
    # the same name twice, behind it other bytes
    (lambda cells: put(CELL, *cells[:CELL])(cells), 1), (lambda cells: put(CELL, *cells[:5], *[9] * 11)(cells), 1),
    (lambda cells: put(0, *bytes(2 * CELL))(cells), 0), (lambda cells: put(0, *b"a" * 2 * CELL)(cells), 0),
    # one byte shorter is another name
    (put(0, 1), None),
]

# lengths of the cells of two names that are not the right one
LENGTHS = (0, 1, 2, 15, 16, 17, 31, 33, 48)


def tables():
    """Tables, and the refusal by them."""
    for left, right, refused in LINES:
        yield lines(left, right), refused
    for change, name in CELLS:
        for side in (1, 2):
            yield with_cells(change, side), None if name is None else (20, side, name)
    for length in LENGTHS:
        for side in (1, 2):
            yield with_cells(resized(length), side), (4, 0, 0)
    good = line("sw=2,port=3")
    for sizes in ([], [2], [2, 3, 0], [0] * 32):
        yield Tables(Table(good.cells, sizes), good), (4, 0, 0)
        yield Tables(good, Table(good.cells, sizes)), (4, 0, 0)
        yield Tables(Table(cell("A") * 2, [0, 0]), Table(good.cells, sizes)), (4, 0, 0)
    # far more than eight
    many = ",".join("n%d=1" % at for at in range(32))
    yield lines(many, many), (1, 0, 0)
    yield lines(many[:-5] + "n30=1", many), (20, 1, 31)
    yield lines("a=1", many[:-4] + "A=1"), (20, 2, 31)
    yield lines(many, "n31=2"), (21, 1, 31)


def checked_tables():
    for both, refused in tables():
        assert refusal(both) == refused, (both.lists(), refused)
        yield both


# ---- calls on tables alone: policies and texts that pass, or that later causes refuse

ROWS = [(0, 1, 1), (1, 1, 1)]


def every_field(both):
    """Of tables that pass, how many fields there are, a policy that mentions each, and two texts that mention all names."""
    fields = len(both.sizes())
    texts = [";".join(name.decode() + "=0" for name in given.names()) for given in (both.left, both.right)]
    return fields, lists(chain([(EQ, field, 0) for field in range(fields)])), texts


def every_call(both):
    fields, one, texts = every_field(both) if not refusal(both) else (2, ONE, ("id", "dup*"))
    yield values_call(both, (one, ONE), 1, fields)
    yield number_call(both, (ONE, one), [0] * fields)
    yield tested_call(both, [one])
    yield tested_call(both, [one, lists([(DUP, 0, 0)])])
    yield search_call(both, (one, ONE), [40] * 5 + [WORK])[1]
    yield from table_calls(both, (ONE, one), ROWS, [2] * 3, WORK, [])[1]
    yield Case(both, one, ONE, 0, [0]).call()[1]
    yield texts_call(both, [parts_of(text) for text in texts], [40] * 5 + [WORK])[1]
    for side in (1, 2):
        yield read_call(both, side, parts_of("sw=1;port<-2"), (9, 9, 9))


def many_names():
    """Tables of far more names than may be, and of thousands of cells."""
    different = [("name%d" % at, 1) for at in range(150)]
    for left, right, refused in (
        (different, [("a", 1)], (1, 0, 0)), ([("a", 1)], different, (1, 0, 0)), (different[:-1] + different[:1], [("a", 1)], (20, 1, 149)),
        ([("a", 1)], different + [("Name", 1)], (20, 2, 150)), (different, [("name149", 2)], (21, 1, 149)), ([("name149", 2)], different, (21, 1, 0)),
    ):
        both = Tables(table(left), table(right))
        assert refusal(both) == refused
        yield number_call(both, (ONE, ONE), [])
    for cells, sizes in ((66000, 4125), (65999, 4125), (66000, 4124), (66000, 4126), (16, 4200), (66000, 1)):
        both = Tables(Table(bytes(cells), [1] * sizes), line("a=1"))
        yield number_call(both, (ONE, ONE), [])
        yield read_call(Tables(both.right, both.left), 1, parts_of("a=0"), (9, 9, 9))


# ---- texts

THREE = lines("sw=2,port=2", "vlan=2,port=2,sw=2")
OWN = lines("sw=2", "port=2")
ALIKE = lines("a=2,aa=2,dups=2", "aa=2,a0=2,i=2")
LONG = Tables(line("abcdefghijklmno=2,abcdefghijklmn=2"), line("abcdefghijklmnp=2,abcdefghijklmno=2"))
# tables, a text, and what is read of it on the left and on the right: the first node's field, or as a string the byte of the bad word
SPOKEN = [
    (THREE, "sw=0", 0, 0), (THREE, "port=0", 1, 1), (THREE, "vlan=0", "0", 2), (THREE, "f0=0", "0", "0"), (THREE, "sw=0;vlan=1", "5", 0),
    (OWN, "sw=1", 0, "0"), (OWN, "port=1", "0", 1), (OWN, "id;port=1", "3", 0), (OWN, "sw2=0", "0", "0"), (OWN, "Sw=0", "0", "0"),
    (ALIKE, "a=0", 0, "0"), (ALIKE, "aa=0", 1, 1), (ALIKE, "aaa=0", "0", "0"), (ALIKE, "dups=0", 2, "0"), (ALIKE, "a0=0", "0", 3),
    (ALIKE, "i!=0", "0", 4), (ALIKE, "dup s=0", "4", "4"), (LONG, "abcdefghijklmno=0", 0, 0), (LONG, "abcdefghijklmn=0", 1, "0"),
    (LONG, "abcdefghijklmnp<-0", "0", 2), (LONG, "abcdefghijklmnop=0", "0", "0"), (LONG, "abcdefghijklm=0", "0", "0"),
]


def spoken():
    for both, text, *found in SPOKEN:
        for side in (0, 1, 2, 3, 255):
            stored = read_call(both, side, parts_of(text), (9, 9, 9))
            expected = found[side == 2]
            if isinstance(expected, str):
                assert stored[1].startswith(" 9 14 0 %s " % expected)
            else:
                assert nodes_of(both, side, text.encode())[0][1] == expected
            yield stored
    turned = lines(EIGHT, TURNED)
    for name in "abcdefgh":
        for side in (1, 2):
            yield read_call(turned, side, parts_of(name + "=0;h<-0"), (3, 3, 3))
            yield read_call(lines(EIGHT[:15], TURNED[:19]), side, parts_of(name + "=0"), (3, 3, 3))
    wide = [8] * 5 + [WORK]
    for both, left, right, said in (
        (OWN, "sw=0", "port=0", "left 1 1"), (OWN, "sw=0", "sw=0", "refused 14 0 0"), (OWN, "port=0", "?", "refused 14 0 0"),
        (THREE, "sw=1;port=0", "vlan!=9;sw=1;port=0", "refused 6 2 0"), (THREE, "sw=1;port=0", "port=0;sw=1", "equal 4"),
        (THREE, "sw=2", "vlan=2", "refused 6 1 0"), (THREE, "id", "vlan=0", "left 1 1"), (ALIKE, "dups=0", "a0=0", None),
        (lines("f0=2", "f0=2"), "f0=0;dup", "dup;f0=0", "equal 4"), (lines("f0=2", "f0=2"), "id", "f1=0", "refused 14 0 0"),
        (lines("sw=2,port=2", "port=2,sw=2"), "sw=0;port<-1", "sw=0;port<-1", "equal 4"),
        (lines("sw=2,port=3", "port=3,sw=2"), "sw=0", "port=0", "left 1 1"),
    ):
        found, stored = texts_call(both, (parts_of(left), parts_of(right)), wide)
        assert said in (None, found), (left, right, found)
        yield stored
    # joint fields in node lists: each side may use every one
    for policies in (
        (lists([(EQ, 1, 0)]), lists([(EQ, 0, 0)])), (lists([(EQ, 0, 0)]), lists([(EQ, 1, 0)])), (ONE, lists([(SET, 1, 2)])),
        (lists([(NE, 2, 0)]), ONE),
    ):
        yield search_call(OWN, policies, wide)[1]
        yield tested_call(OWN, policies)
    both = lines("sw=2,port=3", "vlan=5,port=3,sw=2")
    policies = ONE, every_field(both)[1]
    for number in (0, 28, 29, 30):
        yield values_call(both, policies, number, 3)
        yield values_call(both, policies, number, 2)
    for values in ([1, 2, 3], [1, 2, 4], [1, 2, 5], [1, 3, 5], [2, 3, 5], [1, 2], [1, 2, 3, 0]):
        yield number_call(both, policies, values)


# ---- each two causes that hold at once

# what is added to the tables for a cause: entries of the left table and of the right one
ADDED = {20: [("A", 1)], 21: [("two", 2)], 1: [("g%d" % at, 1) for at in range(7)], 2: [("none", 0)]}
ALSO_RIGHT = {21: [("two", 3)]}
TABLE_CAUSES = (4, 20, 21, 1, 2)


def caused(causes):
    """Tables for which these causes hold; without one, they have three fields of two values."""
    left, right = [("sw", 2), ("port", 2)], [("port", 2), ("vlan", 2)]
    for cause in causes:
        left = left + ADDED.get(cause, [])
        right = right + ALSO_RIGHT.get(cause, [])
    both = Tables(table(left), table(right))
    if 4 in causes:
        both.right.sizes.append(0)
    return both


# policies by cause, of one policy
WRONG = {
    4: ([1], [0], []), 5: lists([(ID, 0, 0), (10, 0, 0)]), 6: lists([(EQ, 0, 2)]), 7: lists([(ID, 0, 0), (STAR, 1, 0)]),
    8: lists([(ID, 0, 0), (ID, 0, 0)]), 19: lists([(DUP, 0, 0), (NOT, 0, 0)]), 9: lists(gathered(64)),
}
TEXT_CAUSES = (14, 15, 16, 17)
# policies that a text can say, by cause
SAID = {6: "sw=2", 19: "!dup", 9: "dup" + "+dup" * 63}


def text_of(causes, said="id"):
    """The parts of a text for which these of 14 to 17 hold."""
    text = [said]
    if 17 in causes:
        text += [(512, "*")]
    if 15 in causes:
        text = [(65, "("), *text, (65, ")")]
    if 16 in causes:
        text += [" id"]
    if 14 in causes:
        text += ["?"]
    return parts_of(*text)


# calls on policies, and the causes behind those of a policy and 3
CAUSED = ((POLICY, ()), (POLICIES, ()), (SEARCH, (10,)), (EVIDENCE, (10,)), (TRACE, (10, 13)), (VALUES, (13,)), (NUMBER, (13,)))


def of_policies(kind, both, left=ONE, right=ONE, lent=()):
    """Calls on these tables and these policies, of one policy on the right one, with these of 10 and 13."""
    words = WORK - 1 if 10 in lent else WORK
    packet, lengths = (65535, (3, 9)) if 13 in lent else (0, (3,))
    if kind == POLICY:
        return [tested_call(both, [right])]
    if kind == POLICIES:
        return [tested_call(both, [left, right])]
    if kind == SEARCH:
        return [search_call(both, (left, right), [40] * 5 + [words])[1]]
    if kind == EVIDENCE:
        return table_calls(both, (left, right), ROWS, [2] * 3, words, [])[1]
    if kind == VALUES:
        return [values_call(both, (left, right), packet, length) for length in lengths]
    if kind == NUMBER:
        return [number_call(both, (left, right), [packet] * length) for length in lengths]
    return [Case(both, left, right, packet, [packet], words).call()[1]]


def table_pairs():
    """Two causes of the tables, in every call."""
    for causes in itertools.combinations(TABLE_CAUSES, 2):
        both = caused(causes)
        assert refusal(both)[0] == causes[0]
        yield from every_call(both)


def pairs_with_policies():
    """A cause of the tables and one of a policy, of lent lists or of packets; two of the latter, of which one is not of a policy."""
    legal = caused(())
    for kind, later in CAUSED:
        for early in TABLE_CAUSES:
            for policy in WRONG.values():
                yield from of_policies(kind, caused((early,)), right=policy)
            for cause in later:
                yield from of_policies(kind, caused((early,)), lent=(cause,))
        for policy, cause in itertools.product(WRONG.values(), later):
            yield from of_policies(kind, legal, right=policy, lent=(cause,))
        if len(later) > 1:
            yield from of_policies(kind, legal, lent=later)


def pairs_with_texts():
    """A cause of the tables and one of a text; two of a text; one of either text; one of a text and a later one; two later ones."""
    lengths, short = [40] * 5 + [WORK], [40] * 5 + [WORK - 1]
    good, legal = text_of(()), caused(())
    for early in TABLE_CAUSES:
        both = caused((early,))
        for cause in TEXT_CAUSES:
            yield texts_call(both, (text_of((cause,)), good), lengths)[1]
            yield texts_call(both, (good, text_of((cause,))), lengths)[1]
            yield read_call(both, 2, text_of((cause,)), (600, 600, 600))
        for said in SAID.values():
            yield texts_call(both, (parts_of(said), good), lengths)[1]
        yield texts_call(both, (good, good), short)[1]
    for causes in itertools.combinations(TEXT_CAUSES, 2):
        yield read_call(legal, 1, text_of(causes), (600, 600, 600))
        yield texts_call(legal, (text_of(causes), good), lengths)[1]
        yield texts_call(legal, (good, text_of(causes)), lengths)[1]
    for one, other in itertools.product(TEXT_CAUSES, repeat=2):
        yield texts_call(legal, (text_of((one,)), text_of((other,))), lengths)[1]
    for cause in TEXT_CAUSES:
        for said in SAID.values():
            yield texts_call(legal, (parts_of(said), text_of((cause,))), lengths)[1]
            yield texts_call(legal, (text_of((cause,)), parts_of(said.replace("sw", "port"))), lengths)[1]
        yield texts_call(legal, (good, text_of((cause,))), short)[1]
    for said in SAID.values():
        yield texts_call(legal, (parts_of(said), good), short)[1]


# ---- random tables

NAMES = ("a", "b", "ab", "a0", "dups", "i", LONGEST)


def random_table(source):
    entries = [(name, source.choice((1, 2, 2, 2, 3))) for name in source.sample(NAMES, source.randrange(1, 5))]
    given = table(entries, rest=source.choice((0, 0, 97, 255)))
    if source.random() < 0.25:
        cells = bytearray(given.cells)
        cells[source.randrange(len(cells))] = source.choice((0, 1, 15, 16, 48, 65, 97, 122, 255))
        given.cells = bytes(cells)
    return given


def random_texts():
    source = random.Random(4)
    found = set()
    for count in range(90):
        left = random_table(source)
        right = source.choice((left, random_table(source)))
        both = Tables(left, right)
        names = source.sample(NAMES, 2)
        text = source.choice(("%s=0;%s<-1", "%s!=1+dup;%s=0", "(%s<-0;dup;%s=1)*")) % tuple(names)
        other = source.choice((text, text + "+drop"))
        said, stored = texts_call(both, (parts_of(text), parts_of(other)), [60] * 5 + [WORK])
        found.add(" ".join(said.split()[:2]) if said.startswith("refused") else said.split()[0])
        yield stored
        yield read_call(both, source.choice((1, 2)), parts_of(text), (9, 9, 9))
    assert found >= {"equal", "refused 14", "refused 20", "refused 21", "refused 6"}, found


@distinct
def calls():
    for at, both in enumerate(checked_tables()):
        stored = list(every_call(both))
        # each two causes come in every call below; here the calls take turns
        yield from stored[at % 4::4] if refusal(both) else stored
    yield from many_names()
    yield from spoken()
    yield from table_pairs()
    yield from pairs_with_policies()
    yield from pairs_with_texts()
    yield from random_texts()
