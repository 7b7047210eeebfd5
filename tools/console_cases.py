#!/usr/bin/env python3
"""Writes the input and the expected output of the program console_cases, worked out from document 01, "The program", and
document 02, A.1 to A.4 and A.6.

    tools/console_cases.py            write crates/console_cases/stdin and stdout
    tools/console_cases.py --check    compare them with what is stored
"""
import itertools
import random
import sys

from calls import numbers_of
from engine_cases import DROP, DUP, EQ, ID, NE, NOT, SEQ, SET, STAR, SUM, random_policy
from policy_cases import answer as legality
from policy_cases import lists, negated
from search_cases import run
from stored import store
from tables import Tables, refusal, table
from text_cases import Refused, damaged, joined, naming_text, nodes_of, number_of, parts_of

MOST = 32768
ROWS = 4096


def lines(data):
    """Lines end in LF or CRLF; a line end with no byte after it starts no further line."""
    found = data.split(b"\n")
    last = found.pop()
    found = [line[:-1] if line.endswith(b"\r") else line for line in found]
    return found + [last] if last else found


def table_of(line):
    """A line's table, or nothing where an entry has not just one = or no number behind it. An empty line is an empty table."""
    found = [entry.split(b"=") for entry in line.split(b",")] if line else []
    sizes = [number_of(entry[1]) if len(entry) == 2 else None for entry in found]
    return None if None in sizes else table([(entry[0], size) for entry, size in zip(found, sizes)])


def tables_of(data):
    """The tables and the two texts, or nothing where the input is malformed."""
    four = lines(data)
    if len(data) > MOST or len(four) != 4:
        return None
    given = [table_of(line) for line in four[:2]]
    return None if None in given else (Tables(*given), four[2:])


def answered(data):
    """The three-field lines of the output."""
    given = tables_of(data)
    if given is None:
        return [("refused", 18, 0)]
    tables, texts = given
    try:
        refused = refusal(tables)
        if refused:
            raise Refused(*refused)
        policies = [lists(nodes_of(tables, side, text)) for side, text in enumerate(texts, 1)]
    except Refused as refused:
        number, _, place = refused.answer
        return [("refused", number, place)]
    said, rows, trace = legality(tables, policies), [], []
    if not said.startswith("refused"):
        said, rows, trace = run(tables.sizes(), policies, ROWS, ROWS)
    word, *numbers = said.split()
    if word == "refused":
        return [(word, int(numbers[0]), int(numbers[2]))]
    if word == "equal":
        return [(word, len(rows), 0)] + [row[:3] for row in rows]
    places = [(place, packet, int(place == len(trace))) for place, packet in enumerate(trace, 1)]
    return [(word, int(numbers[0]), int(numbers[1]))] + places


def expected(data):
    found = answered(data)
    output = "".join("%s,%d,%d\r\n" % line for line in found)
    return output + "starts with %s, bytes %d, beyond as before" % (found[0][0], len(output))


# ---- cases: parts, as in text_cases

def fields(sizes, end="\n"):
    """The two lines of tables that have f0, f1, .. of these sizes, split by commas: a part."""
    return (2, ",".join("f%d=%s" % field for field in enumerate(sizes.split(","))) + end)


PAIRS = [
    ("2", "drop", "id"), ("2", "f0=0;dup", "dup;f0=0"), ("2", "f0=0+f0=1", "id"), ("3", "f0=0+f0=1", "id"),
    ("1", "dup*", "id+dup;dup*"), ("1", "dup", "dup;dup"), ("2", "f0<-1;f0=1", "f0<-1"), ("2", "f0<-0+f0<-1", "id"),
    ("1", "dup;drop", "drop"),
]

INPUTS = [
    # lines and their ends
    "", "\n", "\r\n", "\n\n", "\n\n\n", "\n\n\n\n", "\n\n\n\n\n", "\r\n\r\n\r\n\r\n", "a=2", "a=2\n", "a=2\rb=2\rid\rid\r", "a=2\r\r\na=2\nid\nid",
    "a=2\na=2\r\r\nid\nid", "\r\nid\r\nid", "\n\n\nid", "id\nid\na=2\na=2", "a=2\r\na=2\nid\r\nid", "a=2\na=2\r\nid\nid\r\n",
    # an empty line is an empty table
    "\na=2\nid\nid", "a=2\n\nid\nid", "\n\nid\nid", "\r\na=2\nid\nid", "a=0\n\n?\n?", "\nA=0\n?\n?",
    # of one field, f0 with two values: lines and their ends, and causes in their order, the left text, the right text, the rest
    *["f0=2\nf0=2\n" + rest for rest in (
        "", "id", "id\n", "id\n\n", "id\nid\n\n", "id\nid\nid", "\nid", "id\nid\r", "id\r\r\nid", "id\nid\r\n\r\n", "id\n\r\n", "\r\n\r\n", "?\n(",
        "id;\n?", "id\n?", "\n\n", "f1=0\n?", "f0=2\nf0=3", "f0=2\nf1=0", "id\nid;f0=2", "f7=0\nid", "id,id\nid", "id\nid;", "id\nid)")],
    # names: shared, of one table, in other orders
    "sw=2\nport=2\nsw=0\nport=0", "sw=2\r\nport=2\r\nsw=0\r\nport=0\r\n", "sw=2\nport=2\nport=0\nsw=0", "sw=2\nport=2\nsw=0\nid;sw=0",
    "sw=2,port=2\nvlan=2,port=2,sw=2\nsw=1\nvlan=0;sw=1", "sw=2,port=3\nport=3,sw=2\nsw=0\nport=0", "sw=2,port=3\nport=3,sw=2\nsw=1;dup\ndup;sw=1",
    "a=2,aa=2\naa=2,a0=2\naa=0\na0=0", "a=2\na=2\na=0\nA=0", "abcdefghijklmno=2\nabcdefghijklmno=2\nabcdefghijklmno=0\nid",
    "a=1,b=1,c=1,d=1,e=1,f=1,g=1,h=1\nh=1,g=1,f=1,e=1,d=1,c=1,b=1,a=1\nh=0\na=0",
    # 20, 21, 1, 2; large fields
    "sw=2,sw=2\nsw=2\nid\nid", "sw=2\ndup=1\nid\nid", "sw=2\nsw=2,id=1,drop=1\nid\nid", "a=1,A=1\nB=1\nid\nid", "sw=2,port=4\nport=5,sw=2\nid\nid",
    "a=1\na=1,b=1,c=1,d=1,e=1,f=1,g=1,h=1,I=1\nid\nid", "sw=2,port=4\nport=5,sw=3\nid\nid", "a=2\na=0\nid\nid", "a=1,b=1,c=1,d=1,e=1,f=1,g=1,h=1\ni=1\nid\nid",
    "a=1\nb=0\nid\nid", "a=0\na=0\nid\nid", "a=5\nb=205\nid\nid", "a=5\nb=205\na=0\nb=0", "a=5\nb=205\na=4\nid", "a=32\nb=32\na=1\nid", "a=1025\na=1025\nid\nid",
    "a=1025\na=1025\nid\na=0", "a=1000\nb=2\nid\nb=0",
]

# entries: malformed ones, then those with a bad name
ENTRIES = [
    "a==1", "a=1,", ",a=1", ",", "a=1,,b=1", "a", "a=", "=", "a=1=", "a=01", "a=00", "a=1 ", "a= 1", "a=+1", "a=-1", "a=1.0", "a=b", "a=65536", "a=4294967297",
    "a=1;b=1", "1", b"a=1\0", b"a=\xb2", "a=1\t", "a=1,b", "A",
    "=1", "A=1", "a =1", " a=1", "a\t=1", b"a\0=1", b"\0=1", b"\xe9=1", "0=1", "a\r=1", "a;b=1", "a=1, b=1",
]

# bytes of a name; from 16 on it is none, whatever its length
LENGTHS = (14, 15, 16, 17, 255, 256, 257, 271, 272, 30000)


def entry_cases():
    for entry in ENTRIES:
        yield entry, "\na=1\nid\nid"
        yield "a=1\n", entry, "\nid\nid"
    # of both lines before 20
    for entry in ENTRIES[:4]:
        yield "A=1\n", entry, "\n?\n?"
        yield entry, "\nA=1\n?\n?"
    for length in LENGTHS:
        yield (length, "a"), "=1\na=1\nid\nid"
        yield "a=1\na=1,", (length, "a"), "=1\nid\nid"


def many_names(count):
    """So many entries with different names of two letters."""
    letters = "abcdefghijklmnopqrstuvwxyz"
    return ",".join("%s%s=1" % pair for pair in itertools.islice(itertools.product(letters, repeat=2), count))


# eight fields with 1,024 packets, and a text that names of each all values but the last
SIZES = [2, 2, 2, 2, 2, 2, 4, 4]
EIGHT = fields(",".join(map(str, SIZES)))
NAMED = naming_text(SIZES)
# four rows for each packet, and a fifth for packet 0; as many values are named
ONE_MORE = "dup;dup;dup+f0=0;f1=0;f2=0;f3=0;f4=0;f5=0;f6=0;f7=0;dup;dup;dup;dup;f6!=1;f6!=2;f7!=1;f7!=2"

LONG = [
    # as long as an input may be, and one byte longer; malformed however it goes on
    [fields("2"), "id\nid", (32753, " ")], [fields("2"), "id\nid", (32752, " "), "\n"], [fields("2"), "id\nid", (32753, " "), "\n"],
    [fields("2"), "id\nid", (32751, " "), "\r\n"], [fields("2"), "id\nid", (32754, " ")], [(32768, "\n")], [(32769, "2")], [(40000, "2")],
    [fields("0"), "id\nid", (32754, " ")],
    # a table to the end of the longest input: the second name repeats the first; an entry more is malformed; and one byte too long
    [(10917, "=1,"), "=1\na=1\nid\nid"], [(8189, "a=1,"), "a=1\n\nid\nid"], [(8188, "a=1,"), "a=1,\n\nid\nid"], [(8190, "a=1,"), "a=1\n\nid\n"], ["a=1\n", (8188, "a=1,"), "a=1\nid\nid"],
    [(32757, "a"), "=1\n\nid\nid"], [(32758, "a"), "=1\n\nid\nid"], [(16377, "=,"), "\n\nid\nid"],
    # depth, dups and nodes
    [fields("2"), (64, "("), "id", (64, ")"), "\nid"], [fields("2"), (65, "("), "id", (65, ")"), "\nid"], [fields("2"), "id\n", (65, "(")],
    [fields("2"), "dup", (30, "+dup"), "\nid"], [fields("2"), "dup", (62, "+dup"), "\nid"], [fields("2"), "dup", (63, "+dup"), "\nid"],
    [fields("2"), "id\ndup", (63, ";dup")], [fields("2"), "id", (511, "*"), "\nid", (511, "*")], [fields("2"), "id", (512, "*"), "\nid"],
    [fields("2"), "id\nid", (512, "*")],
    # 4,096 rows, and one more
    [fields("2,2,2,2,2,4,4"), (3, "dup;"), "id;(dup;dup;dup;dup)*\n", (3, "dup;"), "id;(dup;dup;dup;dup)*+", naming_text([2, 2, 2, 2, 2, 4, 4])],
    [EIGHT, "dup;dup;dup\ndup;dup;dup+", NAMED], [EIGHT, (2, ONE_MORE + "\n")],
    [EIGHT, "dup;dup;dup;f7=0\ndup;dup;dup;f7=0;dup+", NAMED], [EIGHT, "dup;dup;dup;dup\ndup;dup;dup;dup+", NAMED],
    # telling traces longer than one packet, on either side
    [fields("3"), "(f0=0;f0<-1+f0=1;f0<-2);dup\n(f0=0;f0<-1);dup"], [fields("3"), "(f0=0;f0<-1);dup\n(f0=0;f0<-1+f0=1;f0<-2);dup"],
    [fields("4"), "((f0=0;f0<-1+f0=1;f0<-2+f0=2;f0<-3);dup)*;f0=3\nf0=3"], [fields("4"), "f0=3\n((f0=0;f0<-1+f0=1;f0<-2+f0=2;f0<-3);dup)*;f0=3"],
    # many fields, and sizes
    [fields("1,1,1,1,1,1,1,1"), "f7=0\nid"], [fields("1,1,1,1,1,1,1,1,1"), "id\nid"], [fields("32,32"), "f1=31\nf1=31"], [fields("5,205"), "?\n?"],
    [fields("2,0"), "?\n?"], [fields("0"), "?\n?"], [fields("02"), "?\n?"], [fields("65536"), "?\n?"], [fields("x"), "?\n?"],
]


NEGATIONS = [
    [fields("2,2"), "!(f0=0;f1=0)\nf0!=0+f1!=0"], [fields("2"), "dup;!f0=0\n!f0=0;dup\n"], [fields("2", "\r\n"), "!f0=0*\r\nid\r\n"],
    [fields("3"), "(f0<-1;!f0=0)*\nid+f0<-1"], [fields("3"), "!f0=0\nf0=1"], [fields("3"), "f0=1\n!f0=0"], [fields("2"), "dup;!f0=0\ndup;f0=0"],
    [fields("4"), "(!f0=3;dup;(f0=0;f0<-1+f0=1;f0<-2))*\n(f0!=3;dup)*"],
    # 19 before 9 and behind 6; the texts first
    [fields("2"), "!(f0=0*)\nid"], [fields("2"), "id\n!!dup"], [fields("2"), "!(f0=0+dup)\n!dup"], [fields("2"), "!f0<-1\nid"],
    [fields("2"), "dup", (63, ";dup"), "\n!dup"], [fields("2"), "!dup\ndup", (63, "+dup")], [fields("2"), "!dup\nf0=2"], [fields("2"), "f0=2\n!dup"],
    [fields("2"), "!dup\n!"], [fields("2"), "!dup\n?"], [fields("0"), "!dup\nid"], [fields("2"), "f0 ! = 0\nid"], [fields("2"), "id\n!!=0"],
    [fields("2"), "!\nid"], [fields("2"), "id\nid!"], [fields("2"), "!\r\r\nid"], ["!\n!\nid\nid"], ["a=2!\na=2\nid\nid"],
    # runs
    [fields("2"), (500, "!"), "f0=0\nf0=0"], [fields("2"), (511, "!"), "f0=0\n!f0=0"], [fields("2"), (500, "!"), "f0=0\n!f0=0"],
    [fields("2"), "id\n", (513, "!"), "id"], [fields("2"), (512, "!"), "id\nid"], [fields("2"), (511, "!"), "dup\nid"],
    [fields("2"), (32753, "!"), "id\nid"], [fields("2"), "id\n", (32755, "!")], [fields("2"), "id\n", (32756, "!")],
]


def in_rounds(dups):
    """dup* in rounds of so many dups and a rest of fewer, behind dups that nothing reaches, beside three more that are always marked: 63 dups."""
    rest = [(dups - 2, "(id+dup;"), "(id+dup)", (dups - 2, ")")]
    return ["drop", (61 - 2 * dups, ";dup"), "+(dup", (dups - 1, ";dup"), ")*;", *rest, (3, "+dup*")]


WIDE = [
    # states of 20 digits, and of 19
    [fields("1"), "dup", (62, "+dup"), "\ndup", (61, "+dup")], [fields("2"), "dup", (62, ";dup"), "\ndup", (62, ";dup"), "+drop;f0=0"],
    [fields("1"), "dup", (61, ";dup"), "\ndup", (62, ";dup")], [fields("2"), "((dup", (62, "+dup"), ");f0<-1)*\n(dup;f0<-1)*"],
    # over 131,072 bytes
    [fields("5"), *in_rounds(29), "\n", *in_rounds(28), "+", naming_text([5])],
]


RUN_OUT = [
    # deep rows; the line has three fields all the same
    [fields("6"), *in_rounds(29), "\n", *in_rounds(28), "+", naming_text([6])], [EIGHT, "dup;dup;dup;dup;f0=0\ndup;dup;dup;dup+", NAMED],
]


MENTIONED = [
    [fields("1000,2"), "f1=0\nid"], [fields("65535,65535"), "id\ndup"], [fields("5,205"), "id\nid"], [fields("5,205"), "f0=0;f1=0\nid"],
    [fields("1024,5000,2"), "f0=0;f2=0\nid"], [fields("5000,2,3"), "f1=1;f2<-2;dup\nf1=1;dup;f2<-2"], [fields("5000,2,3"), "dup;f2!=1\nf2!=1;dup"],
    # where no packet comes, under a negation, by a change, on the right alone
    [fields("3,9999"), "drop;f0=0\ndrop"], [fields("3,9999"), "!f0=1\nid"], [fields("3,9999"), "id\nf0<-2"], [fields("3,9999"), "drop;f1=0\nid"],
    [fields("3,9999"), "!f1=1\nid"], [fields("3,9999"), "f0=0\nf1<-2"],
]


# inputs with a cause each, of which any two are made to hold at once: what is added to the left table, to the right, and to the left text
CAUSES = {
    18: (",x", "", ""), 20: (",A=1", "", ""), 21: (",t=2", ",t=3", ""), 1: (",g=1,h=1,i=1,j=1,k=1,l=1,m=1", "", ""), 2: ("", ",n=0", ""),
    14: ("", "", "?"), 15: ("", "", (65, "(")), 16: ("", "", " id"), 17: ("", "", (512, "*")), 6: ("", "", ";a=2"), 19: ("", "", ";!dup"),
    9: ("", "", (64, ";dup")), 3: (",w=1024", "", ";a=0;w=0"),
}


def cause_pairs():
    """Each two causes that can hold at once; of two of a text 14 stands last."""
    for one, other in itertools.combinations(CAUSES, 2):
        left, right, texts = zip(CAUSES[one], CAUSES[other])
        yield ["a=2,b=1" + "".join(left) + "\na=2" + "".join(right) + "\nid", *texts[::-1], "\nid"]


def text_of(nodes, at=-1):
    """A text of the policy."""
    kind, first, second = nodes[at]
    if kind in (DROP, ID, DUP):
        return {DROP: "drop", ID: "id", DUP: "dup"}[kind]
    if kind in (EQ, NE, SET):
        return "f%d%s%d" % (first, {EQ: "=", NE: "!=", SET: "<-"}[kind], second)
    if kind == STAR:
        return "(%s)*" % text_of(nodes, first)
    if kind == NOT:
        return "!" + text_of(nodes, first)
    return "(%s%s%s)" % (text_of(nodes, first), {SUM: "+", SEQ: ";"}[kind], text_of(nodes, second))


def table_line(sizes):
    return ",".join("f%d=%d" % field for field in enumerate(sizes))


def random_cases(source, count, whole):
    """Random texts over f0, f1, .., which both tables have, in orders of their own where a line's end comes last."""
    for at in range(count):
        sizes = source.choice(([1], [2], [3], [2, 2], [2, 3], [8], [2, 2, 2]))
        nodes = [random_policy(source, sizes, source.choice((3, 6, 12))) for _ in range(2)]
        left, right = whole(source, nodes, at)
        end = source.choice((b"\n", b"\r\n"))
        table = table_line(sizes).encode()
        other = b",".join(source.sample(table.split(b","), len(sizes)))
        yield [(1, table + end + other + end + left + end + right + source.choice((b"", end)))]


def plain_texts(source, nodes, at):
    left, right = (text_of(policy) for policy in nodes)
    right = source.choice((left, left + "+drop", "id;" + left, left + "+" + right, right))
    return [damaged(source, text) if at % 3 == 0 else text.encode() for text in (left, right)]


def negated_texts(source, nodes, at):
    left, right = (text_of(negated(source, policy, anything=at % 10 == 0)) for policy in nodes)
    right = source.choice((left, text_of(negated(source, nodes[0])), "id;" + left, left + "+" + right, right))
    return [damaged(source, text) if at % 4 == 0 else text.encode() for text in (left, right)]


def cases():
    for sizes, left, right in PAIRS:
        for end in ("\n", "\r\n"):
            yield parts_of(fields(sizes, end), left + end + right)
            yield parts_of(fields(sizes, end), left + end + right + end)
        yield parts_of(fields(sizes), right + "\n" + left)
    for data in INPUTS:
        yield parts_of(data)
    for parts in itertools.chain(entry_cases(), LONG, cause_pairs(), NEGATIONS):
        yield parts_of(*parts)
    yield from random_cases(random.Random(18), 66, plain_texts)
    yield from random_cases(random.Random(27), 40, negated_texts)
    for parts in WIDE + RUN_OUT + MENTIONED:
        yield parts_of(*parts)
    # far over eight names: all of them are tested by 20
    yield parts_of(many_names(100), "\na=1\nid\nid")
    yield parts_of("a=1\n", many_names(100), ",ab=1\nid\nid")


def main():
    given, answers = [], []
    for parts in cases():
        given.append(" ".join(map(str, numbers_of(parts))))
        answers.append(expected(joined(parts)))
    assert run(SIZES, [lists(nodes_of(SIZES, 1, ONE_MORE.encode()))] * 2, 9999, 1)[0] == "equal 4097"
    said = [answer.split(",")[:2] for answer in answers]
    assert {word for word, _ in said} == {"equal", "left", "right", "refused"}
    assert {int(number) for word, number in said if word == "refused"} == {1, 2, 3, 6, 9, 11, 14, 15, 16, 17, 18, 19, 20, 21}
    store("console_cases", given, answers, sys.argv[1:] == ["--check"])


if __name__ == "__main__":
    main()
