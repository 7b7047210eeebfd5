"""Texts read, with what the reader answers worked out from document 01, "Text" and causes 14 to 17, and document 02, A.1 and A.4."""
import random
import string

from calls import READ, call, distinct, numbers_of, table_lists, total
from tables import numbered, refusal, tables_of

WORD = set((string.ascii_letters + string.digits).encode())
SINGLE = {ord(c): c for c in "=+;*()!"}


# f0 to f7 on the left, and one of them on the right
EIGHT = numbered([2] * 8, [2])
# f0 alone
ONE = numbered([2])


class Refused(Exception):
    def __init__(self, number, side, place):
        super().__init__()
        self.answer = (number, side, place)


def number_of(word):
    """A number to 65,535 without leading zeros, or nothing."""
    legal = word.isdigit() and (word == b"0" or word[:1] != b"0") and len(word) <= 5 and int(word) <= 65535
    return int(word) if legal else None


def word_token(word, names):
    """drop, id, dup, a field's name, or a number."""
    if word in (b"drop", b"id", b"dup"):
        return (word.decode(), None)
    if word in names:
        return ("field", names[word])
    number = number_of(word)
    return None if number is None else ("number", number)


def tokens(text, names):
    """The tokens with the bytes at which they start, or cause 14; names are those of the text's side with their fields."""
    found, at = [], 0
    while at < len(text):
        if text[at] in b" \t":
            at += 1
            continue
        start = at
        if text[at] in WORD:
            while at < len(text) and text[at] in WORD:
                at += 1
            token = word_token(text[start:at], names)
        elif text[at:at + 2] in (b"!=", b"<-"):
            at += 2
            token = (text[start:at].decode(), None)
        else:
            at += 1
            token = (SINGLE[text[start]], None) if text[start] in SINGLE else None
        if token is None:
            raise Refused(14, 0, start)
        found.append((token, start))
    return found


def depth(found):
    """Cause 15."""
    open_now = 0
    for (name, _), start in found:
        if name == "(":
            open_now += 1
            if open_now > 64:
                raise Refused(15, 0, start)
        elif name == ")":
            open_now = max(0, open_now - 1)


class Reader:
    """Nodes of the text, children first, left before right. The node lists are made here, and not a tree."""

    def __init__(self, found, end):
        self.found, self.end, self.at, self.nodes = found, end, 0, []

    def peek(self):
        return self.found[self.at][0][0] if self.at < len(self.found) else "end"

    def take(self, *names):
        """The value of the next token, which has one of the names; else cause 16."""
        if self.peek() not in names:
            raise Refused(16, 0, self.found[self.at][1] if self.at < len(self.found) else self.end)
        token = self.found[self.at][0]
        self.at += 1
        return token

    def node(self, kind, first, second):
        self.nodes.append((kind, first, second))
        return len(self.nodes) - 1

    def joined(self, part, mark, kind):
        left = part()
        while self.peek() == mark:
            self.take(mark)
            right = part()
            left = self.node(kind, left, right)
        return left

    def sum(self):
        return self.joined(self.sequence, "+", 6)

    def sequence(self):
        return self.joined(self.starred, ";", 7)

    def starred(self):
        child = self.item()
        while self.peek() == "*":
            self.take("*")
            child = self.node(8, child, 0)
        return child

    def item(self):
        run = 0
        while self.peek() == "!":
            self.take("!")
            run += 1
        child = self.unnegated()
        for _ in range(run):
            child = self.node(9, child, 0)
        return child

    def unnegated(self):
        name, value = self.take("drop", "id", "dup", "field", "(")
        if name == "(":
            inside = self.sum()
            self.take(")")
            return inside
        if name == "field":
            comparison = self.take("=", "!=", "<-")[0]
            number = self.take("number")[1]
            return self.node({"=": 2, "!=": 3, "<-": 4}[comparison], value, number)
        return self.node({"drop": 0, "id": 1, "dup": 5}[name], 0, 0)

    def whole(self):
        self.sum()
        self.take("end")


def read(text, lengths, names):
    """The nodes of a text, or causes 14 to 17."""
    found = tokens(text, names)
    depth(found)
    reader = Reader(found + [(("end", None), len(text))], len(text))
    reader.whole()
    if len(reader.nodes) > min(512, min(lengths)):
        raise Refused(17, 0, len(reader.nodes))
    return reader.nodes


def nodes_of(fields, side, text):
    """The nodes of a text of this side, of any number that is legal; causes 14 to 17."""
    return read(text, [512] * 3, tables_of(fields).fields(side))


def expected(tables, side, text, lengths):
    """The answer in words, and the nodes written."""
    try:
        refused = refusal(tables)
        if refused:
            raise Refused(*refused)
        nodes = read(text, lengths, tables.fields(side))
        return "done %d" % len(nodes), nodes
    except Refused as refused:
        return "refused %d %d %d" % refused.answer, []


def naming_text(sizes):
    """A text that drops everything and names of each of f0, f1, .. every value but the last."""
    return "drop" + "".join(";f%d=%d" % (field, value) for field, size in enumerate(sizes) for value in range(max(size - 1, 1)))


def joined(parts):
    return b"".join(part * times for times, part in parts)


def parts_of(*parts):
    """A part is bytes, text, or a pair of how often and which."""
    made = []
    for part in parts:
        times, part = part if isinstance(part, tuple) else (1, part)
        made.append((times, part.encode() if isinstance(part, str) else part))
    return made


def all_cases():
    for text in TEXTS:
        yield parts_of(text), (9, 9, 9)
    for text in ("f0=0;dup", "id+dup;dup*", "(id+dup)*;f3<-65535"):
        nodes = len(nodes_of(EIGHT, 1, text.encode()))
        for short in range(3):
            for less in (0, 1, nodes):
                lengths = [nodes + 2] * 3
                lengths[short] = nodes - less
                yield parts_of(text), tuple(lengths)
    for parts, length in LONG:
        yield parts_of(*parts), (length, length, length)
    source = random.Random(1)
    for _ in range(150):
        yield parts_of(damaged(source, random_text(source, 3))), (12, 12, 12)
    for text in NEGATIONS:
        yield parts_of(text), (9, 9, 9)
    text = "!(f0=0;!f1!=1)*"
    nodes = len(nodes_of(EIGHT, 1, text.encode()))
    for short in range(3):
        for less in (0, 1, nodes):
            lengths = [nodes + 2] * 3
            lengths[short] = nodes - less
            yield parts_of(text), tuple(lengths)
    for parts, length in LONG_NEGATIONS:
        yield parts_of(*parts), (length, length, length)
    source = random.Random(9)
    for _ in range(100):
        yield parts_of(damaged(source, negated(source, random_text(source, 3)))), (12, 12, 12)


def edges():
    """Bytes at the edges of their classes at every place of small texts: before the byte there and in its stead."""
    for text in SMALL:
        for at in range(len(text) + 1):
            for byte in EDGES:
                yield text[:at] + bytes([byte]) + text[at:]
                if at < len(text):
                    yield text[:at] + bytes([byte]) + text[at + 1:]


def random_text(source, deep):
    kind = source.randrange(6)
    if kind == 0 and deep:
        return blank(source) + "(" + random_text(source, deep - 1) + ")" + blank(source)
    if kind == 1 and deep:
        return random_text(source, deep - 1) + source.choice(["+", ";", " + ", ";\t"]) + random_text(source, deep - 1)
    if kind == 2 and deep:
        return random_text(source, deep - 1) + source.choice(["*", " *", "**"])
    if kind < 5:
        field = "f%d" % source.randrange(8)
        return field + blank(source) + source.choice(["=", "!=", "<-"]) + blank(source) + str(source.choice([0, 1, 7, 10, 65535]))
    return source.choice(["drop", "id", "dup"])


def negated(source, text):
    """The text with negations before some of its items."""
    made = ""
    for at, mark in enumerate(text):
        starts = mark == "(" or mark.isalpha() and (at == 0 or not text[at - 1].isalnum())
        while starts and source.random() < 0.3:
            made += source.choice(["!", "!", "! ", " !"])
        made += mark
    return made


def blank(source):
    return source.choice(["", "", "", " ", "\t"])


def damaged(source, text):
    """Half of the texts with one byte dropped, doubled or changed."""
    text = text.encode()
    at = source.randrange(len(text))
    kind = source.randrange(6)
    if kind == 0:
        return text[:at] + text[at + 1:]
    if kind == 1:
        return text[:at] + text[at:at + 1] + text[at:]
    if kind == 2:
        return text[:at] + bytes([source.choice(b"()*+;=!<-f0 d\x80")]) + text[at + 1:]
    return text


EDGES = (9, 32, 33, 47, 48, 57, 58, 60, 61, 64, 65, 90, 91, 96, 97, 122, 123, 127, 128, 255)
SMALL = (b"", b"id", b"f0<-1")

TEXTS = [
    # the pairs of document 01
    "drop", "id", "dup", "f0=0;dup", "dup;f0=0", "f0=0+f0=1", "dup*", "id+dup;dup*", "dup;dup", "f0<-1;f0=1", "f0<-1",
    "f0<-0+f0<-1", "dup;drop",
    # nothing, and blanks
    "", " ", "\t", " \t ", "  id", "id  ", "\tid\t", " f0 \t=  1 ", "f0 = 0", "f0 != 0", "f0 <- 0", "( id ) * ; ( dup + drop ) *",
    "\t(\tid\t+\tdup\t)\t*\t;\tf7\t!=\t65535\t",
    # marks of two bytes apart
    "f0 ! = 0", "f0 < - 0", "f0! =0", "f0< -0", "!", "<", "f0!", "f0<", "f0=!", "f0!!=0", "f0<=0", "f0<<-0", "f0-0", "-",
    # joins and stars
    "id;drop;dup", "id+drop+dup", "id+drop;dup", "id;drop+dup", "id;drop*", "id+drop*", "(id;drop)*", "(id+drop);dup",
    "id;(drop+dup)", "id;(drop;dup)", "id+(drop+dup)", "id**", "(id*)*", "((id))", "id+dup;drop+f1=2;id*",
    # words
    "f7=0", "f8=0", "F0=0", "f=0", "f00=0", "f10=0", "g0=0", "dup2", "Dup", "DROP", "iD", "idid", "id2", "2id", "drop1",
    "f0=65535", "f0=65536", "f0=99999", "f0=100000", "f0=4294967296", "f0=00", "f0=01", "f0=0", "f0=10", "f0=007", "00", "0",
    "f0=f1", "f0=id", "f0=", "f0", "f0!=", "f0<-", "0=f0", "=", "f0==0", "f0=0=0", "f0 0", "f0=0 1",
    # bytes that start no token
    b"\0", b"\x7f", b"\x80", b"\xff", b"id\0", b"id\x80", b"id;\xffid", b"\x80id", b"id\r", b"id\n", b"\rid", b"id\r\n", b"id;\nid",
    "id,dup", "id.", "_id", "id_", "id&dup", "id|dup", "@id", "[id]", "{id}", "id/dup", "id:dup", "`id", "id\x0bid", "id\x0c",
    # the first, a middle and the last byte
    "?id;dup", "id?;dup", "id;dup?", "+id;dup", "id;+dup", "id;dup+", ";id", "id;;dup", "id;", "*id", "id;*dup", "id*;", "id dup",
    "id id", "id(dup)", "(id", "id)", "()", "(id))", "((id)", "(id;)", "(+id)", "(", ")", ")))", "(((", "id+)", "(id)(dup)", "(id)dup",
    "id*dup", "id* *", "id *;dup", "id +", "id ; ", "(id ", "f0 ", "f0= ", " )", "  +",
    # causes in their order: 14 before 15 and 16, 15 before 16, 16 before 17
    ")?", "(?", "id;;id?", "id id 00",
]

NEGATIONS = [
    # before each item, and before it alone
    "!drop", "!id", "!dup", "!f0=0", "!f1!=2", "!f0<-1", "!(id)", "!(f0=0;f1=0)", "!f0=0*", "!(f0=0*)", "(!f0=0)*", "!f0=0**",
    "!id;dup", "!id+dup", "id;!dup", "id+!dup", "!id;!dup+!drop", "!(id+dup;drop)*", "((!id))", "(!(id))",
    # one after the other
    "!!id", "!!!f0=0", "!(!id)", "!(!(!id))", "!!(f0=0+f1=0)", "!!dup", "!(f0=0+dup)", "!(id;!(drop+!f0=0))",
    # blanks, and the mark of two bytes beside it
    "! id", "!\tid", " ! ! id ", "! f0 != 0", "!f0!=0", "!f0 !=0", "!!f0!=0", "! (\tid )", "dup;! f0=0", "!f0=0;dup",
    # what no text goes on with
    "!", "!!", "! ", "!\t!", "!=", "!=0", "!!=", "!!=0", "!!!=0", "! =0", "!=id", "!+id", "!;id", "!*", "!*id", "!)", "(!)", "(!", "!(",
    "!()", "!(id", "!0", "!f0", "!f0=", "!f0!", "!f0 ! = 0", "f0 !", "f0 !0", "f0! = 0", "f0!!=0", "f0=!0", "f0!=!0", "f0<-!0", "id!", "id !",
    "id!id", "id !id", "id!=0", "(id)!id", "(id)!", "id*!", "id*!id", "id;!", "id;!;id", "id+!+id", "id;!*", "!id id", "!id)",
    # 14 before 16
    "!?", "?!", "!!=?", "!;?", "!00", "!idd", "!f8=0", b"!\x80", b"!\0id", "!\nid", "id!\r", "!<", "!-", "<!-0",
]

LONG = [
    ([(63, "("), "id", (63, ")")], 3),
    ([(64, "("), "id", (64, ")")], 3),
    ([(65, "("), "id", (65, ")")], 3),
    ([(64, "("), "id", (63, ")")], 3),
    ([(64, "("), "id", (65, ")")], 3),
    ([(65, "(")], 3),
    ([(64, "(")], 3),
    ([")))", (65, "(")], 3),
    ([")))", (64, "(")], 3),
    ([(64, "( "), (64, "\t")], 3),
    ([(64, "("), ")", "(", "("], 3),
    ([(40, "("), "id", (40, ")"), "+", (64, "("), "dup", (64, ")")], 9),
    ([(65, "("), "?"], 3),
    (["?", (65, "(")], 3),
    (["id", (510, "*")], 511),
    (["id", (511, "*")], 512),
    (["id", (511, "*")], 513),
    (["id", (511, "*")], 511),
    (["id", (512, "*")], 600),
    (["id", (600, "*")], 600),
    (["f1=1", (255, "+dup")], 511),
    (["f1=1", (255, ";dup")], 512),
    (["id", (256, ";id")], 600),
    (["id;;", (512, "*")], 600),
    # as long as the program that runs them holds
    (["id", (2730, ";id")], 5),
    (["id", (2729, "+id"), ";"], 5),
    ([(8192, " ")], 5),
    ([(8192, "1")], 5),
    ([(4096, "( ")], 5),
    (["dup", (8189, "*")], 5),
    (["dup", (8188, "*"), "!"], 5),
    (["dup", (8188, "*"), "?"], 5),
    ([(64, "("), "id", (64, ")"), (8061, " "), "?"], 5),
]

LONG_NEGATIONS = [
    ([(500, "!"), "f0=0"], 512),
    ([(510, "!"), "id"], 511),
    ([(511, "!"), "id"], 512),
    ([(511, "!"), "id"], 511),
    ([(512, "!"), "id"], 600),
    ([(513, "!"), "id"], 600),
    ([(255, "!"), "(", (255, "!"), "dup)"], 600),
    ([(256, "!"), "id", (255, "*")], 512),
    ([(256, "!"), "id", (256, "*")], 600),
    ([(513, "!")], 600),
    ([(513, "!"), "=0"], 600),
    ([(513, "!"), ";id"], 600),
    ([(513, "!"), "id;"], 600),
    # parentheses count as before
    ([(63, "!("), "id", (63, ")")], 99),
    ([(64, "!("), "id", (64, ")")], 99),
    ([(65, "!("), "id", (65, ")")], 99),
    ([(65, "!(")], 99),
    # as long as the program that runs them holds
    ([(8190, "!"), "id"], 5),
    ([(8191, "!"), "?"], 5),
    ([(8192, "!")], 5),
    ([(8190, "!"), "=0"], 5),
    ([(4095, "! "), "id"], 5),
    ([(1365, "!id;"), "!id", (2729, "*")], 5),
    ([(2047, "!id+"), "!id"], 5),
]


def read_call(tables, side, parts, lengths):
    said, nodes = expected(tables, side, joined(parts), lengths)
    sums = (total([node[column] for node in nodes], length) for column, length in enumerate(lengths))
    return call(READ, table_lists(tables) + [side] + numbers_of(parts) + list(lengths), said, *sums)


@distinct
def calls():
    for parts, lengths in all_cases():
        yield read_call(EIGHT, 1, parts, lengths)
    for text in edges():
        yield read_call(ONE, 1, parts_of(text), (3, 3, 3))
