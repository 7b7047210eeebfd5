"""Tables of names: cells, joint fields, what tables are refused by, and which fields count, from document 02, A.4 and A.6."""
CELL = 16
LETTERS = b"abcdefghijklmnopqrstuvwxyz"
DIGITS = b"0123456789"


def cell(name, rest=0):
    """A name's cell, with this byte behind the name; of a name that no cell holds, a length over 15."""
    name = name.encode() if isinstance(name, str) else bytes(name)
    held = name[:CELL - 1]
    return bytes([min(len(name), CELL)]) + held + bytes([rest] * (CELL - 1 - len(held)))


class Table:
    """Cells and sizes, whatever they hold."""

    def __init__(self, cells, sizes):
        self.cells, self.sizes = bytes(cells), list(sizes)

    def names(self):
        """By cell, the name, or nothing where the length is over 15."""
        for at in range(0, len(self.cells), CELL):
            length = self.cells[at]
            yield self.cells[at + 1:at + 1 + length] if length < CELL else None


def table(entries, rest=0):
    """A table of names with their sizes."""
    return Table(b"".join(cell(name, rest) for name, _ in entries), [size for _, size in entries])


class Tables:
    """The tables of the left and of the right policy."""

    def __init__(self, left, right):
        self.left, self.right = left, right

    def lists(self):
        """In the order in which a call takes them."""
        return [self.left.cells, self.left.sizes, self.right.cells, self.right.sizes]

    def joint(self):
        """Of tables that pass, the joint fields' names and sizes: the left table's, then those that only the right one has."""
        fields = list(zip(self.left.names(), self.left.sizes))
        own = {name for name, _ in fields}
        return fields + [(name, size) for name, size in zip(self.right.names(), self.right.sizes) if name not in own]

    def sizes(self):
        return [size for _, size in self.joint()]

    def fields(self, side):
        """The names that a text of this side may use, with their joint numbers."""
        number = {name: at for at, (name, _) in enumerate(self.joint())}
        return {name: number[name] for name in (self.right if side == 2 else self.left).names()}


def numbered(sizes, right=None):
    """f0, f1, .. in both tables; or in the right one only those that have sizes of their own."""
    def entries(given):
        return table([("f%d" % field, size) for field, size in enumerate(given)])
    return Tables(entries(sizes), entries(sizes if right is None else right))


def tables_of(fields):
    """Tables, given as such or as the sizes of f0, f1, .. in both."""
    return fields if isinstance(fields, Tables) else numbered(fields)


def is_name(name):
    return (name is not None and 1 <= len(name) <= 15 and name[0] in LETTERS and all(byte in LETTERS + DIGITS for byte in name)
            and name not in (b"drop", b"id", b"dup"))


def bad_name(given):
    """The first name that is malformed, is taken, or was there before."""
    names = list(given.names())
    return next((at for at, name in enumerate(names) if not is_name(name) or name in names[:at]), None)


def refusal(tables):
    """Causes 4 with side 0, 20, 21, 1 and 2: number, side, place."""
    for given in (tables.left, tables.right):
        if len(given.cells) != CELL * len(given.sizes):
            return (4, 0, 0)
    for side, given in ((1, tables.left), (2, tables.right)):
        at = bad_name(given)
        if at is not None:
            return (20, side, at)
    other = dict(zip(tables.right.names(), tables.right.sizes))
    for at, (name, size) in enumerate(zip(tables.left.names(), tables.left.sizes)):
        if other.get(name, size) != size:
            return (21, 1, at)
    sizes = tables.sizes()
    if not tables.left.sizes or not tables.right.sizes or len(sizes) > 8:
        return (1, 0, 0)
    return next(((2, 0, field) for field, size in enumerate(sizes) if size == 0), None)


def mentioned(sizes, policies):
    """The fields that a test or a change in any of these policies is of, with their sizes. A policy is its three lists."""
    found = {field for kinds, fields, _ in policies for kind, field in zip(kinds, fields) if kind in (2, 3, 4)}
    return {field: size for field, size in enumerate(sizes) if field in found}


def packets_refusal(counted):
    """Cause 3 on the fields that count, given with their sizes."""
    count = 1
    for field in sorted(counted):
        count *= counted[field]
        if count > 1024:
            return (3, 0, field)
    return None
