"""What stands in this repository, read from its files: crates and their sections, definitions, functions, edits, stored calls."""
import pathlib
import re

ROOT = pathlib.Path(__file__).resolve().parent.parent
CRATES = ROOT / "crates"


def crates():
    """The crates of crates.txt in its order: (section, what the section is, crate, the crates it stands on)."""
    found, section, about = [], "", ""
    for line in (ROOT / "crates.txt").read_text().splitlines():
        head = re.match(r"# == ([^:]+): (.*)", line)
        if head:
            section, about = head.groups()
        entry = re.match(r"([a-z0-9_]+)(?: staticlib)?:([^#]*)", line)
        if entry:
            found.append((section, about, entry.group(1), entry.group(2).split()))
    return found


def sections():
    """The sections of crates.txt in its order: name, what it is, crates."""
    found = {}
    for section, about, crate, _ in crates():
        found.setdefault(section, (about, []))[1].append(crate)
    return [(section, about, names) for section, (about, names) in found.items()]


def below(crate):
    """The crates that a crate stands on, each after those that it stands on itself."""
    on, found = {name: under for _, _, name, under in crates()}, []

    def visit(name):
        for under in on[name]:
            if under in on and under not in found:
                visit(under)
                found.append(under)

    visit(crate)
    return found


def first_sentence(path):
    """The first sentence of the comment at a file's head, without its stop."""
    said = []
    for line in path.read_text().splitlines():
        comment = re.match(r"(?://|--|#(?!!?\[)) ?(.*)", line)
        if not comment:
            break
        said.append(comment.group(1))
    text = re.split(r"\.(?:\s+(?=[A-Z`])|$)", " ".join(said))[0]
    return text.strip()


def crate_root(crate):
    """A crate's root file."""
    folder = CRATES / crate / "src"
    return folder / "main.rt" if (folder / "main.rt").exists() else folder / "lib.rt"


def edits():
    """The must-fail edits: crate, name, what the edit makes."""
    return [(path.parent.parent.name, path.stem, path) for path in sorted(CRATES.glob("*/must-fail/*.edit"))]


def parts_of(edit):
    """The replacements of an edit: file, old, new. A line that starts with no key goes on with the one before."""
    found, file, key = [], None, None
    for line in edit.read_text().splitlines():
        if line.startswith("#") and key is None:
            continue
        match = re.match(r"(file|old|new): ?(.*)", line)
        if match and match.group(1) == "file":
            file, key = match.group(2).strip(), "file"
        elif match and match.group(1) == "old":
            found.append([file, match.group(2), None])
            key = "old"
        elif match:
            found[-1][2], key = match.group(2), "new"
        elif key in ("old", "new"):
            place = 1 if key == "old" else 2
            found[-1][place] += "\n" + line
    return found


# ---------------------------------------------------------------------------------------------------------------- definitions

WORDS = re.compile(r"[^\s(){}\[\];,⌜⌝«»]+")
MODIFIERS = {"pub", "unfoldable", "abbrev", "record", "data", "opaque", "private"}


class Declaration:
    """A definition of specs/: its name, its names (with constructors; with fields too), the words of its text, its lines."""

    def __init__(self, name, record):
        self.name = name
        self.record = record
        self.names = {name}
        self.members = set()
        self.words = set()
        self.lines = 0


class Specs:
    """One file of specs/."""

    def __init__(self, path):
        self.path = path
        self.crate = path.parent.parent.name
        self.imports = {}  # word: (crate, module, name); the name is None for the module itself
        self.declarations = []
        self.read()

    def read(self):
        lines = self.path.read_text().splitlines()
        modules = []  # (indent of what stands inside, words of the parameters)
        current = None
        for use in re.findall(r"^use ([^\n{]*(?:\{[^}]*\})?[^\n]*)", self.path.read_text(), re.M):
            self.use(use)
        for line in lines:
            bare = line.split("--")[0].rstrip() if not line.lstrip().startswith("--") else ""
            if not bare.strip() or bare.startswith("use "):
                continue
            indent = len(bare) - len(bare.lstrip())
            words = WORDS.findall(bare) or [bare.strip()]
            while modules and indent < modules[-1][0]:
                modules.pop()
            inside = modules[-1][0] if modules else 0
            if words[0] == "module" and indent == inside:
                modules.append((indent + 2, (modules[-1][1] if modules else set()) | set(words)))
                current = None
                continue
            if words[0] in ("mutual",) and indent == inside:
                modules.append((indent + 2, modules[-1][1] if modules else set()))
                current = None
                continue
            if indent == inside:
                rest = [word for word in words if word not in MODIFIERS]
                marked = words[0] in MODIFIERS
                if marked or (len(rest) > 1 and rest[1] == ":"):
                    current = Declaration(rest[0], "record" in words)
                    current.words |= modules[-1][1] if modules else set()
                    self.declarations.append(current)
                elif current is None or (words[0] not in current.names and not current.name.startswith("◌")):
                    again = [d for d in self.declarations if words[0] in d.names]
                    current = again[0] if again else current
            elif current is not None and len(words) > 1:
                member = [word for word in words if word != "pub"]
                if len(member) > 1 and (words[0] == "pub" or member[1] == ":"):
                    members = set(member[:member.index(":")]) if ":" in member else set()
                    current.members |= members
                    # a field is reached by its record, which the text names; a constructor by itself
                    current.names |= set() if current.record else members
            if current is not None:
                current.words |= set(words)
                current.lines += 1

    def use(self, use):
        match = re.match(r"Rattle\.([a-z0-9_]+)\.specs\.([\w.-]+?)(?:\.\{([^}]*)\}| as (\S+))?\s*$", use)
        if not match:
            return
        crate, module, names, alias = match.groups()
        if names is None:
            self.imports[alias or module.split(".")[-1]] = (crate, module, None)
            return
        for name in names.split(","):
            name = name.strip()
            real, _, local = name.partition(" as ")
            self.imports[(local or real).strip()] = (crate, module, real.strip())


def all_specs():
    """All files of specs/ but the roots, by crate and module."""
    return {(path.parent.parent.name, path.stem): Specs(path) for path in sorted(CRATES.glob("*/specs/*.antt")) if path.stem != "Lib"}


def functions(crate):
    """The functions of a crate: name, whether it is public, the text before its body."""
    found = []
    for path in sorted((CRATES / crate / "src").glob("*.rt")):
        text = path.read_text()
        for match in re.finditer(r'^(pub )?(extern "C" )?fn ([a-z0-9_]+)(.*?)^\{', text, re.M | re.S):
            found.append((match.group(3), bool(match.group(1)), match.group(4), path))
    return found


def ghost_uses(path):
    """The names that a source file brings in from specs/."""
    found = {}
    for crate, module, names in re.findall(r"^ghost use Rattle\.([a-z0-9_]+)\.specs\.([\w.-]+)\.\{([^}]*)\};", path.read_text(), re.M):
        for name in names.split(","):
            real, _, local = name.strip().partition(" as ")
            found[(local or real).strip()] = (crate, module, real.strip())
    return found


def public_calls():
    """The public calls: those of the table in docs/PROMISES.md, and the C interface."""
    table = (ROOT / "docs" / "PROMISES.md").read_text()
    named = re.findall(r"^\| `([a-z_]+)::([a-z_]+)\(", table, re.M)
    return named + [("exports", name) for name, public, _, _ in functions("exports") if public]


def reached():
    """What the contracts of the public calls reach: {(crate, module): set of declarations}, and the declared types of src/."""
    specs = all_specs()
    found, types, queue = {}, set(), []

    def want(crate, module, name):
        if module.startswith("declared."):
            # a type of the source, or one of a module of it
            types.add((crate, next(part for part in module.split(".")[1:] if part[0].isupper())))
            return
        file = specs.get((crate, module))
        if file is None:
            return
        for declaration in file.declarations:
            if name in declaration.names and declaration not in found.setdefault((crate, module), set()):
                found[(crate, module)].add(declaration)
                queue.append((file, declaration))

    def follow(words, imports, local=None):
        for word in words:
            word = word.lstrip(".").rstrip(".")
            for name in {word, "◌" + word + "◌"}:
                if name in imports:
                    crate, module, real = imports[name]
                    if real is not None:
                        want(crate, module, real)
                elif local is not None and any(name in d.names for d in local.declarations):
                    want(local.crate, local.path.stem, name)
            if "." in word:
                alias, _, name = word.partition(".")
                if alias in imports and imports[alias][2] is None:
                    want(imports[alias][0], imports[alias][1], name)

    for crate, name in public_calls():
        for function, _, contract, path in functions(crate):
            if function == name:
                follow(WORDS.findall(contract), ghost_uses(path))
    while queue:
        file, declaration = queue.pop()
        follow(declaration.words, file.imports, file)
    return specs, found, types
