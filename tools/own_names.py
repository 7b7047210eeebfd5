#!/usr/bin/env python3
"""Spells the definitions and lemmas of this repository as the library spells its own: words in snake case.

usage: tools/own_names.py [--check] [FOLDER]

Turns every name that a file of specs/ or proofs/ below FOLDER/crates declares, where it is declared, where it is imported and in clauses;
a name that a file takes from the library, and the names that the check makes of the code, stay. --check writes nothing and lists the names
that would fall together.
"""

import os
import re
import sys

NAME = r'[^\s(){}.;,@"«»]+'
DECLARED = re.compile(rf"(?m)^( *)((?:(?:pub|abbrev|unfoldable|mutual|data|record|rec) )*)({NAME})((?: [({{][^=\n]*?[)}}])*) :(?: |$)")
# constructors of one type, on one line
CONSTRUCTORS = re.compile(rf"(?m)^  ((?:{NAME} )+{NAME}) : [A-Z]\w*$")
USE = re.compile(r"(?m)^[ \t]*(?:pub )?use ([^\s;{]+?)(?:\.?\{([^}]*)\})?(?: as ([^\s;]+))?[ \t]*$")
GHOST_USE = re.compile(r"ghost use ([^\s;{]+?)(?:\.?\{([^}]*)\})?(?: as ([^\s;]+))?;")
# A name whose new spelling a tactic, a field or a definition beside it has already. A lemma that would have its function's name gets `_lem`.
BY_HAND = {
    "firstOf": "first_refused",
    "inField": "is_in_field",
    "goesOn": "goes_on_after",
    "core-sizes": "sizes_of_core",
    "breaks-a": "breaks_rule_a",
    "breaks-b": "breaks_rule_b",
    "breaks-d": "breaks_rule_d",
}
# Lemmas of one file that had the new spelling before, each with the definition that gets it: they get `_lem`.
LEMMAS = {
    "listed_rows/proofs/Growing.antt": {"next_row": "nextRow", "both_zero": "bothZero"},
    "policy/proofs/Nodes.antt": {"node_at": "nodeAt"},
}
# What port.py spelled as a lemma of another name, and is none.
NO_LEMMAS = {"out_of_lem": "out_of"}
# Variables of one file that are spelled like a definition of another.
VARIABLES = {
    "changes/proofs/Walking.antt": ("inField",),
    "console/proofs/Printing.antt": ("leftTable", "rightTable"),
    "exports/proofs/Laws.antt": ("leftTable", "rightTable"),
    "exports/specs/Promises.antt": ("leftTable", "rightTable"),
    "index/proofs/Looking.antt": ("isEntry", "isSide"),
    "search_texts/proofs/Running.antt": ("leftTable", "rightTable"),
    "search_texts/specs/Call.antt": ("leftTable", "rightTable"),
}
# Lemmas named as a definition is, but for their spelling.
FALLING = set(
    """
    answer-here answer-in bit-and bit-or bit-xor bytes-kept cell-name class-entry comparison-of constant-of entry-at
    field-token is-dup is-named is-table joint-names left-dups lefts-of lists-stage named-below names-from node-on
    on-classes packets-of policy-tests right-dups rights-of same-states switch-names token-of tree-in tree-of tree-read
    word-drop word-dup word-id zero-size
    """.split()
)


def snake(name):
    if name in BY_HAND:
        return BY_HAND[name]
    if name in FALLING:
        return plain(name) + "_lem"
    return plain(name)


def plain(name):
    for old, new in BY_HAND.items():
        name = re.sub(rf"^{re.escape(old)}(?=-)", new, name)
    name = re.sub(r"(?<=[a-z0-9])([A-Z]+)(?![a-z])", lambda m: "_" + m[1].lower(), name)
    name = re.sub(r"(?<=[a-z0-9])([A-Z])", lambda m: "_" + m[1].lower(), name)
    return name.replace("-", "_")


def is_old(name):
    return "◌" not in name and bool(re.search(r"[a-z0-9][A-Z]", name) and name[0].islower() or "-" in name.strip("-"))


def code_of(text):
    """The text with comments and strings blanked, of the same length."""
    return re.sub(r'"(?:\\.|[^"\\\n])*"|(?<![^\s(){}.;,])--[^\n]*|//[^\n]*', lambda m: " " * len(m[0]), text)


def files(root):
    for folder, dirs, names in os.walk(os.path.join(root, "crates")):
        dirs[:] = sorted(d for d in dirs if d != "out")
        for n in sorted(names):
            if n.endswith((".antt", ".rt")):
                yield os.path.join(folder, n)


def declared_in(code):
    found = {}
    for m in DECLARED.finditer(code):
        name, line = m[3], code[m.start() : code.find("\n", m.end())]
        if re.search(r" : (tie|goal)\.", line) or name in ("use", "let", "in", "module", "where"):
            continue
        found[name] = len(m[1])
    for names in CONSTRUCTORS.findall(code):
        found.update({name: 1 for name in names.split()})
    for items in re.findall(r"(?m)^use [^\n{]*\{([^}]*)\}", code):
        found.update({alias: 1 for alias in re.findall(rf" as ({NAME})", items)})
    return found


def spans_of_rt(text, code):
    """The parts of a .rt file that antt reads."""
    for m in re.finditer(r"ghost use [^;]*;", code):
        yield m.start(), m.end()
    for m in re.finditer(r"(?:requires|ensures)\*?\s*(?:\w+\s*)?\{|ghost\s+\w+\s*:\s*\{", code):
        depth, i = 1, m.end()
        while depth:
            depth += {"{": 1, "}": -1}.get(code[i], 0)
            i += 1
        yield m.end(), i


def read(root):
    texts = {p: open(p, encoding="utf-8").read() for p in files(root)}
    for p, text in texts.items():
        for n, word in NO_LEMMAS.items():
            text = texts[p] = re.sub(rf"(?<![\w-]){n}(?![\w-])", word, text)
        for end, names in LEMMAS.items():
            if p.endswith(end):
                for n, definition in names.items():
                    if definition in text:
                        text = re.sub(rf"(?<![^\s(){{}};]){n}(?![^\s(){{}};])", n + "_lem", text)
                texts[p] = text
    return texts


def turned(texts, crates):
    """Each file with its names turned, and what falls together in it."""
    codes = {p: code_of(t) for p, t in texts.items()}
    declared = {p: declared_in(c) for p, c in codes.items() if p.endswith(".antt")}
    everywhere = set().union(*declared.values())
    fields = {w for d in declared.values() for w, depth in d.items() if depth}
    done, clashes = {}, []
    for p, text in texts.items():
        code = codes[p]
        here = declared.get(p, {})
        own, others, aliases = set(here), set(), set()
        for items in re.findall(r"\bopen [^\n{]*? use \{([^}]*)\}", code):
            own.update(re.split(r"[\s,]+", items))
        own.update(*[names for end, names in VARIABLES.items() if p.endswith(end)])
        for path, items, alias in USE.findall(code) + GHOST_USE.findall(code):
            steps = path.split(".")
            yours = steps[0] == "Rattle" and len(steps) > 1 and steps[1] in crates
            names = [w for w in re.split(r"[\s,]+", items) if w not in ("", "as")]
            if not items and yours:
                aliases.add(alias or steps[-1])
            (own if yours else others).update(names)
        parts = [(0, len(text))] if p.endswith(".antt") else list(spans_of_rt(text, code))
        walked = re.search(r"/(Proof|Answers|Invariants)\.antt$", p)
        out, at, used = [], 0, {}
        for start, end in parts:
            for m in re.finditer(NAME, code[start:end]):
                w, i = m[0], start + m.start()
                if w not in everywhere and w not in own or not is_old(w):
                    continue
                dotted = i > 0 and code[i - 1] == "."
                if dotted:
                    head = re.search(rf"({NAME})\.$", code[max(0, i - 80) : i])
                    if head and head[1] in ("tie", "goal"):
                        continue
                    if not (head and head[1] in aliases) and walked and w not in own and w not in fields:
                        continue
                elif w in others and w not in here:
                    continue
                elif w not in own and (walked or not re.match(r"\s*[=:](?![=:])", code[i + len(w) : i + len(w) + 6])):
                    # else a field written in a record's braces
                    continue
                new = snake(w)
                out += [text[at:i], new]
                at = i + len(w)
                used.setdefault(new, {}).setdefault(w, dotted)
                used[new][w] &= dotted
        out.append(text[at:])
        done[p] = "".join(out)
        if p.endswith(".rt"):
            continue
        words = set(re.findall(rf"(?<![^\s(){{}};,«»]){NAME}", code))
        for new, olds in used.items():
            if len(olds) > 1:
                clashes.append((p, sorted(olds), new))
            elif not all(olds.values()) and new in words:
                clashes.append((p, sorted(olds), new))
    return done, clashes


def main(argv):
    check = "--check" in argv
    argv = [a for a in argv if a != "--check"]
    root = argv[0] if argv else "."
    crates = set(os.listdir(os.path.join(root, "crates")))
    texts = read(root)
    while True:
        done, clashes = turned(texts, crates)
        falling = {w for _, olds, _ in clashes for w in olds if "-" in w and w not in BY_HAND} - FALLING
        if not falling:
            break
        FALLING.update(falling)
    for p, olds, new in clashes:
        print(f"{p}: {' and '.join(olds)} -> {new} fall together")
    print(f"as lemmas of a definition's name: {' '.join(sorted(FALLING))}")
    print(f"{sum(done[p] != open(p, encoding='utf-8').read() for p in done)} files turned")
    if not check:
        for p, text in done.items():
            with open(p, "w", encoding="utf-8") as f:
                f.write(text)


if __name__ == "__main__":
    main(sys.argv[1:])
