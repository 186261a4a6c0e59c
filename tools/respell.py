#!/usr/bin/env python3
"""Spells the definitions and lemmas of this repository in snake case.

    tools/respell.py [--report]

It was run once, after the kit's port.py and before any edit by hand: in specs/ and proofs/, and in the
clauses and comments of src/, a word of antt that was written `rowsIn` or `rows-in` is `rows_in`; types, modules and constructors keep their camel case,
and so does a type's name within a word (`All-map` is `All_map`). Names that a file imports from the kit, functions of src/, and the names
that the check makes (`returns-2`) stay. With --report it changes nothing, and lists the names that would fall together.
"""
import collections
import os
import re
import sys

ROOT = os.path.dirname(os.path.dirname(os.path.abspath(__file__)))
WORD = re.compile(r"[A-Za-z_][A-Za-z0-9_'₀-₉-]*[A-Za-z0-9_'₀-₉]|[A-Za-z_]")
DEFINED = re.compile(
    r"^\s*(?:(?:abbrev|unfoldable|opaque|pub|private)\s+)*([A-Za-z][A-Za-z0-9_'₀-₉-]*(?:\s+[A-Za-z][A-Za-z0-9_'₀-₉-]*)*)\s+:(?=\s|$)"
)
USE = re.compile(r"^\s*(?:ghost )?(?:pub )?use ([A-Za-z0-9_.'+-]+)\.\{([^}]*)\}")
CAMEL = re.compile(r"^[a-z][a-z0-9_'-]*[A-Z]")


def files(*ends):
    for folder, below, names in os.walk(os.path.join(ROOT, "crates")):
        below[:] = sorted(d for d in below if d != "out")
        for name in sorted(names):
            if name.endswith(ends):
                yield os.path.join(folder, name)


def crates():
    with open(os.path.join(ROOT, "crates.txt"), encoding="utf-8") as f:
        return set(re.findall(r"^[ \t]*(\w+)[^:\n]*:", f.read(), re.M))


def read(path):
    with open(path, encoding="utf-8") as f:
        return f.read()


def snake(word):
    parts = []
    for part in re.split(r"-", word):
        if part[:1].isupper():
            parts.append(part)
        else:
            parts.append(re.sub(r"[A-Z]", lambda m: "_" + m.group(0).lower(), part))
    return "_".join(parts)


def code_of(line):
    return line.split("--", 1)[0] if not line.lstrip().startswith("--") else ""


def defined_names():
    """The names that specs/ and proofs/ define, without those of a function's own proof file."""
    names = set()
    for path in files(".antt"):
        if os.path.basename(path) == "Proof.antt":
            continue
        for line in read(path).splitlines():
            m = DEFINED.match(code_of(line))
            if m:
                names.update(m.group(1).split())
    return names


def imports(text, ours):
    """The names that a file imports from the repository's crates, and those that it imports from the kit."""
    own, kit = set(), set()
    for line in text.splitlines():
        m = USE.match(line)
        if m:
            path = m.group(1).split(".")
            named = {w.strip().split(" as ")[-1].strip() for w in m.group(2).split(",")}
            mine = path[0] == "crate" or (path[0] == "Rattle" and len(path) > 1 and path[1] in ours)
            (own if mine else kit).update(named)
    return own, kit


# Locals of lemma files that no line defines at its head.
LOCALS = set(
    "skip-p skip-q small-enough here-room Own-room hit-child hit-parent match-answer left-in-order left-named zero-unstruck "
    "sets-eq none-behind no-named event-form group-form so-many answered-so Array-Tells".split()
)


# Lemmas that already had the name which a definition gets here.
MET = {"in_order", "in_use", "on_line", "mask_word"}


def renames():
    names = defined_names()
    hyphens = {n for n in names if "-" in n} | LOCALS
    camel = {n for n in names if CAMEL.match(n) and "-" not in n}
    for path in files(".antt"):
        for line in read(path).splitlines():
            camel.update(w for w in WORD.findall(code_of(line)) if CAMEL.match(w) and "-" not in w)
    table = {n: snake(n) for n in hyphens | camel if snake(n) != n}
    # A lemma that would have its function's name gets `_lem`.
    taken = {table[n] for n in camel if n in table} | (names - hyphens - camel)
    for n in sorted(hyphens):
        if table[n] in taken:
            table[n] += "_lem"
    return table | {n: n + "_lem" for n in MET}


def respell(text, table, own, kit, made, comment, report=None):
    """One file's text. In a function's proof file (made) a word with a hyphen is ours only where it is imported."""
    out = []
    text_is_lemmas = comment == "--"
    for line in text.splitlines(keepends=True):
        head = len(line)
        k = line.find(comment)
        if k >= 0:
            head = k

        def turn(m):
            w, at = m.group(0), m.start()
            if w not in table or w in kit:
                return w
            in_comment = at >= head
            field = at > 0 and line[at - 1] == "."
            if "-" in w:
                if in_comment and w not in table:
                    return w
                if made and (field or w not in own):
                    return w
            elif w in MET and (field or in_comment or not text_is_lemmas or (w not in own and f"{w} :" not in text)):
                return w
            if "-" in w:
                if field and not in_comment:
                    # a path's or a record's member: ours, but for the steps that the check names after functions
                    before = line[:at]
                    if re.search(r"(?:^|[^\w'])c\d*(?:\.[\w'-]+)*\.$", before) or re.search(r"\.before\.$|\.now\.$|tie\.$", before):
                        return w
            return table[w]

        out.append(WORD.sub(turn, line))
    return "".join(out)


def main():
    report = "--report" in sys.argv[1:]
    ours = crates()
    table = renames()
    back = collections.defaultdict(set)
    for a, b in table.items():
        back[b].add(a)
    for b, many in sorted(back.items()):
        if len(many) > 1:
            print(f"together: {' '.join(sorted(many))} -> {b}")
    if report:
        for path in files(".antt", ".rt"):
            text = read(path)
            words = set()
            for line in text.splitlines():
                words.update(WORD.findall(code_of(line) if path.endswith(".antt") else line.split("//", 1)[0]))
            for w in sorted(words):
                if w in table and table[w] in words:
                    print(f"meets: {os.path.relpath(path, ROOT)}: {w} and {table[w]}")
        return
    for path in files(".antt"):
        text = read(path)
        own, kit = imports(text, ours)
        turned = respell(text, table, own, kit, os.path.basename(path) == "Proof.antt", "--")
        if turned != text:
            with open(path, "w", encoding="utf-8") as f:
                f.write(turned)
    for path in files(".rt"):
        text = read(path)
        own, kit = imports(text, ours)
        turned = respell(text, table, own, kit, True, "//")
        if turned != text:
            with open(path, "w", encoding="utf-8") as f:
                f.write(turned)


if __name__ == "__main__":
    main()
