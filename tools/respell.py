#!/usr/bin/env python3
"""Brings this repository's own definitions and lemmas to today's spelling: words in snake case, types in camel case.

Run once, at the top of the repository, after port.py and before any other edit. Functions of src/, strings, inputs and outputs
keep their names. A lemma that would fall together with a definition gets `_lem` at its end. It prints what it renamed.
"""

import collections
import os
import re
import sys

LETTER = r"A-Za-z\u0370-\u03ff\u2080-\u2089"
NAME = "[" + LETTER + r"_][" + LETTER + r"0-9_'\u2032-]*"
TOKEN = re.compile(NAME)
DECLARED = re.compile(r"^\s*(?:(?:abbrev|unfoldable|pub|opaque)\s+)*(" + NAME + r")\s*:(?!:)")
IMPORT = re.compile(r"\buse\s+([\w.\u00b7+'-]+)\.\{([^}]*)\}")


def files(root, ends):
    for top in ("crates", "edits", "docs", "README.md"):
        path = os.path.join(root, top)
        if os.path.isfile(path) and path.endswith(ends):
            yield path
        for folder, dirs, names in os.walk(path):
            dirs[:] = sorted(d for d in dirs if d != "out")
            for name in sorted(names):
                if name.endswith(ends):
                    yield os.path.join(folder, name)


def read(path):
    with open(path, encoding="utf-8") as f:
        return f.read()


def declared(root):
    """Names that specs/ and proofs/ declare; a function's own goals, in Proof.antt, are not among them."""
    names = collections.defaultdict(set)
    for path in files(root, ".antt"):
        if os.path.basename(path) == "Proof.antt":
            continue
        for line in read(path).splitlines():
            if not line.lstrip().startswith("--"):
                m = DECLARED.match(line)
                if m:
                    names[m.group(1)].add(os.path.relpath(path, root))
    return names


def snake(name):
    if name[0].isupper():
        return name
    name = re.sub(r"(?<=[a-z0-9])(?=[A-Z])", "_", name)
    return name.lower().replace("-", "_")


def renaming(names):
    """What each name becomes, and the lemmas whose snake case name is that of a definition with capitals."""
    to = {}
    taken = collections.defaultdict(set)
    for name in names:
        if "-" not in name:
            taken[snake(name)].add(name)
    for name in sorted(names):
        new = snake(name)
        if "-" in name and new in taken:
            new += "_lem"
        if new != name:
            to[name] = new
    lemmas = {n for n in names if n not in to and any(a != n for a in taken.get(n, ()))}
    came = collections.defaultdict(set)
    for name in names:
        came[name + "_lem" if name in lemmas else to.get(name, name)].add(name)
    for new, olds in sorted(came.items()):
        if len(olds) > 1:
            print(f"fall together: {new}: {sorted(olds)}")
    return to, lemmas


def foreign(text, crates):
    """Names that a file imports from elsewhere than this repository."""
    out = set()
    for path, items in IMPORT.findall(text):
        parts = re.split("[.\u00b7]", path)
        if parts[0] != "Rattle" or parts[1] not in crates:
            out |= {i.split(" as ")[0].strip() for i in items.split(",")}
    return out


def turn(text, to, kept=frozenset()):
    return TOKEN.sub(lambda m: m.group(0) if m.group(0) in kept else to.get(m.group(0), m.group(0)), text)


def turn_proof(path, text, to, lemmas, kept):
    """A file of specs/ or proofs/: its local names with capitals too, and a lemma of `lemmas` where it is declared or imported."""
    near = {m.group(1) for m in map(DECLARED.match, text.splitlines()) if m}
    for where, items in IMPORT.findall(text):
        near |= {i.split(" as ")[0].strip() for i in items.split(",")}
    if "/proofs/" in path:
        for name in lemmas & near:
            text = re.sub(r"(?<![\w.'-])" + name + r"(?![\w.'-])", name + "_lem", text)
    local = {t for t in TOKEN.findall(text) if re.fullmatch(r"[a-z][a-z0-9]*(?:[A-Z][a-z0-9]*)+", t)}
    return turn(text, {t: snake(t) for t in local} | to, kept)


def turn_source(text, to, kept):
    """Clauses and ghost imports of a .rt file; comments too, for names with capitals in them."""
    capitals = {a: b for a, b in to.items() if "-" not in a}
    out = []
    for line in text.split("\n"):
        ghost = re.match(r"\s*(ghost\b|requires\b|ensures\b)", line)
        out.append(turn(line, to if ghost else capitals, kept))
    return "\n".join(out)


def turn_quoted(text, to):
    """Names between backticks in a page, also where port.py has turned the name itself already."""
    own = set(to.values())

    def one(m):
        name = m.group(0)
        return to.get(name, snake(name) if snake(name) in own else name)

    return re.sub(r"`[^`\n]+`", lambda m: TOKEN.sub(one, m.group(0)), text)


def tight(text):
    """`s .from` is written `s.from`, and `(s .from)` as an argument alone loses its brackets."""
    text = re.sub(r"(?<=[\w'\)\]]) \.(?=[a-z0-9])", ".", text)
    return re.sub(r"(?<=[\s(])\(([\w']+(?:\.[\w']+)+)\)", r"\1", text)


def turn_edit(text, to):
    """An edit's text is turned like the file that it edits; what this leaves is mended by hand."""
    out = []
    antt = False
    for line in text.split("\n"):
        if line.startswith("file:"):
            antt = line.rstrip().endswith(".antt")
        elif line.startswith(("old:", "new:")):
            line = tight(turn(line, {t: snake(t) for t in TOKEN.findall(line) if t[0].islower() and "-" not in t} | to)).replace("\u00b7", ".") if antt else turn(line, {a: b for a, b in to.items() if "-" not in a})
        out.append(line)
    return "\n".join(out)


def main():
    root = sys.argv[1] if len(sys.argv) > 1 else "."
    crates = set(os.listdir(os.path.join(root, "crates")))
    names = declared(root)
    to, lemmas = renaming(names)
    for name in sorted(lemmas):
        print(f"{name} -> {name}_lem (where it is the lemma)")
    for old, new in sorted(to.items()):
        print(f"{old} -> {new}")
    for path in files(root, (".antt", ".rt", ".edit", ".md")):
        text = read(path)
        if path.endswith(".antt"):
            new = turn_proof(path, text, to, lemmas, foreign(text, crates))
        elif path.endswith(".rt"):
            new = turn_source(text, to, foreign(text, crates))
        elif path.endswith(".edit"):
            new = turn_edit(text, to)
        else:
            new = turn_quoted(text, {n: n for n in names} | to)
        if new != text:
            with open(path, "w", encoding="utf-8") as f:
                f.write(new)


main()
