#!/usr/bin/env python3
"""Spells the repository's own definitions and lemmas as today's library spells its words: in snake case.

usage: python3 tools/spelling.py [FOLDER]      at the top of a repository that the kit's port.py has turned; FOLDER is another top

A word of an .antt file that begins in lower case and has a capital inside is respelled, in .antt files, in the clauses of
.rt files and in the pages of docs/. Strings keep their text, and names that only a .rt file has are left alone.
A lemma that would fall together with a definition gets `_lem` first.
"""

import os
import re
import sys

WORD = re.compile(r"[A-Za-z_][A-Za-z0-9_'ℕ₀-₉-]*")
STRING = re.compile(r'"(?:\\.|[^"\\])*"')
# lemmas whose names a respelled definition takes
LEMMAS = {name: name + "_lem" for name in ("rows_fit", "same_bytes", "no_room", "read_named")}


def files(top, folder, ends):
    for where, inside, names in os.walk(os.path.join(top, folder)):
        inside[:] = sorted(n for n in inside if n not in ("out", ".git"))
        yield from (os.path.join(where, n) for n in sorted(names) if n.endswith(ends))


def read(path):
    with open(path, encoding="utf-8") as f:
        return f.read()


def snake(word):
    def part(p):
        return re.sub(r"(?<=[a-z0-9])([A-Z])", lambda m: "_" + m[1].lower(), p) if p[:1].islower() else p

    return "-".join(part(p) for p in word.split("-"))


def outside_strings(text, turn):
    out, at = [], 0
    for m in STRING.finditer(text):
        out += [turn(text[at : m.start()]), m[0]]
        at = m.end()
    return "".join(out + [turn(text[at:])])


def words(text):
    found = set()
    outside_strings(text, lambda t: found.update(WORD.findall(t)) or "")
    return found


def main():
    top = sys.argv[1] if len(sys.argv) > 1 else "."
    known = set().union(*(words(read(p)) for p in files(top, "crates", ".antt")))
    table = {w: snake(w) for w in known if snake(w) != w}
    taken = {n for n in table.values()}
    lemmas = {w: n for w, n in LEMMAS.items() if w in known and w in taken}

    def turner(names):
        return lambda t: WORD.sub(lambda m: names.get(m[0], m[0]), t)

    changed = 0
    for path in [*files(top, "crates", (".antt", ".rt")), *files(top, "docs", ".md"), os.path.join(top, "README.md")]:
        old = read(path)
        new = old
        if path.endswith(".antt") and f"{os.sep}proofs{os.sep}" in path:
            new = outside_strings(new, turner(lemmas))
        new = outside_strings(new, turner(table))
        if new != old:
            with open(path, "w", encoding="utf-8") as f:
                f.write(new)
            changed += 1
    print(f"{len(table)} names respelled, {len(lemmas)} lemmas renamed, {changed} files")


main()
