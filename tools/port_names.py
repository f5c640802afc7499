#!/usr/bin/env python3
"""Writes the repository's own camelCase words in snake_case, as today's Rattle spells words: octetOutcome becomes octet_outcome.
And the crate slab is called slabs, since Rattle has a library named slab.

usage: python3 tools/port_names.py [--check]     at the top of the repository, once, after port.py

It turns each word of crates/ that begins with a small letter and has a capital after it, in .antt files, in the clauses and
ghost items of .rt files, and in must-fail edits. Types, facts and modules, which begin with a capital, stay; so does what the
Rust-like code itself names, which is in snake case already, and text between quotes.
"""
import os
import re
import sys

WORD = re.compile(r"(?<![\w'·])(?<!::)[a-z][a-z0-9₀-₉]*(?:[A-Z][a-z0-9₀-₉]*)+(?![\w'·])")
QUOTED = re.compile(r'"(?:[^"\\\n]|\\.)*"')


def snake(word):
    return re.sub(r"(?<=[^_])([A-Z])", lambda m: "_" + m[1].lower(), word)


# The crate's name where it is meant: in paths, in `use` items and in crates.txt. C names and modules that only end so stay.
SLAB = re.compile(r"(?<![\w.])Rattle\.slab(?=\.)|(?<![\w:])slab(?=::)")


def turned(text, seen):
    def one(m):
        seen[m[0]] = snake(m[0])
        return seen[m[0]]

    out, at = [], 0
    for q in QUOTED.finditer(text):
        out.append(WORD.sub(one, text[at : q.start()]))
        out.append(q[0])
        at = q.end()
    out.append(WORD.sub(one, text[at:]))
    return "".join(out)


def main():
    check = sys.argv[1:] == ["--check"]
    seen, words, files = {}, set(), []
    for folder, dirs, names in os.walk("crates"):
        dirs[:] = sorted(d for d in dirs if d != "out")
        files += [os.path.join(folder, n) for n in sorted(names) if n.endswith((".rt", ".antt", ".edit"))]
    changed = 0
    for path in files:
        with open(path, encoding="utf-8") as f:
            text = f.read()
        words.update(re.findall(r"[\w'₀-₉]+", text))
        new = SLAB.sub(lambda m: m[0] + "s", turned(text, seen))
        if new != text:
            changed += 1
            if not check:
                with open(path, "w", encoding="utf-8") as f:
                    f.write(new)
    if not check and os.path.isdir("crates/slab"):
        os.rename("crates/slab", "crates/slabs")
        with open("crates.txt", encoding="utf-8") as f:
            text = f.read()
        with open("crates.txt", "w", encoding="utf-8") as f:
            f.write(re.sub(r"(?m)^([^#\n]*?)(?<!\w)slab(?!\w)", r"\1slabs", text))
    for old, new in sorted(seen.items()):
        if new in words:
            print(f"together: {old} and {new}")
    print(f"{len(seen)} names in {changed} files")


main()
