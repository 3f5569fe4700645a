#!/usr/bin/env python3
"""Respells this repository's own definitions and lemmas, as respell.tsv beside this file has them: OLD, NEW, and where a name turns in one place alone, the
beginning of its path. Whole words alone turn, in .antt and .rt files, must-fail edits and pages; what stands in a string stays, and so does each word that a file
imports from the toolchain. Run once, at the top of the repository, right after port.py.

usage: python3 tools/respell.py
"""
import os
import re
import sys

HERE = os.path.dirname(os.path.realpath(__file__))
WORD = re.compile(r'[^\s(){}.;,@"«»`]+')
QUOTED = re.compile(r'b?"(?:[^"\\\n]|\\.)*"')
IMPORT = re.compile(r"\buse ([\w.·◌-]+)\.\{([^}]*)\}")


def rows():
    everywhere, scoped = {}, []
    with open(os.path.join(HERE, "respell.tsv"), encoding="utf-8") as f:
        for line in f:
            old, new, *where = line.rstrip("\n").split("\t")
            if where:
                scoped.append((where[0], old, new))
            else:
                everywhere[old] = new
    return everywhere, scoped


def files():
    for top in ("crates", "docs", "oracle", "host", "README.md"):
        if os.path.isfile(top):
            yield top
        for folder, dirs, names in os.walk(top):
            dirs[:] = sorted(d for d in dirs if d != "out")
            for name in sorted(names):
                if name.endswith((".antt", ".rt", ".edit", ".md")):
                    yield os.path.join(folder, name)


def own(module, crates):
    parts = re.split(r"[.·]", module)
    return len(parts) > 1 and parts[0] == "Rattle" and parts[1] in crates


def turned(text, table):
    def words(part):
        return WORD.sub(lambda m: table.get(m.group(0), m.group(0)), part)

    out, at = [], 0
    for m in QUOTED.finditer(text):
        out += [words(text[at : m.start()]), m.group(0)]
        at = m.end()
    return "".join(out) + words(text[at:])


def main():
    everywhere, scoped = rows()
    crates = set(os.listdir("crates"))
    for path in files():
        with open(path, encoding="utf-8") as f:
            text = f.read()
        table = dict(everywhere)
        table.update({old: new for where, old, new in scoped if path.startswith(where)})
        for m in IMPORT.finditer(text):
            if not own(m.group(1), crates):
                for word in re.split(r"[,\s]+", m.group(2)):
                    table.pop(word, None)
        new = turned(text, table)
        if new != text:
            with open(path, "w", encoding="utf-8") as f:
                f.write(new)


if __name__ == "__main__":
    sys.exit(main())
