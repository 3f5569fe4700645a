#!/usr/bin/env python3
"""The places of docs/DESIGN-PASS.md, counted in crates/*/src: tools/places.py [POINT ..] [-l], in a checkout of the commit that is asked for.

1 own enums, flags and refusal numbers in structs, refusal numbers as results    2 functions alike but for names and numbers
3 loops that are no `for`    4 equality, order, conversion by hand, by name and form    5 parameters and clauses that stand in three functions or more
6 slices with a length beside them    7 functions that a bool parameter switches    8 lines and answers in proofs/
-l lists each place. A count is of what these patterns find: the page says of each place what became of it."""
import collections
import glob
import re
import sys

def sources():
    for path in sorted(glob.glob("crates/*/src/*.rt")):
        yield path, open(path, encoding="utf-8").read()

def functions():
    """Each function: where, name, parameters, result, clauses, body."""
    for path, text in sources():
        lines = text.split("\n")
        i = 0
        while i < len(lines):
            m = re.match(r"( *)(?:pub )?(?:const )?fn (\w+)", lines[i])
            if not m:
                i += 1
                continue
            indent, name, start = m.group(1), m.group(2), i
            head = []
            while i < len(lines) and lines[i] != indent + "{" and not lines[i].rstrip().endswith("{"):
                head.append(lines[i])
                i += 1
            if i < len(lines) and lines[i] != indent + "{":
                head.append(lines[i])
            i += 1
            body = []
            while i < len(lines) and lines[i] != indent + "}":
                body.append(lines[i])
                i += 1
            text_head = "\n".join(head)
            sig = re.split(r"\n\s*(?:requires|ensures)\b", text_head)[0]
            inner = sig[sig.index("(") + 1 :] if "(" in sig else ""
            params = [p.strip() for p in re.split(r",(?![^<\[]*[>\]])", inner.rsplit(")", 1)[0]) if p.strip()]
            ret = sig.rsplit("->", 1)[1].strip(" {\n") if "->" in sig.rsplit(")", 1)[-1] else ""
            clauses = re.findall(r"(?:requires|ensures)\b[^{\n]*\{ (.*) \}\s*$", text_head, re.M)
            yield path, start + 1, name, params, ret, clauses, body
            i += 1

def point_1():
    for path, text in sources():
        for m in re.finditer(r"^(?:pub )?enum (\w+)", text, re.M):
            yield f"{path}: enum {m.group(1)}"
        for name, fields in re.findall(r"^(?:pub )?struct (\w+)(?:<.*?>)? \{\n(.*?)^\}", text, re.M | re.S):
            for field in re.findall(r"^ +(?:pub )?(refusal: u32|\w*kind: u\d+|\w+: bool),$", fields, re.M):
                yield f"{path}: {name} {{ {field} }}"
    for path, line, name, params, ret, clauses, body in functions():
        if any("refusal" in c for c in clauses) and ret == "u32":
            yield f"{path}:{line}: {name} -> u32, a refusal"
        if any(p == "two: bool" for p in params):
            yield f"{path}:{line}: {name}(.., second, two: bool)"

def shape(body):
    names, out = {}, []
    for word in re.findall(r"\w+|[^\w\s]", re.sub(r"//.*", "", "\n".join(body))):
        if word[0].isdigit() or word.startswith("0x"):
            out.append("0")
        elif word in {"let", "mut", "while", "for", "if", "else", "return", "match", "as", "true", "false", "loop", "in"}:
            out.append(word)
        elif word.isidentifier():
            out.append(names.setdefault(word, f"v{len(names)}"))
        else:
            out.append(word)
    return " ".join(out)

def point_2():
    groups = collections.defaultdict(list)
    for path, line, name, params, ret, clauses, body in functions():
        s = shape(body)
        if s.count(" ") >= 11:
            groups[s].append(f"{path}:{line}: {name}")
    for s, places in groups.items():
        if len(places) > 1:
            yield " = ".join(places)

def point_3():
    for path, text in sources():
        for k, row in enumerate(text.split("\n"), 1):
            if re.match(r"\s*(?:'\w+: )?(while|loop)\b", row):
                yield f"{path}:{k}: {row.strip()}"

ALIKE = re.compile(r"^(compare|equal|above|greater|smaller|least|both|either|wide|beats|within|lower|\w+_wide|wide_\w+|\w+_for_c|mode_from_c|higher_of)$")

def point_4():
    for path, line, name, params, ret, clauses, body in functions():
        if ALIKE.match(name):
            yield f"{path}:{line}: {name}"

def point_5():
    seen = collections.defaultdict(list)
    for path, line, name, params, ret, clauses, body in functions():
        have = {p.split(":")[0].removeprefix("mut ") for p in params}
        for a, b in [("area", "words"), ("n", "lines"), ("book", "second"), ("limits", "mode"), ("bytes", "words"), ("mark", "c"), ("lo", "hi"), ("class", "class")]:
            if a in have and b in have:
                seen[f"parameters {a}, {b}" if a != b else f"parameter {a}"].append(name)
        for clause in clauses:
            for part in set(re.split(r" × ", clause)):
                if len(part) > 8:
                    seen[f"clause {part.strip('() ')}"].append(name)
    for what, names in sorted(seen.items(), key=lambda x: -len(x[1])):
        if len(names) >= 3:
            yield f"{what}: in {len(names)} functions"

def point_6():
    for path, line, name, params, ret, clauses, body in functions():
        for a, b in zip(params, params[1:]):
            if re.match(r"\w+: &(?:'\w+ )?(?:mut )?\[u(8|32)\]$", a) and re.match(r"(n|k|d|m|len|end): usize$", b):
                yield f"{path}:{line}: {name}({a}, {b})"
    for path, text in sources():
        for m in re.finditer(r"^ +(?:pub )?(\w+): \[\w+; \w+\],\n +(?:pub )?(\w*len\w*): ", text, re.M):
            yield f"{path}: fields {m.group(1)}, {m.group(2)}"

def point_7():
    for path, line, name, params, ret, clauses, body in functions():
        flags = [p.split(":")[0] for p in params if p.endswith(": bool")]
        if any(re.match(rf"\s*if !?{f} \{{", row) for f in flags for row in body):
            yield f"{path}:{line}: {name}({', '.join(flags)})"

def point_8():
    files = glob.glob("crates/*/proofs/**/*.antt", recursive=True)
    rows = {f: open(f, encoding="utf-8").read() for f in files}
    answers = sum(len(re.findall(r"^(?:pub )?[\w-]+ : goal\.", t, re.M)) for t in rows.values())
    yield f"{len(files)} files, {sum(t.count(chr(10)) for t in rows.values())} lines, {answers} answers and invariants"

def main():
    picked = [a for a in sys.argv[1:] if a != "-l"] or list("12345678")
    for p in picked:
        found = list(globals()[f"point_{p}"]())
        print(f"point {p}: {len(found) if p != '8' else found[0]}")
        if "-l" in sys.argv:
            for place in found:
                print(f"  {place}")

main()
