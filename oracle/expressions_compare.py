#!/usr/bin/env python3
"""Holds the second reading of licence expressions (expressions.py) against a chart parser over the annex's grammar (chart.py).

    oracle/expressions_compare.py [--seed N] [--texts N] [--quick] [--wrong]

Of each text: whether it is an expression, its tree, the refusal and its place; that some expression, which the chart accepts, begins with all before
that place; which lists satisfy it; and of what is written that it is the same expression in the one spelling, that writing it again changes nothing,
that 5 of its bytes are at most 6 of the text's, and that the output's room decides refusal 11. The texts:

  marked    marked ones, with the answers that docs/RULES.md gives, or that were read off the annex by hand
  bytes     every text of up to 7 bytes over each of three alphabets of 6
  pieces    every text of up to 5, 6 or 7 pieces over each of four alphabets of 6: references, exceptions and mixed operators need more than 7 bytes
  damage    each byte put in the place of each, and before each, of some texts, and each left out
  depths    30 to 34 open parentheses, and more, round and beside expressions, half of them with something put in near the last
  random    N (default 60,000) made by the grammar's rules, half of them with damage

Prints the number of texts of each kind and of those that differ, and how often each thing was met: fewer than 20 times is a failure. --quick takes
shorter and fewer texts, and each thing must be met once. --wrong tries on these whether the comparison can fail: each wrong reading below,
expressions.py with one place changed, must be found. The last line is 'N passed, M failed'. Exit status: 0 none failed, 1 some did.
"""

import argparse
import collections
import functools
import itertools
import os
import random
import sys
import time
import types

import chart
import expressions

HERE = os.path.dirname(os.path.abspath(__file__))
LEAST, SHOWN = 20, 10

# Each byte of these is a sign, a blank or a letter of an operator; the letters serve as names too. In 7 bytes they reach `O OR R`, `O+ OR R`,
# `(O)OR R`; `A AND N`, `(A)AND(`, `((A)AND`; `W WITH ` and `W WITH(`, which cannot go on as AND and OR can.
BYTES = (b"OR ()+", b"AND ()", b"WITH (")

# Of these a `*` is a name, another each time. 7 pieces of the second reach `(a OR b) AND C` and `(a) WITH b OR C`, 6 of the third `(a)AND(b`.
PIECES = (
    (("LicenseRef-", "DocumentRef-", ":", "*", " ", "+"), 6),
    ((" AND ", " OR ", " WITH ", "*", "(", ")"), 7),
    (("AND", "WITH", " ", "*", "(", ")"), 6),
    (("AND", "and", "With", " ", "*", "+"), 5),
)

OPEN_32 = "(" * 32

# text, then what is written and lists with whether they satisfy it, or a refusal and its place
MARKED = [
    ("MIT OR (Apache-2.0 AND BSD-3-Clause)", "MIT OR Apache-2.0 AND BSD-3-Clause", {"mit": 1, "apache-2.0\nBSD-3-CLAUSE": 1, "Apache-2.0": 0}),
    ("", 13, 0), ("   ", 13, 3), ("MIT MIT", 13, 4), ("MIT ANX", 13, 6), ("MIT AN", 13, 6), ("MIT AND", 13, 7), ("AND", 13, 3),
    ("AND OR", 13, 3), ("MIT AND AND x", 13, 11), ("MIT WITH AND", 13, 12), ("(MIT)ANDISC", 13, 8), ("(a)ANDb", 13, 6), ("MIT and x", 13, 4),
    ("(MIT) WITH x", 13, 6), ("MIT WITH x WITH y", 13, 11), ("GPL-2.0 +", 13, 8), ("MIT+AND x", 13, 4), ("(a) WITH x", 13, 4),
    ("LicenseRef-x+", 13, 12), ("LicenseRef-", 13, 11), ("DocumentRef-a", 13, 13), ("DocumentRef-a:MIT", 13, 14), ("a\0", 13, 1), ("a\t", 13, 1),
    (OPEN_32 + "a" + ")" * 32, "a", {"A": 1}), (OPEN_32 + "(", 14, 32), (OPEN_32 + "a(", 13, 33), (OPEN_32 + "a OR (", 14, 37),
    ("(a)AND" * 40 + " b", " AND ".join("a" * 40 + "b"), {"a\nb": 1, "a": 0}),
    ("GPL-2.0+", "GPL-2.0+", {"GPL-2.0": 0, "gpl-2.0+": 1}), ("a OR b AND c", "a OR b AND c", {"b": 0, "a": 1, "c\nb": 1}),
    ("(a OR b) AND c", "(a OR b) AND c", {"a": 0, "c\na": 1}), ("(a OR b)AND(c OR d)", "(a OR b) AND (c OR d)", {"d\nb": 1}),
    ("a AND ((b OR c))", "a AND (b OR c)", {}), ("((a OR b) AND (c)) AND d", "(a OR b) AND c AND d", {}), ("( a )OR(b AND(c))", "a OR b AND c", {}),
    ("and AND or", "and AND or", {"and\nor": 1, "AND\nor": 0, "AND\nOR": 0, "And\noR": 1}),
    ("licenseref-a+", "licenseref-a+", {"LicenseRef-a+": 0, "LICENSEREF-A+": 1}), ("LicenseRef", "LicenseRef", {"licenseref": 1}),
    ("LicenseRef-a WITH x", "LicenseRef-a WITH x", {"licenseref-A WITH X": 1, "licenseref-A with X": 0, "LicenseRef-a": 0}),
    ("MIT", "MIT", {" MIT": 0, "MIT ": 0, "MIT\r": 0, "MIT OR x": 0, "(MIT)": 0, "x\n\nMIT\n": 1, "": 0}),
    ("DocumentRef-a:LicenseRef-b", "DocumentRef-a:LicenseRef-b", {"LicenseRef-b": 0, "documentref-a:licenseref-b": 0, "DocumentRef-A:LicenseRef-B": 1}),
]  # fmt: skip

DAMAGED = [
    b"a+ OR (b)AND c",
    b"(a AND(b WITH c))OR d",
    b"DocumentRef-a:LicenseRef-b WITH c",
    b" ( A.1 )AND LicenseRef--",
    b"OR+AND OR ANDY AND WITHIN WITH OR-",
    b"(a OR b) AND (c OR d)",
]

# ---- random texts --------------------------------------------------------------------------------------------------------------------------

NAMES = """a b B c MIT mit GPL-2.0 gpl-2.0 Apache-2.0 - . 0 9-. and or with And AND. ANDY AN A N ORA O R WITHIN WIT W OR-1 -AND LicenseRef DocumentRef
LicenseRe LicenseRefa licenseref-a documentref-b licenseref- Licenseref-a aLicenseRef-a""".split()
REFERENCES = "LicenseRef-a LicenseRef-A LicenseRef-- LicenseRef-AND LicenseRef-LicenseRef-a DocumentRef-b:LicenseRef-a DocumentRef-b:LicenseRef-b".split()
REFERENCES += ["DocumentRef-DocumentRef-:LicenseRef-.", "DocumentRef-OR:LicenseRef-a"]
EXCEPTIONS = ["x", "X", "LicenseRef-x", "DocumentRef-x", "with", "ANDx", "Classpath-exception-2.0"]
SIGNS = b" ()+:-_\t\xa0a"
TRAPS = SIGNS + b".AaNDORWITHdtz09\n\r\0\x7f\x80\xff/,;&|"


class Maker:
    """Makes expressions by the grammar's rules, of these names. As many of the gaps as `loose` says are not as the writer has them."""

    def __init__(self, rng, names, exceptions):
        self.rng, self.names, self.exceptions, self.loose = rng, names, exceptions, rng.choice([0, 0.1, 0.5, 0.7])

    def gap(self, usual, least=None):
        return " " * (usual if self.rng.random() >= self.loose else self.rng.choice([0, 1, 2]) + (usual if least is None else least))

    def part(self):
        rng = self.rng
        simple = rng.choice(REFERENCES) if rng.random() < 0.2 else rng.choice(self.names) + "+" * (rng.random() < 0.2)
        return simple + (self.gap(1) + "WITH" + self.gap(1) + rng.choice(self.exceptions) if rng.random() < 0.2 else "")

    def operand(self, depth):
        return "(" + self.padded(depth - 1) + ")" if depth and self.rng.random() < 0.4 else self.part()

    def padded(self, depth):
        """An expression, with blanks at its ends or not."""
        out = self.operand(depth)
        while self.rng.random() < 0.45:
            right = self.operand(depth)
            out += self.gap(1, out[-1] != ")") + self.rng.choice(["AND", "OR"]) + self.gap(1, right[0] != "(") + right
        return self.gap(0) + out + self.gap(0)


def damaged(rng, text):
    """With one byte, or one piece, otherwise."""
    at = rng.randrange(len(text) + 1)
    upto = min(at + rng.choice([1, 1, 2, 5]), len(text))
    byte = bytes([rng.choice(TRAPS)])
    piece = rng.choice([b"AND", b"OR", b"WITH", b" WITH x", b"LicenseRef-", b"DocumentRef-a:", b" and ", b"((", b"))", b"()", b"  ", text[at:upto]])
    ways = [text[:at] + byte + text[at + 1 :], text[:at] + byte + text[at:], text[:at] + text[upto:], text[:at] + piece + text[at:], text[:at]]
    return rng.choice([*ways, text[:at] + text[at:upto].swapcase() + text[upto:], text[:at] + piece + text[upto:]])


def random_texts(rng, number, names=NAMES, exceptions=EXCEPTIONS):
    """Every second one with damage."""
    for i in range(number):
        text = Maker(rng, names, exceptions).padded(rng.choice([0, 1, 2, 3])).encode()
        for _ in range(rng.choice([1, 1, 2]) if i % 2 else 0):
            text = damaged(rng, text)
        yield text


# ---- the other texts -----------------------------------------------------------------------------------------------------------------------


def named(text):
    """Another name for each star."""
    names = itertools.cycle("abCdEfgh")
    return "".join(next(names) if c == "*" else c for c in text).encode()


def over(alphabet, most):
    return (each for size in range(most + 1) for each in itertools.product(alphabet, repeat=size))


def with_damage(text, signs):
    for at in range(len(text) + 1):
        yield text[:at] + text[at + 1 :]
        for byte in map(bytes, zip(signs)):
            yield text[:at] + byte + text[at + 1 :]
            yield text[:at] + byte + text[at:]


def depths(rng, number):
    """Many open at once, or one behind the other; half of them with something put in where the last one opens."""
    for i in range(number):
        make, depth = Maker(rng, NAMES, EXCEPTIONS), rng.choice([30, 31, 31, 32, 32, 32, 33, 33, 34, 40, 70])
        openings = "".join("(" + make.gap(0) for _ in range(depth))
        inner = rng.choice([make.padded(0), make.padded(0), "a OR (b)", "(a)AND(b)", make.padded(1)])
        before = rng.choice(["", "", "", make.padded(1).rstrip() + " OR ", "(a)AND" * rng.choice([1, 2, 3, 33])])
        text = before + openings + inner + ")" * depth + rng.choice(["", "", "OR(a)", " AND b"])
        near = len(before + openings) + rng.randrange(-1, 2)
        yield (text[:near] + rng.choice(NEAR) * (i % 2) + text[near:]).encode()


NEAR = ["(", "(", "a(", "a (", ")", ")(", "a OR (", "a OR((", "a WITH (", "a+(", "a", "+", "\t", " OR "]


def kinds(seed, number, quick):
    """Each kind of text with its texts."""
    rng = random.Random(seed)
    yield "marked", [text.encode() for text, *_ in MARKED]
    for alphabet in BYTES:
        yield f"bytes {alphabet.decode()!r}", map(bytes, over(alphabet, 4 if quick else 7))
    for alphabet, most in PIECES:
        yield f"pieces {' '.join(map(repr, alphabet))}", (named("".join(each)) for each in over(alphabet, 4 if quick else most))
    yield "damage", (each for text in DAMAGED for each in with_damage(text, SIGNS if quick else range(256)))
    yield "depths", depths(rng, 300 if quick else 2000)
    yield "random", random_texts(rng, min(number, 2000) if quick else number)


# ---- lists ---------------------------------------------------------------------------------------------------------------------------------


def leaves(tree):
    """The parts and operators of a chart's tree in their order."""
    if tree[0] == "part":
        return [tree]
    if tree[0] == "()":
        return leaves(tree[1])
    inner = map(leaves, tree[1:])
    return [leaf for i, each in enumerate(inner) for leaf in ([tree[0]] if i else []) + each]


def beside(rng, line):
    """A line that is almost this one."""
    ways = [line + b"+", line.replace(b"+", b""), line + b" ", b" " + line, line + b"\r", b"(" + line + b")", line + b" WITH x", line.split(b" ")[0]]
    ways += [line.replace(b" WITH ", b"  WITH "), line.replace(b" WITH ", b" with "), line.upper(), line.lower(), line + b" OR " + line, b"", line[:-1]]
    ways += [line.replace(b"ref-", b"Ref-").replace(b"license", b"License"), line.split(b":")[-1], line.replace(b"Ref", b"REF")]
    return rng.choice(ways)


def lists_for(rng, tree):
    """Some lists of parts: of up to three all that there are; random ones, with other letters; and such with lines that are almost a part."""
    lines = sorted({chart.spelled(leaf) for leaf in leaves(tree) if leaf[0] == "part"})
    if len(lines) <= 3:
        yield from (b"\n".join(lines[i] for i in range(len(lines)) if bits >> i & 1) for bits in range(2 ** len(lines)))
    for likely in (0.5, 0.8, 0.9):
        kept = [line for line in lines if rng.random() < likely]
        yield b"\n".join(line.swapcase().replace(b" with ", b" WITH ") if rng.random() < 0.3 else line for line in kept)
        yield b"\n".join(beside(rng, line) if rng.random() < 0.4 else line for line in lines)


# ---- what is compared ------------------------------------------------------------------------------------------------------------------------


def printed(tree):
    """A chart's tree with single spaces and the pairs that it has."""
    if tree[0] == "part":
        return chart.spelled(tree)
    if tree[0] == "()":
        return b"(" + printed(tree[1]) + b")"
    return (" " + tree[0] + " ").encode().join(map(printed, tree[1:]))


def pairs(tree, above=None):
    """Of each pair of parentheses: what it stands under and what it holds."""
    if tree[0] == "part":
        return []
    return [(above, tree[1][0])] * (tree[0] == "()") + [pair for each in tree[1:] for pair in pairs(each, tree[0])]


class Judge:
    """The chart, and what it says of a text; what it said of the last ones is kept."""

    def __init__(self):
        self.chart, self.lines = chart.Chart(), chart.Chart()
        self.verdict = functools.lru_cache(2**16)(lambda text: chart.verdict(self.chart, text))
        self.accepted = functools.lru_cache(2**16)(lambda line: chart.accepted(self.lines, line))
        self.choices = functools.lru_cache(2**12)(chart.choices)

    def tree(self, text):
        """The one tree, or None."""
        word, trees = self.verdict(text)
        return next(iter(trees)) if word == "trees" and len(trees) == 1 else None

    def satisfies(self, lines, tree):
        given = set().union(*map(self.accepted, lines.split(b"\n")))
        return any(choice <= given for choice in self.choices(tree))


def apart(judge, reading, text, rng):
    """Everything in which a reading differs from the chart, or breaks a law."""
    want, got = judge.verdict(text), reading.expression(text)
    if want != (("trees", {got[1]}) if got[0] == "tree" else got):
        yield f"chart {want}, second reading {got}"
    elif got[0] == "tree":
        yield from apart_of_one(judge, reading, text, judge.tree(text), rng)
    else:
        yield from apart_refused(judge, reading, text, *want)


def apart_refused(judge, reading, text, refusal, place):
    if not (reading.satisfied(b"a", text) is None and reading.written(text) is None and not reading.neat(text)):
        yield "refused, but satisfied, written or neat"
    if reading.satisfy(text, b"a") != (refusal, 0, place) or reading.write_expression(text, b"garbage") != ((refusal, place, 0), b"garbage"):
        yield "another refusal by a job"
    whole = text[:place] + (reading.going_on(text[:place]) or b"")
    if judge.tree(whole) is None:
        yield f"nothing goes on at place {place}: {whole!r} is no expression"


def apart_of_one(judge, reading, text, tree, rng):
    spelling = reading.written(text)
    again = judge.tree(spelling)
    if again is None:
        yield f"{spelling!r} is written, which the chart refuses"
        return
    if printed(again) != spelling or leaves(again) != leaves(tree) or any(pair != ("AND", "OR") for pair in pairs(again)):
        yield f"{spelling!r} is not the spelling"
    if judge.choices(again) != judge.choices(tree):
        yield f"other lists satisfy {spelling!r}"
    if reading.written(spelling) != spelling or not reading.neat(spelling) or reading.neat(text) != (spelling == text):
        yield f"{spelling!r} is not written again, or neat is wrong"
    if 5 * len(spelling) > 6 * len(text):
        yield f"{len(spelling)} bytes are written for {len(text)}"
    yield from apart_in_room(reading, text, spelling)
    for lines in lists_for(rng, tree):
        given = judge.satisfies(lines, tree)
        if (reading.satisfied(lines, text), reading.satisfied(lines, spelling), reading.satisfy(text, lines)) != (given, given, (0, given, 0)):
            yield f"satisfied by {lines!r}: chart {given}, second reading {reading.satisfied(lines, text)}, {reading.satisfied(lines, spelling)}"


def apart_in_room(reading, text, spelling):
    size = len(spelling)
    wanted = [((11, 0, 0), b"?" * (size - 1)), ((0, 0, size), spelling), ((0, 0, size), spelling + b"?")]
    if [reading.write_expression(text, b"?" * room) for room in (size - 1, size, size + 1)] != wanted:
        yield "written with too little room, or not with enough"


def apart_marked(reading):
    """The answers to the marked texts."""
    for text, answer, more in MARKED:
        if isinstance(answer, int):
            wanted, got = (answer, more), reading.expression(text.encode())
        else:
            wanted = (answer.encode(), list(more.values()))
            got = (reading.written(text.encode()), [reading.satisfied(lines.encode(), text.encode()) for lines in more])
        if wanted != got:
            yield text, f"due {wanted}, second reading {got}"


# ---- counting --------------------------------------------------------------------------------------------------------------------------------


def met(judge, text):
    """What a text is a case of."""
    word, where = judge.verdict(text)
    if word != "trees":
        yield "13 at the length" if (word, where) == (13, len(text)) else f"{word} at a byte"
        if word == 13 and chart.deep(text) is not None:
            yield "13 on a tie with 14" if where == chart.deep(text) else "13 before 14"
        return
    tree = judge.tree(text)
    parts = [leaf for leaf in leaves(tree) if leaf[0] == "part"]
    yield "expression, neat" if printed(tree) == text and not any(pair != ("AND", "OR") for pair in pairs(tree)) else "expression, not neat"
    for what, test in PART_KINDS.items():
        if any(map(test, parts)):
            yield what
    yield from {f"{above or 'nothing'} over a pair round {held}" for above, held in pairs(tree)}
    if {"AND", "OR"} <= set(leaves(tree)):
        yield "AND and OR"
    if text.count(b"(") > 31 and b"(" * 31 in text.replace(b" ", b""):
        yield "31 or 32 open"


PART_KINDS = {
    "+": lambda leaf: leaf[2],
    "reference": lambda leaf: leaf[1].startswith(b"LicenseRef-"),
    "document": lambda leaf: leaf[1].startswith(b"DocumentRef-"),
    "exception": lambda leaf: leaf[3],
    "reference with exception": lambda leaf: leaf[3] and b"Ref-" in leaf[1],
    "name like a word": lambda leaf: leaf[1].upper() in chart.WORDS,
    "name like a front": lambda leaf: leaf[1].lower().startswith((b"licenseref", b"documentref")) and not leaf[1].startswith(chart.FRONTS),
    "name that begins with a word": lambda leaf: leaf[1].startswith(chart.WORDS),
}
PAIRS = [f"{above} over a pair round {held}" for above in ("nothing", "AND", "OR", "()") for held in ("part", "AND", "OR", "()")]
MUST = ["13 at the length", "13 at a byte", "14 at a byte", "13 on a tie with 14", "13 before 14", "expression, neat", "expression, not neat"]
MUST += ["AND and OR", "31 or 32 open", *PART_KINDS, *PAIRS]


def compare(seed, number, quick):
    judge, cases, failed, passed = Judge(), collections.Counter(), 0, 0
    for text, fault in apart_marked(expressions):
        failed += 1
        print(f"  {text!r}: {fault}")
    for kind, texts in kinds(seed, number, quick):
        began, count, ones, differing, rng = time.time(), 0, 0, 0, random.Random(f"{seed} lists")
        for text in texts:
            faults = list(apart(judge, expressions, text, rng))
            count, differing, ones = count + 1, differing + bool(faults), ones + (judge.verdict(text)[0] == "trees")
            cases.update(met(judge, text))
            if faults and differing <= SHOWN:
                print(f"  {text!r}: {'; '.join(faults)}")
        print(f"{count:8} texts, {ones:7} expressions, {differing} differ, {time.time() - began:4.0f} s: {kind}", flush=True)
        passed, failed = passed + count - differing, failed + differing
    for case in MUST:
        print(f"{cases[case]:8} {case}")
    rare = [case for case in MUST if cases[case] < (1 if quick else LEAST)]
    if rare:
        print(f"too seldom: {', '.join(rare)}")
    return passed, failed + len(rare)


# ---- wrong readings --------------------------------------------------------------------------------------------------------------------------

PUT = 'return ("part", reference or name, bool(plus), exception), at'
ON_A_TIE, KEY = "bad <= deep", "return name.lower(), plus, exception.lower()"
AFTER, SIDES = r'rb"(?:(?<=\)) *| +)(AND|OR)', r"(?: +| *(?=\())"
LINES = "spelled(tree) == line"
GROUPS = '== ("AND", "OR") else spelled(each)'

# what it is, what stands in expressions.py, what stands there instead
WRONG = [
    ("a tab is a blank", 'rb" *")', r'rb"[ \t]*")'),
    ("a tab is a blank before WITH", "(?: +WITH +(", r"(?:[ \t]+WITH +("),
    ("one blank at most", 'rb" *")', 'rb" ?")'),
    ("depth 33", "DEPTH_MOST = 32", "DEPTH_MOST = 33"),
    ("depth 31", "DEPTH_MOST = 32", "DEPTH_MOST = 31"),
    ("all parentheses count, closed or not", 'b"(" else -1', 'b"(" else 0'),
    ("14 before 13", ON_A_TIE, "bad < 0"),
    ("14 on a tie", ON_A_TIE, "bad < deep"),
    ("13 before 14", f"return (13, bad) if {ON_A_TIE} else (14, deep)", "return (14, deep) if tree_of(text) else (13, first_bad(text))"),
    ("14 a byte later", "(14, deep)", "(14, deep + 1)"),
    ("WITH after a group", 'return ("()", tree), at + 1', 'm = re.compile(rb" +WITH +" + ID).match(text, at + 1)\n        return ("()", tree), m.end() if m else at + 1'),
    ("WITH twice", 'EXCEPTION + rb"))?")', 'EXCEPTION + rb"))*")'),
    ("`+` on a reference", 'REFERENCE + rb")|("', r'REFERENCE + rb")\+?|("'),
    ("no `+`", r'(\+?)', "(Z{0})"),
    ("blank before `+`", r'rb")(\+?))', r'rb")((?: *\+)?))'),
    ("`+` on an exception", 'EXCEPTION + rb"))?")', r'EXCEPTION + rb"))?\+?")'),
    ("no exception on a reference", PUT, f"if reference and exception:\n        raise Refused\n    {PUT}"),
    ("words by lower case", "rb\"(?:AND|OR|WITH)(?!", "rb\"(?i:AND|OR|WITH)(?!"),
    ("operators by lower case", "(AND|OR)(?: +", "(AND|OR|and|or)(?: +"),
    ("words as names", 'rb"(?:AND|OR|WITH)(?!', 'rb"(?:ANDOR)(?!'),
    ("words as exceptions", 'rb"(?!" + WORD + rb")" + ID', "ID"),
    ("no names that begin with a word", "rb\"(?:AND|OR|WITH)(?![A-Za-z0-9.-])\"", "rb\"(?:AND|OR|WITH)(?![A-Za-z0-9.])\""),
    ("fronts as names", 'rb"|LicenseRef-|DocumentRef-)"', 'rb")"'),
    ("fronts in any case", 'rb"|LicenseRef-|DocumentRef-)"', 'rb"|(?i:LicenseRef-|DocumentRef-))"'),
    ("a front without its dash", 'rb"|LicenseRef-|DocumentRef-)"', 'rb"|LicenseRef|DocumentRef-)"'),
    ("a document of a license-id", '":)?LicenseRef-" + ID', '":)?(?:LicenseRef-)?" + ID'),
    ("an underscore in a name", 'ID = rb"[A-Za-z0-9.-]+"', 'ID = rb"[A-Za-z0-9._-]+"'),
    ("no dot in a name", 'ID = rb"[A-Za-z0-9.-]+"', 'ID = rb"[A-Za-z0-9-]+"'),
    ("bytes from 128 on in a name", 'ID = rb"[A-Za-z0-9.-]+"', r'ID = rb"[A-Za-z0-9.\x80-\xff-]+"'),
    ("blanks round a parenthesis too", AFTER, 'rb"(?: +)(AND|OR)'),
    ("no blank behind an operator", SIDES, "(?: *)"),
    ("no blank before an operator", AFTER, 'rb"(?: *)(AND|OR)'),
    ("OR before AND", 'if found[1] == b"OR"', 'if found[1] == b"AND"'),
    ("OR before AND, named rightly", 'if found[1] == b"OR":\n            rows.append([])\n        rows[-1].append(tree)\n    return joined("OR", [joined("AND", row) for row in rows])',
     'if found[1] == b"AND":\n            rows.append([])\n        rows[-1].append(tree)\n    return joined("AND", [joined("OR", row) for row in rows])'),
    ("from left to right", 'if found[1] == b"OR":\n            rows.append([])\n        rows[-1].append(tree)\n',
     'rows = [[joined("OR" if found[1] == b"OR" else "AND", [joined("AND", rows[0]), tree])]]\n'),
    ("an empty text", "Refused:\n        return None", 'Refused:\n        return None if text else ("part", b"", False, b"")'),
    ("the rest not looked at", "if end == len(text) else", "if end <= len(text) else"),
    ("places by words", "def first_bad(text):\n", "def first_bad(text):\n    text = re.split(rb'(?<= )', text)\n    text, rest = text[0], text\n"),
    ("the place before", "key=lambda i: going_on(text[: i + 1])", "key=lambda i: going_on(text[: i + 2])"),
    ("the place behind", "key=lambda i: going_on(text[: i + 1])", "key=lambda i: going_on(text[:i])"),
    ("no word goes on to a name", 'range(len(b":LicenseRef-"))', 'range(len(b":LicenseRef"))'),
    ("no AND goes on from A", 'b"ND a", ', ""),
    ("no reference goes on", 'TAILS += [b":LicenseRef-a"[i:]', 'TAILS += [b":LicenseRef-"[i:]'),
    ("`+` ignored in satisfaction", KEY, "return name.lower(), False, exception.lower()"),
    ("exceptions ignored", KEY, 'return name.lower(), plus, b""'),
    ("case kept", KEY, "return name, plus, exception"),
    ("case kept in exceptions", KEY, "return name.lower(), plus, exception"),
    ("a document ignored", KEY, 'return name.split(b":")[-1].lower(), plus, exception.lower()'),
    ("`+` met by the same without it", 'return key(tree) in given', 'return key(tree) in given or key(("part", tree[1], False, tree[3])) in given'),
    ("without `+` met by the same with it", 'return key(tree) in given', 'return key(tree) in given or key(("part", tree[1], True, tree[3])) in given'),
    ("AND met by one", '(any if tree[0] == "OR" else all)', "any"),
    ("OR met by all", '(any if tree[0] == "OR" else all)', "all"),
    ("lines in any spelling", f" and {LINES}", ""),
    ("lines trimmed", "((line, expression(line)) for line in accepted.split(b\"\\n\"))", "((line.strip(), expression(line.strip())) for line in accepted.split(b\"\\n\"))"),
    ("a pair round a line's part", 'tree[0] == "part" and spelled(tree) == line}', 'plain(tree)[0] == "part"}'),
    ("lines by letters only", 'if word == "tree" and tree[0] == "part" and spelled(tree) == line}',
     'if word == "tree" and tree[0] == "part" and spelled(tree) == line} | {(line.removesuffix(b"+").lower(), line.endswith(b"+"), b"") for line in accepted.split(b"\\n")}'),
    ("the first line only", 'for line in accepted.split(b"\\n"))', 'for line in accepted.split(b"\\n")[:1])'),
    ("every pair kept", "return plain(tree[1]) if", "return (tree[0], plain(tree[1])) if"),
    ("pairs round an AND under an OR", GROUPS, '!= ("AND", "part") and each[0] != "part" else spelled(each)'),
    ("no pairs", GROUPS, '== ("AND", "AND") else spelled(each)'),
    ("lower case written", "return name + b\"+\" * plus", "return name.lower() + b\"+\" * plus"),
    ("two spaces written", 'f" {tree[0]} "', 'f"  {tree[0]} "'),
    ("no `+` written", 'b"+" * plus', 'b""'),
    ("a neat text with two blanks", r"\A |  | \Z", r"\A | \Z"),
    ("a neat text with a blank at its end", r"  | \Z|", "  |"),
    ("a neat text without a blank behind a pair", r"|\)[AO]", ""),
    ("a neat text without a blank before a pair", r"|[DR]\(", ""),
    ("a neat pair round anything", '(above, tree[1][0]) != ("AND", "OR")', 'above != "AND"'),
    ("a neat pair under anything", '(above, tree[1][0]) != ("AND", "OR")', 'tree[1][0] != "OR"'),
    ("11 at the length", "len(spelling) > len(out)", "len(spelling) >= len(out)"),
    ("no 11", "len(spelling) > len(out)", "False"),
    ("a length told with 11", "Spelled(11, 0, 0)", "Spelled(11, 0, len(spelling))"),
    ("written as far as it fits", "Spelled(11, 0, 0), out", "Spelled(11, 0, 0), spelling[: len(out)]"),
]  # fmt: skip


def changed(old, new):
    """expressions.py with one place changed."""
    with open(os.path.join(HERE, "expressions.py"), encoding="utf-8") as source:
        text = source.read()
    if text.count(old) != 1:
        raise SystemExit(f"expressions_compare: {old!r} stands {text.count(old)} times in expressions.py")
    module = types.ModuleType("wrong")
    exec(compile(text.replace(old, new), "wrong", "exec"), vars(module))
    return module


def found(judge, reading, text):
    """By a difference; a wrong reading may well break, which is none."""
    try:
        return next(apart(judge, reading, text, random.Random(text)), None) is not None
    except Exception:
        return False


def try_wrong(seed):
    judge, lost = Judge(), 0
    texts = [text for _, each in kinds(seed, 3000, True) for text in each]
    for what, old, new in WRONG:
        reading = changed(old, new)
        count = sum(found(judge, reading, text) for text in texts)
        lost += not count
        print(f"{count:6} texts find: {what}", flush=True)
    print(f"{len(WRONG)} wrong readings, by {len(texts)} texts")
    return len(WRONG) - lost, lost


def main():
    options = argparse.ArgumentParser(description="Holds the second reading of licence expressions against a chart parser.")
    options.add_argument("--seed", default="1", help="another seed gives other random texts and lists (default 1)")
    options.add_argument("--texts", type=int, default=60000, help="random texts (default 60,000)")
    options.add_argument("--quick", action="store_true", help="shorter and fewer texts")
    options.add_argument("--wrong", action="store_true", help="tries whether the comparison can fail")
    given = options.parse_args()
    passed, failed = try_wrong(given.seed) if given.wrong else compare(given.seed, given.texts, given.quick)
    print(f"{passed} passed, {failed} failed")
    return 1 if failed else 0


if __name__ == "__main__":
    sys.exit(main())
