"""A second reading of licence expressions (SPDX 2.3, annex D, as docs/DECISIONS.md rules): what is one, what satisfies it, how it is written.

By other means than the definitions, which read byte by byte, and than chart.py: a part and an operator are one regular expression each, a level is
the list of its operands, split at OR, and the place of refusal 13 is found by trying: a text begins an expression if one of some tails makes it one.

A tree is ('part', name, plus, exception), ('()', tree) for a pair of parentheses as it stands in the text, ('AND', trees..) or ('OR', trees..).
"""

import bisect
import collections
import functools
import re

DEPTH_MOST = 32
ID = rb"[A-Za-z0-9.-]+"
WORD = rb"(?:AND|OR|WITH)(?![A-Za-z0-9.-])"
REFERENCE = rb"(?:DocumentRef-" + ID + rb":)?LicenseRef-" + ID
LICENSE = rb"(?!" + WORD + rb"|LicenseRef-|DocumentRef-)" + ID
EXCEPTION = rb"(?!" + WORD + rb")" + ID
PART = re.compile(rb"(?:(" + REFERENCE + rb")|(" + LICENSE + rb")(\+?))(?: +WITH +(" + EXCEPTION + rb"))?")
OPERATOR = re.compile(rb"(?:(?<=\)) *| +)(AND|OR)(?: +| *(?=\())")
BLANKS = re.compile(rb" *")

# ---- reading -----------------------------------------------------------------------------------------------------------------------------


class Refused(Exception):
    """It is no expression."""


def past(pattern, text, at):
    """What a pattern takes from there on, and the place behind it."""
    found = pattern.match(text, at)
    if not found:
        raise Refused
    return found, found.end()


def operand(text, at):
    if text[at : at + 1] == b"(":
        tree, at = padded(text, at + 1)
        if text[at : at + 1] != b")":
            raise Refused
        return ("()", tree), at + 1
    found, at = past(PART, text, at)
    reference, name, plus, exception = found.groups(default=b"")
    return ("part", reference or name, bool(plus), exception), at


def padded(text, at):
    """What parentheses, or the ends of the text, may hold."""
    tree, at = operand(text, BLANKS.match(text, at).end())
    rows = [[tree]]  # of the OR level: the operands of each AND level
    while found := OPERATOR.match(text, at):
        tree, at = operand(text, found.end())
        if found[1] == b"OR":
            rows.append([])
        rows[-1].append(tree)
    return joined("OR", [joined("AND", row) for row in rows]), BLANKS.match(text, at).end()


def joined(word, trees):
    return (word, *trees) if len(trees) > 1 else trees[0]


def tree_of(text):
    """The tree of a text, at any depth, or None."""
    try:
        tree, end = padded(text, 0)
    except Refused:
        return None
    return tree if end == len(text) else None


def parts_of(tree):
    """Its parts, in their order."""
    return [tree] if tree[0] == "part" else [part for each in tree[1:] for part in parts_of(each)]


# ---- refusals ------------------------------------------------------------------------------------------------------------------------------

# how a text may go on: behind a word, within one, in a reference; the last is a name by itself. Closing parentheses are added to each.
TAILS = [b"", b" a", b"ND a", b"D a", b"R a", b"ITH a", b"TH a", b"H a", b"a:LicenseRef-a"]
TAILS += [b":LicenseRef-a"[i:] for i in range(len(b":LicenseRef-"))]


def opened(text):
    return text.count(b"(") - text.count(b")")


@functools.lru_cache(256)
def going_on(text):
    """Bytes that make an expression of a text, at any depth, or None."""
    tails = (tail + b")" * opened(text) for tail in TAILS)
    return next((tail for tail in tails if tree_of(text + tail)), None)


def first_bad(text):
    """The least i such that no expression begins with the bytes up to i, that one too; the length if there is none."""
    return bisect.bisect_left(range(len(text)), True, key=lambda i: going_on(text[: i + 1]) is None)


def first_deep(text):
    """The first parenthesis that finds 32 open, or None."""
    depth = 0
    for found in re.finditer(rb"[()]", text):
        if found[0] == b"(" and depth == DEPTH_MOST:
            return found.start()
        depth += 1 if found[0] == b"(" else -1
    return None


@functools.lru_cache(256)
def expression(text):
    """('tree', tree), or a refusal and its place: 13 not an expression, 14 deeper than 32. The smaller place decides, 13 on a tie."""
    deep = first_deep(text)
    if deep is None:
        tree = tree_of(text)
        return ("tree", tree) if tree else (13, first_bad(text))
    bad = first_bad(text[: deep + 1])
    return (13, bad) if bad <= deep else (14, deep)


# ---- writing -------------------------------------------------------------------------------------------------------------------------------


def plain(tree):
    """Without any pairs of parentheses."""
    if tree[0] == "part":
        return tree
    return plain(tree[1]) if tree[0] == "()" else (tree[0], *map(plain, tree[1:]))


def spelled(tree):
    """Of a plain tree."""
    if tree[0] == "part":
        _, name, plus, exception = tree
        return name + b"+" * plus + (b" WITH " + exception if exception else b"")
    inner = [b"(" + spelled(each) + b")" if (tree[0], each[0]) == ("AND", "OR") else spelled(each) for each in tree[1:]]
    return f" {tree[0]} ".encode().join(inner)


def written(text):
    """How the writer has it; None if it is refused."""
    word, tree = expression(text)
    return spelled(plain(tree)) if word == "tree" else None


UNTIDY = re.compile(rb"\A |  | \Z|\( | \)|\)[AO]|[DR]\(")


def needed(tree, above="()"):
    """Whether each pair stands round an OR and under an AND."""
    if tree[0] == "part":
        return True
    if tree[0] == "()" and (above, tree[1][0]) != ("AND", "OR"):
        return False
    return all(needed(each, tree[0]) for each in tree[1:])


def neat(text):
    """Whether an expression stands as the writer has it, by its gaps and its pairs."""
    word, tree = expression(text)
    return word == "tree" and not UNTIDY.search(text) and needed(tree)


# ---- satisfying ----------------------------------------------------------------------------------------------------------------------------


def key(part):
    """What is compared of a part: letter case aside."""
    _, name, plus, exception = part
    return name.lower(), plus, exception.lower()


def parts_in(accepted):
    """The parts that a list accepts: of its lines those that are one part, spelled as the writer has it."""
    read = ((line, expression(line)) for line in accepted.split(b"\n"))
    return {key(tree) for line, (word, tree) in read if word == "tree" and tree[0] == "part" and spelled(tree) == line}


def met(given, tree):
    if tree[0] == "part":
        return key(tree) in given
    return (any if tree[0] == "OR" else all)(met(given, each) for each in tree[1:])


def satisfied(accepted, text):
    """Whether a list satisfies it; None if it is refused."""
    word, tree = expression(text)
    return met(parts_in(accepted), tree) if word == "tree" else None


# ---- the two jobs, as C has them -------------------------------------------------------------------------------------------------------------

Satisfied = collections.namedtuple("Satisfied", "refusal satisfied place")
Spelled = collections.namedtuple("Spelled", "refusal place len")


def satisfy(text, accepted):
    word, where = expression(text)
    return Satisfied(0, int(satisfied(accepted, text)), 0) if word == "tree" else Satisfied(word, 0, where)


def write_expression(text, out):
    """The answer, and the output at exit: a refusal writes nothing."""
    word, where = expression(text)
    if word != "tree":
        return Spelled(word, where, 0), out
    spelling = written(text)
    if len(spelling) > len(out):
        return Spelled(11, 0, 0), out
    return Spelled(0, 0, len(spelling)), spelling + out[len(spelling) :]
