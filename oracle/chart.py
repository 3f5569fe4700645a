"""An independent reader of licence expressions: an Earley chart by bytes over the grammar of SPDX 2.3, annex D. expressions_compare.py uses it.

GRAMMAR is the annex's, rule by rule and as ambiguous as it stands there, with its words on blanks made rules: none before `+` and round `:`, some on
each side of WITH, and of AND and OR some or a parenthesis on that side. So a compound-expression is one of four, by its two ends: `(.` begins with a
parenthesis and ends without one. Two things are no rules: a license-id is an idstring that is none of the three words and has neither front of a
license-ref, an exception is none of the words. That is a filter where such an identifier ends (EXCLUDED), so that AND can still go on to ANDY.

Place i of a text is its first bad byte where the chart is empty behind it. For that every item of the chart must be able to end. An identifier that
is one of the words can, by one letter more. One with a front can't end as a license-id; but wherever that is awaited a license-ref is too, which takes
the same bytes up to there and can end. Nothing here limits the depth: refusal 14 is found by counting parentheses.
"""

import itertools

WORDS = (b"AND", b"OR", b"WITH")
FRONTS = (b"LicenseRef-", b"DocumentRef-")
ALPHA = b"ABCDEFGHIJKLMNOPQRSTUVWXYZabcdefghijklmnopqrstuvwxyz"
ID = frozenset(ALPHA + b"0123456789-.")
DEPTH_MOST = 32

# ---- the grammar: a head and what it may be; names are rules, bytes stand for themselves, a set is one byte of it ------------------------------

LEFT, RIGHT = ("(", "."), (")", ".")  # the ends of a compound-expression
COMPOUNDS = [a + b for a in LEFT for b in RIGHT]
PADS = ([], ["blanks"])

GRAMMAR = [
    ("idstring", [ID]),
    ("idstring", ["idstring", ID]),
    ("license-id", ["idstring"]),
    ("exception", ["idstring"]),
    ("license-ref", [b"LicenseRef-", "idstring"]),
    ("license-ref", [b"DocumentRef-", "idstring", b":LicenseRef-", "idstring"]),
    ("simple", ["license-id"]),
    ("simple", ["license-id", b"+"]),
    ("simple", ["license-ref"]),
    ("blanks", [b" "]),
    ("blanks", ["blanks", b" "]),
    ("..", ["simple"]),
    ("..", ["simple", "blanks", b"WITH", "blanks", "exception"]),
    *((a + b, ["before " + a, word, "behind " + b]) for a in LEFT for b in RIGHT for word in (b"AND", b"OR")),
    ("()", [b"(", "expression", b")"]),
    # the sides of AND and OR
    *(("before " + a, [a + ".", "blanks"]) for a in LEFT),
    *(("before " + a, [a + ")", *pad]) for a in LEFT for pad in PADS),
    *(("behind " + b, ["blanks", "." + b]) for b in RIGHT),
    *(("behind " + b, [*pad, "(" + b]) for b in RIGHT for pad in PADS),
    # the whole, and what stands between parentheses
    *(("expression", [*pad, "compound", *end]) for pad in PADS for end in PADS),
    *(("compound", [ends]) for ends in COMPOUNDS),
]

EXCLUDED = {
    "license-id": lambda name: name in WORDS or name.startswith(FRONTS),
    "exception": lambda name: name in WORDS,
}


def spread(side):
    """A right side as names and sets of bytes, one for each byte."""
    for symbol in side:
        if isinstance(symbol, bytes):
            yield from (frozenset([byte]) for byte in symbol)
        else:
            yield symbol


RULES = [(head, tuple(spread(side))) for head, side in GRAMMAR]

# a state is a rule with a place in it; one step on is the next number
STATES = [(head, side, dot) for head, side in RULES for dot in range(len(side) + 1)]
WANTED = [side[dot] if dot < len(side) else None for _, side, dot in STATES]
HEADS = [head for head, _, _ in STATES]
STARTS = {name: [s for s, (head, _, dot) in enumerate(STATES) if head == name and dot == 0] for name, _ in RULES}

# ---- the chart -----------------------------------------------------------------------------------------------------------------------------


class Column:
    """The items behind one byte: those that await a rule, those that await a byte, and the rules that end here with their starts."""

    def __init__(self):
        self.awaiting, self.scanning, self.ended = {}, [], {}


class Chart:
    """The chart of one text, which grows and shrinks at its end, so that texts with a common start share it."""

    def __init__(self):
        self.text, self.columns = bytearray(), []
        self.columns.append(self.closed([(s, 0) for s in STARTS["expression"]], {"expression"}))

    def closed(self, items, predicted=()):
        """The column that these items make, with all that they call for."""
        column, here, predicted, seen = Column(), len(self.text), set(predicted), set(items)
        work = list(items)
        while work:
            state, start = work.pop()
            wanted = WANTED[state]
            if wanted is None:
                more = self.ending(column, HEADS[state], start)
            elif isinstance(wanted, str):
                column.awaiting.setdefault(wanted, []).append((state, start))
                more = [(s, here) for s in STARTS[wanted]] if wanted not in predicted else ()
                predicted.add(wanted)
            else:
                column.scanning.append((state, start))
                more = ()
            for item in more:
                if item not in seen:
                    seen.add(item)
                    work.append(item)
        return column

    def ending(self, column, head, start):
        """A rule ends: what awaited it where it began goes on. No rule is empty, so that column is whole."""
        starts = column.ended.setdefault(head, set())
        if start in starts or head in EXCLUDED and EXCLUDED[head](bytes(self.text[start:])):
            return ()
        starts.add(start)
        return [(state + 1, begun) for state, begun in self.columns[start].awaiting.get(head, ())]

    def push(self, byte):
        """One byte more; whether some expression still begins so. If none does, the chart stays as it was."""
        items = [(state + 1, start) for state, start in self.columns[-1].scanning if byte in WANTED[state]]
        if items:
            self.text.append(byte)
            self.columns.append(self.closed(items))
        return bool(items)

    def place(self, text):
        """The first byte of a text that no expression goes on with, or its length. The chart is then that of the text up to there."""
        same = next((i for i, (a, b) in enumerate(zip(self.text, text)) if a != b), min(len(self.text), len(text)))
        del self.text[same:], self.columns[same + 1 :]
        return next((i for i in range(same, len(text)) if not self.push(text[i])), len(text))

    def trees(self):
        """Of the text as it stands: those that precedence leaves."""
        return self.meant("expression", 0, len(self.text), {})

    def meant(self, head, start, end, known):
        """The trees of a rule between two places; none where it does not end there so."""
        key = head, start, end
        if key not in known:
            known[key] = set()
            if start in self.columns[end].ended.get(head, ()):
                for side in (side for name, side in RULES if name == head):
                    for spans in self.split(side, start, end):
                        known[key] |= self.made(head, spans, known)
        return known[key]

    def split(self, side, start, end):
        """All ways to part these bytes among a right side: of its names, where each begins and ends."""
        if not side:
            if start == end:
                yield ()
            return
        *rest, last = side
        if not isinstance(last, str):
            if end > start and self.text[end - 1] in last:
                yield from self.split(rest, start, end - 1)
            return
        for begun in self.columns[end].ended.get(last, ()):
            if begun >= start:
                for before in self.split(rest, start, begun):
                    yield (*before, (last, begun, end))

    def made(self, head, spans, known):
        """The trees of a rule from those of its names."""
        spans = [span for span in spans if span[0] != "blanks"]
        kinds = [name for name, _, _ in spans]
        if kinds[0] == "simple":
            return {part(*(bytes(self.text[a:b]) for _, a, b in spans))}
        inner = [self.meant(*span, known) for span in spans]
        if head == "()" and kinds == ["expression"]:
            return {("()", tree) for tree in inner[0]}
        if len(spans) == 1:
            return inner[0]
        word = bytes(self.text[spans[0][2] : spans[1][1]]).decode()
        return {joined(word, a, b) for a, b in itertools.product(*inner) if allowed(word, a, b)}


def part(simple, exception=b""):
    return ("part", simple.removesuffix(b"+"), simple.endswith(b"+"), exception)


def allowed(word, *operands):
    """Precedence: no AND takes an OR that is not in parentheses."""
    return word == "OR" or all(tree[0] != "OR" for tree in operands)


def joined(word, *operands):
    """Chains are one: the annex says nothing of which of two equal operators is first."""
    return (word, *itertools.chain(*(tree[1:] if tree[0] == word else [tree] for tree in operands)))


# ---- answers -------------------------------------------------------------------------------------------------------------------------------


def deep(text):
    """Where the first parenthesis stands that finds 32 open, or None."""
    opened = 0
    for i, byte in enumerate(text):
        if byte == ord("(") and opened == DEPTH_MOST:
            return i
        opened += (byte == ord("(")) - (byte == ord(")"))
    return None


def verdict(chart, text):
    """('trees', all of them), (13, place) or (14, place)."""
    bad, depth = chart.place(text), deep(text)
    if depth is not None and depth < bad:
        return 14, depth
    if bad == len(text) and (trees := chart.trees()):
        return "trees", trees
    return 13, bad


def spelled(tree):
    """A part as the writer has it."""
    _, name, plus, exception = tree
    return name + b"+" * plus + (b" WITH " + exception if exception else b"")


def lowered(tree):
    """What is compared of a part."""
    return tree[1].lower(), tree[2], tree[3].lower()


def choices(tree):
    """The sets of parts of which each satisfies a tree: a list does if it holds one of them."""
    if tree[0] == "part":
        return {frozenset([lowered(tree)])}
    inner = [choices(operand) for operand in tree[1:]]
    if tree[0] == "AND":
        return {frozenset().union(*each) for each in itertools.product(*inner)}
    return set().union(*inner)


def accepted(chart, line):
    """The part that a list's line accepts, as `choices` has it, in a set: none if it is no part or not in the writer's spelling."""
    word, trees = verdict(chart, line)
    parts = [tree for tree in trees if tree[0] == "part"] if word == "trees" else []
    return {lowered(tree) for tree in parts if spelled(tree) == line}
