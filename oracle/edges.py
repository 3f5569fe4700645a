"""Each limit of the rules with its neighbours, as plans of asking.py: one below, the limit itself, one above, and the refusal that is due.

`small` has those that the definitions can be computed on, `both` those of two books; `large` those of long texts, many lines and large books, and
each form of a book as either of two. `ties` has texts of each kind that score the same, and two fractions that are one float and the next that are
not, in texts of each kind; `all_ties` more of these, with each job.
"""

import collections
import itertools
import random
import types

import model
from asking import MARKED_BOOK, MARKED_TEXT, NUMBERED, OF_TWO, SCANS, VIEWS, WHOLE, record, table_body

NOTE = b"My First License"
Edge = collections.namedtuple("Edge", "what plan refusal more", defaults=({},))  # `more`: other fields of the answer that are due
NEAR = (-1, 0, 1)
WITH_TEXT = ("compile", *VIEWS, *SCANS)
HALF, NINETY, ALMOST = model.bits_of(0.5), model.bits_of(0.9), model.bits_of(0.99)


def marked(job, slack=None, **fields):
    """The marked text 2 and the marked book: the whole text in view, areas as long as needed."""
    plan = types.SimpleNamespace(job=job, text=MARKED_TEXT, books=(MARKED_BOOK,), start=0, end=None, number=0, threshold=NINETY, shallow=ALMOST)
    plan.edition, plan.same, plan.optimize, plan.passes, plan.step, plan.budget, plan.sizes = 1, False, True, 10, 1, WHOLE, None
    plan.allowance, plan.kept, plan.aside = None, False, None
    plan.slack = {"area": 0, "words": 0, "out": 0, "results": 0, **(slack or {})}
    vars(plan).update(fields)
    if plan.end is None:
        plan.end = plan.text.count(b"\n") + 1
    return plan


def due(bad, refusal):
    return refusal if bad else 0


def licence(name, text, edition=1):
    return record(1, name) + record(2, model.compiled(text, edition))


# ---- lent areas --------------------------------------------------------------------------------------------------------------------------


def areas(jobs=WITH_TEXT, texts=(MARKED_TEXT, b"", b"x", b"a b\n" * 5), **fields):
    for job, text, by in itertools.product(jobs, texts, NEAR):
        yield Edge("8n+64", marked(job, {"area": by}, text=text, **fields), due(by < 0, 10))
        yield Edge("12n+64", marked(job, {"words": by}, text=text, **fields), due(by < 0, 10))
        yield Edge("8n+64", marked(job, {"area": by, "words": 9}, text=text, **fields), due(by < 0, 10))
        yield Edge("12n+64", marked(job, {"area": 9, "words": by}, text=text, **fields), due(by < 0, 10))


def results(all_passes=(0, 1, 2, 10, 65535), texts=(MARKED_TEXT, b"", b"\n", b"my first license\n" * 6), steps=(1, 2, WHOLE), **fields):
    for passes, by in itertools.product(all_passes, NEAR):
        yield Edge("6P", marked("eliminate", {"results": by}, passes=passes, **fields), due(by < 0 and passes > 0, 10))
        yield Edge("6P", marked("eliminate", {"results": by}, passes=passes, optimize=False, **fields), 0)
        yield Edge("6P", marked("eliminate", {"results": by}, passes=passes, budget=9, **fields), due(passes > 0, 10 if by < 0 else 12))
    for text, step, by in itertools.product(texts, steps, NEAR):
        yield Edge("6(L+1)/2", marked("down", {"results": by}, text=text, step=step, **fields), due(by < 0, 10))


def output():
    for text in (MARKED_TEXT, b"", b"one", b"My First License", b"a b c d e f g\nh i", b"x y " * 40):
        for by in NEAR:
            yield Edge("the output's length", marked("compile", {"out": by}, text=text), due(by < 0, 11))


# ---- the book ----------------------------------------------------------------------------------------------------------------------------


def each(what, book, bad, **fields):
    """A book asked about by the check and by each job that takes one."""
    yield Edge(what, marked("check", books=(book,)), due(bad, 4))
    for job in OF_TWO:
        yield Edge(what, marked(job, books=(book,), **fields), due(bad, 4))


def names():
    for size in (0, 1, 63, 64, 65):
        bad, fields = not 1 <= size <= 64, {"text": b"My First License", "optimize": False}
        yield from each("a name of 64", record(1, b"n" * size) + MARKED_BOOK[7:], bad, **fields)
        yield from each("an alias of 64", MARKED_BOOK + record(5, b"n" * size), bad, **fields)


def totals():
    for by, parts in itertools.product(NEAR, (1, 2, 3)):
        total = model.TOTAL_MOST + by
        counts = [total - parts + 1] + [1] * (parts - 1)
        entries = [(count, b"a %d" % i) for i, count in enumerate(counts)]
        book = record(1, b"A") + record(2, table_body(total, parts, entries))
        yield from each("a total of 8,388,608", book, by > 0, text=b"a 0 a 1\nx", threshold=0)


EMPTY = table_body(0, 0, [])
KINDS = {  # kinds in order, and whether a book may have them
    (): True, (1,): False, (2,): False, (1, 2): True, (1, 3): False, (1, 2, 2): False, (1, 1, 2): False, (1, 2, 3, 3, 4, 4, 5, 5): True,
    (1, 2, 4, 3): False, (1, 2, 5, 3): False, (1, 2, 5, 4): False, (1, 2, 5): True, (1, 2, 3, 2): False, (5,): False, (1, 5, 2): False,
    (1, 2, 0): False, (1, 2, 6): False, (1, 2, 258): False, (1, 258): False, (257, 2): False, (1, 2, 65535): False, (1, 2, 1): False,
}  # fmt: skip
TWO_NAMES = {
    (b"A", b"B"): True, (b"A", b"A"): False, (b"B", b"A"): False, (b"A", b"A-1"): True, (b"A-1", b"A"): False, (b"Z", b"a"): True, (b"a", b"Z"): False,
}  # fmt: skip
NAMES = {b"!": True, b"~": True, b" ": False, b"\x7f": False, b"a b": False, b"a\n": False, b"\0": False, b"\x80": False}
BIGRAMS = {
    b"a b": True, b"_ 9": True, b"z0_ 0z": True, b"a": False, b"a ": False, b" a": False, b"": False, b" ": False, b"a  b": False, b"a b c": False,
    b"A b": False, b"a B": False, b"a\tb": False, b"a-b c": False, b"a b\n": False, b"` b": False, b"{ b": False, b"/ b": False, b": b": False,
}  # fmt: skip
TWO_ENTRIES = {
    (b"a b", b"a c"): True, (b"a b", b"a b"): False, (b"a c", b"a b"): False, (b"a b", b"a ba"): True, (b"a ba", b"a b"): False, (b"a b", b"a_ b"): True,
}  # fmt: skip


def table_bodies():
    """Table bodies, and whether they are sound."""
    one = table_body(1, 1, [(1, b"a b")])
    yield from ((table_body(1, 1, [(1, bigram)]), good) for bigram, good in BIGRAMS.items())
    yield from ((table_body(2, 2, [(1, first), (1, second)]), good) for (first, second), good in TWO_ENTRIES.items())
    yield from ((table_body(total, distinct, [(2, b"a b")]), (total, distinct) == (2, 1)) for total in (0, 1, 2, 3) for distinct in (0, 1, 2))
    yield from ((one[:size], size == len(one)) for size in range(len(one) + 1))
    yield from ((one + more, False) for more in (b"\0", bytes(8), table_body(0, 0, [])))
    yield table_body(0, 1, [(0, b"a b")]), False
    yield table_body(1, 2, [(2**32 - 1, b"a b"), (2, b"a c")]), False  # the sum is 1 only modulo 2^32
    for length in (2**32 - 8, 2**32 - 1, 4, 2):
        yield one[:12] + length.to_bytes(4, "little") + one[16:], False


def forms():
    """Books, and whether they are sound: each rule of the book's form, kept and broken."""
    body = {1: b"A", 5: b"x"}
    yield from ((b"".join(record(kind, body.get(kind, EMPTY)) for kind in kinds), good) for kinds, good in KINDS.items())
    yield from ((b"".join(record(1, name) + record(2, EMPTY) for name in names), good) for names, good in TWO_NAMES.items())
    yield from ((record(1, name) + record(2, EMPTY), good) for name, good in NAMES.items())
    yield from ((record(1, b"A") + record(2, EMPTY) + record(5, name), good) for name, good in NAMES.items())
    yield from ((record(1, b"A") + record(2, table), good) for table, good in table_bodies())
    for length in (2**32 - 6, 2**32 - 1, 2**31, 1):
        yield MARKED_BOOK + length.to_bytes(4, "little") + b"\x03\0", False
    yield from ((MARKED_BOOK[:size], size in (0, len(MARKED_BOOK))) for size in range(len(MARKED_BOOK) + 1))


def book_forms():
    for book, good in forms():
        yield Edge("the form of a book", marked("check", books=(book,)), due(not good, 4))
        if book:
            yield Edge("the form of a book", marked("score", books=(book,)), due(not good, 4))


def many_texts(texts, at=0):
    """A licence of so many stored texts, or no licence: all have no words but the one at this number."""
    bodies = (MARKED_BOOK[13:] if i == at else EMPTY for i in range(texts))
    return b"".join((record(3, body) if i else record(1, b"A") + record(2, body)) for i, body in enumerate(bodies))


def stored_texts():
    for by in NEAR:
        texts = model.STORED_MOST + by
        book, bad = many_texts(texts), by > 0
        yield Edge("1,024 texts", marked("check", books=(book,)), due(bad, 4))
        yield from numbered("1,024 texts", (book,), [texts + near for near in NEAR], texts, bad)


def numbered(what, books, marks, texts, bad):
    """So many stored texts, or books that are unsound: around these marks the stored number, and the budget where each text is scored once."""
    for mark in marks:
        for job in NUMBERED:
            yield Edge(what, marked(job, books=books, number=mark), 4 if bad else due(mark >= texts, 9))
        yield Edge(what, marked("eliminate", books=books, optimize=False, budget=mark), 4 if bad else due(mark < texts, 12))
        yield Edge(what, marked("down", books=books, step=WHOLE, budget=mark), 4 if bad else due(mark < texts, 12))


# ---- texts, settings -----------------------------------------------------------------------------------------------------------------------


def bytes_of_texts():
    for job, byte, at in itertools.product(WITH_TEXT, (126, 127, 128, 129, 255), (0, 9, len(MARKED_TEXT))):
        text = MARKED_TEXT[:at] + bytes([byte]) + MARKED_TEXT[at:]
        yield Edge("a byte of 128", marked(job, text=text), due(byte > 127, 2))


def views():
    for job, (start, end) in itertools.product(VIEWS, itertools.product((0, 1, 3, 4, 5, WHOLE), repeat=2)):
        yield Edge("a view up to L", marked(job, start=start, end=end), due(not start <= end <= 4, 8))
    for job, texts, by in itertools.product(NUMBERED, (1, 2, 5), NEAR):
        yield Edge("the stored number N", marked(job, books=(many_texts(texts),), number=texts + by), due(by >= 0, 9))


def searches():
    """Three lines, of which the second alone scores less than the first: narrowed, the search would miss the end."""
    book = licence(b"A", b"a b c d e f g h")
    yield Edge("a search of width 3", marked("bounds", text=b"a b\nq\nc d e f g h", books=(book,)), 0, {"first": 2, "after": 3})


LIMITS = {0: 0, 0x80000000: 0, 1: 0, 0x80000001: 6, 0x3F7FFFFF: 0, 0x3F800000: 0, 0x3F800001: 6, 0x7F800000: 6, 0x7F800001: 6, 0x7FC00000: 6}


def settings():
    for job, (limit, refusal) in itertools.product(SCANS, LIMITS.items()):
        yield Edge("a limit from 0.0 to 1.0", marked(job, threshold=limit), refusal)
        yield Edge("a limit from 0.0 to 1.0", marked(job, shallow=limit), refusal)
    for step in (0, 1, 2, 3, 4, 5, WHOLE - 1, WHOLE):
        yield Edge("a step of 1", marked("down", step=step), due(step == 0, 7))


def budgets():
    """The counts are reckoned by hand: top-down at step 1 scores 4 views, then 6 for bounds, then 2 views from line 3 on."""
    for budget in (*range(22), WHOLE - 1, WHOLE):
        yield Edge("the count as budget", marked("eliminate", budget=budget), due(budget < 20, 12))
    for step, count in ((1, 12), (2, 10), (3, 3)):
        for budget in (0, 1, *range(count - 3, count + 3), WHOLE):
            yield Edge("the count as budget", marked("down", step=step, budget=budget), due(budget < count, 12))


def small():
    for make in (areas, results, output, names, totals, book_forms, stored_texts, bytes_of_texts, views, searches, settings, budgets, emptied):
        yield from make()


# ---- equal scores: ranking is by the float, then by the kind -------------------------------------------------------------------------------

ONE_FLOAT = {4096: 1, 20000: 5}  # pairs of words in a note: up to how many more and as many fewer of them in two stored texts are one float
TEXT_KINDS = (2, 3, 4)


def of_kind(name, kind, body):
    """A licence with this table as its original's, or behind an empty original as an alternate's or a header's."""
    return record(1, name) + (record(2, EMPTY) if kind != 2 else b"") + record(kind, body)


def often(name, times, kind=2):
    """A licence with the pair `a a` so many times."""
    return of_kind(name, kind, table_body(times, 1, [(times, b"a a")]))


def told_of(pairs, times):
    """m and t of a note with the pair so many times, against such a licence."""
    return {"m": min(pairs, times), "t": pairs + times}


def one_float(pairs, by):
    """Two texts, of which one has the pair more often than the note and one less, in one book and in two, of each two kinds. While they are one float the
    kind that goes before wins, of equal kinds the earlier, with its own m and t; then the one with more."""
    for (first, second), kinds in itertools.product(((pairs - by, pairs + by), (pairs + by, pairs - by)), itertools.product(TEXT_KINDS, repeat=2)):
        books = often(b"A", first, kinds[0]), often(b"B", second, kinds[1])
        wins = kinds[1] < kinds[0] if by <= ONE_FLOAT[pairs] else second > first
        more = {**told_of(pairs, second if wins else first), "name": (b"B" if wins else b"A").ljust(64, b"\0"), "kind": kinds[wins]}
        more["score"] = model.bits_of(model.rounded(model.Fraction(2 * pairs, 2 * pairs + by)))
        for lent in ((b"".join(books),), books):
            yield Edge("two fractions, one float", marked("eliminate", books=lent, text=b"a " * (pairs + 1), optimize=False), 0, more)


def shared():
    """Two and three licences share the marked licence's text, in each order of its kinds, in one book and in two. The smallest kind wins, of equal ones
    the earliest."""
    for kinds in itertools.chain(*(itertools.product(TEXT_KINDS, repeat=licences) for licences in (2, 3))):
        books, texts = [of_kind(b"ABC"[i : i + 1], kind, model.compiled(NOTE)) for i, kind in enumerate(kinds)], sum(1 + (kind != 2) for kind in kinds)
        wins = kinds.index(min(kinds))
        named = {"name": b"ABC"[wins : wins + 1].ljust(64, b"\0"), "kind": kinds[wins], "score": model.bits_of(1.0), "m": 2, "t": 4}
        for lent in ((b"".join(books),), (books[0], b"".join(books[1:]))):
            for budget in (texts - 1, texts, WHOLE):
                plan = marked("eliminate", books=lent, text=NOTE, optimize=False, budget=budget)
                yield Edge("equal scores", plan, due(budget < texts, 12), {**named, "count": texts} if budget >= texts else {"kind": 0})
            yield Edge("equal scores", marked("eliminate", books=lent, text=NOTE, shallow=model.bits_of(1.0), passes=1), 0, {**named, "records": 1})
            for job in SCANS:
                yield Edge("equal scores", marked(job, books=lent), 0, {"records": 1, "kind": 0})
                yield Edge("equal scores", marked(job, books=lent, text=b"x y", threshold=0, passes=1), 0)


def ties():
    """Equal texts; 2*4095/8191 and 2*4096/8193, and the next two, which are not one float."""
    yield from shared()
    for by in (1, 2):
        yield from one_float(4096, by)


def all_ties():
    """Up to the last two that are one float and beyond; and each text by itself, and in top-down."""
    for pairs, by in ((pairs, by) for pairs, most in ONE_FLOAT.items() for by in range(1, most + 3)):
        yield from one_float(pairs, by)
        book, note = often(b"A", pairs - by) + often(b"B", pairs + by), b"a " * (pairs + 1)
        yield Edge("two fractions, one float", marked("down", books=(book,), text=note), 0, {"m": 0, "t": 0, "records": 1})
        for number, times in enumerate((pairs - by, pairs + by)):
            for job in VIEWS:
                yield Edge("two fractions, one float", marked(job, books=(book,), text=note, number=number), 0, told_of(pairs, times))


def emptied():
    """m and t where a table is empty, where both are, and where nothing is shared: m is 0, and t still the sum."""
    empty = record(1, b"A") + record(2, EMPTY)
    for text, book, t in ((b"", MARKED_BOOK, 2), (NOTE, empty, 2), (b"", empty, 0), (b"x y", MARKED_BOOK, 3), (b"x", empty, 0), (b"x\n\n", MARKED_BOOK, 2)):
        for job in VIEWS:
            yield Edge("nothing shared", marked(job, books=(book,), text=text), 0, {"score": 0, "m": 0, **({"t": t} if job == "score" else {})})
        for budget in (0, 1):
            told = {"score": 0, "m": 0, "t": t * budget}
            yield Edge("nothing shared", marked("eliminate", books=(book,), text=text, optimize=False, budget=budget), due(not budget, 12), told)


# ---- two books -----------------------------------------------------------------------------------------------------------------------------


CUT = MARKED_BOOK[:-1]
ANOTHER, MORE = licence(b"B", b"another text of some words"), licence(b"C", NOTE)
TWO = ANOTHER, MARKED_BOOK
CASES = [  # of request #101: two books, note, budget; refusal, count, the name's part
    ((MARKED_BOOK, ANOTHER), NOTE, 9, 0, 2, (0, 6, 1)),
    (TWO, NOTE, 9, 0, 2, (1, 6, 1)),
    ((MARKED_BOOK, MARKED_BOOK), NOTE, 9, 0, 2, (0, 6, 1)),
    ((ANOTHER + MORE, MARKED_BOOK), NOTE, 9, 0, 3, (0, 95, 1)),
    ((ANOTHER, MARKED_BOOK + MORE), NOTE, 9, 0, 3, (1, 6, 1)),
    ((b"", MARKED_BOOK), NOTE, 9, 0, 1, (1, 6, 1)),
    ((MARKED_BOOK, b""), NOTE, 9, 0, 1, (0, 6, 1)),
    ((b"", b""), NOTE, 9, 5, 0, (0, 0, 0)),
    ((MARKED_BOOK, CUT), NOTE, 9, 4, 0, (0, 0, 0)),
    ((b"", CUT), NOTE, 9, 4, 0, (0, 0, 0)),
    (TWO, NOTE, 1, 12, 1, (0, 0, 0)),
    (TWO, NOTE, 2, 0, 2, (1, 6, 1)),
    (TWO, b"none of it", 9, 0, 2, (0, 0, 0)),
]


def cases():
    flat = {"shallow": HALF, "optimize": False, "passes": 0}
    for books, text, budget, refusal, count, part in CASES:
        plan = marked("eliminate", books=books, text=text, threshold=HALF, budget=budget, **flat)
        yield Edge("the cases of #101", plan, refusal, {"count": count, "part": part})
    # no text is best where all is refused, though 0.0 is above this threshold
    yield Edge("the cases of #101", marked("eliminate", books=TWO, text=NOTE, threshold=0xBF800000, **flat), 6, {"part": (0, 0, 0)})
    yield Edge("the cases of #101", marked("down", books=TWO, text=NOTE, threshold=HALF), 0, {"records": 1, "part": (0, 0, 0)})
    yield Edge("the cases of #101", marked("score", books=TWO, text=NOTE, number=1), 0, {"score": model.bits_of(1.0)})
    yield Edge("the cases of #101", marked("score", books=TWO, text=NOTE, number=2), 9)


PAIRS = {  # two books, and the refusal that they bring
    (CUT, MARKED_BOOK): 4, (MARKED_BOOK, CUT): 4, (CUT, CUT): 4, (CUT, b""): 4, (b"", CUT): 4, (b"", b""): 5, (b"", MARKED_BOOK): 0,
    (MARKED_BOOK, b""): 0,
}  # fmt: skip


def pairs():
    for job, (books, refusal) in itertools.product(OF_TWO, PAIRS.items()):
        yield Edge("4 of either, 5 of both", marked(job, books=books), refusal)
    for job in OF_TWO:
        yield Edge("one book lent twice", marked(job, books=(ANOTHER + MORE,) * 2, same=True, number=3 * (job in NUMBERED)), 0)


def parts():
    """The winner's name: of each length, behind other licences, over variants and aliases, equal or lower in the second book."""
    words = model.compiled(NOTE)
    for size in (1, 63, 64, 65):
        yield (ANOTHER, record(1, b"n" * size) + record(2, words)), due(size > 64, 4), (1, 6, size)
    for kind in (3, 4):
        variant = record(1, b"D") + record(2, EMPTY) + record(kind, words) + record(5, b"alias")
        yield (MARKED_BOOK[:7] + record(2, EMPTY), ANOTHER + variant + licence(b"E", b"a b")), 0, (1, 95, 1)
        yield (ANOTHER + variant + licence(b"E", b"a b"), MARKED_BOOK), 0, (1, 6, 1)  # an original's, though it stands behind
        yield (ANOTHER + variant + licence(b"E", b"a b"), licence(b"A", b"a b")), 0, (0, 95, 1)
    yield (licence(b"A", b"a b"), MARKED_BOOK), 0, (1, 6, 1)
    yield (MORE, MARKED_BOOK), 0, (0, 6, 1)
    yield (licence(b"Z", b"a b"), MARKED_BOOK + MORE), 0, (1, 6, 1)


def name_parts():
    for books, refusal, part in parts():
        told = {} if refusal else {"part": part, "name_len": part[2]}
        yield Edge("the name's part", marked("eliminate", books=books, text=NOTE, optimize=False), refusal, told)
    yield from stored_names()


def stored_names():
    """By their numbers: the last of the first book, the first of the second; variants under their licence's name; equal names, each in its own book."""
    variants = MARKED_BOOK + record(3, EMPTY) + record(4, EMPTY) + record(5, b"alias")
    shapes = {
        (variants + MORE,): [(2, (0, 6, 1)), (3, (0, 6, 1)), (4, (0, 6, 1)), (2, (0, 103, 1))],
        (variants, variants): [(2, (0, 6, 1)), (3, (0, 6, 1)), (4, (0, 6, 1)), (2, (1, 6, 1)), (3, (1, 6, 1)), (4, (1, 6, 1))],
        (ANOTHER, MARKED_BOOK): [(2, (0, 6, 1)), (2, (1, 6, 1))],
        (b"", ANOTHER + MORE): [(2, (1, 6, 1)), (2, (1, 95, 1))],
    }
    for books, texts in shapes.items():
        for number, (kind, part) in enumerate(texts):
            yield Edge("stored texts by number", marked("name", books=books, number=number), 0, {"kind": kind, "part": part, "name_len": 1})
        for number in (len(texts), len(texts) + 1, 2**31, 2**32 - 1):
            yield Edge("stored texts by number", marked("name", books=books, number=number), 9, {"kind": 0, "part": (0, 0, 0), "name_len": 0})


def paid():
    """The counts are reckoned by hand: each of N texts, four for the bounds of one line, each text again; in top-down two views of N, then four."""
    shapes = ((TWO, 2, (1, 6, 1)), (TWO[::-1], 2, (0, 6, 1)), ((b"", MARKED_BOOK), 1, (1, 6, 1)), ((ANOTHER + MORE, MARKED_BOOK), 3, (0, 95, 1)))
    for books, texts, part in shapes:
        for budget in range(2 * texts + 6):
            plan = marked("eliminate", books=books, text=NOTE, shallow=model.bits_of(1.0), passes=1, budget=budget)
            yield Edge("N as budget", plan, due(budget < 2 * texts + 4, 12), {"part": part if budget >= texts else (0, 0, 0)})
    for budget in range(10):
        yield Edge("N as budget", marked("down", books=TWO, text=NOTE, budget=budget), due(budget < 8, 12), {"part": (0, 0, 0)})


def around(*numbers):
    return sorted({number + by for number in numbers for by in NEAR if number + by >= 0})


def counted_on():
    for one, other in ((2, 3), (0, 2), (3, 0)):
        books, texts = (many_texts(one), many_texts(other, 1)), one + other
        yield from numbered("N1 and N", books, around(one, texts), texts, False)
    most = model.STORED_MOST
    for one, other, marks in ((most, most, around(most, 2 * most)), (most, most - 1, (2 * most - 2, 2 * most - 1)), (1, most, (most, most + 1))):
        books = many_texts(one), many_texts(other, other - 1)
        yield from numbered("1,024 texts each", books, marks, one + other, False)
    for one, other in ((most, most + 1), (most + 1, most), (most - 1, most + 1), (0, most + 1)):
        yield from numbered("1,024 texts each", (many_texts(one), many_texts(other)), (0,), one + other, True)


def over_together():
    """Two books that are together larger than one may be."""
    half = large_book(model.BOOK_MOST // 2 + 1)
    yield Edge("16,777,216 bytes each", marked("score", books=(half, half), number=1), 0)


def both():
    yield from areas(WITH_TEXT[1:], (MARKED_TEXT,), books=TWO)
    yield from results((0, 2), (MARKED_TEXT,), (1,), books=TWO)
    for make in (cases, pairs, name_parts, paid, counted_on, over_together):
        yield from make()


# ---- large ---------------------------------------------------------------------------------------------------------------------------------


def wordy(size, break_each):
    """So many bytes of words, some of them from the marked licence, with a newline after each so many words."""
    rng, out, length = random.Random(size), [], 0
    words = [b"my", b"first", b"license", b"a", b"the", b"2", b"x-y", b"(c)", b"Zeta"]
    while length < size:
        out.append(rng.choice(words) + (b"\n" if len(out) % break_each == 1 else b" "))
        length += len(out[-1])
    return b"".join(out)[:size]


def long_texts():
    for size in (model.TEXT_MOST + by for by in NEAR):
        for job, text in itertools.product(WITH_TEXT, (b" " * size, b"x" * size, wordy(size, 70000))):
            plan = marked(job, text=text, passes=1, step=WHOLE)
            yield Edge("1,048,576 bytes", plan, due(size > model.TEXT_MOST, 1))
        odd = wordy(size, 70000)[:-1] + b"\x80"
        for job in WITH_TEXT:
            yield Edge("1,048,576 bytes", marked(job, text=odd), 1 if size > model.TEXT_MOST else 2)


def many_lines():
    for lines in (model.LINES_MOST + by for by in NEAR):
        bad = lines > model.LINES_MOST
        for text in (b"\n" * (lines - 1), b"a\n" * (lines - 2) + b"my first license\n"):
            last = {"start": lines - 9, "end": lines}
            yield Edge("65,536 lines", marked("compile", text=text), due(bad, 3))
            for job in VIEWS:
                yield Edge("65,536 lines", marked(job, text=text, **last), due(bad, 3))
                yield Edge("65,536 lines", marked(job, text=text, start=lines - 9, end=lines + 1), due(True, 3 if bad else 8))
            yield Edge("65,536 lines", marked("eliminate", text=text, passes=1), due(bad, 3))
            for by in NEAR:
                yield Edge("65,536 lines", marked("down", {"results": by}, text=text, step=WHOLE), 3 if bad else due(by < 0, 10))


def large_book(size):
    """A sound book of so many bytes, but for its size: one text of entries of some thousand bytes, the last as long as it takes."""
    count = (size - 21) // 2000
    words = [b"a" * 1000 + b"%06d" % i + b" " for i in range(count)]
    sizes = [1992] * (count - 1) + [size - 21 - 2000 * (count - 1) - 8]
    entries = [(1, word + b"z" * (length - len(word))) for word, length in zip(words, sizes)]
    book = record(1, b"A") + record(2, table_body(count, count, entries))
    assert len(book) == size
    return book


def large_books():
    for by in NEAR:
        yield from each("a book of 16,777,216 bytes", large_book(model.BOOK_MOST + by), by > 0)


def large_pairs():
    for one, other in ((0, 0), (-1, 0), (0, 1), (1, 0)):
        books = tuple(large_book(model.BOOK_MOST + by) for by in (one, other))
        for job in ("score", "eliminate"):
            plan = marked(job, books=books, number=1, optimize=False)
            yield Edge("16,777,216 bytes each", plan, due(max(one, other) > 0, 4))


def forms_of_either():
    for book, good in forms():
        for books in ((MARKED_BOOK, book), (book, MARKED_BOOK)):
            yield Edge("the form of either book", marked("score", books=books), due(not good, 4))


def large():
    for make in (long_texts, many_lines, large_books, large_pairs, forms_of_either):
        yield from make()
