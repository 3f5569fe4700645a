"""The bytes of a range (#106), each ruling with its neighbours, as plans of asking.py: the cases of the request, every note of a few lines, lines that
are blanked, accents, budgets, results that are too small.

`one` has what takes seconds, `both` two books, `large` notes of 1,048,576 bytes and of 65,536 lines. The records that are due are written by hand, or
by how a note was put together; where none are said, the model alone says them.
"""

import itertools

import model
from asking import MARKED_BOOK, MARKED_TEXT, SCANS, WHOLE, record
from edges import EMPTY, NEAR, NINETY, NOTE, Edge, due, licence, marked

ONE, SIXTY, ZEROS = model.bits_of(1.0), model.bits_of(0.6), (0, 0x80000000)  # 0.0 and -0.0
FULL = {"threshold": SIXTY, "shallow": ONE, "passes": 1}
OTHER = record(1, b"0") + record(2, EMPTY)  # a book with a text without words
BLANKED = b"\n".join((b"my first", b"", b"", b"", NOTE, b"", b"my first"))


def scan(what, job, text, found=None, slack=None, refusal=0, **fields):
    """A scan of the marked book, and its records where they are known."""
    return Edge(what, marked(job, slack, text=text, **{**FULL, **fields}), refusal, {} if found is None else {"recorded": found})


# ---- the cases of #106 -----------------------------------------------------------------------------------------------------------------------

CASES = [  # note, its record; in both modes but where a carriage return stands alone
    (MARKED_TEXT, (0, 1, 2, ONE, 22, 41)),
    (MARKED_TEXT.replace(b"\n", b"\r\n"), (0, 1, 2, ONE, 23, 43)),
    (NOTE, (0, 0, 1, ONE, 0, 16)),
    (NOTE + b"\n", (0, 0, 2, ONE, 0, 17)),
    (NOTE + b"\r", (0, 0, 1, ONE, 0, 17)),
    (NOTE + b"\r\n", (0, 0, 2, ONE, 0, 18)),
    (b"\n" + NOTE, (0, 1, 2, ONE, 1, 17)),
    (b"x\n" + NOTE + b"\ny", (0, 1, 2, ONE, 2, 18)),
]
EMPTY_RANGES = [  # note, its record at threshold 0.0
    (b"", (0, 1, 1, 0, 0, 0)),
    (b"x\ny", (0, 2, 2, 0, 3, 3)),
    (b"x\ny\n", (0, 3, 3, 0, 4, 4)),
]


def cases():
    what = "the cases of #106"
    for edition in model.EDITIONS:
        books = (model.FRONT[edition] + MARKED_BOOK,)
        for job, (text, found) in itertools.product(SCANS, CASES):
            yield scan(what, job, text, [found], books=books)
        for job, (text, found), zero in itertools.product(SCANS, EMPTY_RANGES, ZEROS):
            yield scan(what, job, text, [found], books=books, threshold=zero)
        for zero in ZEROS:
            found = [(0, 4, 6, ONE, 12, 29), (0, 6, 6, 0, 30, 30)]
            yield scan(what, "eliminate", BLANKED, found, books=books, threshold=zero, passes=2)
        for budget in (8, 9):
            found = [(0, 1, 2, ONE, 22, 41)] if budget == 9 else []
            yield scan(what, "eliminate", MARKED_TEXT, found, None, 12, books=books, threshold=NINETY, passes=10, budget=budget)


def cases_of_both():
    """The marked book beside another, on either side: its text has the number 0 or 1."""
    for edition, job, number in itertools.product(model.EDITIONS, SCANS, (0, 1)):
        books = [model.FRONT[edition] + book for book in (MARKED_BOOK, OTHER)]
        for text, (_, *found) in CASES:
            yield scan("the cases of #106", job, text, [(number, *found)], books=tuple(books[::-1] if number else books))
        for text, found in EMPTY_RANGES:
            yield scan("the cases of #106", job, text, [found], books=tuple(books), threshold=0)


# ---- areas, budgets --------------------------------------------------------------------------------------------------------------------------


def sizes(records):
    """Around what 4, 5 and 6 numbers for each record take, and one record less and more."""
    return sorted({size for each in (4, 5, 6) for by in (*NEAR, -6, 6) if (size := each * records + by) >= 0})


def room(books, all_passes=(0, 1, 2, 3, 10, 65535), texts=(b"", NOTE, b"\n", MARKED_TEXT, b"x\n" * 6 + NOTE)):
    for passes in all_passes:
        for size in sizes(passes):
            few, slack = size < 6 * passes, {"results": size - 6 * passes}
            found = [(0, 0, 1, ONE, 0, 16)] if passes and not few else []
            yield scan("6P, by a record's numbers", "eliminate", NOTE, found, slack, due(few, 10), books=books, passes=passes)
    for text in texts:
        most = len(text.split(b"\n")[::2])  # above 0.0 every second line
        for size in sizes(most):
            slack = {"results": size - 6 * most}
            yield scan("6(L+1)/2, by a record's numbers", "down", text, None, slack, due(size < 6 * most, 10), books=books, threshold=NINETY)


LONGER = b"My First License is here to stay for all of us"
AROUND = licence(b"B", b"alpha beta gamma delta epsilon zeta")  # its words stand round the other's in a note
THREE = b"\n".join((NOTE, b"x", NOTE, b"y z", b"", NOTE))
OVER = {  # notes against both texts, and their records in two passes: the second has lines that the first has blanked
    b"\n".join((b"alpha beta gamma", LONGER, b"delta epsilon zeta")): [(0, 1, 2, ONE, 17, 63), (1, 0, 3, ONE, 0, 82)],
    b"\r\n".join((b"q", b"  alpha beta gamma", LONGER, b"delta epsilon zeta", b"")): [(0, 2, 3, ONE, 23, 70), (1, 1, 5, ONE, 3, 91)],
}  # fmt: skip
TWO_TEXTS = licence(b"A", LONGER) + AROUND


def blanked(books):
    for text, found in OVER.items():
        for passes in (1, 2):
            yield scan("over blanked lines", "eliminate", text, found[:passes], books=books, passes=passes)


PAID = [  # a scan, and by how many scorings each of its records is finished, then the whole: reckoned by hand
    # top-down: 4, 5 and 4 views, and behind each 5, 6 and 6 for its bounds
    ("down", THREE, (MARKED_BOOK,), [(0, 0, 1, ONE, 0, 16), (0, 2, 3, ONE, 19, 35), (0, 5, 6, ONE, 41, 57)], (9, 20, 30, 30)),
    # elimination: two texts, 7 for bounds, two texts again, 8 for bounds, two texts again
    ("eliminate", next(iter(OVER)), (TWO_TEXTS,), next(iter(OVER.values())), (9, 19, 21)),
    ("eliminate", next(iter(OVER)), (licence(b"A", LONGER), AROUND), next(iter(OVER.values())), (9, 19, 21)),
]


def paid(lent):
    """Every budget: with 12 each record that is finished stands there whole."""
    for job, text, books, found, counts in PAID:
        for budget in range(counts[-1] + 2) if len(books) == lent else ():
            done, refusal = sum(budget >= count for count in counts[:-1]), due(budget < counts[-1], 12)
            yield scan("budgets after each record", job, text, found[:done], None, refusal, books=books, passes=2, budget=budget)


# ---- every note of a few lines ---------------------------------------------------------------------------------------------------------------

PIECES = (b"", b"x\vy\f", NOTE, b"my first\r")
ACCENTED = ("", "é", "À la fin", "\x85 été\r")
FRENCH = model.FRONT[3] + licence(b"F", "à la fin été".encode("utf-8"), 3)


def notes(pieces, most):
    for lines in range(1, most + 1):
        yield from (b"\n".join(note) for note in itertools.product(pieces, repeat=lines))


def small():
    for text in notes(PIECES, 4):
        yield scan("notes of a few lines", "eliminate", text, passes=2)
        yield scan("notes of a few lines", "eliminate", text, threshold=0, passes=3)
        yield scan("notes of a few lines", "down", text)
        yield scan("notes of a few lines", "down", text, threshold=ZEROS[1], step=2)


def accented():
    for text in notes([piece.encode("utf-8") for piece in ACCENTED], 3):
        for job, threshold in itertools.product(SCANS, (0, SIXTY)):
            yield scan("notes of a few lines, accents", job, text, books=(FRENCH,), threshold=threshold, passes=2)


def far():
    """Places above 65,535."""
    for size in (65535, 65536, 70000):
        yield scan("places above 65,535", "eliminate", b"x" * size + b"\n" + NOTE, [(0, 1, 2, ONE, size + 1, size + 17)])


def one():
    yield from itertools.chain(cases(), room((MARKED_BOOK,)), blanked((TWO_TEXTS,)), paid(1), small(), accented(), far())


def both():
    parted = licence(b"A", LONGER), AROUND
    yield from itertools.chain(cases_of_both(), room((MARKED_BOOK, OTHER), (0, 1, 2), (b"", MARKED_TEXT)), blanked(parted), paid(2))


# ---- large -----------------------------------------------------------------------------------------------------------------------------------


def at_the_end(size):
    """Notes of so many bytes with a range up to the last of them, or behind it; and one that starts at the first."""
    before = size - len(NOTE) - 1
    yield b"x" * before + b"\n" + NOTE, SIXTY, (0, 1, 2, ONE, size - 16, size)
    yield b"x" * (before - 1) + b"\n" + NOTE + b"\n", SIXTY, (0, 1, 3, ONE, size - 17, size)
    yield b"x" * (before - 2) + b"\r\n" + NOTE + b"\r", SIXTY, (0, 1, 2, ONE, size - 17, size)
    yield NOTE + b"\n" + b"x" * before, SIXTY, (0, 0, 1, ONE, 0, 16)
    yield b"x" * size, 0, (0, 1, 1, 0, size, size)
    yield b"x" * (size - 1) + b"\n", 0, (0, 2, 2, 0, size, size)


def long_notes():
    for size, job in itertools.product((model.TEXT_MOST + by for by in NEAR), SCANS):
        over = size > model.TEXT_MOST
        for text, threshold, found in at_the_end(size):
            yield scan("ranges up to 1,048,576", job, text, [] if over else [found], None, due(over, 1), threshold=threshold)


def many_lines():
    """The last of 65,536 lines, the others of one byte and of 15, two that begin otherwise in turn; in elimination, which alone looks at few views."""
    last = model.LINES_MOST - 1
    for two in ((b"a", b"b"), (b"a b c d e f g h", b"q r s t u v w x")):
        before = b"".join(two[i % 2] + b"\n" for i in range(last))
        yield scan("the last of 65,536 lines", "eliminate", before + NOTE, [(0, last, last + 1, ONE, len(before), len(before) + 16)])


def large():
    yield from itertools.chain(long_notes(), many_lines())
