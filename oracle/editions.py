"""Each rule of the editions kept and broken, as plans of asking.py with the refusal that is due; accents.py has what edition 3 alone reads, edges.py
the other limits.

`one` has compile's edition and the record of kind 6 in one book, `both` two books of each edition with every other fault beside, `large` long texts
and large books.
"""

import itertools
import struct

import model
from asking import MARKED_BOOK, NO_EDITIONS, OF_TWO, SCANS, VIEWS, record
from edges import EMPTY, HALF, NEAR, Edge, areas, around, due, large_book, licence, many_texts, marked, numbered, wordy

SECOND, THIRD = model.FRONT[2], model.FRONT[3]
FOURS = [
    b"a 4", b"GPL 4x", b"4/4|4", b"4", b"44 4", b"use the GPL version 4 now", b"4. a b\n4. c d\n4. e f", b"4444 a\n4444 b\n4444 c",
    b"copyright 2004 me\n\na 4 b", b"a license version 4\n\nb 4 c", b"see http://4.a/4 4", b"\t4\\4/|4 x", b"a4b-4c_4 (4)", b"copyright\n4 x y",
    b"4  use x\n4 use y",
]  # fmt: skip

# ---- compile -------------------------------------------------------------------------------------------------------------------------------

SHORT = {"area": 10, "words": 10, "out": 11}  # which refusal an area one too short brings


def compiled():
    for edition, text in itertools.product((*model.EDITIONS, *NO_EDITIONS), FOURS):
        yield Edge("compile's edition", marked("compile", edition=edition, text=text), due(edition in NO_EDITIONS, 4))
    for edition, length in ((1, 8), (2, 19), (3, 19)):
        yield Edge("compile's edition", marked("compile", edition=edition, text=b"a 4"), 0, {"len": length})
    for edition in (*model.EDITIONS, *NO_EDITIONS):
        yield Edge("compile's edition, and another fault", marked("compile", edition=edition, text=b"4\x80"), 2)
        for area, later in SHORT.items():
            plan = marked("compile", {area: -1}, edition=edition, text=b"a 4")
            yield Edge("compile's edition, and another fault", plan, 4 if edition in NO_EDITIONS else later)
        plan = marked("compile", dict.fromkeys(SHORT, -(10**9)), edition=edition, text=b"a 4")
        yield Edge("compile's edition, and another fault", plan, 4 if edition in NO_EDITIONS else 10)
    for edition, text, by in itertools.product(model.EDITIONS, FOURS, NEAR):
        yield Edge("the output's length, by edition", marked("compile", {"out": by}, edition=edition, text=text), due(by < 0, 11))


# ---- the record of kind 6 ------------------------------------------------------------------------------------------------------------------


def fronts():
    """What may stand before the licences: whether it is sound there, and which edition the book then has."""
    for number in (0, 1, 2, 3, 4, 5, 255, 256, 257, 258, 259, 512, 513, 514, 515, 768, 771, 65535):
        yield record(6, struct.pack("<H", number)), number in (2, 3), number if number in (2, 3) else 1
    for body in (b"", b"\0", b"\1", b"\2", b"\2\0\0", b"\0\2\0", b"\2\0\0\0", b"\0\0\0\2", b"\2\0\2\0", b"\2\0" + bytes(6), b"\3", b"\3\0\0", b"\0\3"):
        yield record(6, body), False, 1
    for kind in (0, 1, 2, 5, 7, 256, 262, 1536, 1542, 65535):
        yield record(kind, b"\2\0"), False, 1
    for length in (0, 1, 3, 8, 258, 2**16 + 2, 2**24 + 2, 2**31 + 2, 2**32 - 6, 2**32 - 1):
        yield struct.pack("<I", length) + SECOND[4:], False, 1
    for size in range(8):
        yield SECOND[:size], size == 0, 1
    yield THIRD[:7], False, 1
    for front, edition in ((SECOND * 2, 2), (THIRD * 2, 3), (SECOND + THIRD, 2), (THIRD + SECOND, 3)):
        yield front, False, edition


def elsewhere():
    """Books with the record behind another, or before what cannot come first: none is sound."""
    name, text = MARKED_BOOK[:7], MARKED_BOOK[7:]
    for behind in (name + SECOND + text, name + text + SECOND, name + text + SECOND + licence(b"B", b"a b"), name + text + record(5, b"x") + SECOND):
        yield behind, 1
        yield SECOND + behind, 2
        yield THIRD + behind, 3
        yield behind.replace(SECOND, THIRD), 1
    for kind, body in ((1, b"A"), (2, EMPTY), (3, EMPTY), (4, EMPTY), (5, b"x")):
        yield record(kind, body) + SECOND, 1
        yield SECOND + record(kind, body), 2


def asked(what, book, sound, texts, edition):
    """Its edition, its check, and each job with it alone."""
    yield Edge(what, marked("edition", books=(book,)), 0, {"edition": edition})
    yield Edge(what, marked("check", books=(book,)), due(not sound, 4), {"texts": texts if sound else 0})
    for job in OF_TWO:
        yield Edge(what, marked(job, books=(book,)), due(texts == 0, 5) if sound else 4)


def records():
    for front, sound, edition in fronts():
        yield from asked("a record of kind 6", front, sound, 0, edition)
        yield from asked("a record of kind 6", front + MARKED_BOOK, sound, 1, edition)
    for book, edition in elsewhere():
        yield from asked("a record of kind 6", book, False, 0, edition)
    for right, bit in itertools.product((SECOND, THIRD), range(64)):
        wrong = (int.from_bytes(right, "little") ^ 1 << bit).to_bytes(8, "little")
        edition = {SECOND: 2, THIRD: 3}.get(wrong, 1)  # one bit makes either of the other
        for book in (wrong, wrong + MARKED_BOOK):
            yield Edge("a record of kind 6", marked("edition", books=(book,)), 0, {"edition": edition})
            yield Edge("a record of kind 6", marked("check", books=(book,)), due(edition == 1, 4))


# ---- sound books of each edition -----------------------------------------------------------------------------------------------------------

WITH, WITHOUT = b"use the GPL version 4 now", b"use the GPL version now"
FULL = model.bits_of(1.0)
# in edition 1 both tie, and the earlier wins
WINNERS = {(WITH, 1): b"G4", (WITHOUT, 1): b"G4", (WITH, 2): b"G4", (WITHOUT, 2): b"G5", (WITH, 3): b"G4", (WITHOUT, 3): b"G5"}


def g4(edition):
    return licence(b"G4", WITH, edition)


def g5(edition):
    return licence(b"G5", WITHOUT, edition)


def named(what, books, text, winner, part):
    """A scan over whole lines, whose winner has all words of the text."""
    plan = marked("eliminate", books=books, text=text, threshold=HALF, shallow=HALF, optimize=False)
    yield Edge(what, plan, 0, {"score": FULL, "name": winner.ljust(64, b"\0"), "part": part})


def winners():
    for (text, edition), winner in WINNERS.items():
        front = model.FRONT[edition]
        book = front + g4(edition) + g5(edition)
        at = book.index(winner)
        yield from named("one book of an edition", (book,), text, winner, (0, at, 2))
        yield Edge("one book of an edition", marked("score", books=(book,), text=text, number=int(winner == b"G5")), 0, {"score": FULL})
    for budget, refusal, found in ((8, 12, 0), (9, 12, 1), (19, 12, 1), (20, 0, 1)):
        plan = marked("eliminate", books=(SECOND + MARKED_BOOK,), budget=budget)
        yield Edge("one book of an edition", plan, refusal, {"records": found})


def shelves():
    """ASCII tables are not judged by the edition: those of any stand in a book of any."""
    for said, made, text in itertools.product(model.EDITIONS, model.EDITIONS, FOURS):
        book = model.FRONT[said] + licence(b"A", text, made) + licence(b"B", text.replace(b"4", b""), made)
        yield Edge("one book of an edition", marked("check", books=(book,)), 0, {"texts": 2})
        for job in OF_TWO:
            yield Edge("one book of an edition", marked(job, books=(book,), text=text, number=(made - 1) % 2), 0)


def counted():
    """The record is no stored text."""
    for by in NEAR:
        texts = model.STORED_MOST + by
        book, bad = SECOND + many_texts(texts), by > 0
        yield Edge("1,024 texts and an edition", marked("check", books=(book,)), due(bad, 4), {"texts": 0 if bad else texts})
        yield from numbered("1,024 texts and an edition", (book,), (texts - 1, texts), texts, bad)


def one():
    yield from areas(("compile",), FOURS[:2], edition=2)
    yield from areas((*VIEWS, *SCANS), FOURS[5:6], books=(SECOND + g4(2),))
    for make in (compiled, records, winners, shelves, counted):
        yield from make()


# ---- two books -----------------------------------------------------------------------------------------------------------------------------

# what may stand on either side: whether it is sound, how many texts it has, its edition
SIDES = {
    MARKED_BOOK: (True, 1, 1), SECOND + MARKED_BOOK: (True, 1, 2), b"": (True, 0, 1), SECOND: (True, 0, 2), MARKED_BOOK[:-1]: (False, 0, 1),
    SECOND + MARKED_BOOK[:-1]: (False, 0, 2), record(6, b"\4\0") + MARKED_BOOK: (False, 0, 1), THIRD + MARKED_BOOK: (True, 1, 3), THIRD: (True, 0, 3),
    THIRD + MARKED_BOOK[:-1]: (False, 0, 3),
}  # fmt: skip
NAN = 0x7FC00000
NO_AREA, NO_WORDS, NO_RESULTS = ({"slack": {area: -1}} for area in ("area", "words", "results"))
LATER = {  # of each job: further faults, and what they bring where the books are not refused
    "score": [(8, {"end": 9}), (9, {"number": 2**32 - 1}), (10, NO_AREA), (10, NO_WORDS)],
    "bounds": [(8, {"start": 9, "end": 9}), (9, {"number": 2}), (10, NO_AREA), (10, NO_WORDS)],
    "eliminate": [(6, {"threshold": NAN}), (6, {"shallow": NAN}), (10, NO_AREA), (10, NO_RESULTS), (12, {"budget": 0})],
    "down": [(6, {"threshold": NAN}), (7, {"step": 0}), (7, {"step": 0, **NO_WORDS}), (10, NO_RESULTS), (12, {"budget": 0})],
    "name": [(9, {"number": 2}), (9, {"number": 2**32 - 1})],
}


def refused(books):
    """What these books bring by themselves."""
    sound, texts, edition = zip(*(SIDES[book] for book in books))
    return 4 if not all(sound) else 5 if not any(texts) else 15 if len(set(edition)) > 1 else 0


def pairs():
    for books in itertools.product(SIDES, repeat=2):
        before = refused(books)
        for job in OF_TWO:
            yield Edge("books of two editions", marked(job, books=books), before)
            for later, fault in LATER[job] if before != 4 else ():
                yield Edge("books of two editions, and another fault", marked(job, books=books, **fault), before or later)
            if job != "name":
                yield Edge("books of two editions, and another fault", marked(job, books=books, text=b"4\x80"), 2)


def sides():
    """Both of one edition: parted, lent twice, beside a book that has nothing but the edition."""
    for edition in model.EDITIONS:
        front, other = model.FRONT[edition], WINNERS[WITHOUT, edition]
        at = len(front) + 6
        apart = (front + g4(edition), front + g5(edition))
        yield from named("two books of one edition", apart, WITHOUT, other, (int(other == b"G5"), at, 2))
        yield from named("two books of one edition", apart[::-1], WITHOUT, b"G5", (0, at, 2))
        yield from named("two books of one edition", (front + g4(edition), front), WITH, b"G4", (0, at, 2))
        yield from named("two books of one edition", (front, front + g4(edition)), WITH, b"G4", (1, at, 2))
        for job in OF_TWO:
            yield Edge("two books of one edition", marked(job, books=(front + g4(edition),) * 2, same=True, text=WITH, number=1), 0)
        yield from numbered("two books of one edition", (front + many_texts(2), front + many_texts(3, 1)), around(2, 5), 5, False)
        yield from areas((*VIEWS, *SCANS), FOURS[5:6], books=apart)


def both():
    yield from pairs()
    yield from sides()


# ---- large ---------------------------------------------------------------------------------------------------------------------------------


def long_texts():
    for edition, by in itertools.product((0, *model.EDITIONS, 4), NEAR):
        text, bad = wordy(model.TEXT_MOST + by, 70000).replace(b"2", b"4"), edition not in model.EDITIONS
        yield Edge("1,048,576 bytes, by edition", marked("compile", edition=edition, text=text), 1 if by > 0 else due(bad, 4))
        text = b"\n" * (model.LINES_MOST + by - 2) + b"4 a\n4 b"
        yield Edge("65,536 lines, by edition", marked("compile", edition=edition, text=text), 3 if by > 0 else due(bad, 4))


def large_books():
    for by in NEAR:
        book = SECOND + large_book(model.BOOK_MOST - len(SECOND) + by)
        yield from asked("16,777,216 bytes and an edition", book, by <= 0, 1, 2)


def large():
    yield from long_texts()
    yield from large_books()
