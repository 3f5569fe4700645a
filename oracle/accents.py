"""Each rule of edition 3 (#111) kept and broken, as plans of asking.py with the refusal that is due: which bytes it reads and by whose word, the class
of each code point, the words of a table, the areas of a text in two-byte characters.

`one` has compile and one book, `both` two books, `large` long texts.
"""

import collections
import itertools

import compare
import model
from asking import MARKED_BOOK, NO_EDITIONS, NO_UTF8, OF_TWO, SCANS, UTF8, VIEWS, record, table_body
from edges import EMPTY, HALF, NEAR, WITH_TEXT, Edge, areas, due, licence, marked
from editions import FOURS, FULL, SECOND, THIRD

CASES = {  # of request #111: texts, and their words after all passes
    "Été à la PLAGE": "été à la plage",
    "« a » b\xa0c\x85d": "a b c d",
    "© 2004 4 ² x": "2004 4 x",
    "http://é\xa0x y": "http blackboxed url x y",
    "éé x\néé y\néé z": "x y z",
    "éa x\néa y\néa z": "éa x éa y éa z",
    "aéà\naéá\naéâ": "aéà aéá aéâ",
    "a\ncopyright\x85c 1999\nb": "a b",
    "ª º µ ÿ ÷ ×": "ª º µ ÿ",
    "é é": "é é",
}
TEXTS = [text.encode("utf-8") for text in (*CASES, *compare.ACCENT_TEXTS)]
FRENCH, LOUD = "l'été à la plage, où ça ?".encode("utf-8"), "L'ÉTÉ À LA PLAGE, OÙ ÇA ?".encode("utf-8")
BOOK = THIRD + licence(b"F", FRENCH, 3)

# ---- compile -------------------------------------------------------------------------------------------------------------------------------


def body_length(words):
    """Of the table of these words."""
    bigrams = collections.Counter(f"{a} {b}" for a, b in itertools.pairwise(words.split(" ")))
    return 8 + sum(8 + len(bigram.encode("utf-8")) for bigram in bigrams)


def compiled():
    for text, words in CASES.items():
        yield Edge("the cases of #111", marked("compile", edition=3, text=text.encode("utf-8")), 0, {"len": body_length(words)})
    for text, by in itertools.product(TEXTS, NEAR):
        yield Edge("compile, edition 3", marked("compile", {"out": by}, edition=3, text=text), due(by < 0, 11))
    for edition, text in itertools.product((1, 2, *NO_EDITIONS), TEXTS[:9]):
        yield Edge("compile, accents in another edition", marked("compile", edition=edition, text=text), 2)
    for text in FOURS:
        yield Edge("ASCII as in edition 2", marked("compile", edition=3, text=text), 0, {"len": len(model.compiled(text, 2))})


# each thing that a pass does to a character: between letters, at a URL's end, in `://`, twice, before and behind `copyright`, in a title, at the
# start of lines
PLACES = [
    "z a{0}b y", "z http://a{0}b y", "z http:{0}//b y", "license{0}.{0}b y z", "z\n\n.{0}copyright x\n\ny b", "z\ncopyright{0}c {0}y\ny b",
    "a license version x{0}y\n\nb z", "ab{0}'{0} x\nab{0}'{0} y\nab{0}'{0} z",
]  # fmt: skip


def classes():
    for place, c in itertools.product(PLACES, compare.HIGH):
        yield Edge("the class of a code point", marked("compile", edition=3, text=place.format(c).encode("utf-8")), 0)


# ---- refusal 2 -----------------------------------------------------------------------------------------------------------------------------

# what the first book may be: its edition, whether it is sound, how many texts it has
SAID = {
    MARKED_BOOK: (1, True, 1), SECOND + MARKED_BOOK: (2, True, 1), THIRD + MARKED_BOOK: (3, True, 1), BOOK: (3, True, 1), b"": (1, True, 0),
    THIRD: (3, True, 0), BOOK[:-1]: (3, False, 0), THIRD + THIRD: (3, False, 0), record(6, b"\3") + MARKED_BOOK: (1, False, 0),
    THIRD[:7]: (1, False, 0),
    record(6, b"\3\0\0") + MARKED_BOOK: (1, False, 0), record(6, b"\0\0") + MARKED_BOOK: (1, False, 0), record(6, b"\1\0") + MARKED_BOOK: (1, False, 0),
    record(6, b"\4\0") + MARKED_BOOK: (1, False, 0), record(6, b"\0\3") + MARKED_BOOK: (1, False, 0), record(7, b"\3\0") + MARKED_BOOK: (1, False, 0),
    MARKED_BOOK + THIRD: (1, False, 0), SECOND + THIRD: (2, False, 0), THIRD + SECOND: (3, False, 0),
}  # fmt: skip
JOBS = (*VIEWS, *SCANS)
KINDS = [b"\xa9", b"\xc3", b"\xc3e", b"\xc1\xa1", b"\xc4\x80", b"\xef\xbb\xbfe"]  # alone, cut off, before another, overlong, above, a byte order mark


def refused(books, text):
    """What these books bring with this text, which is no worse than it looks."""
    editions, sound, texts = zip(*(SAID[book] for book in books))
    if not text.isascii() and editions[0] != 3:
        return 2
    return 4 if not all(sound) else 5 if not any(texts) else 15 if len(set(editions)) > 1 else 0


def read():
    """What each edition reads, in each job, by each way in which an edition is said."""
    for edition, odd in itertools.product((0, *model.EDITIONS, 4), NO_UTF8):
        for text in (odd, b"a " + odd + b" b", b"a\n" + odd):
            yield Edge("no UTF-8", marked("compile", edition=edition, text=text), 2)
    for job, odd in itertools.product(JOBS, NO_UTF8):
        yield Edge("no UTF-8", marked(job, books=(BOOK,), text=b"a " + odd), 2)
    for job, odd, book in itertools.product(JOBS, KINDS, SAID):
        yield Edge("no UTF-8", marked(job, books=(book,), text=odd), 2)
    for edition, good in itertools.product((0, *model.EDITIONS, 4), (b"", b"\x7f", *UTF8)):
        reads = edition == 3 or good.isascii()
        yield Edge("UTF-8", marked("compile", edition=edition, text=good + b" b"), due(edition not in model.EDITIONS, 4) if reads else 2)
    for job, text, book in itertools.product(JOBS, (*UTF8, b"e", FRENCH), SAID):
        yield Edge("UTF-8, by the book", marked(job, books=(book,), text=text), refused((book,), text))


def later():
    """Behind 2, in edition 3, what was behind it."""
    for job, slack in itertools.product(WITH_TEXT, ({"area": -1}, {"words": -1})):
        for text, refusal in ((FRENCH, 10), (FRENCH + b"\xc3", 2)):
            yield Edge("UTF-8, and another fault", marked(job, slack, edition=3, books=(BOOK,), text=text), refusal)
    for job, text in itertools.product(SCANS, (FRENCH, b"\xa9")):
        yield Edge("UTF-8, and another fault", marked(job, books=(BOOK,), text=text, budget=0), 12 if text == FRENCH else 2)
        yield Edge("UTF-8, and another fault", marked(job, books=(BOOK,), text=text, threshold=0x7FC00000), 6 if text == FRENCH else 2)


# ---- words of a table ----------------------------------------------------------------------------------------------------------------------

LEFT = {0xAA, 0xB5, 0xBA, *range(0xDF, 0x100)} - {0xF7}  # as lower case leaves them
BIGRAMS = {  # whether edition 3 takes them; none of them is ASCII
    "é à": True, "É à": False, "ß ÿ": True, "ª º": True, "÷ a": False, "a ²": False, "é à è": False, "é": False, "é ": False, " é": False, "é  à": False,
    "aé_9 0ß": True, "é\x85 b": False, "é\xa0b": False, "« a": False, "a b\xad": False, "Ā a": False, "a €": False, "é-à b": False, "é\tà": False,
    "é à\n": False,
}  # fmt: skip
HALVES = [
    b"\xc3 \xa9", b"a\xc3 \xa9b", b"a \xc3", b"\xa9 a", b"a \xc1\xa1", b"\xc0\x80 a", b"\xc3\xa9\xc3 a", b"\xc3a b", b"\xe0\x83\xa9 a", b"\xff a", b"a \x80",
]  # fmt: skip
TWO_ENTRIES = {("z z", "é a"): True, ("é a", "z z"): False, ("à a", "é a"): True, ("é a", "à a"): False, ("é a", "é a"): False, ("µ a", "à a"): True}


def shelf(front, *bigrams):
    entries = [(1, bigram) for bigram in bigrams]
    return front + record(1, b"A") + record(2, table_body(len(entries), len(entries), entries))


def words():
    told = [(words.encode("utf-8"), good) for words, good in BIGRAMS.items()] + [(half, False) for half in HALVES]
    for (edition, front), (bigram, good) in itertools.product(model.FRONT.items(), told):
        book, bad = shelf(front, bigram), not (good and edition == 3)
        yield Edge("words of a table", marked("check", books=(book,)), due(bad, 4))
        for job in OF_TWO:
            yield Edge("words of a table", marked(job, books=(book,)), due(bad, 4))
    for (edition, front), point in itertools.product(model.FRONT.items(), range(128, 256)):
        book, bad = shelf(front, f"x{chr(point)} y".encode("utf-8")), not (point in LEFT and edition == 3)
        yield Edge("words of a table", marked("check", books=(book,)), due(bad, 4))
    for bigrams, good in TWO_ENTRIES.items():
        yield Edge("words of a table", marked("check", books=(shelf(THIRD, *(words.encode("utf-8") for words in bigrams)),)), due(not good, 4))
    for name in ("é", "aé", "\xa0"):
        for book in (record(1, name.encode("utf-8")) + record(2, EMPTY), record(1, b"A") + record(2, EMPTY) + record(5, name.encode("utf-8"))):
            yield Edge("names stay ASCII", marked("check", books=(THIRD + book,)), 4)


# ---- scores and scans ----------------------------------------------------------------------------------------------------------------------


def alike(what, books, number, part):
    """The text in other letters than the stored one: alike after all passes, and named."""
    for text in (FRENCH, LOUD, FRENCH.replace(b" ", b"\xc2\xa0"), b"\xc2\xab" + LOUD.replace(b" ", b"\xc2\x85") + b"\xc2\xbb"):
        yield Edge(what, marked("score", books=books, text=text, number=number), 0, {"score": FULL})
        yield Edge(what, marked("bounds", books=books, text=text, number=number), 0, {"score": FULL, "first": 0, "after": 1})
        plan = marked("eliminate", books=books, text=text, threshold=HALF, shallow=HALF, optimize=False)
        yield Edge(what, plan, 0, {"score": FULL, "part": part})
        yield Edge(what, marked("down", books=books, text=text, threshold=HALF), 0, {"records": 1})


def of_texts(what, books):
    for job, text in itertools.product(JOBS, (text for text in TEXTS if text.count(b"\n") < 9)):
        yield Edge(what, marked(job, books=books, text=text, threshold=HALF, shallow=FULL, passes=2), 0)


def one():
    for make in (compiled, classes, read, later, words):
        yield from make()
    yield from areas(("compile",), (*TEXTS[:10], LOUD), edition=3)
    yield from areas(JOBS, (TEXTS[9], LOUD), books=(BOOK,))
    yield from alike("alike in edition 3", (BOOK,), 0, (0, 14, 1))
    yield from of_texts("texts of edition 3", (BOOK + licence(b"G", TEXTS[0] + b"\n" + FRENCH, 3),))


def both():
    for books, text, job in itertools.product(itertools.product(list(SAID)[:9], repeat=2), ("é".encode("utf-8"), b"e"), JOBS):
        yield Edge("UTF-8, by the first of two books", marked(job, books=books, text=text), refused(books, text))
    apart = (THIRD + MARKED_BOOK, BOOK)
    yield from areas(JOBS, (LOUD,), books=apart)
    yield from alike("alike in edition 3", apart, 1, (1, 14, 1))
    yield from of_texts("texts of edition 3", apart)


# ---- large ---------------------------------------------------------------------------------------------------------------------------------


def letters(size):
    """So many bytes of words in two-byte letters, with a space between; the last character may be cut."""
    some = " ".join(["é", "àÉ", "ßÿ", "Ünïcödé", "µ", ""]).encode("utf-8")
    return (some * (size // len(some) + 1))[:size]


def whole(text):
    """Without half a character at its end, which a space replaces."""
    return text if model.readable(text, 3) else text[:-1] + b" "


def large():
    most, letter = model.TEXT_MOST, "é".encode("utf-8")
    for job, by in itertools.product(WITH_TEXT, NEAR):
        fields = {"edition": 3, "books": (BOOK,), "passes": 1, "step": 2**64 - 1}
        for text in (letter * most)[: most + by], letters(most + by):
            yield Edge("1,048,576 bytes, edition 3", marked(job, text=whole(text), **fields), due(by > 0, 1))
        cut = (b"a" * (by == 0) + letter * most)[: most + by]  # half a character at its end
        yield Edge("1,048,576 bytes, edition 3", marked(job, text=cut, **fields), 1 if by > 0 else 2)
    for job, edition, by in itertools.product(("compile", "eliminate"), (2, 3), NEAR):
        text, book = (letter + b"\n") * (model.LINES_MOST + by - 1), model.FRONT[edition] + MARKED_BOOK
        plan = marked(job, edition=edition, books=(book,), text=text, passes=1)
        yield Edge("65,536 lines, edition 3", plan, 2 if edition == 2 else due(by > 0, 3))
