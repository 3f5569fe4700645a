"""A second reading of the rules (docs/RULES.md), in plain Python: what each of the jobs answers, and what each lent area holds at exit.

Written from the document, with the definitions known, but by other means: regular expressions over Python's own characters for the passes, its
unicodedata for their classes, dictionaries for the tables, exact fractions for the scores, generators for the scans. Slow, and no part of the
library. hold.py holds it against the definitions, rows.py holds the archive against it.
"""

import collections
import dataclasses
import functools
import math
import os
import re
import struct
import unicodedata
from fractions import Fraction

TEXT_MOST, LINES_MOST = 1048576, 65536
BOOK_MOST, STORED_MOST, TOTAL_MOST, NAME_MOST = 16777216, 1024, 8388608, 64
Record = collections.namedtuple("Record", "number first after score start end")  # of the results; the score by its bits
RECORD_WIDTH = len(Record._fields)
Allowance = collections.namedtuple("Allowance", "cap used")  # of a whole Save: how many scorings it may make, and how many it has made

# ---- binary32 ----------------------------------------------------------------------------------------------------------------------------


def bits_of(x):
    return struct.unpack("<I", struct.pack("<f", x))[0]


def of_bits(bits):
    return struct.unpack("<f", struct.pack("<I", bits))[0]


@functools.cache
def rounded(x):
    """A fraction from 0 up, rounded to the nearest binary32, ties to even; as a Python float, which holds it exactly."""
    if x == 0:
        return 0.0
    shift = 0
    while x * Fraction(2) ** shift < 2**23:
        shift += 1
    while x * Fraction(2) ** shift >= 2**24:
        shift -= 1
    return math.ldexp(round(x * Fraction(2) ** shift), -shift)  # round() of a fraction takes ties to even


# ---- characters: the first 256 -----------------------------------------------------------------------------------------------------------


def those(test):
    return "".join(c for c in map(chr, range(256)) if test(c))


def of_category(*starts):
    """The characters whose general category begins so."""
    return those(lambda c: unicodedata.category(c).startswith(starts))


BLANKS = of_category("Zs")
SPACES = "\t\n\v\f\r\x85" + BLANKS  # White_Space
WORDS = of_category("L", "Nd", "Pc")
LEFT = those(lambda c: c in WORDS and c.lower() == c)  # as lower case leaves them
SPACE, WORD, LOWER, MARK = map(re.escape, (SPACES, WORDS, LEFT, of_category("P")))  # between the brackets of a pattern
ACCENTS = 3  # the edition that has more of them than ASCII has


def readable(text, edition):
    """Whether refusal 2 lets these bytes through."""
    if edition != ACCENTS:
        return text.isascii()
    try:
        return max(text.decode("utf-8"), default="") <= "\xff"
    except UnicodeDecodeError:
        return False


# ---- line passes -------------------------------------------------------------------------------------------------------------------------

MENDED = rf"[{BLANKS}\t\\/|]+"
GAPS = {1: rf"[{BLANKS}\t\\/|4]+", 2: MENDED, 3: MENDED}  # line pass 4, by edition
EDITIONS = tuple(GAPS)
JUNK = f"[^{WORD}{SPACE}{MARK}]"
QUOTES, DASHES, OPENING, CLOSING, UNDER = map(re.escape, ("\"'" + of_category("Pi", "Pf"), *map(of_category, ("Pd", "Ps", "Pe", "Pc"))))
RUNS = [(f"[{QUOTES}]+", "'"), (f"[{DASHES}]+", "-"), (f"[{OPENING}]+", "("), (f"[{CLOSING}]+", ")"), (f"[{UNDER}]+", "_")]


def line(piece, edition):
    piece = re.sub(JUNK, "", piece)
    piece = re.sub(f"https?://[^{SPACE}]+", "http://blackboxed/url", piece)
    piece = re.sub(GAPS[edition], " ", piece)
    for run, one in RUNS:
        piece = re.sub(run, one, piece)
    return piece.strip(SPACES)


def lines_of(text, edition):
    """Of a text that is not refused."""
    return [line(piece, edition) for piece in text.decode("utf-8").split("\n")]


# ---- aggressive passes -------------------------------------------------------------------------------------------------------------------


def share(lines):
    """0.8f32 times the line count, truncated: the product in binary32, not the document's 4L/5."""
    return int(rounded(Fraction(of_bits(bits_of(0.8))) * lines))


def common_prefix(above, below):
    """Of their bytes; half a character at its end goes."""
    return os.path.commonprefix([above.encode("utf-8"), below.encode("utf-8")]).decode("utf-8", errors="ignore").strip(SPACES)


def without_prefix(lines):
    seen = {}  # in the order of first sight
    for above, below in zip(lines, lines[1:]):
        prefix = common_prefix(above, below)
        if len(prefix.encode("utf-8")) > 3:
            seen[prefix] = seen.get(prefix, 1) + 1
    if not seen:
        return lines
    winner = max(seen, key=seen.get)  # of equals the first
    if sum(count for prefix, count in seen.items() if prefix.startswith(winner)) < share(len(lines)):
        return lines
    return [(one[len(winner) :] if one.startswith(winner) else one).strip(SPACES) for one in lines]


TITLE = re.compile(rf"\A[^\n]*license(?: version [^{SPACE}]+)?(?: copyright[^\n]*)?\n\n")
COPYRIGHT = re.compile(
    r"(?:\A\n*|\n\n) *copyright[^\n]*\n\n"  # A
    r"|\A[^\n]*copyright[^\n]*"  # B
    rf"|^copyright(?:[{SPACE}]+(?:c|[0-9]+))+[^\n]*",  # C
    re.MULTILINE,
)


def processed(lines):
    text = "\n".join(without_prefix(lines))
    text = re.sub(r"\n{3,}", "\n\n", re.sub(r"[\n-\r]", "\n", text))
    text = re.sub(f"[^{WORD}{SPACE}]", "", text).lower()
    text = TITLE.sub("", text)
    text = COPYRIGHT.sub("\n\n", text)
    return re.sub(f"[{SPACE}]+", " ", text).strip(SPACES)


# ---- tables and scores -------------------------------------------------------------------------------------------------------------------


def table(lines):
    words = processed(lines).encode("utf-8").split(b" ")
    return collections.Counter(a + b" " + b for a, b in zip(words, words[1:]))


class Value(float):
    """A score, which ranks as the float that it is, with the numbers behind it."""

    def __new__(cls, score, m, t):
        value = super().__new__(cls, score)
        value.m, value.t = m, t
        return value


def score(one, other):
    m = sum(min(count, other[bigram]) for bigram, count in one.items() if bigram in other)
    t = sum(one.values()) + sum(other.values())
    return Value(rounded(Fraction(2 * m, t)) if one and other else 0.0, m, t)


def body_of(counts):
    """A table body."""
    out = struct.pack("<II", sum(counts.values()), len(counts))
    return out + b"".join(struct.pack("<II", counts[bigram], len(bigram)) + bigram for bigram in sorted(counts))


def compiled(text, edition=1):
    return body_of(table(lines_of(text, edition)))


class Note:
    """The lines of a text; the table of each view is made once."""

    def __init__(self, lines):
        self.lines, self.tables = lines, {}

    def table(self, start, end):
        if (start, end) not in self.tables:
            self.tables[start, end] = table(self.lines[start:end])
        return self.tables[start, end]

    def blanked(self, first, after):
        return Note(["" if first <= i < after else one for i, one in enumerate(self.lines)])


# ---- the book ----------------------------------------------------------------------------------------------------------------------------

Part = collections.namedtuple("Part", "second at len")  # where a name stands: in the second book or not, from which byte on, how many bytes
NO_PART = Part(0, 0, 0)
Stored = collections.namedtuple("Stored", "number name kind table part")


# what a book starts with, by edition: nothing, or the whole record of kind 6
FRONT = {1: b"", **{edition: struct.pack("<IHH", 2, 6, edition) for edition in EDITIONS[1:]}}


def edition_of(book):
    """Of any bytes: the latest whose record they start with."""
    return max(edition for edition in EDITIONS if book.startswith(FRONT[edition]))


class Unsound(Exception):
    """A book breaks a rule."""


def need(good):
    if not good:
        raise Unsound


def taken(book, place, size):
    """So many bytes from a place on, and the place after them."""
    need(place + size <= len(book))
    return book[place : place + size], place + size


def records_in(book):
    """The kind of each record, where its body starts, and the body."""
    place, out = 0, []
    while place < len(book):
        head, start = taken(book, place, 6)
        length, kind = struct.unpack("<IH", head)
        body, place = taken(book, start, length)
        out.append((kind, start, body))
    return out


def words_in(bigram, edition):
    """Two words with a space between. Half a character is none, and neither is one that lower case changes."""
    try:
        return re.fullmatch(f"[{LOWER}]+ [{LOWER}]+", bigram.decode("utf-8" if edition == ACCENTS else "ascii"))
    except UnicodeDecodeError:
        return None


def table_in(body, edition):
    head, place = taken(body, 0, 8)
    total, distinct = struct.unpack("<II", head)
    counts, last = {}, b""
    while place < len(body):
        head, place = taken(body, place, 8)
        count, length = struct.unpack("<II", head)
        bigram, place = taken(body, place, length)
        need(count >= 1 and bigram > last and words_in(bigram, edition))
        counts[bigram] = count
        last = bigram
    need(distinct == len(counts) and total == sum(counts.values()) and total <= TOTAL_MOST)
    return counts


def shelf_of(book):
    """The stored texts of a sound book, numbered in it."""
    need(len(book) <= BOOK_MOST)
    records = records_in(book)
    need(all(1 <= kind <= 6 for kind, _, _ in records))
    need(re.fullmatch("6?(123*4*5*)*", "".join(str(kind) for kind, _, _ in records)))
    names, shelf = [], []
    for kind, start, body in records:
        if kind == 6:
            need(body in (b"\2\0", b"\3\0"))
        if kind in (1, 5):
            need(re.fullmatch(rb"[!-~]{1,64}", body))
        if kind == 1:
            names.append(body)
            part = Part(0, start, len(body))
        if kind in (2, 3, 4):
            shelf.append(Stored(len(shelf), names[-1], kind, table_in(body, edition_of(book)), part))
    need(all(a < b for a, b in zip(names, names[1:])))
    need(len(shelf) <= STORED_MOST)
    return shelf


@functools.lru_cache(maxsize=64)
def shelf_or_none(book):
    try:
        return shelf_of(book)
    except Unsound:
        return None


def shelved(books):
    """The stored texts of the lent books, one or two, each of them sound: numbers count on from the first into the second."""
    shelf = []
    for second, book in enumerate(books):
        for text in shelf_or_none(book) or []:
            shelf.append(text._replace(number=len(shelf), part=text.part._replace(second=second)))
    return shelf


# ---- search and scans: generators of events, a scoring before it is made; what they find is what they return ---------------------------------

SCORING = "scoring"
Overall = collections.namedtuple("Overall", "text score")
Found = collections.namedtuple("Found", "number first after score")


def scored(note, start, end, text):
    yield SCORING
    return score(note.table(start, end), text.table)


def search(score_at, left, right):
    while right - left > 3:
        low, high = (2 * left + right) // 3, (left + 2 * right) // 3
        at_low = yield from score_at(low)
        at_high = yield from score_at(high)
        if at_low > at_high:
            right = high - 1
        else:
            left = low + 1
    best = left, -1.0
    for i in range(left, right + 1):
        here = yield from score_at(i)
        if here >= best[1]:
            best = i, here
    return best


def bounds(note, start, end, text):
    after, _ = yield from search(lambda i: scored(note, start, i, text), start, end)
    first, value = yield from search(lambda i: scored(note, i, after, text), start, after)
    return first, after, value


def rank(text, value):
    """The higher is the better. On equal scores an original goes before an alternate, an alternate before a header; only then the earliest."""
    return value, -text.kind


def best(note, start, end, shelf):
    found = None
    for text in shelf:
        value = yield from scored(note, start, end, text)
        if found is None or rank(text, value) > rank(*found):
            found = text, value
    return found


def elimination(note, shelf, q):
    threshold, shallow, whole = of_bits(q.threshold), of_bits(q.shallow), len(note.lines)
    text, value = yield from best(note, 0, whole, shelf)
    yield Overall(text, value)
    if (value > threshold and value > shallow) or not q.optimize:
        return
    for _ in range(q.passes):
        first, after, value = yield from bounds(note, 0, whole, text)
        if value < threshold:
            return
        yield Found(text.number, first, after, value)
        note = note.blanked(first, after)
        text, _ = yield from best(note, 0, whole, shelf)


def pair(note, shelf, threshold, step, line):
    """From a line on: the latest view that reaches the threshold before the first below it, with its best text."""
    latest, most = None, len(note.lines)
    for start in range(line, most, step):
        for end in range(start, most + 1, step):
            text, value = yield from best(note, start, end, shelf)
            if value >= threshold:
                latest = start, end, text
            elif latest:
                return latest
    return latest


def top_down(note, shelf, q):
    threshold, line = of_bits(q.threshold), 0
    while line < len(note.lines):
        latest = yield from pair(note, shelf, threshold, q.step, line)
        if not latest:
            return
        first, after, value = yield from bounds(note, *latest)
        if value < threshold:
            return
        yield Found(latest[2].number, first, after, value)
        line = after + 1


# ---- places ------------------------------------------------------------------------------------------------------------------------------


@functools.lru_cache(maxsize=4)
def pieces_of(text):
    """The lines in bytes, and the size of each with its newline."""
    pieces = text.split(b"\n")
    return pieces, [len(piece) + 1 for piece in pieces]


def places(text, first, after):
    """The bytes of these lines in the text as it was lent: newlines between them count, the one behind them does not."""
    pieces, sizes = pieces_of(text)
    before = sum(sizes[:first])  # the last line of all has no newline, so at L this is one too many
    start = min(before, len(text))
    return start, start + len(b"\n".join(pieces[first:after]))


# ---- ranges beside each other (#113) -------------------------------------------------------------------------------------------------------


def broken(lines, records):
    """What these records break of what top-down promises of its own where the threshold is above 0.0, in a note of so many lines."""
    following = list(zip(records, records[1:]))
    kept = {
        "not empty": all(record.first < record.after for record in records),
        "rising": all(one.first < other.first and one.after < other.after for one, other in following),
        "a line between one and the next": all(range(one.after, other.first) for one, other in following),
        "among the lines of the note": all(0 <= record.first and record.after <= lines for record in records),
        "at most (L + 1) / 2": 2 * len(records) <= lines + 1,
    }
    return [words for words, so in kept.items() if not so]


# ---- questions and answers ---------------------------------------------------------------------------------------------------------------


@dataclasses.dataclass(frozen=True)
class Question:
    """A call of a job: `check`, `compile`, `score`, `bounds`, `eliminate`, `down`, `name` or `edition`. What a job does not take it does not look at.
    `check` and `edition` take one book, `compile` none, the others one or two. Areas are given by what they hold before; words and results as the
    bytes of their numbers, four each."""

    job: str
    edition: int = 1  # only of compile; the others have their books', and refusal 2 the first one's
    text: bytes = b""
    books: tuple = (b"",)
    same: bool = False  # two books are one piece of memory, lent twice
    area: bytes = b""
    words: bytes = b""
    out: bytes = b""
    results: bytes = b""
    start: int = 0
    end: int = 0
    number: int = 0
    threshold: int = 0  # bits
    shallow: int = 0  # bits
    optimize: bool = False
    passes: int = 0
    step: int = 0
    budget: int = 0
    allowance: Allowance = None  # of a scan, in the budget's place: at entry
    kept: bool = False  # it is the memory that was lent to the call before, as that left it
    aside: bytes = None  # of a scan of one book with an allowance: what is lent in the second one's place, and is none


@dataclasses.dataclass
class Answer:
    """Every field of every job's answer, zero where the job has none or is refused; and the lent areas at exit."""

    refusal: int = 0
    edition: int = 0
    texts: int = 0
    len: int = 0
    first: int = 0
    after: int = 0
    score: int = 0  # bits
    m: int = 0
    t: int = 0
    count: int = 0
    records: int = 0
    kind: int = 0
    name_len: int = 0
    name: bytes = bytes(NAME_MOST)
    part: Part = NO_PART  # of the book that holds the name
    area: bytes = b""
    words: bytes = b""
    out: bytes = b""
    results: bytes = b""
    allowance: Allowance = None  # at exit

    @property
    def recorded(self):
        """The records at the front of the results."""
        size = 4 * RECORD_WIDTH
        return [Record(*numbers) for numbers in struct.iter_unpack(f"<{RECORD_WIDTH}I", self.results[: size * self.records])]


def line_count(q):
    return q.text.count(b"\n") + 1


def above_zero(q):
    """By the float: the least denormal is above 0.0, and -0.0 is not."""
    return of_bits(q.threshold) > 0.0


def records_most(q):
    """How many records a scan can leave."""
    if q.job == "down":
        return (line_count(q) + 1) // 2 if above_zero(q) else line_count(q)
    return q.passes if q.job == "eliminate" and q.optimize else 0


def results_need(q):
    return RECORD_WIDTH * records_most(q)


def in_unit(bits):
    return 0.0 <= of_bits(bits) <= 1.0


def small(q):
    n = len(q.text)
    return len(q.area) < 8 * n + 64 or len(q.words) < 4 * (12 * n + 64) or len(q.results) < 4 * results_need(q)


def overdrawn(q):
    """Is more used than may be?"""
    return q.allowance is not None and q.allowance.used > q.allowance.cap


def edition_asked(q):
    """Which edition the text of a question, or of a plan, is read by."""
    return q.edition if q.job == "compile" else edition_of(q.books[0])


APPLIES = {
    1: lambda q: len(q.text) > TEXT_MOST,
    2: lambda q: not readable(q.text, edition_asked(q)),
    3: lambda q: line_count(q) > LINES_MOST,
    4: lambda q: q.edition not in EDITIONS if q.job == "compile" else any(shelf_or_none(book) is None for book in q.books),
    5: lambda q: not shelved(q.books),
    15: lambda q: len({edition_of(book) for book in q.books}) > 1,
    6: lambda q: not in_unit(q.threshold) or not in_unit(q.shallow),
    7: lambda q: q.step == 0,
    8: lambda q: not 0 <= q.start <= q.end <= line_count(q),
    9: lambda q: q.number >= len(shelved(q.books)),
    10: small,
    17: overdrawn,
}
REFUSALS = {
    "check": [4],
    "compile": [1, 2, 3, 4, 10, 11],
    "score": [1, 2, 3, 4, 5, 15, 8, 9, 10],
    "bounds": [1, 2, 3, 4, 5, 15, 8, 9, 10],
    "eliminate": [1, 2, 3, 4, 5, 15, 6, 10, 17, 12],
    "down": [1, 2, 3, 4, 5, 15, 6, 7, 10, 17, 12],
    "name": [4, 5, 15, 9],
    "edition": [],
}


def refusals(job, two, allowed=False):
    """Those that a job may answer, in the order in which they are tried: 15 only with two books, 17 only with an allowance."""
    return [n for n in REFUSALS[job] if (two or n != 15) and (allowed or n != 17)]


def note_of(q):
    return Note(lines_of(q.text, edition_of(q.books[0])))


def written(new, old):
    return new + old[len(new) :]


def compile_job(q, a):
    body = compiled(q.text, q.edition)
    if len(q.out) < len(body):
        a.refusal = 11
    else:
        a.len, a.out = len(body), written(body, q.out)


def tell(a, value):
    a.score, a.m, a.t = bits_of(value), value.m, value.t


def score_job(q, a):
    note, text = note_of(q), shelved(q.books)[q.number]
    tell(a, score(note.table(q.start, q.end), text.table))


def bounds_job(q, a):
    events = bounds(note_of(q), q.start, q.end, shelved(q.books)[q.number])
    while True:
        try:
            next(events)
            a.count += 1
        except StopIteration as stop:
            a.first, a.after, value = stop.value
            tell(a, value)
            return


def spent(q, a):
    """Is nothing left for one more scoring: of the budget, or of the allowance?"""
    return a.count == q.budget if q.allowance is None else a.allowance.used == a.allowance.cap


def pay(a):
    """For one scoring. An allowance is charged at once."""
    a.count += 1
    if a.allowance is not None:
        a.allowance = a.allowance._replace(used=a.allowance.used + 1)


def scan_job(q, a):
    scan = elimination if q.job == "eliminate" else top_down
    numbers = b""
    for event in scan(note_of(q), shelved(q.books), q):
        if event is SCORING:
            if spent(q, a):
                a.refusal = 12
                break
            pay(a)
        elif isinstance(event, Overall):
            tell(a, event.score)
            if event.score > of_bits(q.threshold):
                a.kind, a.name_len, a.part = event.text.kind, len(event.text.name), event.text.part
                a.name = event.text.name.ljust(NAME_MOST, b"\0")
        else:
            a.records += 1
            record = Record(*event[:3], bits_of(event.score), *places(q.text, event.first, event.after))
            numbers += struct.pack(f"<{RECORD_WIDTH}I", *record)
    a.results = written(numbers, q.results)


def name_job(q, a):
    text = shelved(q.books)[q.number]
    a.kind, a.name_len, a.part = text.kind, len(text.name), text.part
    a.name = text.name.ljust(NAME_MOST, b"\0")


WORK = {"compile": compile_job, "score": score_job, "bounds": bounds_job, "eliminate": scan_job, "down": scan_job, "name": name_job}


def answered(q):
    """The answer, and every lent area at exit."""
    a = Answer(area=q.area, words=q.words, out=q.out, results=q.results, allowance=q.allowance)
    a.refusal = next((n for n in REFUSALS[q.job] if n in APPLIES and APPLIES[n](q)), 0)
    if a.refusal:
        return a
    if q.job == "check":
        a.texts = len(shelved(q.books))
        return a
    if q.job == "edition":
        a.edition = edition_of(q.books[0])
        return a
    WORK[q.job](q, a)
    a.area, a.words = bytes(len(q.area)), bytes(len(q.words))
    return a
