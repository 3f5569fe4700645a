"""What top-down ranges never do (#113), each ruling with its neighbours, as plans of asking.py: the cases of the request; results around what each
number of lines and each threshold needs; the limit that plays no part, steps, elimination, budgets, the refusals before and behind; small notes.

`one` has what takes seconds, `both` two books, `large` 65,536 lines and 1,048,576 bytes; `random_plan` makes one more of top-down. Results are as many
numbers as is said here, whatever the model needs, and whether a threshold is above 0.0 is written by hand. Where it is, a note that has the licence on
every second line has as many ranges as there can be.
"""

import itertools

import asking
import model
from asking import MARKED_BOOK, OUTSIDE, WHOLE
from edges import HALF, NEAR, NOTE, Edge, due, licence, marked
from places import ONE, OTHER, ZEROS, notes

EIGHTY, LEAST = model.bits_of(0.8), 1  # the least: the smallest denormal, by its bits
ABOVE = {zero: False for zero in ZEROS} | {bits: True for bits in (LEAST, 2, 0x007FFFFF, 0x00800000, EIGHTY, ONE)}  # the largest denormal, the next
FEW = (*ZEROS, LEAST, EIGHTY)
GAP = b"x"


def alternate(lines, one=NOTE, other=GAP):
    return b"\n".join((one, other)[i % 2] for i in range(lines))


def start_of(line):
    """Of a line of such a note."""
    return line // 2 * (len(NOTE) + len(GAP) + 2) + line % 2 * (len(NOTE) + 1)


def every_second(lines, number=0):
    return [(number, i, i + 1, ONE, start_of(i), start_of(i) + len(NOTE)) for i in range(0, lines, 2)]


def need(lines, threshold):
    return 6 * (len(range(0, lines, 2)) if ABOVE[threshold] else lines)


def scan(what, text, size, refusal=0, more=None, job="down", **fields):
    """A scan of the marked book with results of so many numbers."""
    sizes = {"area": 8 * len(text) + 64, "words": 12 * len(text) + 64, "out": 0, "results": size}
    return Edge(what, marked(job, text=text, sizes=sizes, **{"threshold": EIGHTY, "shallow": ONE, **fields}), refusal, more or {})


# ---- the cases of #113 -----------------------------------------------------------------------------------------------------------------------

CASES = [  # lines, threshold, results that are enough, some that are not, ranges, count
    (1, EIGHTY, 6, (5,), every_second(1), 6),
    (2, EIGHTY, 6, (5,), every_second(2), 9),
    (3, EIGHTY, 12, (11,), every_second(3), 15),
    (5, EIGHTY, 18, (17,), every_second(5), 24),
    (5, LEAST, 18, (17,), every_second(5), 31),
    *((2, zero, 12, (11, 6), [(0, 2, 2, 0, 18, 18)], 9) for zero in ZEROS),
    *((5, zero, 30, (29, 18), [(0, 4, 5, ONE, 38, 54)], 24) for zero in ZEROS),
]


def cases():
    for edition, (lines, threshold, enough, too_few, ranges, count) in itertools.product(model.EDITIONS, CASES):
        fields = {"books": (model.FRONT[edition] + MARKED_BOOK,), "threshold": threshold}
        yield scan("the cases of #113", alternate(lines), enough, 0, {"recorded": ranges, "count": count}, **fields)
        for size in too_few:
            yield scan("the cases of #113", alternate(lines), size, 10, {"recorded": [], "count": 0}, **fields)


def cases_of_both():
    """The marked book beside another, on either side: its text has the number 0 or 1. At 0.0 an empty range is of the first text."""
    for edition, number in itertools.product(model.EDITIONS, (0, 1)):
        books = tuple(model.FRONT[edition] + book for book in ((OTHER, MARKED_BOOK) if number else (MARKED_BOOK, OTHER)))
        for lines, threshold, enough, too_few, ranges, _ in CASES:
            found = [(number if first < after else 0, first, after, *rest) for _, first, after, *rest in ranges]
            yield scan("the cases of #113", alternate(lines), enough, 0, {"recorded": found}, books=books, threshold=threshold)
            for size in too_few:
                yield scan("the cases of #113", alternate(lines), size, 10, {"recorded": []}, books=books, threshold=threshold)


# ---- results ---------------------------------------------------------------------------------------------------------------------------------


def around(lines, threshold):
    """What is needed and 6 numbers a line, with their neighbours; none, and many more."""
    near = {need(lines, threshold) + by for by in (-6, *NEAR, 6)} | {6 * lines + by for by in NEAR} | {0, 6 * lines + 200}
    return sorted(size for size in near if size >= 0)


def room(books, all_lines, thresholds=ABOVE):
    for lines, threshold in itertools.product(all_lines, thresholds):
        for size in around(lines, threshold):
            few = size < need(lines, threshold)
            told = {"recorded": [] if few else every_second(lines)} if few or ABOVE[threshold] else {}
            yield scan("results by lines and threshold", alternate(lines), size, due(few, 10), told, books=books, threshold=threshold)


def near_need(what, books, all_lines, **fields):
    """One less than is needed, what is needed, and one less than 6 numbers a line."""
    for lines, threshold in itertools.product(all_lines, FEW):
        most = need(lines, threshold)
        for size in sorted({most - 1, most, max(most, 6 * lines - 1)}):
            yield scan(what, alternate(lines), size, due(size < most, 10), books=books, threshold=threshold, **fields)


def unrelated(books, all_lines):
    """Settings that play no part in it: the shallow limit, the step."""
    for shallow in (*ZEROS, LEAST, 0x007FFFFF, EIGHTY):
        yield from near_need("results by no shallow limit", books, all_lines, shallow=shallow)
    for step in (2, 3, WHOLE):
        yield from near_need("results by no step", books, all_lines, step=step)


def last_line(books):
    """A last newline begins a line."""
    for lines, threshold in itertools.product(range(2, 8), FEW):
        most = need(lines, threshold)
        for size in (most - 1, most):
            yield scan("results by a last newline", alternate(lines - 1) + b"\n", size, due(size < most, 10), books=books, threshold=threshold)


def full_at_zero(books):
    """At 0.0 a step over all lines finds an empty range at each of them: all of 6L is written."""
    for lines, zero in itertools.product(range(1, 13), ZEROS):
        found = [(0, i, i, 0, start_of(i), start_of(i)) for i in range(lines)]
        for size in sorted({6 * lines - 6, 6 * lines - 1, 6 * lines, need(lines, LEAST)}):
            told = {"recorded": [] if size < 6 * lines else found}
            yield scan("an empty range at each line", alternate(lines), size, due(size < 6 * lines, 10), told, books=books, threshold=zero, step=WHOLE)


def elimination(books):
    """Keeps 6 for each pass, whatever the lines and the threshold are."""
    for passes, lines, threshold in itertools.product((0, 1, 2, 3, 7), (1, 2, 5), FEW):
        near = {6 * passes + by for by in NEAR} | {3 * passes, need(passes, LEAST), need(lines, LEAST), 6 * lines}
        for size in sorted(near - {-1}):
            fields = {"job": "eliminate", "books": books, "threshold": threshold, "passes": passes}
            yield scan("6P at each threshold", alternate(lines), size, due(size < 6 * passes, 10), **fields)
        yield scan("6P at each threshold", alternate(lines), 0, job="eliminate", books=books, threshold=threshold, passes=passes, optimize=False)


# ---- before and behind -----------------------------------------------------------------------------------------------------------------------


def order(books):
    """Five lines, with fewer results than are needed, with what is needed above 0.0, and at 0.0."""
    text, sound = alternate(5), {"books": books}
    for size in (0, 17, 18, 29, 30):
        for bad in OUTSIDE:
            yield scan("6 before 10", text, size, 6, threshold=bad, **sound)
            yield scan("6 before 10", text, size, 6, threshold=bad, step=0, budget=0, **sound)
            yield scan("6 before 10", text, size, 6, shallow=bad, **sound)
            yield scan("6 before 10", text, size, 6, job="eliminate", threshold=bad, **sound)
        for threshold in FEW:
            few, told = size < need(5, threshold), {"records": 0}
            yield scan("7 before 10", text, size, 7, told, threshold=threshold, step=0, **sound)
            yield scan("7 before 10", text, size, 7, told, threshold=threshold, step=0, budget=0, **sound)
            yield scan("10 before 12", text, size, 10 if few else 12, told, threshold=threshold, budget=0, **sound)
            yield scan("2 before 10", text + b"\xff", size, 2, told, threshold=threshold, **sound)
            yield scan("4 before 10", text, size, 4, told, threshold=threshold, books=(*books[:-1], books[-1][:-1]))
            yield scan("5 before 10", text, size, 5, told, threshold=threshold, books=(b"",) * len(books))


def differing(books):
    """15, of two books, goes before it as well."""
    for size, threshold in itertools.product((0, 17, 18, 30), FEW):
        yield scan("15 before 10", alternate(5), size, 15, {"records": 0}, books=(books[0], model.FRONT[2] + books[1]), threshold=threshold)


def ends_of(lines, texts=1):
    """After how many scorings each record at 0.8 is finished, by hand: 4 views of each text and 5 for bounds; of an odd last line 2 views and 4."""
    each = 4 * texts + 5
    return [each * (i + 1) for i in range(lines // 2)] + [each * (lines // 2) + 2 * texts + 4] * (lines % 2)


def paid(books, all_lines):
    """Every budget: with 12 the records are the first of all. Each book has one text."""
    what = "every budget, and no more room"
    for lines in all_lines:
        ends, most = ends_of(lines, len(books)), need(lines, EIGHTY)
        for budget in range(ends[-1] + 2):
            told = {"recorded": every_second(lines)[: sum(budget >= end for end in ends)], "count": min(budget, ends[-1])}
            yield scan(what, alternate(lines), most, due(budget < ends[-1], 12), told, books=books, budget=budget)
            yield scan(what, alternate(lines), most - 1, 10, {"recorded": []}, books=books, budget=budget)


# ---- notes -----------------------------------------------------------------------------------------------------------------------------------

TWO_LINES = b"My First\nLicense"  # as the licence, on two lines
BOTH = licence(b"A", NOTE), licence(b"B", b"another text of some words")
PIECES = (b"", GAP, NOTE)


def exact(what, text, more=None, **fields):
    """With just the results that a threshold above 0.0 needs: 6 numbers for every second line."""
    return scan(what, text, 6 * len(text.split(b"\n")[::2]), 0, more, **fields)


def small():
    """Every note of a few lines."""
    for threshold, step, most in ((LEAST, 1, 5), (HALF, 2, 4), (ONE, 1, 4)):
        for text in notes(PIECES, most):
            yield exact("small notes, and no more room", text, threshold=threshold, step=step)


def missed(books):
    """The whole note reaches each of these, and its bounds still end at an empty range, which is below all of them."""
    for threshold, step, before in itertools.product((LEAST, HALF, EIGHTY), (1, 2), (b"", GAP)):
        yield exact("bounds at an empty range", before + b"\n" + NOTE + b"\n\n", {"recorded": []}, books=books, threshold=threshold, step=step)


def of_several(books):
    """Two licences in turn; ranges of two lines; more than one line between."""
    for lines, threshold in itertools.product(range(1, 10), (LEAST, HALF, EIGHTY, ONE)):
        for text in (
            b"\n".join((NOTE, GAP, b"another text of some words", GAP)[i % 4] for i in range(lines)),
            b"\n".join((TWO_LINES, GAP)[i % 2] for i in range(lines)),
            b"\n".join((NOTE, GAP, b"")[i % 3] for i in range(lines)),
        ):
            yield exact("licences in turn, and no more room", text, books=books, threshold=threshold)


def one():
    book = (MARKED_BOOK,)
    of_areas = room(book, range(1, 13)), unrelated(book, range(1, 6)), last_line(book), full_at_zero(book), elimination(book)
    of_notes = small(), missed(book), of_several((b"".join(BOTH),))
    yield from itertools.chain(cases(), *of_areas, order(book), paid(book, (1, 2, 3, 4, 5, 7)), *of_notes)


def both():
    books = MARKED_BOOK, OTHER
    of_areas = room(books, range(1, 6), FEW), unrelated(books, (2, 3)), full_at_zero(books)
    yield from itertools.chain(cases_of_both(), *of_areas, order(books), differing(books), paid(books, (2, 3)), missed(books), of_several(BOTH))


# ---- large -----------------------------------------------------------------------------------------------------------------------------------


def many_lines():
    """Empty lines, of which a step over all of them makes one view or, at 0.0, as many ranges as are paid; and every second line of all of them."""
    for lines, threshold in itertools.product((model.LINES_MOST + by for by in NEAR), FEW):
        most = need(lines, threshold)
        for size in (most - 1, most, 6 * lines - 1):
            refusal = 3 if lines > model.LINES_MOST else 10 if size < most else due(not ABOVE[threshold], 12)
            yield scan("results of 65,536 lines", b"\n" * (lines - 1), size, refusal, threshold=threshold, step=WHOLE, budget=9)
    for lines in (model.LINES_MOST - 1, model.LINES_MOST):
        told = {"recorded": every_second(lines), "count": ends_of(lines)[-1]}
        yield scan("every second of 65,536 lines", alternate(lines), need(lines, EIGHTY), 0, told)


def long_notes():
    """Three lines and four of together 1,048,576 bytes, the first and the third the licence."""
    for length, last in itertools.product((model.TEXT_MOST + by for by in NEAR), (b"", b"\n" + GAP)):
        before = length - len(NOTE) - len(last)
        text = NOTE + b"\n" + GAP * (before - len(NOTE) - 2) + b"\n" + NOTE + last
        found = [(0, 0, 1, ONE, 0, 16), (0, 2, 3, ONE, before, before + 16)]
        for size in (11, 12, 13):
            refusal = 1 if length > model.TEXT_MOST else due(size < 12, 10)
            yield scan("results of 1,048,576 bytes", text, size, refusal, {"recorded": [] if refusal else found})


def large():
    yield from itertools.chain(many_lines(), long_notes())


# ---- random ----------------------------------------------------------------------------------------------------------------------------------

THRESHOLDS = [*ABOVE, *(model.bits_of(x) for x in (0.1, 0.3, 0.3, 0.5, 0.5, 0.9))]


def random_plan(rng, two):
    """Pieces of stored texts and others with a line between, under any threshold and budget; results around what is needed, also 6 for each line."""
    plan = asking.sound_plan(rng, "down", 6, two)
    gaps = [rng.choice([GAP, GAP, b"", b"q z"]) for _ in plan.text.split(b"\n")]
    plan.text = b"\n".join(itertools.chain(*zip(plan.text.split(b"\n"), gaps))) if rng.random() < 0.8 else plan.text
    plan.text = plan.text[: plan.text.rfind(b"\n")] if b"\n" in plan.text and rng.random() < 0.5 else plan.text
    plan.threshold = rng.choice([*THRESHOLDS, plan.threshold])
    lines, needed = plan.text.count(b"\n") + 1, asking.needs(plan)["results"]
    plan.slack["results"] = rng.choice([0, 0, 0, 1, 6, -1, -6, 6 * lines - needed, 6 * lines - needed - 1, asking.slack(rng)])
    plan.budget = rng.choice([WHOLE, WHOLE, rng.randint(0, 60)])
    return plan
