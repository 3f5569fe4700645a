"""One allowance for the whole Save (#112), each ruling with its neighbours, as plans of asking.py: the cases of the request; cap and used around each
other, around what a scan costs and at the ends of 32 and 64 bits; each other refusal, alone and two at once, with more used than the cap, as much and
less; lent areas; what is lent and not looked at; several notes in turn.

`one` has what takes seconds, `both` two books, `large` texts that are too long or have too many lines. What is due of an allowance and of a count is
reckoned here, by hand: the scans below cost so many scorings. `random_plans` makes more, and `save` notes in turn on one allowance, of which the model
says what is left for the next.
"""

import collections
import dataclasses
import itertools

import asking
import model
from asking import MARKED_BOOK, OUTSIDE, SCANS, WHOLE
from beside import EIGHTY, LEAST
from edges import NEAR, NOTE, Edge, due, licence, marked
from places import ONE, OTHER, ZEROS

HALFWAY = 2**32
Scan = collections.namedtuple("Scan", "job fields count record")  # its scorings, and after how many of them its one record, or none, is finished
CASE = Scan("eliminate", {}, 20, 9)  # the request's: book A, text 2
ABOVE = [(5, 6), (0, 1), (0, WHOLE), (1, HALFWAY), (HALFWAY, HALFWAY + 1), (HALFWAY, 2 * HALFWAY), (2**63 - 1, 2**63), (WHOLE - 1, WHOLE)]  # cap, used
EQUAL = [(0, 0), (5, 5), (HALFWAY, HALFWAY), (WHOLE, WHOLE)]
BELOW = [(1, 0), (6, 5), (100, 0), (HALFWAY, 0), (HALFWAY, HALFWAY - 1), (WHOLE, 0), (WHOLE, WHOLE - 100), (WHOLE, WHOLE - 1)]
FEW = [(5, 6), (0, WHOLE), (5, 5), (6, 5), (100, 0), (WHOLE, WHOLE - 100)]


def small(texts):
    """Scans of a note of one line, the licence, against so many stored texts: its bounds are 4 scorings, and top-down has 2 views."""
    settings = {"text": NOTE, "threshold": EIGHTY, "shallow": ONE}
    return [
        Scan("eliminate", {**settings, "passes": 1}, 2 * texts + 4, texts + 4),
        Scan("eliminate", {**settings, "optimize": False}, texts, None),
        Scan("down", settings, 2 * texts + 4, 2 * texts + 4),
    ]


def charged(cap, used, scan):
    """What is due of a call that nothing before 17 refuses: the refusal, and other fields of the answer."""
    if used > cap:
        return 17, {"count": 0, "records": 0, "m": 0, "t": 0, "allowance": (cap, used)}
    paid = min(cap - used, scan.count)
    found = int(scan.record is not None and paid >= scan.record)
    return due(paid < scan.count, 12), {"count": paid, "records": found, "allowance": (cap, used + paid)}


def asked(what, scan, lent, slack=None, **fields):
    """A scan charged to an allowance of this cap and this much used."""
    return Edge(what, marked(scan.job, slack, allowance=model.Allowance(*lent), **{**scan.fields, **fields}), *charged(*lent, scan))


def refused(what, scan, lent, refusal, slack=None, **fields):
    """The same where another refusal is due, which charges nothing."""
    return asked(what, scan, lent, slack, **fields)._replace(refusal=refusal, more={"count": 0, "records": 0, "allowance": tuple(lent)})


# ---- the cases of #112 -----------------------------------------------------------------------------------------------------------------------

CASES = [  # cap, used, refusal, count, records, used after
    (100, 0, 0, 20, 1, 20),
    (20, 0, 0, 20, 1, 20),
    (19, 0, 12, 19, 1, 19),
    (29, 20, 12, 9, 1, 29),
    (5, 5, 12, 0, 0, 5),
    (5, 6, 17, 0, 0, 6),
    (WHOLE, WHOLE, 12, 0, 0, WHOLE),
    (WHOLE, WHOLE - 20, 0, 20, 1, WHOLE),
]


def cases():
    what = "the cases of #112"
    for edition in model.EDITIONS:
        books = (model.FRONT[edition] + MARKED_BOOK,)
        for cap, used, refusal, count, records, after in CASES:
            told = {"count": count, "records": records, "allowance": (cap, after)}
            yield asked(what, CASE, (cap, used), books=books)._replace(refusal=refusal, more=told)
        yield refused(what, CASE, (5, 6), 4, books=(books[0][:-1],))
        yield refused(what, CASE, (5, 6), 10, {"results": -1}, books=books)


# ---- cap and used ----------------------------------------------------------------------------------------------------------------------------


def edges_of(count):
    """Around what the scan costs, and the ends of 32, 63 and 64 bits with room for it and without."""
    near = [count + by for by in NEAR] + [HALFWAY + by for by in (-1, 0, count - 1, count)]
    return sorted({0, 1, *near, 2**63, *(WHOLE - by for by in (count + 1, count, count - 1, 1, 0))})


def grid(what, scan, caps, used, books):
    for lent in itertools.product(caps, used):
        yield asked(what, scan, lent, books=books)


def numbers(books):
    for scan in small(len(books)):
        yield from grid("every cap and used", scan, range(scan.count + 3), range(scan.count + 3), books)
        yield from grid("cap and used at their edges", scan, edges_of(scan.count), edges_of(scan.count), books)


def around_case():
    yield from grid("cap and used at their edges", CASE, edges_of(CASE.count), edges_of(CASE.count), (MARKED_BOOK,))
    for left, used in itertools.product(range(CASE.count + 2), (0, HALFWAY, WHOLE - CASE.count - 1)):
        yield asked("every number that is left", CASE, (used + left, used))


# ---- other refusals, before it and behind ------------------------------------------------------------------------------------------------------


def needs_results(scan):
    return scan.fields.get("optimize", True)


def faults(books, scan):
    """Each refusal before 17 but those of long texts, in their order, with what brings it: fields of a plan, or an area that is too short."""
    yield 2, {"text": NOTE + b"\xff"}
    yield 4, {"books": (*books[:-1], books[-1][:-1])}
    yield 5, {"books": (b"",) * len(books)}
    if len(books) == 2:
        yield 15, {"books": (books[0], model.FRONT[2] + books[1])}
    yield 6, {"threshold": OUTSIDE[0]}
    yield 6, {"shallow": OUTSIDE[-1]}
    if scan.job == "down":
        yield 7, {"step": 0}
    for area in ("area", "words", "results")[: 2 + needs_results(scan)]:
        yield 10, {"slack": {area: -1}}


def before(books):
    """Each of them, whatever is used: the allowance stays."""
    for scan in small(len(books)):
        for (refusal, fields), lent in itertools.product(faults(books, scan), ABOVE + EQUAL + BELOW):
            yield refused("refused before it", scan, lent, refusal, **{"books": books, **fields})


def two_before(books):
    """Each two of them at once, of which the first is due."""
    for scan, lent in itertools.product(small(len(books)), (FEW[0], FEW[2], FEW[4])):
        for (first, one), (second, other) in itertools.combinations(faults(books, scan), 2):
            if first != second and not one.keys() & other.keys():
                yield refused("two refusals before it", scan, lent, first, **{"books": books, **other, **one})


def room(books):
    """Every area one shorter, as long as is needed and longer: 10 goes before 17, and 17 before 12."""
    for scan, area, more, lent in itertools.product(small(len(books)), ("area", "words", "results"), (-1, 0, 1, 40), FEW):
        if more < 0 and (area != "results" or needs_results(scan)):
            yield refused("areas", scan, lent, 10, {area: more}, books=books)
        else:
            yield asked("areas", scan, lent, {area: more}, books=books)


def no_limits(books):
    for scan, bad, lent in itertools.product(small(len(books)), OUTSIDE, (*FEW[:3], FEW[4])):
        yield refused("thresholds that are none", scan, lent, 6, books=books, threshold=bad)
        yield refused("thresholds that are none", scan, lent, 6, books=books, shallow=bad)


def limits(books):
    """Each threshold with one less left than it costs, by the model, just that and one more, and with more used than the cap."""
    for job, threshold, text in itertools.product(SCANS, (*ZEROS, LEAST, EIGHTY, ONE), (b"", NOTE, NOTE + b"\nx\n" + NOTE)):
        fields = {"text": text, "threshold": threshold, "shallow": ONE, "passes": 2, "books": books}
        count, used = model.answered(asking.question(marked(job, **fields))).count, 7
        for left in (-1, count - 1, count, count + 1):
            edge = asked("thresholds", Scan(job, fields, count, None), (used + left, used))
            yield edge._replace(more={"count": edge.more["count"], "allowance": edge.more["allowance"]})


# ---- editions --------------------------------------------------------------------------------------------------------------------------------

FRENCH = "été à la fin".encode("utf-8")


def by_edition(books):
    """The small scans in each edition, and of a note with accents, which edition 3 alone reads."""
    for edition, lent, scan in itertools.product(model.EDITIONS, FEW, small(len(books))):
        front, reads = model.FRONT[edition], edition == model.ACCENTS
        yield asked("editions", scan, lent, books=tuple(front + book for book in books))
        of_accents = {"text": FRENCH, "books": tuple(front + book for book in ((licence(b"F", FRENCH, 3) if reads else books[0]), *books[1:]))}
        yield asked("editions", scan, lent, **of_accents) if reads else refused("editions", scan, lent, 2, **of_accents)


# ---- what is lent and not looked at ------------------------------------------------------------------------------------------------------------

ASIDE = [b"", b"\0", b"\xff" * 9, bytes(999), MARKED_BOOK, OTHER, MARKED_BOOK[:-1], model.FRONT[3], *(model.FRONT[n] + MARKED_BOOK for n in (2, 3))]
UNSEEN = {"eliminate": [{"step": step} for step in (0, 2, WHOLE)], "down": [{"passes": n, "optimize": o} for n in (0, 65535) for o in (True, False)]}


def no_second():
    """One book, and bytes where the second would stand."""
    for scan, aside, lent in itertools.product(small(1), ASIDE, FEW):
        yield asked("no second book", scan, lent, aside=aside)
        yield refused("no second book", scan, lent, 4, aside=aside, books=(MARKED_BOOK[:-1],))
        yield refused("no second book", scan, lent, 5, aside=aside, books=(b"",))


def unseen():
    """The step of elimination, optimize and passes of top-down."""
    for scan, lent in itertools.product(small(1), ABOVE + EQUAL + BELOW):
        for fields in UNSEEN[scan.job]:
            yield asked("settings of the other mode", scan, lent, aside=MARKED_BOOK, **fields)


def same_twice():
    """One book lent as both: the second has all of its texts once more."""
    for scan, lent in itertools.product(small(2), ABOVE + EQUAL + BELOW):
        yield asked("one book twice", scan, lent, books=(MARKED_BOOK, MARKED_BOOK), same=True)


# ---- notes in turn ---------------------------------------------------------------------------------------------------------------------------

NAMES = ("passes", "licence", "down")
NOTES = {"case": CASE, **dict(zip(NAMES, small(1))), **{f"{name} of both": scan for name, scan in zip(NAMES, small(2))}}
BOTH = (MARKED_BOOK, OTHER)
REFUSED = {  # a note that is refused, and by what
    "bytes": (2, {"text": b"\xff"}),
    "unsound": (4, {"books": (MARKED_BOOK[:-1],)}),
    "no text": (5, {"books": (b"",)}),
    "differ": (15, {"books": (MARKED_BOOK, model.FRONT[2] + OTHER)}),
    "limit": (6, {"threshold": OUTSIDE[3]}),
    "no step": (7, {"step": 0}),
    "short": (10, {"slack": {"words": -1}}),
}
SAVES = [  # cap and used before the first note, then the notes
    (50, 0, ["case", "case", "case"]),
    (50, 0, ["case", "short", "case", "unsound", "case", "case", "short", "licence"]),
    (40, 0, ["case", "case", "licence", "no step"]),
    (39, 0, ["case", "case", "case"]),
    (41, 0, ["case", "case", "licence", "licence"]),
    (0, 0, ["licence", "unsound", "case"]),
    (5, 6, ["case", "unsound", "short", "down", "limit", "licence"]),
    (WHOLE, 0, ["case", "passes", "licence", "down", "passes of both", "licence of both", "down of both"]),
    (WHOLE, WHOLE - 40, ["case", "unsound", "case", "case", "no text"]),
    (WHOLE, WHOLE - 1, ["licence", "licence"]),
    (HALFWAY + 30, HALFWAY - 10, ["case", "case", "case"]),
    (HALFWAY, HALFWAY - 10, ["passes", "differ", "passes", "passes"]),
    (30, 3, ["passes", "bytes", "down of both", "no text", "licence of both", "differ", "passes of both", "limit", "down", "no step", "licence"]),
]


def note_of(name, lent, kept):
    if name in REFUSED:
        refusal, fields = REFUSED[name]
        return refused("notes in turn", NOTES["down"], lent, refusal, kept=kept, **fields)
    return asked("notes in turn", NOTES[name], lent, kept=kept, books=BOTH if name.endswith("both") else (MARKED_BOOK,))


def turns(cap, used, notes):
    """Each note has what the one before it has left, in the same memory."""
    for i, name in enumerate(notes):
        edge = note_of(name, (cap, used), i > 0)
        yield edge
        used = edge.more["allowance"][1]


def in_turn():
    for save in SAVES:
        yield from turns(*save)


def of_either(books):
    """What is asked of one book and of two."""
    for rows in (numbers, before, two_before, room, no_limits, limits, by_edition):
        yield from rows(books)


def one():
    yield from itertools.chain(cases(), around_case(), of_either((MARKED_BOOK,)), no_second(), unseen(), in_turn())


def both():
    yield from itertools.chain(of_either(BOTH), same_twice())


# ---- large -----------------------------------------------------------------------------------------------------------------------------------


def large():
    """Refusals 1 and 3, with areas that would be too short."""
    few = {"area": 9, "words": 9, "out": 0, "results": 9}
    texts = [(10, b"x" * model.TEXT_MOST), (1, b"x" * (model.TEXT_MOST + 1)), (10, b"\n" * (model.LINES_MOST - 1)), (3, b"\n" * model.LINES_MOST)]
    for books, lent, kind, (refusal, text) in itertools.product(((MARKED_BOOK,), BOTH), FEW, range(3), texts):
        yield refused("long texts", small(len(books))[kind], lent, refusal, books=books, text=text, sizes=few)


# ---- random ----------------------------------------------------------------------------------------------------------------------------------


def paying(rng, budget):
    """An allowance of which so much is left."""
    most = WHOLE - budget
    used = min(most, rng.choice([0, 0, most, max(0, most - 1), HALFWAY - 1, HALFWAY, rng.randint(1, 99), rng.randint(0, most)]))
    return model.Allowance(used + budget, used)


def overdrawn(rng):
    cap = rng.choice([0, 0, 5, 20, rng.randint(0, 99), HALFWAY - 1, HALFWAY, 2**63 - 1, WHOLE - 1, rng.randint(0, WHOLE - 1)])
    return model.Allowance(cap, rng.choice([cap + 1, cap + 1, WHOLE, rng.randint(cap + 1, WHOLE)]))


def aside(rng, plan):
    """Bytes in the second book's place, now and then, where there is one book."""
    return rng.choice([*ASIDE, *plan.books]) if len(plan.books) == 1 and rng.random() < 0.3 else None


def budgets(rng, job, two):
    """A scan under several allowances."""
    for plan in asking.budgeted(rng, job, two=two):
        yield asking.altered(plan, allowance=paying(rng, plan.budget), aside=aside(rng, plan)), {}


def refusals(rng, job, two):
    """Each fault before 17, and none, with more used than the cap, as much, and less; what is due but for the last without a fault."""
    states = (overdrawn(rng), 17), (paying(rng, 0), 12), (paying(rng, rng.choice([1, 2, 9, WHOLE])), None)
    for fault, (lent, alone) in itertools.product([*model.refusals(job, two)[:-1], None], states):
        plan = asking.faulty(rng, job, fault, more=0, two=two) if fault else asking.sound_plan(rng, job, two=two)
        told = {"refusal": fault or alone, "allowance": lent} if fault or alone else {}
        yield asking.altered(plan, allowance=lent, aside=aside(rng, plan)), told


def random_plans(rng, job, two):
    yield from itertools.chain(budgets(rng, job, two), refusals(rng, job, two))


def any_note(rng):
    """A note of a Save: most are sound, and some are refused, but for their length."""
    job, two = rng.choice(SCANS), rng.random() < 0.4
    plan, refused_by = asking.sound_plan(rng, job, 5, two), [n for n in model.refusals(job, two) if n not in (1, 3, 12)]
    plan = asking.faulty(rng, job, rng.choice(refused_by), largest=False, lines=5, two=two) if rng.random() < 0.25 else plan
    return asking.filled(rng, asking.altered(plan, aside=aside(rng, plan)))


def save(rng):
    """2 to 12 notes on one allowance, which pays all of them, some of them, or nothing."""
    notes = [any_note(rng) for _ in range(rng.randint(2, 12))]
    total = sum(model.answered(dataclasses.replace(q, budget=WHOLE)).count for q in notes)
    lent = paying(rng, rng.choice([total, total + 1, max(0, total - 1), total // 2, rng.randint(0, total), rng.randint(0, total), 0, WHOLE]))
    lent = overdrawn(rng) if rng.random() < 0.1 else lent
    for i, q in enumerate(notes):
        q = dataclasses.replace(q, allowance=lent, kept=i > 0)
        yield q
        lent = model.answered(q).allowance
