"""Makes questions for hold.py and rows.py: calls of the jobs, sound and with faults, each area filled with garbage.

A plan is a question without its areas. For each area it holds by how much it is longer than needed (below 0: shorter), so that a fault of the text
keeps the others right. `filled` makes the question. A fault is named by the refusal that it should bring; whether it does, the model says. Plans of
the jobs that scan, look at a view or name a stored text have one book or, where `two` is said, two. A plan has an edition, which is that of its books
and of compile. `reading` gives the model with one place changed, for wrong.py and to tell what a question reaches.
"""

import copy
import dataclasses
import functools
import os
import random
import struct
import sys
import types

import compare
import model

WHOLE = 2**64 - 1
MARKED_TEXT = b"copyright 20xx me irl\n// My First License\nfn hello() {\n ..."
SCANS = ("eliminate", "down")
JOBS = tuple(model.REFUSALS)
VIEWS = ("score", "bounds")
NUMBERED = (*VIEWS, "name")  # the jobs that take a stored number
OF_TWO = (*VIEWS, *SCANS, "name")  # the jobs that take two books


def jobs(two):
    return OF_TWO if two else JOBS


def calls():
    """Each job in each of its forms: whether it is lent two books, and whether an allowance."""
    plain = [(job, two, False) for two in (False, True) for job in jobs(two)]
    return plain + [(job, two, True) for job, two, _ in plain if job in SCANS]


# ---- books -------------------------------------------------------------------------------------------------------------------------------


def record(kind, body):
    return struct.pack("<IH", len(body), kind) + body


def table_body(total, distinct, entries):
    """A table body as it is told, sound or not: entries are a count and bytes."""
    return struct.pack("<II", total, distinct) + b"".join(struct.pack("<II", count, len(b)) + b for count, b in entries)


MARKED_BOOK = record(1, b"A") + record(2, model.compiled(b"My First License"))


# what stands before the licences, by edition
EDITION_RECORDS = {edition: [(kind, body) for kind, _, body in model.records_in(front)] for edition, front in model.FRONT.items()}


def book_records(rng, texts, edition):
    """The records of a shelf as compare.py makes it, with aliases."""
    out, name = [], None
    for stored in texts:
        if stored.name != name:
            out += aliases(rng) if name else []
            name = stored.name
            out.append((1, name.encode("ascii")))
        out.append((stored.kind, model.compiled(stored.text.encode("utf-8"), edition)))
    return EDITION_RECORDS[edition] + out + (aliases(rng) if out else [])


def aliases(rng):
    return [(5, rng.choice([b"x", b"A", b"!~", b"n" * 64])) for _ in range(rng.choice([0, 0, 0, 1, 2]))]


def book_of(records):
    return b"".join(record(kind, body) for kind, body in records)


BIGRAMS = [
    b"a b", b"a  b", b" a", b"a ", b"", b" ", b"A b", b"a b c", b"a-b c", b"_ 9", b"a\tb", b"zz zz", b"a b\n", b"\xff a",
    *(words.encode("utf-8") for words in ("é à", "é à", "ª ÿ", "É à", "÷ a", "a ²", "é\x85 b")), b"\xc3 \xa9", b"a \xc3",
]  # fmt: skip
BODIES = [
    lambda rng: table_body(0, 0, []),
    lambda rng: table_body(1, 1, [(1, rng.choice(BIGRAMS))]),
    lambda rng: table_body(0, 1, [(0, b"a b")]),
    lambda rng: table_body(rng.choice([2, 3, 4]), rng.choice([1, 2, 3]), [(1, b"a b"), (2, rng.choice([b"a a", b"a b", b"a ba", b"b"]))]),
    lambda rng: table_body(model.TOTAL_MOST + rng.choice([-1, 0, 1]), 2, [(1, b"a b"), (model.TOTAL_MOST - rng.choice([0, 1, 2]), b"a c")]),
    lambda rng: table_body(1, 2, [(2**32 - 1, b"a b"), (2, b"a c")]),  # the sum is 1 only modulo 2^32
    lambda rng: table_body(1, 1, [(1, b"a b")])[: rng.randint(0, 18)],
    lambda rng: table_body(1, 1, [(1, b"a b")]) + rng.randbytes(rng.randint(1, 9)),
]
SAID = [  # by a record of kind 6
    b"\2\0", b"\2\0", b"\3\0", b"\3\0", b"\0\0", b"\1\0", b"\4\0", b"\0\2", b"\0\3", b"\2\2", b"\3\3", b"", b"\2", b"\3", b"\2\0\0",
    b"\3\0\0", b"\2\0\0\0",
]  # fmt: skip
NAMES = [b"", b"A", b"B", b"n" * 63, b"n" * 64, b"n" * 65, b"a b", b"!", b"~", b"\x7f", b" ", b"\x80", b"a\n", b"A\0"]


def other_records(rng, records):
    """A book's records with one changed: dropped, doubled, exchanged, of another kind, of another body; or an edition said, first or elsewhere."""
    records = list(records)
    i, k = rng.randrange(len(records)), rng.randrange(len(records))
    kind, body = records[i]
    how = rng.randrange(7)
    if how == 0:
        del records[i]
    elif how == 1:
        records.insert(k, records[i])
    elif how == 2:
        records[i], records[k] = records[k], records[i]
    elif how == 3:
        records[i] = rng.choice([0, 1, 2, 3, 4, 5, 6, 7, 256, 257, 258, 262, 65535]), body
    elif how == 4:
        records.insert(rng.choice([0, 0, i]), (6, rng.choice(SAID)))
    else:
        records[i] = kind, rng.choice(SAID if kind == 6 else NAMES) if kind in (1, 5, 6) else rng.choice(BODIES)(rng)
    return records


def other_bytes(rng, book):
    """A book with some bytes changed, cut off, added, or with a length near 2^32."""
    book = bytearray(book or b"\0")
    i = rng.randrange(min(len(book), rng.choice([8, 10**9, 10**9])))  # often in what says the edition
    how = rng.randrange(6)
    if how == 0:
        book[i] = rng.randrange(256)
    elif how == 1:
        book[i] ^= 1 << rng.randrange(8)
    elif how == 2:
        del book[i:]
    elif how == 3:
        book += rng.choice([b"\0", bytes(6), rng.randbytes(rng.randint(1, 7)), struct.pack("<IH", 2**32 - 6, rng.randint(1, 5))])
    elif how == 4:
        del book[i]
    else:
        book[0:4] = struct.pack("<I", rng.choice([2**32 - 6, 2**32 - 1, len(book), max(0, len(book) - 6), max(0, len(book) - 5), 0]))
    return bytes(book)


def any_book(rng, records):
    """A book that may or may not be sound."""
    for _ in range(rng.choice([0, 1, 1, 1, 2])):
        records = other_records(rng, records) if records else records
    book = book_of(records)
    return other_bytes(rng, book) if rng.random() < 0.35 else book


def unsound_book(rng, records):
    while True:
        book = any_book(rng, records)
        if model.shelf_or_none(book) is None:
            return book


# ---- plans -------------------------------------------------------------------------------------------------------------------------------


def limits(rng, plan):
    """Two limits, often scores that are met."""
    whole = dataclasses.replace(question(plan, "eliminate"), optimize=True, passes=3, budget=200, results=bytes(3 * 4 * model.RECORD_WIDTH))
    first = model.answered(whole)
    met = [first.score] + [record.score for record in first.recorded]
    some = [model.bits_of(x) for x in (0.0, 0.5, 0.5, 0.9, 0.9, 1.0)] + [0x80000000]
    return rng.choice(some + met * 2), rng.choice(some + [model.bits_of(0.99), model.bits_of(1.0)] + met)


def renamed(rng, texts):
    """The same texts under other licences."""
    names = sorted({s.name for s in texts})
    others = sorted(rng.sample(compare.NAMES, len(names)))
    return [s._replace(name=others[names.index(s.name)]) for s in texts]


def two_shelves(rng):
    """The shelves of two books: one shelf parted at a licence, which leaves a side empty or not, also exchanged; or two with names, texts or both in
    common."""
    first, how = compare.shelf(rng), rng.randrange(4)
    if how < 2:
        sides = compare.parted(first, rng.randint(0, compare.licences(first)))
        return sides if how else sides[::-1]
    second = first if how == 2 else compare.shelf(rng)
    if rng.random() < 0.5:
        second = renamed(rng, second)
    return first, [s._replace(text=rng.choice(first).text) if rng.random() < 0.3 else s for s in second]


def putting(rng, edition):
    """What puts 4s, in edition 3 accents, into the texts of a plan, or leaves them as they are."""
    salt = rng.random()
    later = 3 if edition == model.ACCENTS else 2
    return (lambda text: compare.drawn(later, f"{salt}", text)) if salt < 0.6 else (lambda text: text)


def some_shelves(rng, two, share):
    """Of one book or two; where `share` is said, with one text or two in common."""
    if share:
        texts = compare.to_share(rng)
        return [compare.sharing(rng, texts) for _ in range(1 + two)]
    return two_shelves(rng) if two else (compare.shelf(rng),)


def sound_plan(rng, job, lines=9, two=False, share=False):
    """A plan that is not refused; its book has 2 to 5 stored texts, and two books together up to 10; where `share` is said up to 12 each, many of them
    equal."""
    edition = rng.choice(model.EDITIONS)
    put = putting(rng, edition)
    shelves = some_shelves(rng, two, share)
    texts = [s for shelf in shelves for s in shelf]
    texts = [s for s in texts if s.text] or texts if share else texts
    plan = types.SimpleNamespace(job=job, edition=edition, start=0, end=0, number=0, threshold=0, shallow=0)
    plan.records = [book_records(rng, [s._replace(text=put(s.text)) for s in shelf], edition) for shelf in shelves]
    plan.text = put(compare.note(rng, texts, lines) if share or rng.random() < 0.75 else compare.text(rng)).encode("utf-8")
    if edition == model.ACCENTS and rng.random() < 0.1:
        plan.text = compare.wide_text(rng).encode("utf-8")
    plan.same = two and rng.random() < 0.1 and bool(shelves[0])
    if plan.same:
        plan.records[1] = plan.records[0]
    plan.books = [book_of(records) for records in plan.records]
    plan.optimize, plan.passes, plan.step = rng.random() < 0.85, rng.choice([0, 1, 2, 2, 3, 4]), rng.choice([1, 1, 2, 2, 3, 4, 5, 7, WHOLE])
    plan.slack = {area: slack(rng) for area in ("area", "words", "out", "results")}
    plan.budget, plan.sizes, plan.allowance, plan.kept, plan.aside = WHOLE, None, None, False, None
    if job in SCANS:
        plan.threshold, plan.shallow = limits(rng, plan)
        low = 0 if job == "eliminate" else model.bits_of(0.3)  # which a shared text is soon above
        plan.threshold = rng.choice([low, low, plan.threshold]) if share else plan.threshold
    if job in VIEWS:
        plan.start, plan.end = compare.any_view(rng, plan.text.count(b"\n") + 1)
    if job in NUMBERED:
        plan.number = rng.randrange(len(model.shelved(plan.books)))
    return plan


def slack(rng):
    return rng.choice([0, 0, 1, 2, 3, 4, rng.randint(0, 40), rng.randint(0, 300)])


def question(plan, job=None):
    """The question with areas just as long as needed, of zeros, and without an output."""
    q = model.Question(
        job or plan.job, plan.edition, plan.text, tuple(plan.books), plan.same, start=plan.start, end=plan.end, number=plan.number,
        threshold=plan.threshold, shallow=plan.shallow, optimize=plan.optimize, passes=plan.passes, step=plan.step, budget=plan.budget,
        allowance=plan.allowance, kept=plan.kept, aside=plan.aside,
    )  # fmt: skip
    n = len(q.text)
    return dataclasses.replace(q, area=bytes(8 * n + 64), words=bytes(4 * (12 * n + 64)), results=bytes(4 * model.results_need(q)))


def random_elements(rng, count, width):
    return rng.randbytes(count * width)


def filled(rng, plan, garbage=random_elements):
    """The question, every area garbage and as long as the plan says."""
    need = plan.sizes or needs(plan)
    size = {area: max(0, need[area] + more) for area, more in plan.slack.items()}
    takes = {"check": (), "name": (), "edition": (), "compile": ("area", "words", "out"), "score": ("area", "words"), "bounds": ("area", "words")}
    lent = takes.get(plan.job, ("area", "words", "results"))
    width = {"area": 1, "words": 4, "out": 1, "results": 4}
    areas = {area: garbage(rng, size[area], width[area]) if area in lent else b"" for area in size}
    bare = types.SimpleNamespace(**{**vars(plan), "text": b""})  # no zeros for a long text, which are replaced at once
    return dataclasses.replace(question(bare), text=plan.text, **areas)


def needs(plan):
    """What each area needs, in elements."""
    n = len(plan.text)
    bare = model.Question(plan.job, text=plan.text, threshold=plan.threshold, optimize=plan.optimize, passes=plan.passes)
    compiles = plan.job == "compile" and plan.edition in model.EDITIONS and model.readable(plan.text, plan.edition) and n <= model.TEXT_MOST
    out = len(model.compiled(plan.text, plan.edition)) if compiles else 99
    return {"area": 8 * n + 64, "words": 12 * n + 64, "out": out, "results": model.results_need(bare)}


# ---- faults, each by the refusal that it should bring --------------------------------------------------------------------------------------


def few(rng, plan):
    """Small areas, where a long text is refused before they count."""
    plan.sizes = {area: rng.randint(0, 200) for area in plan.slack}


def long_text(rng, plan):
    over = model.TEXT_MOST + rng.choice([1, 1, 2, 100]) - len(plan.text)
    filler = rng.choice([b" ", b"x", b"a b ", b"\n", b"\xff", b"\xc3\xa9"])
    plan.text += (filler * over)[:over]
    few(rng, plan)


# what no edition reads: alone, cut off, before another, overlong, above U+00FF, a byte order mark
NO_UTF8 = [
    b"\x80", b"\xa9", b"\xbf", b"\xc2", b"\xc3", b"\xc3a", b"\xc3\n", b"\xc3 \xa9", b"\xc2\x7f", b"\xc3\xc0", b"\xc3\xc3\xa9", b"\xc3\xa9\xa9", b"\xa9\xc3",
    b"\xc0\x80", b"\xc1\xbf", b"\xc1\xa1", b"\xc4\x80", b"\xc5\xbf", b"\xe0\x83\xa9", b"\xe2\x82\xac", b"\xed\xa0\x80", b"\xef\xbb\xbf",
    b"\xf0\x9f\x98\x80", b"\xfe", b"\xff",
]  # fmt: skip
UTF8 = [b"\xc2\x80", b"\xc2\x85", b"\xc2\xa0", b"\xc2\xbf", b"\xc3\x80", b"\xc3\xa9", b"\xc3\xbf"]  # what edition 3 reads


def odd_byte(rng, plan):
    """Bytes that the edition does not read, which the others may."""
    at = rng.choice([0, len(plan.text), rng.randint(0, len(plan.text))])
    odd = NO_UTF8 + [bytes([rng.randint(128, 255)])] + UTF8 * (model.edition_asked(plan) != model.ACCENTS)
    plan.text = plan.text[:at] + rng.choice(odd) + plan.text[at:]


def settle(plan, refusal):
    """A later fault may give the first book another edition, by which the text is read: 2 is still to come where it is due, and nowhere before
    what is due."""
    reads = refusal == 1 or model.readable(plan.text, model.edition_asked(plan))
    if refusal == 2 and reads:
        plan.text += b"\xff"
    elif refusal != 2 and not reads:
        plan.text = bytes(b for b in plan.text if b < 128)


def many_lines(rng, plan):
    over = model.LINES_MOST - plan.text.count(b"\n") + rng.choice([0, 0, 1, 500])
    at = rng.randint(0, len(plan.text))
    while 0x80 <= (plan.text[at : at + 1] or b"\0")[0] < 0xC0:  # not inside a character
        at += 1
    plan.text = plan.text[:at] + b"\n" * over + plan.text[at:]
    few(rng, plan)


def other_books(rng, plan, make):
    """Puts what is made of its records in the place of the book, or of one of two, or of both."""
    for i in rng.choice([(0,), (1,), (0, 1)]) if len(plan.books) == 2 else (0,):
        plan.books[i], plan.same = make(rng, plan.records[i]), False


NO_EDITIONS = [0, 4, 5, 255, 256, 257, 258, 259, 65535, 65536, 65537, 65538, 65539, 2**31 + 1, 2**31 + 2, 2**31 + 3, 2**32 - 1]


def bad_book(rng, plan):
    """Compile has no book, but an edition."""
    if plan.job == "compile":
        plan.edition = rng.choice(NO_EDITIONS)
    else:
        other_books(rng, plan, unsound_book)


def sound_ones(plan):
    return [i for i, book in enumerate(plan.books) if model.shelf_or_none(book) is not None]


def no_book(rng, plan):
    """In the place of each that is sound, so that beside an unsound one 4 is still due; with or without an edition."""
    for i in sound_ones(plan):
        plan.books[i], plan.same = model.FRONT[rng.choice(model.EDITIONS)], False


def other_edition(rng, plan):
    """One book of two, which is sound and stays so, gets another edition. Where only edition 3 has its words, the marked book is in its place."""
    i, plan.same = rng.choice(sound_ones(plan) or [0]), False
    was = model.edition_of(plan.books[i])
    front = model.FRONT[rng.choice([edition for edition in model.EDITIONS if edition != was])]
    bare = plan.books[i].removeprefix(model.FRONT[was])
    plan.books[i] = front + (bare if model.shelf_or_none(front + bare) is not None else MARKED_BOOK)


OUTSIDE = [0x80000001, 0xBF800000, 0x3F800001, 0x40000000, 0x7F800000, 0xFF800000, 0x7FC00000, 0xFFC00001, 0x7F800001, 0xFFFFFFFF]


def bad_limit(rng, plan):
    which = rng.choice([("threshold",), ("shallow",), ("threshold", "shallow")])
    for limit in which:
        setattr(plan, limit, rng.choice(OUTSIDE))


def no_step(rng, plan):
    plan.step = 0


def bad_view(rng, plan):
    lines = plan.text.count(b"\n") + 1
    within = rng.randint(0, lines)
    over = rng.choice([lines + 1, lines + 1, lines + 2, 2**32, 2**32 + lines, 2**63, WHOLE])
    plan.start, plan.end = rng.choice([(within, over), (over, within), (over, over), (within + 1, within), (over, 0)])


def bad_number(rng, plan):
    texts = len(model.shelved(plan.books))
    plan.number = rng.choice([texts, texts, texts + 1, texts + rng.randint(0, 99), 2**31, 2**32 - 1])


def small_area(rng, plan):
    lent = ["area", "words"] + ["results"] * (plan.job in SCANS and needs(plan)["results"] > 0)
    for area in rng.sample(lent, rng.choice([1, 1, 1, len(lent)])):
        plan.slack[area] = -rng.choice([1, 1, 2, 3, 10**9, rng.randint(1, 99)])


def short_output(rng, plan):
    plan.slack["out"] = -rng.choice([1, 1, 2, 10**9, rng.randint(1, 99)])


def low_budget(rng, plan):
    count = model.answered(question(plan)).count if plan.sizes is None else 1
    plan.budget = rng.choice([0, 1, max(0, count - 1), rng.randint(0, max(0, count - 1))])


FAULT = {
    1: long_text, 2: odd_byte, 3: many_lines, 4: bad_book, 5: no_book, 6: bad_limit, 7: no_step, 8: bad_view, 9: bad_number, 10: small_area,
    11: short_output, 12: low_budget, 15: other_edition,
}  # fmt: skip


def faulty(rng, job, refusal, more=0.3, lines=9, largest=True, two=False):
    """A plan that should be refused so, and often has faults that come later. Without `largest` none that makes a text long."""
    plan, order = sound_plan(rng, job, lines, two), model.refusals(job, two)
    FAULT[refusal](rng, plan)
    for n in order[order.index(refusal) + 1 :]:
        if rng.random() < more and (largest or n not in (1, 3)):
            FAULT[n](rng, plan)
    settle(plan, refusal)
    return plan


def two_faults(rng, job, first, second, lines=9, two=False):
    """A plan with exactly these two faults, as far as one does not bring another."""
    plan = sound_plan(rng, job, lines, two)
    for n in (first, second):
        FAULT[n](rng, plan)
    settle(plan, first)
    return plan


def budgeted(rng, job, lines=9, two=False, share=False):
    """One scan under several budgets: none, one, around the texts of the first book and of all, around its count, one between, all."""
    plan = sound_plan(rng, job, lines, two, share)
    whole, texts = model.answered(question(plan)), {len(model.shelved(plan.books[:i])) for i in (1, 2)}
    budgets = {0, 1, rng.randint(0, whole.count), WHOLE} | {mark + by for mark in {whole.count, *texts} for by in (-1, 0, 1)}
    for budget in sorted(b for b in budgets if b >= 0):
        yield altered(plan, budget=budget, slack={area: slack(rng) for area in plan.slack})


def altered(plan, **fields):
    """A copy of a plan with other fields."""
    other = copy.deepcopy(plan)
    for field, value in fields.items():
        setattr(other, field, value)
    return other


def stream(seed, kind):
    return random.Random(f"{seed} {kind}")


# ---- the rules read otherwise ----------------------------------------------------------------------------------------------------------------

RANK = "return value, -text.kind"  # in model.py


def reading(old, new):
    """model.py with one place changed."""
    with open(os.path.join(compare.HERE, "model.py")) as source:
        text = source.read()
    if text.count(old) != 1:
        raise SystemExit(f"{old!r} stands {text.count(old)} times in model.py")
    module = types.ModuleType("reading")
    sys.modules["reading"] = module  # where the dataclasses look for their own
    exec(compile(text.replace(old, new), "reading", "exec"), vars(module))
    return module


@functools.cache
def kindless():
    """Where of equal scores the earliest wins, of whatever kind."""
    return reading(RANK, "return value")


def by_kind(q, want):
    """Is it a scan that is answered otherwise where kinds decide nothing?"""
    return q.job in SCANS and vars(kindless().answered(q)) != vars(want)
