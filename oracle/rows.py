#!/usr/bin/env python3
"""Holds the archive, called through C, against model.py: refusals, counts, budgets, records and every element of every lent area at exit.

    oracle/rows.py [--seed N] [--scale X] [--quick]

Asks target/rows (built and run by host/drivers/rows.sh) and the model the same questions, and compares everything that the call answers and leaves. Every
area is filled with garbage first and is often longer than needed; text, books and the bytes behind each buffer and round the allowance must be as they
were, and the name's part must hold the name. Each refusal of each job, of one book and of two, with a budget and with an allowance, must be met at
least 20 times, and each limit must bring the refusal that edges.py, editions.py, accents.py, places.py, beside.py or allowance.py says. The archive's own
records of top-down above 0.0 must keep what #113 promises of them; its scan with an allowance must be its own with what is left as the budget.
Prints one line for each kind of row; the last line is 'N passed, M failed'. Exit status: 0 none failed, 1 some did, 2 the comparison could not be made.
"""

import argparse
import collections
import dataclasses
import itertools
import os
import struct
import subprocess
import sys
import time

import accents
import allowance
import asking
import beside
import compare
import edges
import editions
import model
import places
from compare import Trouble

AREAS = ("area", "words", "out", "results")
NUMBERS = ("refusal", "texts", "len", "first", "after", "score", "m", "t", "count", "records", "kind", "name_len", "edition", "cap", "used")
REPLY = struct.Struct(f"<{len(NUMBERS)}Q{model.NAME_MOST}s4Q")
ONE, TWO, SAME, ASIDE = range(4)  # books that are lent
BUDGET, NEW_ALLOWANCE, KEPT_ALLOWANCE = range(3)  # what a scan spends
LEAST = 20  # times that each refusal of each job is met, and whatever else a row may reach
SHOWN = 10


class Archive:
    """target/rows, which calls the archive."""

    def __init__(self):
        program = os.path.join(compare.REPOSITORY, "host", "drivers", "rows.sh")
        self.process = subprocess.Popen([program], stdin=subprocess.PIPE, stdout=subprocess.PIPE)

    def read(self, size):
        out = self.process.stdout.read(size)
        if len(out) != size:
            raise Trouble("target/rows breaks off")
        return out

    def ask(self, q):
        """The answer, and what is not as it must be besides."""
        held = {"text": q.text, "book": q.books[0], "second": b"".join(q.books[1:]) or q.aside or b"", **{area: getattr(q, area) for area in AREAS}}
        lengths = [len(b) // (4 if name in ("words", "results") else 1) for name, b in held.items()]
        settings = (q.edition, q.start, q.end, q.number, q.threshold, q.shallow, q.optimize, q.passes, q.step, q.budget, *spending(q))
        books = SAME if q.same else TWO if len(q.books) == 2 else ONE if q.aside is None else ASIDE
        call = struct.pack("<22Q", asking.JOBS.index(q.job), *settings, books, *lengths) + b"".join(held.values())
        try:
            self.process.stdin.write(call)
            self.process.stdin.flush()
        except BrokenPipeError:
            raise Trouble("target/rows is not built, or broke off") from None
        *numbers, name, second, name_at, misplaced, crossed = REPLY.unpack(self.read(REPLY.size))
        after = {buffer: self.read(len(b)) for buffer, b in held.items()}
        faults = [f"changed: {what}" for what in ("text", "book", "second") if after.pop(what) != held[what]]
        faults += ["changed: behind a buffer or beside the allowance"] * bool(crossed)
        faults += ["chultarvi_name is not the name in the lent book that holds it"] * bool(misplaced)
        told = dict(zip(NUMBERS, numbers))
        left = model.Allowance(told.pop("cap"), told.pop("used"))
        after["allowance"] = None if q.allowance is None else left
        return model.Answer(**told, name=name, part=model.Part(second, name_at, told["name_len"]), **after), faults


def spending(q):
    """How a call spends, and the allowance, which is not sent where the program keeps it."""
    if q.allowance is None:
        return BUDGET, 0, 0
    return (KEPT_ALLOWANCE, 0, 0) if q.kept else (NEW_ALLOWANCE, *q.allowance)


# ---- what is told --------------------------------------------------------------------------------------------------------------------------


def shortened(value):
    if isinstance(value, tuple) and not isinstance(value, model.Part):
        return " and ".join(map(shortened, value))
    if isinstance(value, bytes) and len(value) > 300:
        return f"{value[:150]!r}..{value[-50:]!r} ({len(value)} bytes)"
    return repr(value)


def told(q):
    parts = ((f.name, getattr(q, f.name)) for f in dataclasses.fields(q))
    return ", ".join(f"{name} of {len(value)} bytes" if name in AREAS else f"{name} {shortened(value)}" for name, value in parts)


def several(q):
    """Do two or more rows of the table of refusals apply?"""
    unsound = 4 in model.REFUSALS[q.job] and model.APPLIES[4](q)  # then it is not known how many texts there are
    numbers = [n for n in model.REFUSALS[q.job] if n in model.APPLIES and not (n in (5, 9) and unsound)]
    return sum(bool(model.APPLIES[n](q)) for n in numbers) > 1


def apart(want, got, whose="model"):
    """The parts of an answer that differ, with the first place where an area does."""
    for field in (f.name for f in dataclasses.fields(want)):
        a, b = getattr(want, field), getattr(got, field)
        if a != b:
            at = next((i for i, (x, y) in enumerate(zip(a, b)) if x != y), "the end") if isinstance(a, bytes) else None
            yield f"{field}: {whose} {shortened(a)}, archive {shortened(b)}" + (f", from byte {at} on" if at is not None else "")


def with_edition(q):
    """Does compile take another edition than 1, or another job a book with a record of kind 6 at its start, right or wrong?"""
    return q.edition != 1 if q.job == "compile" else q.job == "edition" or any(book[4:6] == b"\6\0" for book in q.books)


def with_accents(q):
    """Does it reach edition 3: by the text, by compile's edition or by a book's?"""
    third = q.edition == model.ACCENTS if q.job == "compile" else any(book.startswith(model.FRONT[model.ACCENTS]) for book in q.books)
    return third or not q.text.isascii()


def by_width(q, want):
    """Is it refused where records of four numbers, without bytes, would have had room?"""
    return want.refusal == 10 and not model.small(dataclasses.replace(q, results=bytes(len(q.results) * model.RECORD_WIDTH // 4)))


def with_promise(q):
    """Does #113 speak of its records?"""
    return q.job == "down" and model.above_zero(q)


def unkept(q, a):
    """What an answer's own records break of that promise."""
    if not with_promise(q):
        return []
    room = len(a.results) // (4 * model.RECORD_WIDTH)
    if a.records > room:
        return [f"{a.records} records, and the results have room for {room}"]
    ranges = [(record.first, record.after) for record in a.recorded]
    return [f"not so of the archive's ranges {ranges}: {words}" for words in model.broken(model.line_count(q), a.recorded)]


def by_half(q, want):
    """Is it scanned with fewer results than 6 numbers a line?"""
    return q.job == "down" and want.refusal in (0, 12) and len(q.results) < 4 * model.RECORD_WIDTH * model.line_count(q)


def at_need(q, want):
    """Are its results what is needed, or one beside it, and nothing refused before they count?"""
    return with_promise(q) and want.refusal in (0, 10, 12) and abs(len(q.results) // 4 - model.results_need(q)) <= 1


def as_plain(q, entry, plain):
    """What a scan charged to this allowance is by the archive's own with what is left as its budget, or with none where more is used than the cap."""
    if entry.used > entry.cap and plain.refusal == 12:
        return model.Answer(refusal=17, area=q.area, words=q.words, results=q.results, allowance=entry)
    return dataclasses.replace(plain, allowance=model.Allowance(entry.cap, entry.used + plain.count))


# what reaches #113
BESIDE = {
    "of top-down above 0.0 with records": lambda q, want: with_promise(q) and want.records > 0,
    "with (L + 1) / 2 of these": lambda q, want: with_promise(q) and want.records == model.records_most(q),
    "with results at that need or one beside it": at_need,
    "taken where 6 numbers a line were refused": by_half,
}
# what reaches #112, of the rows with an allowance
ALLOWED = {
    "with an allowance": lambda q, want: True,
    "refused by 17": lambda q, want: want.refusal == 17,
    "refused before 17 with more used than the cap": lambda q, want: model.overdrawn(q) and want.refusal != 17,
    "refused otherwise, which charge nothing": lambda q, want: want.refusal not in (0, 12, 17),
    "stopped with nothing left at entry": lambda q, want: want.refusal == 12 and not want.count,
    "stopped later": lambda q, want: want.refusal == 12 and want.count > 0,
    "that just pay the scan": lambda q, want: want.refusal == 0 and want.allowance.used == want.allowance.cap,
    "above 2^32": lambda q, want: want.count > 0 and want.allowance.used > 2**32,
    "on the allowance of the note before": lambda q, want: q.kept,
    "beside bytes that are no second book": lambda q, want: q.aside is not None,
}
# what a row may reach, by its question and the model's answer
REACHED = {
    "with several faults at once": lambda q, want: several(q),
    "with an edition": lambda q, want: with_edition(q),
    "that reach edition 3": lambda q, want: with_accents(q),
    "with word pairs": lambda q, want: want.t > 0,
    "where m and t must be 0": lambda q, want: want.t == 0 and q.job in (*asking.VIEWS, *asking.SCANS),
    "that a kind decides": asking.by_kind,
    "with records, and so the bytes of ranges": lambda q, want: want.records > 0,
    "with an empty range": lambda q, want: any(record.first == record.after for record in want.recorded),
    "refused for the last two numbers of records": by_width,
    **BESIDE,
    "by which #113 is reached": lambda q, want: any(reaches(q, want) for reaches in BESIDE.values()),
    **{what: lambda q, want, reaches=reaches: q.allowance is not None and reaches(q, want) for what, reaches in ALLOWED.items()},
}


class Tally:
    def __init__(self, archive):
        self.archive, self.reached = archive, collections.Counter()
        self.rows, self.failed, self.met, self.met_by_kind = collections.Counter(), collections.Counter(), collections.Counter(), {}
        self.ranges = 0  # of the archive, which #113 speaks of
        self.left = None  # of the last allowance, by the archive

    def hold(self, kind, q, due):
        want = model.answered(q)
        got, faults = self.archive.ask(q)
        self.rows[kind] += 1
        self.reached.update(what for what, reaches in REACHED.items() if reaches(q, want))
        self.met[q.job, len(q.books) == 2, q.allowance is not None, want.refusal] += 1
        self.met_by_kind.setdefault(kind, collections.Counter())[want.refusal] += 1
        faults += apart(want, got)
        faults += unkept(q, got)
        faults += self.unlike_plain(q, got)
        self.ranges += got.records if with_promise(q) else 0
        faults += [f"{field} should be {x}, and the model says {said}" for field, x in due.items() if (said := getattr(want, field)) != x]
        if faults:
            self.failed[kind] += 1
            if sum(self.failed.values()) <= SHOWN:
                print(f"\nDIFFERS: {kind}: {told(q)}\n  " + "\n  ".join(faults))

    def unlike_plain(self, q, got):
        """What a call with an allowance has otherwise than the archive's own with a budget, whatever the model says."""
        if q.allowance is None:
            return []
        entry, self.left = self.left if q.kept else q.allowance, got.allowance
        plain, _ = self.archive.ask(dataclasses.replace(q, allowance=None, aside=None, budget=max(0, entry.cap - entry.used)))
        return apart(as_plain(q, entry, plain), got, "with a budget")

    def require(self):
        """Each refusal of each job, and an answer of each, is met so often, in each form; and so is whatever a row may reach."""
        for what in (what for what in REACHED if self.reached[what] < LEAST):
            self.failed["refusals"] += 1
            print(f"there are {self.reached[what]} rows {what}, not {LEAST}")
        for call in asking.calls():
            for refusal in [0, *model.refusals(*call)]:
                met = self.met[(*call, refusal)]
                if met < LEAST:
                    self.failed["refusals"] += 1
                    print(f"refusal {refusal} of {called(*call)} is met {met} times, not {LEAST}")

    def table(self):
        for kind, rows in self.rows.items():
            met = ", ".join(f"{n}: {count}" for n, count in sorted(self.met_by_kind[kind].items()))
            print(f"{kind:34} {rows:6} rows {self.failed[kind]:4} differ   by refusal {met}")
        for call in asking.calls():
            met = ", ".join(f"{n}: {self.met[(*call, n)]}" for n in [0, *model.refusals(*call)])
            print(f"{called(*call):34} {met}")


# ---- rows: a kind, a question, and the fields of the answer that are due where they are known ----------------------------------------------

BOOKS = {1: "one book", 2: "two books"}
FORMS = [(job, 1 + two) for two in (False, True) for job in asking.jobs(two)]


def called(job, two, allowed):
    return f"{job}, {BOOKS[1 + two]}" + ", an allowance" * allowed


def answers(rng, rows, job, two):
    for _ in range(rows):
        yield asking.sound_plan(rng, job, two=two), {}


def refusals(rng, rows, job, two):
    for refusal in model.refusals(job, two):
        for _ in range(rows):
            yield asking.faulty(rng, job, refusal, two=two), {}


def pairs(rng, rows, job, two):
    """Each two refusals of a job at once; the first is due. One empty book is sound, so there 4 and 5 have no such row."""
    for first, second in itertools.combinations(model.refusals(job, two), 2):
        for _ in range(rows if two or (first, second) != (4, 5) else 0):
            yield asking.two_faults(rng, job, first, second, two=two), {"refusal": first}


def budgets(rng, scans, job, two):
    for _ in range(scans if job in asking.SCANS else 0):
        for plan in asking.budgeted(rng, job, two=two):
            yield plan, {}


def books(rng, rows, job, two):
    """Of one book most by its check and its edition, which do nothing else."""
    for _ in range(3 * rows if job in ("check", "edition") else 0 if job == "compile" else rows):
        plan = asking.sound_plan(rng, job, two=two)
        asking.other_books(rng, plan, asking.any_book)
        yield plan, {}


def ties(rng, rows, job, two):
    """Scans whose licences share texts, each tenth under several budgets."""
    for i in range(rows if job in asking.SCANS else 0):
        plans = asking.budgeted(rng, job, two=two, share=True) if i % 10 == 0 else [asking.sound_plan(rng, job, two=two, share=True)]
        yield from ((plan, {}) for plan in plans)


def apart_ranges(rng, rows, job, two):
    for _ in range(rows if job == "down" else 0):
        yield beside.random_plan(rng, two), {}


def allowances(rng, rows, job, two):
    for _ in range(rows if job in asking.SCANS else 0):
        yield from allowance.random_plans(rng, job, two)


# each kind of random row: what makes those of a job, how many times, and of two books
RANDOM = {
    "answers": (answers, 200, 100),
    "refusals": (refusals, 60, 30),
    "two refusals at once": (pairs, 10, 5),
    "budgets": (budgets, 200, 100),
    "books, sound or not": (books, 286, 250),
    "equal scores": (ties, 1800, 1800),
    "ranges beside each other": (apart_ranges, 1000, 500),
    "allowances": (allowances, 24, 16),
}
SAVES = 200


def random_rows(seed, scale):
    for (kind, (make, *times)), (job, books) in itertools.product(RANDOM.items(), FORMS):
        rng = asking.stream(seed, f"{kind} {job} {books}")
        for plan, due in make(rng, max(1, round(times[books - 1] * scale)), job, books == 2):
            yield f"{kind}, {BOOKS[books]}", asking.filled(rng, plan), due


def saves(seed, scale):
    rng = asking.stream(seed, "saves")
    for _ in range(max(1, round(SAVES * scale))):
        yield from (("notes of a Save", q, {}) for q in allowance.save(rng))


def limits(seed, found):
    rng = asking.stream(seed, "limits")
    for edge in found:
        due = {"refusal": edge.refusal, **edge.more}
        yield edge.what + ", two books" * (len(edge.plan.books) == 2), asking.filled(rng, edge.plan), due


def rows(seed, scale, large):
    """All rows: so many times the random ones, and the large edges or not."""
    yield from random_rows(seed, scale)
    yield from saves(seed, scale)
    of_rules = (of for rules in (editions, accents, places, beside) for of in (rules.one(), rules.both()))
    yield from limits(seed, itertools.chain(edges.small(), edges.both(), *of_rules, edges.ties(), allowance.one(), allowance.both()))
    if large:
        long = (rules.large() for rules in (editions, accents, places, beside, allowance))
        yield from limits(seed, itertools.chain(edges.large(), edges.all_ties(), *long))


QUICK = 0.05


def main():
    options = argparse.ArgumentParser(description="Holds the archive against a second reading of the rules.")
    options.add_argument("--seed", default="1", help="another seed gives other questions (default 1)")
    options.add_argument("--scale", type=float, default=1.0, help="so many times the random rows (default 1)")
    options.add_argument("--quick", action="store_true", help="some thousand rows in seconds: no long texts, no large books, no tables")
    options = options.parse_args()
    began, tally = time.monotonic(), Tally(Archive())
    for kind, q, due in rows(options.seed, QUICK if options.quick else options.scale, not options.quick):
        tally.hold(kind, q, due)
    if not options.quick:
        tally.require()
        tally.table()
    failed = sum(tally.failed.values())
    told = ", ".join(f"{tally.reached[what]} {what}" for what in REACHED)
    print(f"rows {told}; ranges that #113 speaks of {tally.ranges}; seed {options.seed}, {time.monotonic() - began:.0f} s")
    print(f"{sum(tally.rows.values()) - failed} passed, {failed} failed")
    return 1 if failed else 0


if __name__ == "__main__":
    try:
        sys.exit(main())
    except Trouble as trouble:
        print(f"rows: {trouble}", file=sys.stderr)
        sys.exit(2)
