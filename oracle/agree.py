#!/usr/bin/env python3
"""Holds model.py, the second reading of the rules, against the original Rust: lines, views, tables, scores, bounds and both scans; m and t, which the
original does not tell, against its own tables of both texts; places, which it does not tell either, against slices of the text in Rust; scans in turn
on one allowance against the original's with the budgets that its own counts leave. What #113 promises of top-down is looked at in the original's own
answers.

    oracle/agree.py [--edition E] [--seed N] [--texts N]

The texts are those of compare.py in this edition (default 3: code points up to U+00FF). No archive and no `rt` is needed. Prints the number of cases
of each kind and each difference; exit status 0 none, 1 some, 2 the comparison could not be made.
"""

import argparse
import collections
import dataclasses
import random
import sys

import asking
import compare
import model
from compare import WHOLE, Oracle, Trouble, hexed
from promise import Promise, ranges_of


THRESHOLDS = [compare.ZERO, 1 << 31, 1, compare.bits(0.3), compare.HALF, compare.bits(0.8), compare.NINETY, compare.ONE]  # -0.0, the least denormal


class Tally:
    def __init__(self, oracle):
        self.asked, self.differing, self.kinds, self.promise = collections.Counter(), 0, 0, Promise(oracle)

    def hold(self, kind, told, theirs, ours):
        self.asked[kind] += 1
        if theirs != ours:
            self.differing += 1
            print(f"differs: {kind} {told}\n  original {theirs}\n  model    {ours}")


def passes(tally, oracle, t):
    lines = model.lines_of(t.encode("utf-8"), oracle.edition)
    tally.hold("lines", repr(t), oracle.lines(t), lines)
    tally.hold("views", repr(t), oracle.view(t, 0, len(lines)), model.processed(lines))
    tally.hold("tables", repr(t), oracle.body(t), model.compiled(t.encode("utf-8"), oracle.edition))


def every_pair(tally, oracle):
    """Two code points between letters, all pairs of one first point in one text: a line for each."""
    for first in compare.POINTS:
        passes(tally, oracle, "\n".join(f"a{first}{second}b" for second in compare.POINTS if "\n" not in first + second))


def shelved(rng, oracle, seed, i):
    """A store of the oracle's, its book, and a note."""
    plain, salt = compare.sharing(rng) if i % 2 else compare.shelf(rng), f"{seed} agree {i}"
    texts = [s._replace(text=compare.drawn(oracle.edition, salt, s.text)) for s in plain]
    oracle.stock(texts)
    return texts, asking.book_of(asking.book_records(rng, texts, oracle.edition)), compare.drawn(oracle.edition, salt, compare.note(rng, plain, 9))


def scanned(a):
    """The model's answer as the oracle's protocol has it."""
    return compare.Counted(a.refusal, a.count, a.score, a.part if a.kind else None, a.recorded)


def pairs(oracle, t, first, after, licence):
    """m and t of these lines against the licence, by the original's own tables of both."""
    (view_total, view), (stored_total, stored) = map(oracle.table, ("\n".join(t.split("\n")[first:after]), licence))
    return sum(min(view[bigram], stored[bigram]) for bigram in view.keys() & stored.keys()), view_total + stored_total


def jobs(tally, oracle, rng, seed, i):
    texts, book, t = shelved(rng, oracle, seed, i)
    note, k = t.encode("utf-8"), rng.randrange(len(texts))
    n = note.count(b"\n") + 1
    start, end = compare.any_view(rng, n)
    areas = {"area": bytes(8 * len(note) + 64), "words": bytes(4 * (12 * len(note) + 64))}
    q = model.Question("score", text=note, books=(book,), start=start, end=end, number=k, **areas)
    told = f"{start} {end} of {t!r} against {texts[k].text!r}"
    s = model.answered(q)
    tally.hold("scores", told, int(oracle.ask("scores", start, end, hexed(t)).split(" ")[k], 16), s.score)
    tally.hold("m and t of a view", told, pairs(oracle, t, start, end, texts[k].text), (s.m, s.t))
    b = model.answered(dataclasses.replace(q, job="bounds"))
    theirs = oracle.ask("countbounds", start, end, hexed(t), hexed(texts[k].text))
    tally.hold("bounds", told, theirs, f"{b.count} {b.first} {b.after} {b.score:08x}")
    tally.hold("m and t of bounds", told, pairs(oracle, t, b.first, b.after, texts[k].text), (b.m, b.t))
    threshold, shallow = rng.choice(THRESHOLDS), compare.ONE
    q = dataclasses.replace(q, threshold=threshold, shallow=shallow, optimize=True, passes=3, step=rng.choice([1, 2, 3]), budget=WHOLE)
    total = 0
    for job, before in modes(q):
        asked = roomy(q, job)
        a = model.answered(asked)
        tally.hold(job, f"{threshold:08x} {before} of {t!r}", counted(oracle, asked, before, WHOLE), scanned(a))
        tally.kinds += asking.by_kind(asked, a)
        total += a.count
        if job == "eliminate":
            scores = [int(score, 16) for score in oracle.ask("scores", 0, n, hexed(t)).split(" ")]  # none is below 0.0, so their bits rise as they do
            highest = max(range(len(texts)), key=lambda i: (scores[i], -texts[i].kind))  # the first of equals
            tally.hold("m and t overall", told, pairs(oracle, t, 0, n, texts[highest].text), (a.m, a.t))
    in_turn(tally, oracle, random.Random(f"{seed} in turn {i}"), q, total)
    promised(tally, oracle, rng, t)


def modes(q):
    """Both scans of a question, with what the original's has before its budget."""
    return ("eliminate", f"{q.optimize:d} {q.passes}"), ("down", q.step)


def roomy(q, job):
    """The question as a scan, with the results that it needs."""
    asked = dataclasses.replace(q, job=job)
    return dataclasses.replace(asked, results=bytes(4 * model.results_need(asked)))


def counted(oracle, q, before, budget):
    """The counted copy's answer to a scan, with the name's part."""
    theirs = oracle.counted(f"count{q.job} {q.threshold:08x} {q.shallow:08x} {before} {budget} {hexed(q.text.decode('utf-8'))}")
    return theirs._replace(named=None if theirs.named is None else model.shelved(q.books)[theirs.named].part)


def in_turn(tally, oracle, rng, q, total):
    """Both scans of the note, twice, on one allowance; `total` is what they cost together. The original has the budget that its own counts leave."""
    left = rng.choice([2 * total, 2 * total + 1, 2 * total - 1, rng.randint(0, 2 * total), WHOLE])
    allowance = model.Allowance(left, 0) if rng.random() < 0.5 else model.Allowance(WHOLE, WHOLE - left)
    for job, before in modes(q) * 2:
        a = model.answered(dataclasses.replace(roomy(q, job), allowance=allowance))
        theirs, told = counted(oracle, roomy(q, job), before, left), f"{job} {before}, {allowance}, {left} left, of {q.text!r}"
        left, allowance = left - theirs.count, a.allowance
        tally.hold("scans on an allowance", told, theirs, scanned(a))
        tally.hold("what is left of it", told, left, allowance.cap - allowance.used)


def promised(tally, oracle, rng, t):
    """Top-down by the original itself, drawn once, and by the counted copy: of the note, and of it with a line between each two."""
    for text in (t, "\nx\n".join(t.split("\n"))):
        before = f"{rng.choice(THRESHOLDS):08x} {compare.ONE:08x} {rng.choice([1, 1, 2, 3])}"
        for asked in (f"down {before}", f"countdown {before} {WHOLE}", f"countdown {before} {rng.randint(0, 60)}"):
            question = f"{asked} {hexed(text)}"
            tally.promise.look(question, ranges_of(oracle.ask(question)))


def main():
    options = argparse.ArgumentParser(description="Holds the second reading against the original.")
    options.add_argument("--edition", type=int, choices=model.EDITIONS, default=3)
    options.add_argument("--seed", default="1", help="another seed gives other texts (default 1)")
    options.add_argument("--texts", type=int, default=5000)
    options = options.parse_args()
    oracle, rng = Oracle(options.edition), random.Random(f"{options.seed} agree")
    tally = Tally(oracle)
    if options.edition == model.ACCENTS:
        every_pair(tally, oracle)
    fixed = compare.fixed_texts(options.edition)
    for i in range(options.texts):
        passes(tally, oracle, fixed[i] if i < len(fixed) else compare.text_of(options.edition, rng, f"{options.seed} agree {i}"))
    for i in range(options.texts // 10):
        jobs(tally, oracle, rng, options.seed, i)
    print(", ".join(f"{kind} {count}" for kind, count in tally.asked.items()) + f"; a kind decides {tally.kinds} scans")
    print(tally.promise.told())
    differing = tally.differing + len(tally.promise.lost)
    print(f"edition {options.edition}, seed {options.seed}: {tally.asked.total()} cases, {differing} differences")
    return 1 if differing else 0


if __name__ == "__main__":
    try:
        sys.exit(main())
    except Trouble as trouble:
        print(f"agree: {trouble}", file=sys.stderr)
        sys.exit(2)
