#!/usr/bin/env python3
"""Holds model.py against the definitions of the crate `rules`: refusals, counts, budgets, records and every lent area at exit.

    oracle/hold.py [--seed N] [--scale X] [--only KIND,KIND] [--keep]

Each question becomes a row of a trial crate in a temporary folder (compare.py's): what the definitions say to it, by the functions that the
contracts of the jobs name, and what the model answers. antt computes the rows; one that differs is refused and printed. First a wrong row for each
part of each job's answer is tried, which must be refused. The jobs are lent a list of books: one, or in the kinds that begin with `two books` two
(`--only two` takes all of these). Scans have a budget or an allowance. A text over 1,048,576 bytes is too long to compute on, so refusal 1 is stated
and proved over all of them. The original Rust is not asked. Exit status: 0 no row differs, 1 some do, 2 the comparison could not be made.
"""

import argparse
import collections
import dataclasses
import itertools
import re
import struct
import sys
import time

import accents
import allowance
import asking
import beside
import compare
import edges
import editions
import model
import places
from compare import Row, Trial, Trouble

HEAD = """\
use Prim.Native.Nat.{ℕ, zero, suc, ◌+◌, ◌*◌, ◌%◌, ◌<◌}
use Prim.Native.String.{String}
use mathlib.Core.Path.{◌≡◌, refl}
use mathlib.Core.Bool.{Bool, true, false, cond}
use mathlib.Core.List.{List, [], ◌∷◌, ◌++◌, map}
use lib.ListN.{length, replicate}
use lib.Ieee.{Float, to_bits, of_bits, binary32}
use Rattle.rules.specs.Bytes.{text}
use Rattle.rules.specs.Search.{view}
use Rattle.rules.specs.Book.{edition}
use Rattle.rules.specs.Jobs.{lent, area_after, check, compile, output_after, score_job, bounds_job, happened, answered, scan, results_after, name_job}
use Rattle.rules.specs.declared.Limits.{Limits}
use Rattle.rules.specs.declared.Mode.{Mode}
use Rattle.rules.specs.declared.Mode.TheVariants.{Elimination, TopDown}
use Rattle.rules.specs.declared.Scanned.{Scanned}
use Rattle.allowance.specs.declared.Allowance.{Allowance}
use Rattle.allowance.specs.Allowed.{of_allowed, allowed, allowed_results, charged}
use Rattle.rules.proofs.Opened.{opened}
use borrow.Author.Tests.{lt-ltb}
use Rattle.rules.specs.Sizes.{text_most}
use Rattle.rules.specs.Table.{nought}
use Rattle.rules.specs.declared.View.{View}
use Rattle.rules.specs.Refusal.{Areas, refusal, of_text, of_compile, before_compile, of_view, of_scan, before_scan}

-- refusal 1, over every text that is too long
pub long_compile : (e : ℕ) (t : List ℕ) (a : Areas) (o : ℕ) → text_most < length t → compile e t a o ≡ record { refusal = 1; len = 0 }
unfolding compile refusal of_compile before_compile of_text
long_compile e t a o h = simp (lt-ltb text_most (length t) h)

pub long_score : (t : List ℕ) (bs : List (List ℕ)) (v : View) (k : ℕ) (a : Areas) → text_most < length t →
    score_job t bs v k a ≡ record { refusal = 1; score = nought; m = 0; t = 0 }
unfolding score_job refusal of_view of_text
long_score t bs v k a h = simp (lt-ltb text_most (length t) h)

pub long_bounds : (t : List ℕ) (bs : List (List ℕ)) (v : View) (k : ℕ) (a : Areas) → text_most < length t →
    bounds_job t bs v k a ≡ record { refusal = 1; first = 0; after = 0; score = nought; m = 0; t = 0; count = 0 }
unfolding bounds_job refusal of_view of_text
long_bounds t bs v k a h = simp (lt-ltb text_most (length t) h)

pub long_scan : (t : List ℕ) (bs : List (List ℕ)) (lim : Limits) (mode : Mode) (b : ℕ) (a : Areas) (r : ℕ) → text_most < length t →
    (scan t bs lim mode b a r).refusal ≡ 1
unfolding scan answered refusal of_scan before_scan of_text
long_scan t bs lim mode b a r h = simp (lt-ltb text_most (length t) h)

-- and nothing has happened in it
pub long_nothing : (t : List ℕ) (bs : List (List ℕ)) (lim : Limits) (mode : Mode) (b : ℕ) (a : Areas) (r : ℕ) → text_most < length t →
    happened t bs lim mode b a r ≡ []
unfolding happened refusal of_scan before_scan of_text
long_nothing t bs lim mode b a r h = simp (lt-ltb text_most (length t) h)

pub record Row : Type 0 where
  pub got : List ℕ
  pub want : List ℕ

-- n numbers below m, the first of them x
pub garbage : ℕ → ℕ → ℕ → List ℕ
garbage m x zero = []
garbage m x (suc n) = x ∷ garbage m ((x * 5 + 3) % m) n

pub bits : Float → ℕ
bits x = to_bits binary32 x

pub bit : Bool → ℕ
bit b = cond b 1 0

pub limits : ℕ → ℕ → Limits
limits threshold shallow = record { threshold = of_bits binary32 threshold; shallow = of_bits binary32 shallow }

-- refusal, texts
pub check_row : List ℕ → List ℕ → Row
check_row book w = let r = check book in record { got = r.refusal ∷ r.texts ∷ []; want = w }

-- what the book's edition is
pub edition_row : List ℕ → List ℕ → Row
edition_row book w = record { got = edition book ∷ []; want = w }

-- under edition e: refusal, length; the output and both areas at exit
pub compile_row : ℕ → List ℕ → List ℕ → List ℕ → List ℕ → List ℕ → Row
compile_row e t b a out w =
    let r = compile e t (lent b a) (length out) in
    record {
      got = r.refusal ∷ r.len ∷ output_after e t (lent b a) out ++ area_after r.refusal b ++ area_after r.refusal a;
      want = w;
    }

-- refusal, score bits, m, t; both areas at exit
pub score_row : List ℕ → List (List ℕ) → ℕ → ℕ → ℕ → List ℕ → List ℕ → List ℕ → Row
score_row t bs s e k b a w =
    let r = score_job t bs (view s e) k (lent b a) in
    record { got = r.refusal ∷ bits r.score ∷ r.m ∷ r.t ∷ area_after r.refusal b ++ area_after r.refusal a; want = w }

-- refusal, first line, line after last, score bits, m, t, count; both areas at exit
pub bounds_row : List ℕ → List (List ℕ) → ℕ → ℕ → ℕ → List ℕ → List ℕ → List ℕ → Row
bounds_row t bs s e k b a w =
    let r = bounds_job t bs (view s e) k (lent b a) in
    record {
      got = r.refusal ∷ r.first ∷ r.after ∷ bits r.score ∷ r.m ∷ r.t ∷ r.count ∷ area_after r.refusal b ++ area_after r.refusal a;
      want = w;
    }

-- refusal, count, score bits, m, t, kind, records, the name's length, its part, the name's 64 bytes
pub told : Scanned → List ℕ
told r =
    r.refusal ∷ r.count ∷ bits r.score ∷ r.m ∷ r.t ∷ r.kind ∷ r.records ∷ r.len ∷ bit r.part.second ∷ r.part.at ∷ r.part.len ∷ r.name

-- that; the results and both areas at exit
pub scan_row : List ℕ → List (List ℕ) → Limits → Mode → ℕ → List ℕ → List ℕ → List ℕ → List ℕ → Row
scan_row t bs lim mode budget b a results w =
    let r = scan t bs lim mode budget (lent b a) (length results) in
    record {
      got = told r ++ results_after t bs lim mode budget (lent b a) results ++ area_after r.refusal b ++ area_after r.refusal a;
      want = w;
    }

pub allowance : ℕ → ℕ → Allowance
allowance cap used = record { cap = cap; used = used }

-- the same of a scan that is charged to an allowance, behind the allowance at exit
pub allowed_row : List ℕ → List (List ℕ) → Limits → Mode → Allowance → List ℕ → List ℕ → List ℕ → List ℕ → Row
allowed_row t bs lim mode x b a results w =
    let r = allowed t bs lim mode x (lent b a) (length results) in
    record {
      got =
          (charged x r).cap ∷ (charged x r).used ∷ told r ++
          allowed_results t bs lim mode x (lent b a) results ++ area_after r.refusal b ++ area_after r.refusal a;
      want = w;
    }

-- refusal, kind, the name's part
pub name_row : List (List ℕ) → ℕ → List ℕ → Row
name_row bs k w =
    let r = name_job bs k in
    record { got = r.refusal ∷ r.kind ∷ bit r.part.second ∷ r.part.at ∷ r.part.len ∷ []; want = w }
"""
ROWS = "garbage bits bit limits check_row edition_row compile_row score_row bounds_row told scan_row allowance allowed_row name_row"
UNFOLDING = f"{ROWS} of_allowed allowed allowed_results charged opened"
CRATES = (compare.CRATE, "allowance")

# ---- questions and answers as antt writes them ---------------------------------------------------------------------------------------------

AREAS = ("area", "words", "out", "results")
MODULUS = {1: 2**8, 4: 2**32}


def garbage(rng, count, width):
    """Like `garbage` above, so that an area of it is a short term."""
    x, out = rng.randrange(MODULUS[width]), b""
    for _ in range(count):
        out += x.to_bytes(width, "little")
        x = (x * 5 + 3) % MODULUS[width]
    return out


def elements(area, width):
    return struct.unpack(f"<{len(area) // width}{'BI'[width == 4]}", area)


def area_term(area, width, written=0):
    """An area: what is written at its front, then zeros or garbage, or whatever else there is."""
    values = elements(area, width)
    front, rest = values[:written], values[written:]
    if not rest or not any(rest):
        tail = f"replicate {len(rest)} 0"
    elif all(y == (x * 5 + 3) % MODULUS[width] for x, y in zip(rest, rest[1:])):
        tail = f"garbage {MODULUS[width]} {rest[0]} {len(rest)}"
    else:
        tail = compare.listed(rest)
    return f"({compare.listed(front)} ++ {tail})" if front else f"({tail})"


def text_term(text):
    """A text or book; a long run of newlines is written once."""
    at = text.find(b"\n" * 500)
    if at < 0:
        return f"(text {compare.quoted(text)})"
    size = len(text[at:]) - len(text[at:].lstrip(b"\n"))
    return f"(text {compare.quoted(text[:at])} ++ replicate {size} 10 ++ text {compare.quoted(text[at + size :])})"


def called(q):
    """The call of the row, without what is wanted."""
    if q.job in ("check", "edition"):
        return f"{q.job}_row {text_term(q.books[0])}"
    text, areas = text_term(q.text), f"{area_term(q.area, 1)} {area_term(q.words, 4)}"
    if q.job == "compile":
        return f"compile_row {q.edition} {text} {areas} {area_term(q.out, 1)}"
    books = compare.listed(map(text_term, q.books))
    if q.job == "name":
        return f"name_row {books} {q.number}"
    if q.job in ("score", "bounds"):
        return f"{q.job}_row {text} {books} {q.start} {q.end} {q.number} {areas}"
    mode = f"(Elimination {str(q.optimize).lower()} {q.passes})" if q.job == "eliminate" else f"(TopDown {q.step})"
    scan = f"{text} {books} (limits {q.threshold} {q.shallow}) {mode}"
    if q.allowance is not None:
        return f"allowed_row {scan} (allowance {q.allowance.cap} {q.allowance.used}) {areas} {area_term(q.results, 4)}"
    return f"scan_row {scan} {q.budget} {areas} {area_term(q.results, 4)}"


def wanted(q, a):
    """The model's answer as the row has it."""
    both = f"{area_term(a.area, 1)} ++ {area_term(a.words, 4)}"
    if q.job == "check":
        return compare.listed([a.refusal, a.texts])
    if q.job == "edition":
        return compare.listed([a.edition])
    if q.job == "name":
        return compare.listed([a.refusal, a.kind, *a.part])
    if q.job == "compile":
        return f"({compare.listed([a.refusal, a.len])} ++ {area_term(a.out, 1, a.len)} ++ {both})"
    if q.job == "score":
        return f"({compare.listed([a.refusal, a.score, a.m, a.t])} ++ {both})"
    if q.job == "bounds":
        return f"({compare.listed([a.refusal, a.first, a.after, a.score, a.m, a.t, a.count])} ++ {both})"
    head = compare.listed([*(a.allowance or ()), a.refusal, a.count, a.score, a.m, a.t, a.kind, a.records, a.name_len, *a.part, *a.name])
    return f"({head} ++ {area_term(a.results, 4, model.RECORD_WIDTH * a.records)} ++ {both})"


def row(q, a):
    told = ", ".join(f"{f.name} {getattr(q, f.name)!r}" for f in dataclasses.fields(q) if f.name not in AREAS)
    sizes = ", ".join(f"{name} of {len(getattr(q, name))} bytes" for name in AREAS)
    return Row(called(q), wanted(q, a), f"{told}, {sizes}; the model says {numbers_of(a)}")


def numbers_of(a):
    return ", ".join(f"{f.name} {getattr(a, f.name)}" for f in dataclasses.fields(a) if f.name not in AREAS)


# ---- wrong rows, each of which must be refused -----------------------------------------------------------------------------------------------

PLACED = ("start", "end")  # of the first record
SCANNED = ("refusal", "count", "score", "m", "t", "kind", "records", "name_len", "second", "at", "len", "name", *PLACED, "results", "area", "words")
PARTS = {
    "check": ("refusal", "texts"),
    "compile": ("refusal", "len", "out", "area", "words"),
    "score": ("refusal", "score", "m", "t", "area", "words"),
    "bounds": ("refusal", "first", "after", "score", "m", "t", "count", "area", "words"),
    "eliminate": SCANNED,
    "down": SCANNED,
    "name": ("refusal", "kind", "second", "at", "len"),
    "edition": ("edition",),
}


def spoiled(a, job, part):
    """The answer with one part wrong: a number one higher, or the last element of an area. A name's second, at and len are its part; start and end are
    those of the first record; cap and used the allowance's."""
    if part in model.Allowance._fields:
        return dataclasses.replace(a, allowance=a.allowance._replace(**{part: getattr(a.allowance, part) + 1}))
    if part in PLACED:
        at = 4 * model.Record._fields.index(part)
        return dataclasses.replace(a, results=a.results[:at] + bytes([a.results[at] ^ 1]) + a.results[at + 1 :])
    if job in (*asking.SCANS, "name") and part in model.Part._fields:
        return dataclasses.replace(a, part=a.part._replace(**{part: getattr(a.part, part) + 1}))
    value = getattr(a, part)
    wrong = value + 1 if isinstance(value, int) else value[:-1] + bytes([value[-1] ^ 1])
    return dataclasses.replace(a, **{part: wrong})


def controls(trial, seed):
    """How many wrong rows were tried, with one book and with two, with an allowance and without. Each must be refused."""
    statements = {}
    for job, two, allowed in asking.calls():
        books, lent = edges.TWO if two else (edges.MARKED_BOOK,), model.Allowance(100, 7) if allowed else None
        rng, slack = asking.stream(seed, f"controls {job}"), {"area": 2, "words": 2, "out": 2, "results": 2}
        fields = {"text": b"my first license", "books": books, "shallow": model.bits_of(1.0), "passes": 1, "allowance": lent}
        q = asking.filled(rng, edges.marked(job, slack, **fields), garbage)
        a = model.answered(q)
        if job in asking.SCANS and not a.records:
            raise Trouble(f"no record in the wrong rows of {job}")
        for part in PARTS[job] + model.Allowance._fields * allowed:
            name = f"{job}_{part}" + "_of_two" * two + "_allowed" * allowed
            statements[name] = row(q, spoiled(a, job, part))
    refused = trial.failures({name: compare.batch_statement(name, [wrong]) for name, wrong in statements.items()})
    if set(refused) != set(statements):
        raise Trouble(f"wrong rows were not refused: {', '.join(set(statements) - set(refused))}")
    return len(statements)


# ---- rows ----------------------------------------------------------------------------------------------------------------------------------


def times(rows, scale):
    return max(1, round(rows * scale))


def answers(rng, scale, two):
    for job in asking.jobs(two):
        for _ in range(times(12 if two else 25, scale)):
            yield asking.sound_plan(rng, job, LINES[two], two)


def refusals(rng, scale, two):
    """All but 1, whose text is too long to compute on: the laws in the head stand for it. 3 takes long, so there are few, and none of two books."""
    for job in asking.jobs(two):
        for refusal in model.refusals(job, two):
            few = {1: 0, 3: 0 if two else 1}
            for _ in range(few.get(refusal, times(6 if two else 12, scale))):
                yield asking.faulty(rng, job, refusal, lines=LINES[two], largest=False, two=two)


def budgets(rng, scale, two):
    for job in asking.SCANS:
        for _ in range(times(4 if two else 8, scale)):
            yield from asking.budgeted(rng, job, LINES[two], two)


def books(rng, scale, two):
    for job, rows in (("score", 100),) if two else (("check", 300), ("edition", 60)):
        for _ in range(times(rows, scale)):
            plan = asking.sound_plan(rng, job, LINES[two], two)
            asking.other_books(rng, plan, asking.any_book)
            yield plan


def limits(rng, scale, two):
    yield from computable(edges.both() if two else edges.small(), scale)


def ties(rng, scale, two):
    """Equal scores: texts shared in each order of kinds, and random ones."""
    yield from computable((edge for edge in edges.shared() if len(edge.plan.books) == 1 + two), scale)
    for job in asking.SCANS:
        for _ in range(times(20 if two else 40, scale)):
            yield asking.sound_plan(rng, job, LINES[two], two, True)


def rulings(rng, scale, two):
    """The edges of the editions."""
    yield from computable(editions.both() if two else editions.one(), scale)


def wide(rng, scale, two):
    """The edges of edition 3."""
    yield from computable(accents.both() if two else accents.one(), scale)


def ranges(rng, scale, two):
    """The edges of the bytes of a range."""
    yield from computable(places.both() if two else places.one(), scale)


def apart(rng, scale, two):
    """The edges of ranges beside each other, of notes of up to seven lines."""
    found = beside.both() if two else beside.one()
    yield from computable((edge for edge in found if edge.plan.text.count(b"\n") < 7), scale)


def allowances(rng, scale, two):
    """The edges of an allowance."""
    yield from computable(allowance.both() if two else allowance.one(), scale)


def computable(found, scale):
    """The edges that antt can compute on: no results of 65,535 passes, no text of 65,535 bytes, and no book of a thousand texts
    (damaged/proofs/LimitCases.antt has that). At a scale below 1 only some of them."""
    for edge in itertools.islice(found, 0, None, max(1, round(1 / scale))):
        if edge.plan.passes < 1000 and all(len(lent) < 5000 for lent in (edge.plan.text, *edge.plan.books)):
            yield edge.plan


MAKERS = {
    "answers": answers, "refusals": refusals, "budgets": budgets, "books, sound or not": books, "edges": limits, "ties": ties, "editions": rulings,
    "accents": wide, "places": ranges, "beside": apart, "allowances": allowances,
}  # fmt: skip
KINDS = {kind: (make, False) for kind, make in MAKERS.items()} | {f"two books: {kind}": (make, True) for kind, make in MAKERS.items()}
LINES = {False: 5, True: 3}  # of a text, at most; with two books each view costs more
MOST_SCORINGS = 120
ROWS_A_RUN = 150


def short(q):
    """Is it a scan of not too many scorings for antt, or none?"""
    return model.answered(dataclasses.replace(q, budget=asking.WHOLE, allowance=None)).count <= MOST_SCORINGS


def held(trial, questions, met):
    """How many rows there are, how many differ and how many antt could not compute; those are printed."""
    rows = []
    for q in questions:
        a = model.answered(q)
        met[q.job, len(q.books) == 2, q.allowance is not None, a.refusal] += 1
        rows.append(row(q, a))
    found = compare.all_differing(trial, rows, 1, ROWS_A_RUN)
    lost = [pair for pair in found if re.search("step limit|deep recursion", pair[1])]
    for one, message in found[:10]:
        print(f"\nDIFFERS, or is not computed: {one.told[:3000]}\n  antt: {compare.told(message)[:1000]}")
    return len(rows), len(found) - len(lost), len(lost)


def main():
    options = argparse.ArgumentParser(description="Holds the model against the definitions.")
    options.add_argument("--seed", default="1", help="another seed gives other questions (default 1)")
    options.add_argument("--scale", type=float, default=1.0, help="so many times the random rows, below 1 also of the edges (default 1)")
    options.add_argument("--only", default=",".join(KINDS), help="kinds of rows, or how they begin, with commas between: " + "; ".join(KINDS))
    options.add_argument("--keep", action="store_true", help="keep the temporary folder")
    options = options.parse_args()
    began, trial, met, table = time.monotonic(), Trial(options.keep, HEAD, UNFOLDING, CRATES), collections.Counter(), []
    try:
        print(f"{controls(trial, options.seed)} wrong rows were tried first, and each was refused", flush=True)
        for kind in [k for k in KINDS if any(k.startswith(only) for only in options.only.split(","))]:
            make, two = KINDS[kind]
            rng = asking.stream(options.seed, f"hold {kind}")
            questions = (asking.filled(rng, plan, garbage) for plan in make(rng, options.scale, two))
            table.append(held(trial, filter(short, questions), met))
            rows, differ, lost = table[-1]
            print(f"{kind:31} {rows:6} rows {differ:4} differ {lost:4} not computed   {time.monotonic() - began:5.0f} s", flush=True)
    finally:
        trial.close()
    for job, two, allowed in asking.calls():
        by = ", ".join(f"{n}: {met[job, two, allowed, n]}" for n in [0, *model.refusals(job, two, allowed)])
        print(f"{f'{job}, books: {1 + two}' + ', allowed' * allowed:31} by refusal {by}")
    rows, differ, lost = map(sum, zip(*table))
    print(f"seed {options.seed}: {rows} rows, {differ} differ, {lost} not computed")
    return 1 if differ else 2 if lost else 0


if __name__ == "__main__":
    try:
        sys.exit(main())
    except Trouble as trouble:
        print(f"hold: {trouble}", file=sys.stderr)
        sys.exit(2)
