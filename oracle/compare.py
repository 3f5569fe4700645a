#!/usr/bin/env python3
"""Compares the definitions of the crate `rules` with the original Rust, on generated inputs.

    oracle/compare.py [--edition E] [--seed N] [--scale X] [--only KIND,KIND] [--keep]

The oracle beside this file (README.md) answers each question with the original's own code, from edition 2 on mended. Each answer becomes a row, what
the definitions compute and what the oracle says, of a trial crate in a temporary folder; antt computes the rows there, a batch of them in one
statement by `refl`. A batch that fails is taken apart, row by row, and each row that differs is printed with its input. The oracle has one store; the
definitions are lent its licences in one book, or in two that part them anywhere. Texts of edition 2 are those of edition 1 with 4s put into them, and
it is told how many rows edition 1 answers otherwise; those of edition 3 have accents, or are made of all code points up to U+00FF, and it is told how
many are not ASCII. What the original says of top-down must keep what #113 promises. Exit status: 0 no row differs, 1 some do, 2 the comparison
could not be made.
"""

import argparse
import collections
import functools
import itertools
import os
import random
import re
import shutil
import struct
import subprocess
import sys
import tempfile
import time

import model
import original
from original import HERE, Trouble
from promise import Promise, ranges_of

REPOSITORY = os.path.dirname(HERE)

# ---- every name of the definitions that is used ------------------------------------------------------------------------------------------

CRATE = "rules"
ELIMINATION = "(Elimination {optimize} {passes})"
TOP_DOWN = "(TopDown {step})"

USES = """\
use Prim.Native.Nat.{ℕ}
use Prim.Native.String.{String}
use mathlib.Core.Path.{◌≡◌, refl}
use mathlib.Core.Bool.{Bool, true, false, cond}
use mathlib.Core.List.{List, [], ◌∷◌, ◌++◌, map}
use lib.ListN.{length, take, drop, replicate}
use lib.Ieee.{Float, to_bits, of_bits, binary32}
use Rattle.rules.specs.Bytes.{text, join}
use Rattle.rules.specs.Points.{encoded}
use Rattle.rules.specs.Lines.{lines}
use Rattle.rules.specs.Passes.{aggressive}
use Rattle.rules.specs.Search.{view, viewed}
use Rattle.rules.specs.Scan.{events, scorings, records, verdict, numbers}
use Rattle.rules.specs.Book.{shelved, edition_of, compiled}
use Rattle.rules.specs.Refusal.{Areas}
use Rattle.rules.specs.Jobs.{score_job, bounds_job, named, scan, results_after}
use Rattle.rules.specs.declared.Limits.{Limits}
use Rattle.rules.specs.declared.Mode.{Mode}
use Rattle.rules.specs.declared.Mode.TheVariants.{Elimination, TopDown}
use Rattle.rules.proofs.Opened.{opened}
"""

ROWS = """
pub record Row : Type 0 where
  pub got : List ℕ
  pub want : List ℕ

-- texts are given by their bytes, a character for each

-- of edition n: the normalised lines, joined by newlines
pub lines_row : ℕ → String → String → Row
lines_row n t w = record { got = encoded (join (lines n (text t))); want = text w }

-- of edition n: the lines from a up to e, after the aggressive passes
pub view_row : ℕ → String → ℕ → ℕ → String → Row
view_row n t a e w = record { got = encoded (aggressive (viewed (lines n (text t)) (view a e))); want = text w }

-- of edition n: the table body
pub table_row : ℕ → String → String → Row
table_row n t w = record { got = compiled n (text t); want = text w }

pub room : Areas
room = record { bytes = 100_000; words = 100_000 }

pub bits : Float → ℕ
bits x = to_bits binary32 x

pub bit : Bool → ℕ
bit b = cond b 1 0

-- of the lines from a up to e against the stored text k: refusal, score bits
pub score_row : String → ℕ → ℕ → List (List ℕ) → ℕ → List ℕ → Row
score_row t a e books k w =
    let r = score_job (text t) books (view a e) k room in
    record { got = r.refusal ∷ bits r.score ∷ []; want = w }

-- refusal, count, first line, line after last, score bits
pub bounds_row : String → ℕ → ℕ → List (List ℕ) → ℕ → List ℕ → Row
bounds_row t a e books k w =
    let r = bounds_job (text t) books (view a e) k room in
    record { got = r.refusal ∷ r.count ∷ r.first ∷ r.after ∷ bits r.score ∷ []; want = w }

pub limits : ℕ → ℕ → Limits
limits threshold shallow = record { threshold = of_bits binary32 threshold; shallow = of_bits binary32 shallow }

-- a whole scan, of the books' edition: count, overall score bits, kind, records, the name's length, the name, then each record's six numbers
pub scan_row : String → List (List ℕ) → Limits → Mode → List ℕ → Row
scan_row t books lim mode w =
    let es = events lim mode (shelved 0 books) (lines (edition_of books) (text t)) in
    let who = named lim (verdict es) in
    record {
      got =
          length (scorings es) ∷ bits (verdict es).value.score ∷ who.kind ∷ length (records es) ∷
          length who.name ∷ who.name ++ numbers (text t) (records es);
      want = w;
    }

-- the public scan, with a budget and a results area of n sevens: refusal, count, overall score bits, kind, records, the name's length, its part
-- (second, at, length), the name's 64 bytes, then the area after it
pub job_row : String → List (List ℕ) → Limits → Mode → ℕ → ℕ → List ℕ → Row
job_row t books lim mode budget n w =
    let r = scan (text t) books lim mode budget room n in
    record {
      got =
          r.refusal ∷ r.count ∷ bits r.score ∷ r.kind ∷ r.records ∷ r.len ∷ bit r.part.second ∷ r.part.at ∷ r.part.len ∷
          r.name ++ results_after (text t) books lim mode budget room (replicate n 7);
      want = w;
    }
"""

UNFOLDING = "lines_row view_row table_row room bits bit score_row bounds_row limits scan_row job_row opened"


# ---- the oracle --------------------------------------------------------------------------------------------------------------------------


class Oracle:
    """The original of an edition."""

    def __init__(self, edition):
        self.edition = edition
        self.process = subprocess.Popen([original.program(edition)], stdin=subprocess.PIPE, stdout=subprocess.PIPE, text=True)

    def ask(self, *words):
        question = " ".join(map(str, words))
        self.process.stdin.write(question + "\n")
        self.process.stdin.flush()
        answer = self.process.stdout.readline()
        if not answer:
            raise Trouble(f"the oracle has no answer to: {question}")
        return answer.rstrip("\n")

    def lines(self, text):
        return [unhexed(line) for line in self.ask("lines", hexed(text)).split(" ")]

    def view(self, text, start, end):
        return unhexed(self.ask("view", start, end, hexed(text)))

    def stock(self, texts):
        """Fills the store anew."""
        self.ask("clear")
        for s in texts:
            self.ask("add", hexed(s.name), s.kind, hexed(s.text))

    def counted(self, question):
        """A scan by the counted copy, with its places."""
        head, *records = self.ask("placed", question).split(" ; ")
        refusal, count, score, named = head.split(" ")
        return Counted(int(refusal), int(count), int(score, 16), None if named == "none" else int(named), [record_of(r) for r in records])

    def table(self, text):
        """The table of a text: its total, and each bigram with its count, in byte order."""
        total, *entries = self.ask("table", hexed(text)).split(" ")
        counts = (entry.split(":") for entry in entries)
        return int(total), {bytes.fromhex(bigram): int(count) for count, bigram in counts}

    def body(self, text):
        """The compiled body of a text, from its table."""
        total, counts = self.table(text)
        out = little(total, 4) + little(len(counts), 4)
        for bigram, count in counts.items():
            out += little(count, 4) + little(len(bigram), 4) + bigram
        return out


def hexed(text):
    return text.encode("utf-8").hex() or "-"


def unhexed(word):
    return "" if word == "-" else bytes.fromhex(word).decode("utf-8")


def record_of(told):
    """A record as `placed` tells it: the score's bits in hex."""
    number, first, after, score, start, end = told.split(" ")
    return model.Record(int(number), int(first), int(after), int(score, 16), int(start), int(end))


def told_of(record):
    return " ".join(map(str, record._replace(score=f"{record.score:08x}")))


def little(number, width):
    return number.to_bytes(width, "little")


def bits(x):
    return struct.unpack("<I", struct.pack("<f", x))[0]


# ---- rows --------------------------------------------------------------------------------------------------------------------------------


class Row:
    """A call of one of the rows above, what it wants, what it stands for, and where it wants numbers a name for each."""

    def __init__(self, call, want, told, named=()):
        self.call, self.want, self.told, self.named = call, want, told, named

    def term(self):
        return f"{self.call} {self.want if isinstance(self.want, str) else listed(self.want)}"


def quoted(text):
    """The bytes of a text, or these bytes, as antt quotes them: a character for each."""
    characters = (text if isinstance(text, bytes) else text.encode("utf-8")).decode("latin-1")
    escaped = {"\n": "\\n", '"': '\\"', "\\": "\\\\"}
    return '"' + "".join(escaped.get(c) or (c if " " <= c <= "~" else f"\\u{{{ord(c):x}}}") for c in characters) + '"'


def listed(terms):
    return "(" + "".join(f"{term} ∷ " for term in terms) + "[])"


def lent(books):
    """The list of these books."""
    return listed(f"text {quoted(book)}" for book in books)


# ---- the trial crate ---------------------------------------------------------------------------------------------------------------------


class Trial:
    """The trial crate. `head` is what stands above its statements, `opened` what each of them unfolds, `crates` those whose definitions it computes."""

    def __init__(self, keep, head=USES + ROWS, opened=UNFOLDING, crates=(CRATE,)):
        self.head, self.opened, self.crates = head, opened, crates
        self.folder = tempfile.mkdtemp(prefix="compare-")
        self.keep = keep
        wanted = self.needed()
        for crate in wanted:
            source, copy = (os.path.join(top, "crates", crate) for top in (REPOSITORY, self.folder))
            shutil.copytree(source, copy, ignore=shutil.ignore_patterns("out"))
        with open(os.path.join(self.folder, "crates.txt"), "w") as out:
            out.writelines(f"{crate}: {' '.join(deps)}\n" for crate, deps in wanted.items())
            out.write(f"trial: {' '.join(self.crates)}\n")
        self.write("src/lib.rt", "// Only proofs/: rows to compute.\n#![tactic(auto)]\n")
        self.write("proofs/Lib.antt", "pub mod Rows\n")

    def needed(self):
        """The crates of the definitions and what they depend on, as the repository lists them."""
        listed = {}
        with open(os.path.join(REPOSITORY, "crates.txt")) as lines:
            for line in lines:
                line = line.split("#")[0].strip()
                if line:
                    crate, deps = line.split(":")
                    listed[crate.strip()] = deps.split()
        wanted, open_ends = {}, list(self.crates)
        while open_ends:
            crate = open_ends.pop()
            if crate in listed and crate not in wanted:
                wanted[crate] = listed[crate]
                open_ends += listed[crate]
        missing = [crate for crate in self.crates if crate not in wanted]
        if missing:
            raise Trouble(f"crates.txt does not list {', '.join(missing)}")
        return wanted

    def path(self, name):
        return os.path.join(self.folder, "crates", "trial", name)

    def write(self, name, text):
        path = self.path(name)
        os.makedirs(os.path.dirname(path), exist_ok=True)
        with open(path, "w") as out:
            out.write(text)

    def failures(self, statements):
        """The statements, by name, that antt refuses, each with its message. A statement is a name, a type and what it unfolds."""
        out = [self.head]
        for name, (before, claim, opened) in statements.items():
            out.append(f"\n{before}pub {name} : {claim}\nunfolding {opened} {self.opened}\n{name} = refl\n")
        self.write("proofs/Rows.antt", "".join(out))
        run = subprocess.run(["rt", "check", "--jobs", "1"], cwd=self.path(""), capture_output=True, text=True)
        said = run.stdout + run.stderr + f"rt check: exit status {run.returncode}"
        if run.returncode == 0:
            if not run.stdout.rstrip().rpartition("\n")[2].startswith("logic=proved "):
                raise Trouble(said)
            return {}
        messages = re.split(r"^(?=\S*proofs/Rows\.antt:)", said, flags=re.M)[1:]
        found = {}
        for message in messages:
            if re.match(r"\S+ note:", message):
                continue
            name = re.match(r"\S+ error: `([^`]+)`", message)
            if not name or name[1] not in statements:
                raise Trouble(said)
            found[name[1]] = message.strip()
        if not found:
            raise Trouble(said)
        return found

    def close(self):
        if self.keep:
            print(f"kept: {self.folder}")
        else:
            shutil.rmtree(self.folder)


def batch_statement(name, rows):
    terms = "".join(f"    {row.term()} ∷\n" for row in rows)
    before = f"pub {name}_rows : List Row\n{name}_rows =\n{terms}    []\n\n"
    return before, f"map (λ c. c.got) {name}_rows ≡ map (λ c. c.want) {name}_rows", f"{name}_rows"


def differing(trial, rows, size):
    """The rows that differ, with antt's message."""
    batches = {f"batch{i}": rows[i : i + size] for i in range(0, len(rows), size)}
    failed = trial.failures({name: batch_statement(name, batch) for name, batch in batches.items()})
    alone = {f"row{i}": row for i, row in enumerate(row for name in failed for row in batches[name])}
    if not alone:
        return []
    refused = trial.failures({name: batch_statement(name, [row]) for name, row in alone.items()})
    if not refused:
        raise Trouble("a batch is refused, and none of its rows is: make the batches smaller")
    return [(alone[name], message) for name, message in refused.items()]


def differing_parts(trial, row):
    """Of a row that differs and wants numbers, the parts that differ, by their names."""
    statements = {"all": ("", f"length ({row.term()}).got ≡ {len(row.want)}", "")}
    names = {"all": "how many numbers there are"}
    at = 0
    for name, part in itertools.groupby(row.named):
        size = len(list(part))
        statements[f"part{at}"] = ("", f"take {size} (drop {at} ({row.term()}).got) ≡ {listed(row.want[at : at + size])}", "")
        names[f"part{at}"] = name
        at += size
    return [names[part] for part in trial.failures(statements)]


# ---- generated texts ---------------------------------------------------------------------------------------------------------------------

SPACES = ["\n", "\n", "\n\n", "\n\n\n", " ", " ", "  ", "\t", "\v", "\f", "\r", "\r\n", " \n"]
TRAPS = (
    "copyright|Copyright|COPYRIGHT| copyright|copyright (c) 2|license|License| license|licenses| version 2| version |version|c| c|(c)|C|1999"
    "| 2 3|4|44|a4b|/4|x|http://x|https://|https://a.b/c|http://4 |http:/|Http://x|'|\"|''\"|`|(|[{|)|]}|)(|-|--|- -|_|__|.|,;|!?|:|@#%&*|$|+|<=>|^|~"
    "|\\|\\/|A|Z|az|b|9|xyz|you|the software|dnl | * |// |# |rem: "
).split("|") + ["|", "||", "\0", "\b", "\x0e", "\x1f", "\x7f"]
WORDS = "my first license the grant use of free copy a b c 2 x".split()
PREFIXES = ["dnl -- ", "rem: ", "#### ", "abcd ", "abcd e", "abcd xabcd", "dnl ", " * ", "// ", "-- * x"]

FIXED_TEXTS = [
    "",
    "\n",
    " ",
    "\n\n\n",
    "copyright",
    "license\n\n",
    "copyright 20xx me irl\n\n //  my   first license",
    "copyright 20xx me irl\n// My First License\nfn hello() {\n ...",
    "see https://a.b/c now",
    "GPL 4x",
    "$5 + tax",
    "Foo License\n\nbody text",
    "Foo License\nbody text",
    "dnl one\ndnl two\ndnl tri",
    "a b\ncopyright c\n1999 d\nkeep me",
    "x\ncopyright holder",
    "abcd xabcd\nabcd e\nx\nabcd e\nabcd e",
    "\ncopyright x\n\nb c",
    "a license version 2 copyright me\n\nb c",
    "x\n\ncopyright a\ncopyright b\n\ny",
    "x\n\ncopyright a\n\ncopyright b\n\ny",
    "xcopyright23\n\n\ncopyright x\n\n",
    "copyright company",
    "a\n.\n.\n.\nb",
    "".join(map(chr, range(128))),
    "".join(chr(c) + "a" for c in range(128)),
]


def some(rng, choices, least, most):
    return [rng.choice(choices) for _ in range(rng.randint(least, most))]


def soup(rng, least=2, most=16):
    """Traps and spaces, in any order."""
    return "".join(rng.choice(SPACES) if rng.random() < 0.4 else rng.choice(TRAPS) for _ in range(rng.randint(least, most)))


def prefixed(rng):
    """Lines of which most start alike."""
    starts = some(rng, PREFIXES, 1, 3)
    return "\n".join(
        (rng.choice(starts) if rng.random() < 0.85 else "") + "".join(some(rng, WORDS + ["e", "t", " ", "-"], 0, 3))
        for _ in range(rng.randint(2, 8))
    )


def tied(rng):
    """Lines whose common prefixes are as often seen as each other, or nearly."""
    start = rng.choice(["abcd", "dnl --", "rem: x"])
    return "\n".join(start + rng.choice(["", " e", " e", " ex", "x", " f", " f g"]) if rng.random() < 0.9 else "x" for _ in range(rng.randint(3, 6)))


def titled(rng):
    """A title, or what is nearly one."""
    first = "".join(some(rng, ["a ", "The ", "my", "-", " license ", ""], 0, 2)) + rng.choice(["license", "License", "licence", "license."])
    first += rng.choice(["", "", " version 2", " version 2.0", " version ", " version 2 3", " version x y", "version 2"])
    first += rng.choice(["", "", " copyright", " copyright me", "copyright", " copyright license", "\tcopyright x"])
    return first + rng.choice(["\n", "\n\n", "\n\n", "\n\n", "\n \n", "\n\n\n", "\r\n\r\n", "\n.\n"]) + (soup(rng, 0, 6) if rng.random() < 0.6 else credited(rng))


def credited(rng):
    """Lines about copyright, in paragraphs or not."""
    out = rng.choice(["", "", "\n", "\n\n", "\n\n\n", "x", "x\n\n"])
    for _ in range(rng.randint(1, 4)):
        out += rng.choice(["", "", " ", "  ", "\t", "x ", ".", ". "]) + rng.choice(["copyright", "copyright", "Copyright", "copyrigh", "xcopyright"])
        out += "".join(some(rng, [" c", " 1999", " (c)", "\n1999", "\n\nc", " company", " 20xx", " me", "c", "\v2", ",", ".. 3"], 0, 3))
        out += rng.choice(["\n", "\n\n", "\n\n", "\n\n\n", "\n.\n\n", " ", "\r\r", ""])
    return out + "".join(some(rng, WORDS, 0, 2))


def linked(rng):
    """Addresses, and runs of the marks that the line passes join."""
    return "".join(
        some(rng, ["http://", "https://", "http:/", "https", " ", "\t", "\v", "x", "4", "/", "'", '"', "((", "]", "-", "_", "$", "|", "://", "a.b", "\n"], 2, 14)
    )


def text(rng):
    return rng.choice([soup, soup, soup, soup, prefixed, tied, titled, titled, credited, credited, linked])(rng)


# ---- generated stored texts and notes ----------------------------------------------------------------------------------------------------

NAMES = "A A-1 A. B B! BSD-3-Clause C GPL-2.0+ ISC MIT MIT-0 X X11 Z _ a a-b zlib ~".split() + ["~" * 64]

Stored = collections.namedtuple("Stored", "name kind text")


def words(rng, least, most):
    return " ".join(some(rng, WORDS, least, most))


def stored_text(rng):
    if rng.random() < 0.06:
        return rng.choice(["", "one", "copyright 2 me"])
    return "\n".join(words(rng, 2, 5) for _ in range(rng.randint(1, 3)))


def shelf(rng):
    """2 to 5 stored texts in book order, some of them equal."""
    n = rng.randint(2, 5)
    licences = sorted(rng.sample(NAMES, rng.randint(1, min(3, n))))
    kinds = {name: [2] for name in licences}
    for _ in range(n - len(licences)):
        kinds[rng.choice(licences)].append(rng.choice([3, 4]))
    out = []
    for name in licences:
        for kind in sorted(kinds[name]):
            again = out and rng.random() < 0.15
            out.append(Stored(name, kind, rng.choice(out).text if again else stored_text(rng)))
    return out


def to_share(rng):
    return [stored_text(rng) for _ in range(rng.choice([1, 1, 2]))]


def sharing(rng, texts=None):
    """2 to 12 stored texts in book order, of 2 to 4 licences: an original, often empty, the first mostly, and up to two variants; most are of one or two
    texts that they share."""
    out, texts = [], texts or to_share(rng)
    for name in sorted(rng.sample(NAMES, rng.randint(2, 4))):
        for kind in [2] + sorted(rng.choices([3, 4], k=rng.choice([0, 1, 1, 2]))):
            own = rng.choice(["", "", stored_text(rng)])
            seldom = 0.1 if kind != 2 else 0.4 if out else 0.9
            out.append(Stored(name, kind, own if rng.random() < seldom else rng.choice(texts)))
    return out


def licences(texts):
    """How many licences these stored texts have."""
    return sum(s.kind == 2 for s in texts)


def parted(texts, border):
    """The stored texts of the licences before the border, counted from 0, and those from it on."""
    starts = [i for i, s in enumerate(texts) if s.kind == 2] + [len(texts)]
    return texts[: starts[border]], texts[starts[border] :]


def note(rng, texts, most):
    """Up to so many lines: pieces of stored texts, other words, blank lines and lines about copyright."""
    lines = []
    wanted = rng.randint(1, most)
    while len(lines) < wanted:
        lot = rng.random()
        if lot < 0.5:
            piece = rng.choice(texts).text.split("\n")
            lines += piece if rng.random() < 0.7 else rng.sample(piece, 1)
        elif lot < 0.75:
            lines.append(words(rng, 1, 4))
        elif lot < 0.9:
            lines.append("")
        else:
            lines.append(rng.choice(["copyright c 2 me", "copyright me", "a license", "Copyright (C) 1999", "see http://x.y/z", "copyright 44"]))
    lines = lines[:wanted]
    if rng.random() < 0.35:
        starts = some(rng, PREFIXES, 1, 2)
        lines = [rng.choice(starts) + line if rng.random() < 0.9 else line for line in lines]
    if rng.random() < 0.2:
        lines = [line.upper() if rng.random() < 0.5 else line + rng.choice([".", ",", " $", " -- ", "\r"]) for line in lines]
    return "\n".join(lines)


# ---- texts of edition 2 ------------------------------------------------------------------------------------------------------------------

FOUR_TEXTS = [
    "4", "44", "4/4|4", "4 4", "a 4", "a4b", "4. a\n4. b\n4. c", "4444 a\n4444 b\n4444 c", "x4x4 a\nx4x4 b", "4  use x\n4 use y", "GPL4", "version 4",
    "copyright 2004 me\n4 b", "a license version 4\n\nb 4", "copyright\n4 x", "copyright 4", "copyright c 4 4\n\n4", "http://4.4/4 4", "http://4\t4",
    "\t4\\4/", "4-4_4'4(4)", "$4$", "|4|", "4\v4\f4", "\n4\n\n4\n\n\n4",
]  # fmt: skip
FOUR_WORDS = ["{}"] * 6 + ["{}4", "4{}", "4", "{} 4", "{}/4", "44", "{}|4", "{}4{}", "200{}4"]
FOUR_STARTS = ["4. ", "4444 ", "v4.4 ", "copyright 2004 ", "4/4|4 ", "GPL4 ", "http://4.a/4 ", "\t4\\"]
FOUR_ENDS = [" 4", "4", " version 4", "/4", " 44.", "|4"]


def fours(salt, text):
    """The text with 4s in it. Under one salt a word always has one form, so that what was alike mostly is so still; some lines lose their 4s or get
    others, and some texts start all their lines alike."""
    rng = random.Random(f"{salt} {text}")
    start = rng.choice(FOUR_STARTS) if rng.random() < 0.1 else ""
    lines = (" ".join(word and four_form(salt, word.lower()).replace("{}", word) for word in line.split(" ")) for line in text.split("\n"))
    return "\n".join(start + four_line(rng, line) for line in lines)


@functools.lru_cache(maxsize=2**16)
def four_form(salt, word):
    return random.Random(f"{salt} {word}").choice(FOUR_WORDS)


def four_line(rng, line):
    lot = rng.random()
    if lot < 0.1:
        return line.replace("4", "")
    return (rng.choice(FOUR_STARTS) if lot > 0.9 else "") + line + (rng.choice(FOUR_ENDS) if 0.8 < lot < 0.95 else "")


# ---- texts of edition 3 ------------------------------------------------------------------------------------------------------------------

POINTS = [chr(c) for c in range(256)]
HIGH = POINTS[128:]
ACCENT_TEXTS = [
    "Été à la PLAGE", "Straße ÀÖØÞ", "« a » b\xa0c\x85d", "© 2004 4 ² x", "http://é\xa0x y", "éa x\néa y\néa z", "éé x\néé y\néé z", "ééa\nééb\nééc",
    "é x\né y\né z", "aéà\naéá\naéâ", "ab\x85é x\nab\x85é y", "a\ncopyright\x85c 1999\nb", "a license version é\n\nb c", "ª º µ ÿ ÷ ×", "é é",
    "http://é\x85x y", "http://\x85x", "http://©x y", "http://© x", "ht²tp://x y", "a\x85b", "a\xa0b", "\x85a\x85", "\xa0a\xa0", "\x85", "\xa0", "\x85\n\xa0",
    "a\x85\x85\x85b", "a\xa0\xa0/\xa0b", "a\x85\n\x85\n\x85\nb", "a \x85 b", "a\x85\tb", "«»\"'«", "a«©»b", "a\xad\xadb", "-\xad-", "(\xa0(", "_\x85_",
    "¡a¿ §b¶ ·c", "a·b", "x²³¹¼½¾y 1²", "c©c", "copyright © 2004 é", "a\ncopyright\xa0c 1\nb", "a\ncopyright\x85\xa0 1\nb", "a\n\n\xa0copyright x\n\nb",
    "a\n\n\x85copyright x\n\nb", "\xa0copyright é\nb c", "écopyright\na b", "a license\x85version 2\n\nb", "a license version 2\x85\n\nb",
    "a license version \xa0x\n\nb", "a license version é\xa0copyright x\n\nb", "élicense\n\nb c", "É license copyright Ü\n\nb", "a license version ²\n\nb",
    "ÀÁÂÃÄÅÆÇÈÉÊËÌÍÎÏÐÑÒÓÔÕÖØÙÚÛÜÝÞ", "àáâãäåæçèéêëìíîïðñòóôõöøùúûüýþßÿ", "×÷×÷ a", "éàé\néàè\néàê", "éà x\néà y\néáz\néà w", "abcé\nabcè\nabcê",
    "\x85abcd e\n\xa0abcd f\nabcd g", "abc\x85 x\nabc\x85 y\nabc\x85 z", "ab\xa0é x\nab\xa0é y\nab\xa0é z", "µµ a\nµµ b\nµµ c", "ªªa\nªªb\nªªc",
    "".join(POINTS), "".join(c + "a" for c in HIGH), "".join(c + "\n" for c in HIGH), " ".join(f"x{c}y" for c in HIGH),
]  # fmt: skip
LIKE = {"a": "àáâãäåæª", "c": "ç", "d": "ð", "e": "èéêë", "i": "ìíîï", "n": "ñ", "o": "òóôõöøº", "s": "ß", "t": "þ", "u": "ùúûüµ", "y": "ýÿ"}
MEANT = ("copyright", "license", "version", "http", "https", "c")  # words that a pass looks for, and that mostly stay
ACCENT_STARTS = ["é. ", "éé ", "aé à", "§§ ", "« ", "©\xa0", "²²²² ", "ÀÉ ", "·· é ", "éa ", "µ\x85é "]
ACCENT_ENDS = [" é", "²", "\x85", "\xa0", " ©", "é.", " version É", " »", "\xad", "\x80"]


def raised(c):
    """Its upper case, where that is one of these characters too."""
    return c.upper() if c.upper() in POINTS else c


@functools.lru_cache(maxsize=2**16)
def accent_form(salt, word):
    """Of a word in lower case."""
    rng = random.Random(f"{salt} {word}")
    if rng.random() < (0.9 if word in MEANT else 0.4):
        return word
    return "".join(rng.choice(LIKE[c]) if c in LIKE and rng.random() < 0.5 else c for c in word)


def accented(salt, word):
    return "".join(raised(c) if was.isupper() else c for c, was in zip(accent_form(salt, word.lower()), word))


def accent_line(rng, line):
    lot = rng.random()
    if lot < 0.15:
        line = spaced(rng, line)
    elif lot < 0.25:
        line = strewn(rng, line)
    return (rng.choice(ACCENT_STARTS) if lot > 0.9 else "") + line + (rng.choice(ACCENT_ENDS) if 0.8 < lot < 0.95 else "")


def accents(salt, text):
    """The text with accents in it, as `fours` puts 4s: under one salt a word always has one form."""
    rng = random.Random(f"{salt} {text}")
    start = rng.choice(ACCENT_STARTS) if rng.random() < 0.1 else ""
    lines = (re.sub("[A-Za-z]+", lambda found: accented(salt, found[0]), line) for line in text.split("\n"))
    return "\n".join(start + accent_line(rng, line) for line in lines)


def spaced(rng, text):
    """Some spaces become the two that ASCII has not."""
    return "".join(rng.choice("\x85\xa0") if c == " " and rng.random() < 0.5 else c for c in text)


def strewn(rng, text):
    """Some characters of all that ASCII has not, anywhere."""
    for _ in range(rng.randint(1, 4)):
        at = rng.randint(0, len(text))
        text = text[:at] + rng.choice(HIGH) + text[at:]
    return text


def point_soup(rng):
    """Any of the 256, or of those that mean something."""
    alphabet = rng.choice([POINTS, list("a \nC4(-/.\t\v$") + HIGH, list("\x85\xa0«»©²ÀàÿßµªºÞþ×÷¿¡·§¶\xad\x80 ac4\n\n-'(/")])
    return "".join(some(rng, alphabet, 1, 40))


def cut_starts(rng):
    """Lines that start alike in bytes, often up to half a character."""
    start, last = "".join(some(rng, "aéàµ \x85", 0, 4)), rng.choice(["éèêë", "aéà", "àâ", "µª", "é\xa0", "ab"])
    return "\n".join(start + rng.choice(last) + "".join(some(rng, WORDS + [" ", "é"], 0, 2)) for _ in range(rng.randint(2, 7)))


def wide_links(rng):
    pieces = ["http://", "https://", "http:/", " ", "\x85", "\xa0", "é", "É", "©", "²", "«", "\xad", "x", "4", "/", "\n", "\v"]
    return "".join(some(rng, pieces, 2, 14))


def wide_text(rng):
    """A text of edition 3."""
    lot = rng.random()
    if lot < 0.35:
        return accents(rng.random(), text(rng))
    if lot < 0.6:
        return rng.choice([spaced, strewn])(rng, text(rng))
    return rng.choice([point_soup, cut_starts, wide_links])(rng)


def drawn(edition, salt, text):
    """A text that was drawn, as it is asked in this edition. Edition 3 keeps the 4 too, so under some salts there are both."""
    if edition == 2 or (edition == 3 and random.Random(salt).random() < 0.3):
        text = fours(salt, text)
    return accents(salt, text) if edition == 3 else text


def fixed_texts(edition):
    return FIXED_TEXTS + FOUR_TEXTS * (edition > 1) + ACCENT_TEXTS * (edition > 2)


def text_of(edition, rng, salt):
    """A text for the passes, of this edition; in edition 3 half are made for it."""
    if edition == 3 and rng.random() < 0.5:
        return wide_text(rng)
    return drawn(edition, salt, text(rng))


def any_view(rng, lines):
    start = rng.randint(0, lines)
    return start, rng.randint(start, lines)


# ---- rows of each kind -------------------------------------------------------------------------------------------------------------------

ZERO, HALF, NINETY, ONE = bits(0.0), bits(0.5), bits(0.9), bits(1.0)
WHOLE = 2**64 - 1
MOST_DRAWS = 3000


class Maker:
    """Makes rows. What it counts on the way is told at the end."""

    def __init__(self, oracle, seed):
        self.oracle, self.edition = oracle, oracle.edition
        self.first = Oracle(1) if oracle.edition == 2 else None  # asked beside it
        self.fixed = fixed_texts(oracle.edition)
        self.seed = seed
        self.told = collections.Counter()
        self.lost = []
        self.promise = Promise(oracle)

    def rows(self, kind, how_many):
        stream = "texts" if kind in ("lines", "whole") else kind
        rng, self.borders = random.Random(f"{self.seed} {stream}"), random.Random(f"{self.seed} {stream} borders")
        return [self.row(kind, stream, rng, i) for i in range(how_many)]

    def row(self, kind, stream, rng, i):
        self.kind, self.salt = kind, f"{self.seed} {stream} {i}"
        return getattr(self, kind)(rng, i)

    def said(self, ask):
        """What the row wants: what `ask` gets of the oracle. It is counted where edition 1 says otherwise."""
        said = ask(self.oracle)
        if self.first:
            self.told[f"{self.kind}: rows that edition 1 answers otherwise"] += ask(self.first) != said
        return said

    def drawn(self, text):
        return drawn(self.edition, self.salt, text)

    def asked_on(self, text):
        """The text that a row is about."""
        if self.edition == 3:
            self.told[f"{self.kind}: rows whose text is not ASCII"] += not text.isascii()
        return text

    # passes and tables
    def text(self, rng, i):
        return self.fixed[i] if i < len(self.fixed) else text_of(self.edition, rng, self.salt)

    def lines(self, rng, i):
        t = self.asked_on(self.text(rng, i))
        want = self.said(lambda oracle: oracle.lines(t))
        return Row(f"lines_row {self.edition} {quoted(t)}", quoted("\n".join(want)), f"lines of {t!r}")

    def whole(self, rng, i):
        t = self.asked_on(self.text(rng, i))
        return self.view_row(t, 0, len(self.oracle.lines(t)))

    def part(self, rng, i):
        t = self.asked_on(text_of(self.edition, rng, self.salt))
        return self.view_row(t, *any_view(rng, len(self.oracle.lines(t))))

    def view_row(self, t, start, end):
        want = self.said(lambda oracle: oracle.view(t, start, end))
        joined = "\n".join(self.oracle.lines(t)[start:end])
        drawn = {self.oracle.ask("passes", hexed(joined)) for _ in range(6)}
        self.told["views whose common prefix is an unordered tie"] += len(drawn) > 1
        return Row(f"view_row {self.edition} {quoted(t)} {start} {end}", quoted(want), f"view {start} to {end} of {t!r}")

    def table(self, rng, i):
        t = self.asked_on(self.drawn(stored_text(rng)) if rng.random() < 0.3 else self.text(rng, i))
        want = self.said(lambda oracle: oracle.body(t))
        return Row(f"table_row {self.edition} {quoted(t)}", quoted(want), f"table of {t!r}")

    # stored texts
    def books(self, rng, texts):
        """Fills the oracle's store with these; gives their book, or two books that part them."""
        for oracle in filter(None, (self.oracle, self.first)):
            oracle.stock(texts)
        sides = parted(texts, self.borders.randint(0, licences(texts))) if self.borders.random() < 0.5 else (texts,)
        self.told["books: lent two at once"] += len(sides) == 2
        return [self.book(rng, side) for side in sides]

    def book(self, rng, texts):
        out = model.FRONT[self.edition]
        for i, s in enumerate(texts):
            if s.kind == 2:
                out += piece(1, s.name.encode("ascii"))
            out += piece(s.kind, self.oracle.body(s.text))
            last = i + 1 == len(texts) or texts[i + 1].kind == 2
            if last and rng.random() < 0.2:
                out += piece(5, b"alias")
        return out

    def setting(self, rng, most, make=shelf):
        plain = make(rng)
        texts = [s._replace(text=self.drawn(s.text)) for s in plain]
        books = self.books(rng, texts)
        t = self.asked_on(self.drawn(note(rng, plain, most)))
        return texts, books, t, len(self.oracle.lines(t))

    # scores and bounds
    def score(self, rng, i):
        texts, books, t, n = self.setting(rng, 6)
        k = rng.randrange(len(texts))
        start, end = any_view(rng, n) if rng.random() < 0.5 else (0, n)
        want = self.said(lambda oracle: oracle.ask("scores", start, end, hexed(t)).split(" ")[k])
        told = f"score of view {start} to {end} of {t!r} against {texts[k].text!r}"
        return Row(f"score_row {quoted(t)} {start} {end} {lent(books)} {k}", [0, int(want, 16)], told, ["refusal", "score bits"])

    def bounds(self, rng, i):
        texts, books, t, n = self.setting(rng, 14)
        k = rng.randrange(len(texts))
        start, end = any_view(rng, n) if rng.random() < 0.4 else (0, n)
        asked = (start, end, hexed(t), hexed(texts[k].text))
        count, *found = self.said(lambda oracle: oracle.ask("countbounds", *asked)).split(" ")
        told = f"bounds of view {start} to {end} of {t!r} against {texts[k].text!r}"
        self.agree(told, " ".join(found), lambda: self.oracle.ask("bounds", *asked))
        want = [0, int(count), int(found[0]), int(found[1]), int(found[2], 16)]
        named = ["refusal", "count", "first line", "line after last", "score bits"]
        return Row(f"bounds_row {quoted(t)} {start} {end} {lent(books)} {k}", want, told, named)

    def agree(self, told, counted, draw):
        """The original's own answer must be the counted copy's, once its ties fall so."""
        for draws in range(MOST_DRAWS):
            own = draw()
            if own == counted:
                self.told["own answers of the Rust that the counted copy gives too"] += 1
                self.told["of these drawn again, for an unordered tie"] += draws > 0
                return
            self.oracle.ask("shuffle")
        self.lost.append(f"{told}: the counted copy says {counted}, the Rust {own}, in {MOST_DRAWS} draws")

    def agree_alike(self, s, a):
        """The original's own scan must be the counted copy's where all kinds are alike. In one scan its licences stand in one order, so where a kind
        decides, ours need not be among its answers; but what is overall scores the same."""
        alike = self.oracle.counted(s.question(WHOLE, "first"))
        own = f"{alike.score:08x} {'none' if alike.named is None else alike.named}"
        own += "".join(f" ; {told_of(record)}" for record in alike.records)
        self.agree(s.told(), own, lambda: self.own_scan(s))
        self.told["scans that a kind decides"] += alike != a
        if alike.score != a.score or (alike.named is None) != (a.named is None):
            self.lost.append(f"{s.told()}: the kinds change the overall score")

    def own_scan(self, s):
        """The original's own, drawn anew; of top-down each that is drawn keeps the promise."""
        question = f"{s.word} {s.before} {hexed(s.text)}"
        answer = self.oracle.ask("placed", question)
        if s.word == "down":
            self.promise.look(question, ranges_of(answer))
        return answer

    # scans
    def limits(self, rng, met):
        threshold = rng.choice([ZERO, HALF, HALF, NINETY, NINETY, ONE, rng.choice(met), rng.choice(met), rng.choice(met)])
        shallow = rng.choice([ONE, ONE, bits(0.99), HALF, ZERO, rng.choice(met)])
        return threshold, shallow

    def eliminate_setting(self, rng, make=shelf):
        texts, books, t, n = self.setting(rng, 12, make)
        everything = self.oracle.counted(f"counteliminate {ZERO:08x} {ONE:08x} 1 4 {WHOLE} {hexed(t)}")
        threshold, shallow = self.limits(rng, [everything.score] + [record.score for record in everything.records])
        optimize, passes = int(rng.random() < 0.85), rng.choice([0, 1, 2, 2, 3, 3, 4])
        mode = ELIMINATION.format(optimize="true" if optimize else "false", passes=passes)
        before = f"{threshold:08x} {shallow:08x} {optimize} {passes}"
        need = model.results_need(model.Question("eliminate", optimize=bool(optimize), passes=passes))
        return Setting(texts, books, t, threshold, shallow, mode, "eliminate", before, need)

    def down_setting(self, rng, make=shelf):
        step = rng.choice([1, 1, 2, 3, 4, 5, 6, 7, WHOLE])
        texts, books, t, n = self.setting(rng, 5 if step == 1 else 8 if step == 2 else 12, make)
        scores = [int(x, 16) for _ in range(3) for x in self.oracle.ask("scores", *any_view(rng, n), hexed(t)).split(" ")]
        threshold, shallow = self.limits(rng, [max(scores), rng.choice(scores)])
        before = f"{threshold:08x} {shallow:08x} {step}"
        need = model.results_need(model.Question("down", text=t.encode("utf-8"), threshold=threshold))
        return Setting(texts, books, t, threshold, shallow, TOP_DOWN.format(step=step), "down", before, need)

    def eliminate(self, rng, i):
        return self.scan_row(self.eliminate_setting(rng))

    def down(self, rng, i):
        return self.scan_row(self.down_setting(rng))

    def ties(self, rng, i):
        """Both scans, of licences that share texts."""
        return self.scan_row(self.eliminate_setting(rng, sharing) if i % 3 else self.down_setting(rng, sharing))

    def scan_row(self, s):
        a = self.said(lambda oracle: oracle.counted(s.question(WHOLE)))
        self.agree_alike(s, a)
        self.tell(s, a)
        name, licence = a.licence(s.texts)
        want = [a.count, a.score, licence, len(a.records), len(name), *name.encode("ascii"), *a.flat()]
        named = ["count", "score bits", "kind", "records", "length of the name"] + ["name"] * len(name) + record_names(a)
        return Row(f"scan_row {s.call()}", want, s.told(), named)

    def job(self, rng, i):
        """The public scan: budgets that do not pay all, and those that just do."""
        s = self.eliminate_setting(rng) if i % 2 else self.down_setting(rng)
        count, n = self.oracle.counted(s.question(WHOLE)).count, len(s.texts)
        budget = max(0, rng.choice([0, n - 1, n, n + 1, count - 1, count - 1, count, count + 1, rng.randint(0, count), rng.randint(0, count), WHOLE]))
        a = self.said(lambda oracle: oracle.counted(s.question(budget)))
        self.told["scans that their budget stopped"] += a.refusal == 12
        name, licence = a.licence(s.texts)
        room = s.need + rng.randint(0, 3)
        area = (a.flat() + [7] * room)[:room]
        part = model.NO_PART if a.named is None else model.shelved(s.books)[a.named].part
        want = [a.refusal, a.count, a.score, licence, len(a.records), len(name), *part, *name.ljust(64, "\0").encode("ascii"), *area]
        named = ["refusal", "count", "score bits", "kind", "records", "length of the name", *["part of the name"] * 3]
        named += ["name"] * 64 + record_names(a)
        named += ["results past the records"] * (len(want) - len(named))
        return Row(f"job_row {s.call()} {budget} {room}", want, f"{s.told()}, budget {budget}", named)

    def tell(self, s, a):
        if s.word == "down":
            self.promise.look(s.question(WHOLE), a.records)
        self.told["scans: records"] += len(a.records)
        self.told["scans: empty ranges among the records"] += sum(record.first == record.after for record in a.records)
        for record in a.records:
            self.told[f"scans: records of kind {s.texts[record.number].kind}"] += 1
        if a.named is not None:
            self.told[f"scans: licence named by kind {s.texts[a.named].kind}"] += 1
        self.told["scans: scorings"] += a.count


class Setting(collections.namedtuple("Setting", "texts books text threshold shallow mode word before need")):
    def question(self, budget, copy="count"):
        return f"{copy}{self.word} {self.before} {budget} {hexed(self.text)}"

    def call(self):
        return f"{quoted(self.text)} {lent(self.books)} (limits {self.threshold:#x} {self.shallow:#x}) {self.mode}"

    def told(self):
        texts = ", ".join(f"{s.name} {s.kind} {s.text!r}" for s in self.texts)
        books = " and ".join(f"{len(book)} bytes" for book in self.books)
        return f"{self.mode} at {self.threshold:08x} {self.shallow:08x} of {self.text!r}, stored: {texts}, in books of {books}"


class Counted(collections.namedtuple("Counted", "refusal count score named records")):
    def licence(self, texts):
        """Name and kind of the licence named, or nothing."""
        return ("", 0) if self.named is None else (texts[self.named].name, texts[self.named].kind)

    def flat(self):
        return [x for r in self.records for x in r]


def piece(kind, body):
    """A record of a book."""
    return little(len(body), 4) + little(kind, 2) + body


def record_names(a):
    return [f"record {i}: {part}" for i in range(len(a.records)) for part in model.Record._fields]


# ---- the comparison ----------------------------------------------------------------------------------------------------------------------

# each kind of row: how many, how many in one statement, what they are
KINDS = {
    "lines": (1800, 30, "texts through the line passes"),
    "whole": (1800, 20, "texts through all passes, all lines in view"),
    "part": (300, 20, "views of some of the lines through all passes"),
    "table": (300, 12, "compiled bodies"),
    "score": (300, 8, "scores of a view"),
    "bounds": (250, 3, "bounds with their counts"),
    "eliminate": (250, 1, "elimination scans with their counts"),
    "down": (250, 1, "top-down scans with their counts"),
    "ties": (150, 1, "scans whose licences share texts"),
    "job": (60, 1, "public scans with a budget and a results area"),
}
# a row that must be refused
CONTROL = Row('lines_row 1 "a"', quoted("b"), "control")
ROWS_A_RUN = 600
SHOWN = 10
TAKEN_APART = 3


def told(message):
    """Of antt's message the part that says what it computed."""
    said = " ".join(message.split())
    part = re.search(r"computed as far as .*? \(found\)|stopped at the step limit|what the two types compute to is not shown", said)
    return part[0] if part else said


def all_differing(trial, rows, size, at_once):
    """The rows that differ, with antt's messages; so many at once go to antt."""
    return [pair for i in range(0, len(rows), at_once) for pair in differing(trial, rows[i : i + at_once], size)]


def compared(trial, rows, size):
    """Prints the rows that differ, and gives their number."""
    found = all_differing(trial, rows, size, ROWS_A_RUN)
    for i, (row, message) in enumerate(found[:SHOWN]):
        print(f"\nDIFFERS: {row.told}\n  the oracle's answer: {row.want}")
        if isinstance(row.want, list) and i < TAKEN_APART:
            print(f"  what differs: {', '.join(differing_parts(trial, row))}")
        print(f"  antt: {told(message)}")
    if len(found) > SHOWN:
        print(f"\n{len(found) - SHOWN} more differ")
    return len(found)


def main():
    options = argparse.ArgumentParser(description="Compares the definitions with the original Rust.")
    options.add_argument("--edition", type=int, choices=model.EDITIONS, default=1, help="the edition that is compared (default 1)")
    options.add_argument("--seed", default="1", help="another seed gives other inputs (default 1)")
    options.add_argument("--scale", type=float, default=1.0, help="so many times the rows (default 1)")
    options.add_argument("--only", default=",".join(KINDS), help="kinds of rows, with commas between: " + " ".join(KINDS))
    options.add_argument("--keep", action="store_true", help="keep the temporary folder")
    options = options.parse_args()

    began = time.monotonic()
    oracle = Oracle(options.edition)
    trial = Trial(options.keep)
    total = 0
    table = []
    try:
        if not trial.failures({"control": batch_statement("control", [CONTROL])}):
            raise Trouble("a row that is wrong was not refused")
        maker = Maker(oracle, options.seed)
        for kind in options.only.split(","):
            how_many, size, what = KINDS[kind]
            then = time.monotonic()
            rows = maker.rows(kind, max(1, round(how_many * options.scale)))
            asked = time.monotonic()
            differ = compared(trial, rows, size)
            total += differ
            table.append(f"{kind:10} {len(rows):6} rows {differ:6} differ {asked - then:6.1f} s + {time.monotonic() - asked:6.1f} s   {what}")
            print(table[-1], flush=True)
    finally:
        trial.close()

    print(f"\nedition {options.edition}, seed {options.seed}, {time.monotonic() - began:.0f} s (oracle + antt for each kind)")
    print("\n".join(table))
    for what, count in sorted(maker.told.items()):
        print(f"{count:6} {what}")
    print(f"{len(maker.lost):6} answers of the counted copy that the Rust never gave")
    for what in maker.lost[:SHOWN]:
        print(f"  {what}")
    print(maker.promise.told())
    lost = maker.lost + maker.promise.lost
    print(f"{total + len(lost):6} differences")
    return 1 if total or lost else 0


if __name__ == "__main__":
    try:
        sys.exit(main())
    except Trouble as trouble:
        print(f"compare: {trouble}", file=sys.stderr)
        sys.exit(2)
