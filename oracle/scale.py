#!/usr/bin/env python3
"""Holds the proved code, called through C, against the original on many questions.

    oracle/scale.py [--edition E] [--seeds N] [--first K]

Asks the original (oracle/README.md), from edition 2 on mended, and target/answers (built and run by host/drivers/answers.sh) the same questions and
compares the answers line by line:

  lists     replay.py's lists of tables, scores, bounds and scans, made anew for each of N seeds (default 100): passes by the tables that
            they end in, scores by their bits, counts and budgets, both scans
  short     the table of every text of up to five bytes over an alphabet in which each byte means something to some pass, and of texts full of 4s
  saves     2 to 12 notes in turn on one allowance, which pays all of them or not
  files     the table of each copyright file of the installed Debian packages to 10,000 bytes, and scans of them against a store of common licences
  pairs     in edition 3 the table of each two code points up to U+00FF, one behind the other, in each of some places where a pass looks at them
  wide      in edition 3 the tables of random texts of these code points

Every question on a view or a scan is asked of target/answers twice: with one book, and behind `border K` with two, which the original's one store
decides as well; a scan once more, with its budget as what is left of an allowance, of one book or two. Scans are asked with the bytes of their ranges,
which in Rust are slices of the text. The original's unordered ties are settled in its answers as oracle/README.md says. Every area is filled with garbage
before a call, and target/answers stops where one is not as it must be after it, where the name's part is not the named licence's, or where an
allowance has not grown by the original's counts. In edition 2 the texts of the lists have 4s put into them, in edition 3 accents. What the original says
of top-down must keep what #113 promises. Prints the number of cases of each kind, in edition 2 also of how many edition 1 has another answer, in edition
3 how many ask about a text that is not ASCII, and each difference.
"""

import argparse
import glob
import itertools
import os
import random
import subprocess
import sys
from collections import Counter

import compare
import model
import replay
from compare import ONE, WHOLE, Trouble, bits, hexed
from promise import Promise, ranges_of
from replay import SCANS, Theirs, asked

ALPHABET = "aC4 \n$-"
SHORT = 5
FILE_MOST = 10000  # bytes; the original takes long for more
VIEWS = ("score", "countbounds")
PLACES = ["z a{0}{1}b c", "z http://{0}{1}b c", "z\ncopyright{0}{1}1 k\nb c", "é{0}{1}x b\né{0}{1}y c\né{0}{1}z d"]  # of two code points
WIDE_TEXTS = 60000
SAVES = 12  # of each seed
OTHERWISE = {1: "", 2: ", edition 1 has another answer to {:8}", 3: ", a text that is not ASCII in {:8}"}


class Ours:
    def __init__(self, edition):
        program = os.path.join(compare.REPOSITORY, "host", "drivers", "answers.sh")
        self.process = subprocess.Popen([program, str(edition)], stdin=subprocess.PIPE, stdout=subprocess.PIPE, text=True)

    def ask(self, question):
        self.process.stdin.write(question + "\n")
        self.process.stdin.flush()
        answer = self.process.stdout.readline()
        if not answer.endswith("\n"):
            raise Trouble(f"target/answers stops at: {question[:400]}")
        return answer.rstrip("\n")


def not_ascii(word, *rest):
    """Has a text of this question a byte of 128 or more? It is the last word, and on a view the two last."""
    return any(not bytes.fromhex(text.strip("-")).isascii() for text in rest[-2 if word in VIEWS else -1 :])


class Tally:
    """Holds our answers against the original's. The borders are drawn by the seed that the run starts with."""

    def __init__(self, oracle, seed):
        edition, self.promise = oracle.edition, Promise(oracle)
        self.ours, self.edition, self.first = Ours(edition), edition, Theirs(1) if edition == 2 else None
        self.rng, self.used = random.Random(f"{seed} borders"), random.Random(f"{seed} allowances")
        self.asked, self.otherwise, self.differing, self.licences, self.placed = Counter(), Counter(), 0, 0, 0

    def hold(self, question, theirs):
        """With one book; and where two can be lent with two, parted anywhere, also before the first licence and behind the last."""
        word, *rest = question.split(" ")
        self.licences = 0 if word == "clear" else self.licences + (word == "add" and rest[1] == "2")
        if word == "countdown":
            self.promise.look(question, ranges_of(theirs))
        otherwise = self.other(question, theirs)
        self.compare(word, asked(question), theirs, otherwise)
        if word in VIEWS + SCANS:
            border = self.rng.randint(0, self.licences if word in SCANS else 1)
            self.compare(f"{word}, two books", f"border {border} {asked(question)}", theirs, otherwise)
        if word in SCANS:
            self.lend(int(rest[-2]))
            self.charge(f"{word}, an allowance", question, theirs, otherwise)

    def other(self, question, theirs):
        """Has edition 1 another answer, or in edition 3 a text that is not ASCII?"""
        return self.first.ask(question) != theirs if self.first else not_ascii(*question.split(" "))

    def lend(self, left):
        """An allowance of which so much is left, as much of it used as may be, or less."""
        most = WHOLE - left
        used = self.used.choice([0, most, min(most, self.used.randint(0, 99)), self.used.randint(0, most)])
        if self.ours.ask(f"allowance {used + left} {used}") != "ok":
            raise Trouble("target/answers takes no allowance")

    def charge(self, kind, question, theirs, otherwise):
        """A scan on that allowance as it is now, of which the question's budget is left; with one book or with two."""
        border = self.used.choice(["", f"border {self.used.randint(0, self.licences)} "])
        self.compare(kind, f"allowed {border}{asked(question)}", theirs, otherwise)

    def hold_all(self, questions, answers):
        for question, theirs in zip(questions, answers, strict=True):
            self.hold(question, theirs)

    def told(self):
        for kind, count in sorted(self.asked.items()):
            print(f"{kind:29} {count:8}" + OTHERWISE[self.edition].format(self.otherwise[kind]))
        print(self.promise.told())
        print(f"edition {self.edition}: {self.asked.total()} cases, {self.placed} ranges with their bytes, {self.differing} differences")

    def compare(self, kind, question, theirs, otherwise):
        ours = self.ours.ask(question)
        self.asked[kind] += 1
        self.otherwise[kind] += otherwise
        self.placed += theirs.count(" ; ")
        if theirs != ours:
            self.differing += 1
            print(f"differs: {question[:400]}\n  original {theirs[:300]}\n  ours     {ours[:300]}")


def lists(tally, oracle, first, seeds):
    for seed in range(first, first + seeds):
        for make in (replay.replay_tables, replay.replay_scans):
            out = replay.listed(make, oracle, seed)
            tally.hold_all([q for q in out.questions if q and not q.startswith("#")], out.answers)
        saves(tally, oracle, seed)


def any_scan(rng, text):
    """A question with a place for its budget."""
    limits = f"{rng.choice([compare.ZERO, compare.HALF, bits(0.8), compare.NINETY, ONE]):08x} {rng.choice([compare.HALF, ONE, ONE]):08x}"
    if rng.random() < 0.5:
        return f"counteliminate {limits} {rng.choice([0, 1, 1, 1])} {rng.randint(0, 3)} {{}} {text}"
    return f"countdown {limits} {rng.choice([1, 1, 2, 3, WHOLE])} {{}} {text}"


def count_of(answer):
    return int(answer.split(" ")[1])


def save(tally, oracle, rng, scans):
    """Notes in turn on one allowance. For each the original has the budget that its own counts have left."""
    total = sum(count_of(oracle.ask(scan.format(WHOLE))) for scan in scans)
    left = rng.choice([total, total + 1, max(0, total - 1), rng.randint(0, total), rng.randint(0, total), WHOLE])
    tally.lend(left)
    for question in scans:
        question = question.format(left)
        theirs = oracle.ask(question)
        tally.charge("notes of a Save", question, theirs, tally.other(question, theirs))
        left -= count_of(theirs)


def saves(tally, oracle, seed):
    rng = random.Random(f"{seed} saves")
    for _ in range(SAVES):
        out, stored = replay.List(oracle, f"{seed} saves"), compare.shelf(rng)
        replay.stock(out, stored)
        tally.hold_all(out.questions, out.answers)
        save(tally, oracle, rng, [any_scan(rng, out.text(compare.note(rng, stored, 9))) for _ in range(rng.randint(2, 12))])


def tables(tally, oracle, texts):
    for text in texts:
        question = f"table {hexed(text)}"
        tally.hold(question, oracle.ask(question))


def short():
    for n in range(SHORT + 1):
        for letters in itertools.product(ALPHABET, repeat=n):
            yield "".join(letters)
    yield from compare.FOUR_TEXTS


def pairs():
    for place, first, second in itertools.product(PLACES, compare.POINTS, compare.POINTS):
        yield place.format(first, second)


def wide(seed):
    rng = random.Random(f"{seed} wide")
    return (compare.wide_text(rng) for _ in range(WIDE_TEXTS))


def installed(edition):
    """Without what this edition does not take."""
    last = "\xff" if edition == 3 else "\x7f"
    for path in sorted(glob.glob("/usr/share/doc/*/copyright")):
        with open(path, encoding="utf-8", errors="ignore", newline="") as file:
            text = "".join(c for c in file.read() if c <= last)
        if len(text) <= FILE_MOST:
            yield text


def files(tally, oracle):
    texts = list(dict.fromkeys(installed(oracle.edition)))
    tables(tally, oracle, texts)
    questions = ["clear"]
    for i, text in enumerate(replay.licences()):
        questions.append(f"add {hexed(f'L{i:02}')} 2 {hexed(text)}")
    for text in texts:
        questions.append(f"counteliminate {bits(0.8):08x} {ONE:08x} 1 3 {WHOLE} {hexed(text)}")
        questions.append(f"counteliminate {bits(0.5):08x} {bits(0.7):08x} 1 2 40 {hexed(text)}")
    for question in questions:
        tally.hold(question, oracle.ask(question))


def main():
    options = argparse.ArgumentParser(description="Compares the proved code with the original on many questions.")
    options.add_argument("--edition", type=int, choices=model.EDITIONS, default=1)
    options.add_argument("--seeds", type=int, default=100)
    options.add_argument("--first", type=int, default=1)
    options = options.parse_args()
    oracle = Theirs(options.edition)
    tally = Tally(oracle, options.first)
    lists(tally, oracle, options.first, options.seeds)
    tables(tally, oracle, short())
    files(tally, oracle)
    if options.edition == 3:
        tables(tally, oracle, itertools.chain(pairs(), wide(options.first)))
    tally.told()
    return 1 if tally.differing or tally.promise.lost else 0


if __name__ == "__main__":
    try:
        sys.exit(main())
    except Trouble as trouble:
        print(f"scale: {trouble}", file=sys.stderr)
        sys.exit(2)
