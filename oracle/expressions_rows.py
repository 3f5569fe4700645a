#!/usr/bin/env python3
"""Holds the archive's two calls on licence expressions, called through C, against the second reading (expressions.py).

    oracle/expressions_rows.py [--seed N] [--texts N] [--quick]

Asks target/expressions (built and run by host/drivers/expressions.sh) and the second reading the same questions: texts of the kinds of expressions_compare.py, with lists
that have its parts, parts almost like them and lines that are none, and outputs of the written length, one less, one more and others, filled with garbage.
Compares both answers and every byte of the output; text, list and the bytes behind each buffer must be as they were. Each answer must be met at
least 20 times. The last line is 'N passed, M failed'. Exit status: 0 none failed, 1 some did, 2 the comparison could not be made.
"""

import argparse
import collections
import itertools
import os
import random
import struct
import subprocess
import sys
import threading

import expressions
import expressions_compare

HERE = os.path.dirname(os.path.abspath(__file__))
DRIVER = os.path.join(HERE, "..", "host", "drivers", "expressions.sh")
LENGTHS = struct.Struct("<3Q")
REPLY = struct.Struct("<7Q")
LEAST = 20
SHOWN = 10
AT_ONCE = 2000

Row = collections.namedtuple("Row", "text accepted out")


# ---- questions -----------------------------------------------------------------------------------------------------------------------------


def accepted_by(rng, text):
    """A list that has some of the text's parts, letter case aside, and others."""
    word, tree = expressions.expression(text)
    parts = [expressions.spelled(part) for part in expressions.parts_of(tree)] if word == "tree" else [b"a", b"MIT"]
    kept = [part.swapcase().replace(b" with ", b" WITH ") if rng.random() < 0.4 else part for part in parts if rng.random() < 0.8]
    others = [expressions_compare.beside(rng, rng.choice(parts)) for _ in range(rng.randrange(3))] + rng.sample([b"", b"AND", b"(a)", b"a OR b", b"zz", b"a  WITH b"], 2)
    lines = kept + others
    rng.shuffle(lines)
    return b"\n".join(lines) + rng.choice([b"", b"\n"])


def room_for(rng, text):
    """An output of garbage, as long as what is written or near it."""
    need = len(expressions.written(text) or b"") if expressions.expression(text)[0] == "tree" else len(text)
    size = rng.choice([need, need, need, need - 1, need - 1, need + 1, need + 9, 0, len(text) + len(text) // 5])
    return rng.randbytes(max(size, 0))


def rows(rng, seed, number, quick):
    for kind, texts in expressions_compare.kinds(seed, number, quick):
        for text in texts:
            yield kind, Row(text, accepted_by(rng, text), room_for(rng, text))


# ---- answers -------------------------------------------------------------------------------------------------------------------------------


class Archive:
    """target/expressions, which calls the archive."""

    def __init__(self):
        self.process = subprocess.Popen([DRIVER], stdin=subprocess.PIPE, stdout=subprocess.PIPE)

    def answers(self, asked):
        """Of many rows at once: one thread writes while this one reads."""
        def write():
            for row in asked:
                self.process.stdin.write(LENGTHS.pack(*map(len, row)) + b"".join(row))
            self.process.stdin.flush()

        writer = threading.Thread(target=write)
        writer.start()
        for row in asked:
            yield self.answer(row)
        writer.join()

    def answer(self, row):
        numbers = REPLY.unpack(self.read(REPLY.size))
        return numbers, [self.read(len(each)) for each in row]

    def read(self, size):
        out = self.process.stdout.read(size)
        if len(out) != size:
            print("expressions_rows: target/expressions breaks off", file=sys.stderr)
            sys.exit(2)
        return out


def expected(row):
    satisfied = expressions.satisfy(row.text, row.accepted)
    spelled, out = expressions.write_expression(row.text, row.out)
    return (*map(int, satisfied), *spelled, 0), [row.text, row.accepted, out]


def compare(rng, seed, number, quick):
    archive, met, passed, failed = Archive(), collections.Counter(), collections.Counter(), 0
    asked = rows(rng, seed, number, quick)
    while some := list(itertools.islice(asked, AT_ONCE)):
        for (kind, row), got in zip(some, archive.answers([row for _, row in some])):
            want = expected(row)
            if got == want:
                passed[kind] += 1
            else:
                failed += 1
                if failed <= SHOWN:
                    print(f"{kind}: {row}\n  archive {got}\n  reading {want}")
            met[f"satisfy {want[0][0]} {want[0][1]}"] += 1
            met[f"write {want[0][3]}"] += 1
    return met, passed, failed


def main():
    options = argparse.ArgumentParser(description=__doc__.split("\n")[0])
    options.add_argument("--seed", type=int, default=1)
    options.add_argument("--texts", type=int, default=60000)
    options.add_argument("--quick", action="store_true")
    given = options.parse_args()
    met, passed, failed = compare(random.Random(given.seed), given.seed, given.texts, given.quick)
    for kind, count in passed.items():
        print(f"{kind}: {count} passed")
    for answer in ("satisfy 0 0", "satisfy 0 1", "satisfy 13 0", "satisfy 14 0", "write 0", "write 11", "write 13", "write 14"):
        print(f"{answer}: met {met[answer]} times")
        failed += met[answer] < LEAST
    print(f"{sum(passed.values())} passed, {failed} failed")
    return 1 if failed else 0


if __name__ == "__main__":
    sys.exit(main())
