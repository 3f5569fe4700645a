#!/usr/bin/env python3
"""Holds m and t of the command scan against the second reading (oracle/model.py), run by host/test.sh: pairs.py COMMAND...

Random notes, of licences that are alike, cut and mixed, against one book and against two, by both modes. Of each line of JSON: every score has its m and
t and is 2m/t in binary32; overall they are the best stored text's, and of a range those of its lines as the scan had them, so with the ranges before it
blanked. Then budgets: of the ranges so many have m and t as scorings are left. The last line is 'N passed, M failed'; the exit status is 0 only where M
is 0."""
import json
import os
import random
import struct
import subprocess
import sys
import tempfile

sys.path.insert(0, os.path.join(os.path.dirname(os.path.abspath(__file__)), "..", "..", "oracle"))
import model

WORDS = "alpha beta gamma delta epsilon zeta eta theta license permission granted notice é".split()
WAYS = [
    ["--threshold", "0.5"],
    ["--threshold", "0", "--passes", "6"],
    ["--threshold", "0.3", "--thorough", "--second"],
    ["--threshold", "0.6", "--shallow", "0.7", "--thorough"],
    ["--top-down", "1", "--threshold", "0.6", "--thorough"],
    ["--no-optimize"],
]
SHOWN = 5


class Tally:
    def __init__(self):
        self.passed, self.failed, self.met = 0, 0, dict.fromkeys(("over", "further", "other", "turned", "unpaid", "second"), 0)

    def hold(self, good, why):
        self.passed += bool(good)
        self.failed += not good
        if not good and self.failed <= SHOWN:
            print(f"failed: {why}")


def text(rng, lines):
    return "\n".join(" ".join(rng.choices(WORDS, k=rng.randint(2, 7))) for _ in range(lines))


def damaged(rng, whole):
    words = whole.split(" ")
    for _ in range(2):
        words[rng.randrange(len(words))] = rng.choice(WORDS)
    return " ".join(words)


def note(rng, texts):
    parts = []
    for _ in range(rng.randint(1, 6)):
        own = rng.choice(texts)
        parts.append(rng.choice([own, own, damaged(rng, own), text(rng, rng.randint(1, 3))]))
        parts += [""] * (rng.random() < 0.3)
    return "\n".join(parts)


def write(name, content):
    with open(name, "w", encoding="utf-8") as file:
        file.write(content)


def run(command, *words):
    ran = subprocess.run([*command, *words], capture_output=True, check=False)
    return ran.stdout, ran.returncode


def make_book(command, rng, name, texts):
    lines = []
    for i, original in enumerate(texts):
        write(f"{name}{i}", original)
        write(f"{name}{i}.header", text(rng, 2))
        lines += [f"{name}{i} original {name}{i}", f"{name}{i} header {name}{i}.header"]
    write("list", "\n".join(lines) + "\n")
    if run(command, "book", "--edition", "3", f"{name}.book", "list")[1] != 0:
        sys.exit("pairs: no book")
    with open(f"{name}.book", "rb") as file:
        return file.read()


def values(told):
    """Every object with a score."""
    for inner in told.values() if isinstance(told, dict) else told if isinstance(told, list) else ():
        yield from values(inner)
    if isinstance(told, dict) and "score" in told:
        yield told


def binary32(x):
    return struct.unpack("<f", struct.pack("<f", x))[0]


def is_value(told):
    if told["score"] is None or told["m"] is None:
        return told["m"] is None and told["t"] is None
    return binary32(told["score"]) == (binary32(2 * told["m"] / told["t"]) if told["t"] else 0.0)


def hold_note(tally, told, shelf, down):
    with open(told["note"], "rb") as file:
        whole = model.Note(model.lines_of(file.read(), 3))
    for each in values(told):
        tally.hold(is_value(each) and (each["m"] is not None or each["score"] is None), f"2m/t: {each}")
    scores = [model.score(whole.table(0, len(whole.lines)), stored.table) for stored in shelf]
    best = max(zip(scores, shelf), key=lambda pair: model.rank(pair[1], pair[0]))[0]
    if not down:
        tally.hold((told["m"], told["t"]) == (best.m, best.t), f"overall: {told}, not {best.m} and {best.t}")
    seen = set()
    for each in told["ranges"]:
        lines = set(range(each["first"], each["after"]))
        own = model.score(whole.table(each["first"], each["after"]), shelf[each["number"]].table)
        tally.hold((each["m"], each["t"]) == (own.m, own.t), f"a range of {told['note']}: {each}, not {own.m} and {own.t}")
        tally.met["over"] += bool(lines & seen)
        seen |= lines
        whole = whole if down else whole.blanked(each["first"], each["after"])
    tally.met["further"] += len(told.get("further", []))
    if "second" in told and "further" in told:
        hold_turned(tally, told)
    tally.met["other"] += sum(isinstance(each.get(key), dict) for each in [told, *told["ranges"]] for key in ("rival", "second"))


def hold_turned(tally, told):
    """Where another licence scores higher on a range's lines, --thorough names it, and the range's own licence is the next one."""
    for each in told["ranges"]:
        rival = each["rival"] or {"score": 0, "licence": None}
        for found in told["further"]:
            if rival["score"] > each["score"] and all(found[key] == each[key] for key in ("first", "after")) and found["licence"] == rival["licence"]:
                same = all(found["second"][key] == each[key] and found[key] == rival[key] for key in ("score", "m", "t"))
                tally.hold(same and found["rival"] is False, f"{told['note']}: {found} beside {each}")
                tally.met["turned"] += 1


def turned(tally, command, rng):
    """Of two licences the longer is best over the whole note, which has some of its rest, and the shorter on the lines that its range then has."""
    short, rest = " ".join(f"x{i}" for i in range(11)), [f"y{i}" for i in range(7)]
    make_book(command, rng, "K", [f"{short}\n{' '.join(rest)}", short])
    for i in range(5):
        junk = "\n".join(" ".join([f"q{k}{n}" for n in range(i + 2)] + rest[k : k + 2]) for k in range(6))
        write("turned", f"{junk}\n{short}" if i % 2 else f"{short}\n{junk}")
        words = ["scan", "--json", "--threshold", "0.4", "--thorough", "--second", "K.book", "turned"]
        hold_turned(tally, json.loads(run(command, *words)[0]))


def hold_budgets(tally, command, told, words):
    """From the scan's own count on each scoring more pays m and t of one range more."""
    ranges, count = len(told["ranges"]), told["scorings"]
    for more in range(ranges + 2):
        (short,) = (json.loads(line) for line in run(command, *words, "--budget", str(count + more), told["note"])[0].splitlines())
        paid = [each["m"] is not None for each in short["ranges"]]
        tally.hold(paid == [i < more for i in range(ranges)], f"{told['note']} with {more} left: {paid}")
        spent = short["more"] == more if more <= ranges else short["more"] >= ranges
        tally.hold(spent and short["scorings"] == count, f"{told['note']} with {more} left: {short['more']} more")
        tally.met["unpaid"] += paid.count(False)


def main():
    command, rng, tally = sys.argv[1:], random.Random(105), Tally()
    command[-1] = os.path.abspath(command[-1])
    with tempfile.TemporaryDirectory() as folder:
        os.chdir(folder)
        texts = [[text(rng, rng.randint(1, 6)) for _ in range(5)] for _ in range(2)]
        books = [make_book(command, rng, name, own) for name, own in zip("MN", texts)]
        notes = [f"note{i}" for i in range(30)]
        for name in notes:
            write(name, note(rng, texts[0] + texts[1]))
        for lent, way in [(lent, way) for lent in (books[:1], books) for way in WAYS]:
            words = ["scan", "--json", *way, "M.book", *(["--beside", "N.book"] if len(lent) == 2 else [])]
            shelf = model.shelved(tuple(lent))
            for line in run(command, *words, *notes)[0].splitlines():
                told = json.loads(line)
                hold_note(tally, told, shelf, "--top-down" in way)
                tally.met["second"] += any(shelf[each["number"]].part.second for each in told["ranges"])
                if way == WAYS[0]:
                    hold_budgets(tally, command, told, words)
        turned(tally, command, rng)
    for what, times in tally.met.items():
        tally.hold(times >= 5, f"{what}: met {times} times")
    print(f"{tally.passed} passed, {tally.failed} failed")
    return 1 if tally.failed else 0


if __name__ == "__main__":
    sys.exit(main())
