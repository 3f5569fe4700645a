#!/usr/bin/env python3
"""Holds the places of scan --json, and the lines of scan --show, against the notes as they stand on disk, run by host/test.sh: places.py COMMAND...

Each range and further finding is cut out of the file by its bytes, and is then the lines that it names; where those start is counted here, by newlines
alone. The notes: the example, and mixtures of licences of words of our own, with lines that end by LF or CR LF, with and without a last newline, with
accents, with characters that --ascii maps or drops, with bytes that are no UTF-8, and empty ones; against one book and two, of each edition, by both
modes. What --show prints is the same report with the lines put in, each made safe as it is written here once more. Of top-down with a threshold above 0.0 the
ranges lie side by side, also in notes with a licence in every other line, and until any budget. The last line is 'N passed, M failed'; the exit status is 0
only where M is 0."""
import json
import os
import random
import re
import struct
import subprocess
import sys
import tempfile
import types

ROOT = os.path.join(os.path.dirname(os.path.abspath(__file__)), "..", "..")
sys.path.append(os.path.join(ROOT, "oracle"))  # behind this folder: each has a places.py
import model

WORDS = "alpha beta gamma delta epsilon zeta eta theta license permission granted notice".split()
ACCENTS = "été déjà größer façon señor".split()
# what no edition takes, at either end of a line or within it: it is mapped to nothing, to one byte, to several, or is no UTF-8
ODD = ["\u20ac", "\ufeff", "\u2019", "\u201c", "\u2026", "\ufb03", "\U0001f512", "\u2028", "\u202e"]
NO_UTF8 = [b"\xe9", b"\xff", b"\xc3", b"\xe2\x80", b"\xed\xa0\x80", b"\x85"]
CONTROLS = [b"\x00", b"\x0b", b"\x0c", b"\x1b[31m", b"\x7f", b"\t", b"\\", b"\r"]
WAYS = [
    ["--threshold", "0.5"],
    ["--threshold", "0", "--passes", "6"],
    ["--threshold", "0", "--passes", "2", "--thorough"],
    ["--threshold", "0.3", "--thorough", "--second"],
    ["--threshold", "0.6", "--shallow", "0.7", "--thorough"],
    ["--top-down", "1", "--threshold", "0.6", "--thorough"],
    ["--top-down", "2", "--threshold", "0"],
]
MET = "ranges further empty at_end over crlf unended accents mapped no_utf8 second down shown beside half stopped".split()
SHOWN = 5


class Tally:
    def __init__(self, met=()):
        self.passed, self.failed, self.met = 0, 0, dict.fromkeys(met, 0)

    def hold(self, good, why):
        self.passed += bool(good)
        self.failed += not good
        if not good and self.failed <= SHOWN:
            print(f"failed: {why}")

    def end(self):
        for what, times in self.met.items():
            self.hold(times >= 5, f"{what}: met {times} times")
        print(f"{self.passed} passed, {self.failed} failed")
        return 1 if self.failed else 0


def write(name, content):
    with open(name, "wb") as file:
        file.write(content)


def read(name):
    with open(name, "rb") as file:
        return file.read()


def run(command, *words):
    return subprocess.run([*command, *words], capture_output=True, check=False)


def text(rng, lines, words):
    return "\n".join(" ".join(rng.choices(words, k=rng.randint(2, 7))) for _ in range(lines)).encode()


def soiled(rng, line, kinds):
    """A line with something odd at its start, its end or within."""
    odd = rng.choice(kinds)
    at = rng.choice([0, len(line), rng.randint(0, len(line))])
    while 0 < at < len(line) and line[at] & 0xC0 == 0x80:
        at -= 1
    return line[:at] + odd + line[at:]


def note(rng, texts, words, kinds):
    lines = []
    for _ in range(rng.randint(1, 6)):
        own = rng.choice(texts)
        lines += rng.choice([own, own, text(rng, rng.randint(1, 3), words)]).split(b"\n")
        lines += [b""] * rng.choice([0, 0, 1, 3])
    if kinds:
        lines = [soiled(rng, line, kinds) if rng.random() < 0.4 else line for line in lines]
    end = rng.choice([b"\n", b"\n", b"\r\n"])
    return end.join(lines) + rng.choice([b"", end, end + end])


def make_book(command, name, edition, texts):
    for i, own in enumerate(texts):
        write(f"{name}{i}", own)
    write("list", "".join(f"{name}{i} original {name}{i}\n" for i in range(len(texts))).encode())
    book = f"{name}-{edition}.book"
    if run(command, "book", "--ascii", "--edition", str(edition), book, "list").returncode != 0:
        sys.exit("places: no book")
    return book


def starts_of(raw):
    """Where each line starts, and behind the last one the length."""
    return [0] + [at + 1 for at, byte in enumerate(raw) if byte == 10] + [len(raw)]


def is_beside(words):
    """Do the ranges of this call lie side by side? Top-down's do with a threshold that is above 0.0, as the float of 32 bits that it becomes."""
    threshold = float(words[words.index("--threshold") + 1]) if "--threshold" in words else 0.9
    return "--top-down" in words and struct.unpack("f", struct.pack("f", threshold))[0] > 0.0


def findings(told):
    return told["ranges"] + told.get("further", [])


def hold_places(tally, told, raw):
    lines, starts = raw.split(b"\n"), starts_of(raw)
    for each in findings(told):
        first, after, start, end = (each[key] for key in ("first", "after", "start", "end"))
        good = start == starts[first]
        if first == after:
            good = good and end == start
            tally.met["empty"] += 1
            tally.met["at_end"] += first == len(lines)
        else:
            good = good and raw[start:end].split(b"\n") == lines[first:after]
        tally.hold(good, f"{told['note']}: lines {first} to {after} are bytes {start} to {end} of {raw!r}")


def hold_beside(tally, told, lines, words):
    """What #113 promises of these ranges is kept, by the second reading's words."""
    ranges = [types.SimpleNamespace(**each) for each in told["ranges"]]
    broken = model.broken(lines, ranges)
    tally.hold(not broken, f"{words}, {told['note']}: of {lines} lines {told['ranges']} are not {', '.join(broken)}")
    tally.met["beside"] += len(ranges) > 1
    tally.met["half"] += len(ranges) == (lines + 1) // 2 > 1


def count_met(tally, told, raw, way):
    own, seen = findings(told), set()
    for each in told["ranges"]:
        lines = set(range(each["first"], each["after"]))
        tally.met["over"] += bool(lines & seen)
        seen |= lines
    for what, met in (
        ("ranges", told["ranges"]), ("further", told.get("further")), ("crlf", b"\r\n" in raw), ("unended", raw[-1:] != b"\n"),
        ("accents", "é".encode() in raw and not told.get("changed")), ("mapped", told.get("changed")),
        ("no_utf8", b"\xff" in raw), ("down", "--top-down" in way), ("second", any(each.get("book", "M")[0] == "N" for each in own)),
    ):
        tally.met[what] += bool(own and met)


UNSEEN = {0x61C, 0x200E, 0x200F, *range(0x2028, 0x202F), *range(0x2066, 0x206A), 0xFEFF, *range(0x20), *range(0x7F, 0xA0)} - {9}


def pieces(line):
    """A line as a reader sees it: pieces of text, and of bytes that are not seen as they stand, in turn."""
    told = []
    for each in line.decode("utf-8", "surrogateescape"):
        seen = ord(each) not in UNSEEN and not 0xDC80 <= ord(each) <= 0xDCFF
        one = each if seen else "".join(f"\\x{byte:02x}" for byte in each.encode("utf-8", "surrogateescape"))
        if told and told[-1][0] == seen:
            told[-1][1] += one
        else:
            told.append([seen, one])
    return told


def shown(line):
    return "    | " + "".join(one.replace("\\", "\\\\") if seen else one for seen, one in pieces(line))


HEAD = re.compile(r"  (further, )?(no line, after line|line|lines) \d+")


def hold_shown(tally, command, words, notes, told):
    """The report with the lines put in behind what is said of each range."""
    plain, full = (run(command, *words, *show, *notes) for show in ([], ["--show"]))
    lines = full.stdout.decode("utf-8").split("\n")
    tally.hold((plain.returncode, plain.stderr) == (full.returncode, full.stderr), f"{words}: --show changes {plain.stderr!r} to {full.stderr!r}")
    tally.hold([line for line in lines if not line.startswith("    | ")] == plain.stdout.decode("utf-8").split("\n"), f"{words}: --show changes the report")
    groups = []
    for line in lines:
        if HEAD.match(line):
            groups.append([])
        elif line.startswith("    | ") and groups:
            groups[-1].append(line)
    wanted = []
    for one in told:
        raw = read(one["note"]).split(b"\n")
        wanted += [[shown(line) for line in raw[each["first"] : each["after"]]] for each in findings(one)]
    tally.hold(groups == wanted, f"{words}: --show prints {groups} and not {wanted}")
    tally.met["shown"] += sum(map(len, groups)) > 0


def hold_call(tally, command, words, notes, way):
    ran = run(command, *words, "--json", *notes)
    told = [json.loads(line) for line in ran.stdout.splitlines()]
    tally.hold([one["note"] for one in told] == notes and all(one["refusal"] == 0 for one in told), f"{words}: {ran.stderr!r} {told}")
    for one in told:
        raw = read(one["note"])
        hold_places(tally, one, raw)
        if is_beside(words):
            hold_beside(tally, one, raw.count(b"\n") + 1, words)
        count_met(tally, one, raw, way)
    hold_shown(tally, command, words, notes, told)


def made_notes(rng, name, texts, words, kinds, count):
    notes = [f"{name}{i}" for i in range(count)]
    for each in notes:
        write(each, note(rng, texts, words, kinds))
    for i, whole in enumerate([b"", b"\n", b"x\ny", b"x\ny\n", b"\r\n", texts[0], texts[0] + b"\n", b"\n" + texts[0]]):
        notes.append(f"{name}.{i}")
        write(notes[-1], whole)
    return notes


def every_call(rng, command):
    """Books and notes of each sort with the words of a call: those that an edition takes, then by --ascii those that it does not."""
    words = {1: WORDS, 2: WORDS, 3: WORDS + ACCENTS}
    for edition in (1, 2, 3):
        texts = [[text(rng, rng.randint(1, 6), words[edition]) for _ in range(4)] for _ in range(2)]
        books = [make_book(command, name, edition, own) for name, own in zip("MN", texts)]
        odd = [each.encode() for each in ODD + ACCENTS] + NO_UTF8 + CONTROLS
        sorts = [("taken", [], CONTROLS[:-1]), ("odd", ["--ascii"], odd)]
        for name, ascii_too, kinds in sorts:
            notes = made_notes(rng, f"{name}{edition}.", texts[0] + texts[1], words[edition], kinds, 10)
            for way in WAYS:
                yield [*way, *ascii_too, books[0]], notes, way
                yield [*way, *ascii_too, books[0], "--beside", books[1]], notes, way


def dense(rng, texts):
    """Lines at random, of a licence or not; or a licence and another line in turn."""
    count, others = rng.randint(1, 30), [b"x", b"", b"other words of no licence"]
    if rng.random() < 0.5:
        return b"\n".join(rng.choice(texts) if k % 2 == 0 else b"x" for k in range(count))
    return b"\n".join(rng.choice(texts + others) for _ in range(count))


def parts_of(told):
    return [[each[key] for key in ("licence", "number", "first", "after", "start", "end", "score")] for each in told["ranges"]]


def hold_dense(tally, command, rng):
    """Top-down by thresholds above 0.0, the smallest too, over notes with many ranges; until a budget it finds the first of them."""
    texts = [b"alpha beta gamma", b"delta epsilon zeta eta", b"license permission granted notice"]
    book = make_book(command, "D", 2, texts)
    for _ in range(60):
        write("dense", dense(rng, texts))
        lines = read("dense").count(b"\n") + 1
        words = ["scan", "--json", "--top-down", str(rng.choice([1, 1, 1, 2, 5])), "--threshold", rng.choice(["1e-45", "0.3", "0.8", "1"]), book, "dense"]
        full = json.loads(run(command, *words).stdout)
        hold_beside(tally, full, lines, words)
        for budget in sorted(rng.sample(range(full["scorings"]), min(4, full["scorings"]))):
            part = json.loads(run(command, *words, "--budget", str(budget)).stdout)
            hold_beside(tally, part, lines, words)
            first = parts_of(full)[: len(part["ranges"])]
            tally.hold(part["refusal"] == 12 and parts_of(part) == first, f"{words}, a budget of {budget}: {part}, not {first}")
            tally.met["stopped"] += 0 < len(first) < len(full["ranges"])


def hold_example(tally, command):
    """The example against the default books, with CR LF, with accents in edition 3, and with what --ascii drops before, within and behind the licence."""
    raw = read(os.path.join(ROOT, "examples", "note.txt"))
    wide = raw.replace(b"The Bracket Works", "José Müller".encode())
    odd = raw.replace(b" * Permission", "\ufeff * \u201cPermission".encode()).replace(b" */\n", " */\u20ac\xa0\n".encode()).replace(b"Bracket", b"Br\xe9cket")
    for name, content in (("plain", raw), ("crlf", raw.replace(b"\n", b"\r\n")), ("cut", raw[:-1]), ("wide", wide), ("odd", odd)):
        write(f"example.{name}", content)
    for edition, book in enumerate(("debian.book", "debian-2.book", "debian-3.book"), 1):
        names = ["example.plain", "example.crlf", "example.cut"] + ["example.wide"] * (edition == 3)
        for extra in ([], ["--thorough"]):
            hold_call(tally, command, ["scan", *extra, os.path.join(ROOT, "books", book)], names, extra)
            hold_call(tally, command, ["scan", *extra, "--ascii", os.path.join(ROOT, "books", book)], names + ["example.odd"], extra)


def main():
    command, rng, tally = sys.argv[1:], random.Random(106), Tally(MET)
    command[-1] = os.path.abspath(command[-1])
    with tempfile.TemporaryDirectory() as folder:
        os.chdir(folder)
        for words, notes, way in every_call(rng, command):
            hold_call(tally, command, ["scan", *words], notes, way)
        hold_dense(tally, command, rng)
        hold_example(tally, command)
    return tally.end()


if __name__ == "__main__":
    sys.exit(main())
