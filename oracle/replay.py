#!/usr/bin/env python3
"""Records answers of the original: makes lists of questions, asks the oracle, and writes both down.

    oracle/replay.py [--seed N]

There are five lists, `replay_lines`, `replay_views`, `replay_tables`, `replay_scans` and `replay_accents`, one behind the other. crates/replay/stdin
gets the questions and crates/replay/stdout the oracle's answers, those of scans with the bytes of each range (`placed`); `rt ci` runs the program,
which answers such questions with the proved functions, on the one and compares what it writes with the other. The seed (default 1) fixes the lists.

The last list is of edition 3. It begins with a line `edition 3`, which the oracle is not sent and to which there is no answer, and asks questions of
all kinds, of the cases of compare.py, of every code point from 80 to FF alone and between letters, and of random texts up to U+00FF.

Every text has at most 2,048 bytes. Those of the first four lists are ASCII and of edition 1, and come from four sources, in this order:

  cases     the marked cases of the rules, the errors that look right, and the other fixed texts of compare.py
  traps     every byte alone and between letters; the digit 4; URLs in both cases, cut short, at line ends, behind and before dropped
            signs; runs of each sign, also broken by a dropped one; vertical tab and form feed; nothing but newlines or spaces; lines of
            1,000 bytes; titles, copyright lines and common prefixes, and what is nearly one
  licences  the texts of Debian's /usr/share/common-licenses (package base-files), without the bytes that are not ASCII: of each its
            start, its end, two pieces of whole lines, and a piece behind comment marks
  random    texts of compare.py's generators, longer ones of the same pieces, and texts of single bytes that each mean something

A list of views takes each text whole, and some of the lines, the empty view among them. A list of scores takes pieces of one text against
another. A list of scans fills the store anew every few questions; budgets are 0, the number of stored texts, one below, exactly and one
above what the scan costs, and no limit. At its end three licences share a text, in each order of its kinds.
"""

import argparse
import itertools
import os
import random
import sys

import compare
from compare import HALF, NINETY, ONE, WHOLE, ZERO, Oracle, Trouble, bits, hexed

LICENCES = "/usr/share/common-licenses"
MOST = 2048

TEXT_2 = "copyright 20xx me irl\n// My First License\nfn hello() {\n ..."
LICENCE_A = "My First License"
MARKS = ["// ", " * ", "# ", "dnl ", "-- ", "REM: ", "> "]
# single bytes, each of which some pass looks at
BYTES = "aAzZ09_4 c\t\v\f\r\n\n\\/|'\"-([{)]}$+<=>^~`.,:;!?@#%&*\0\x1f\x7f"

# ---- texts -------------------------------------------------------------------------------------------------------------------------------


def cases():
    return list(compare.FIXED_TEXTS) + [
        LICENCE_A,
        "x\n\ncopyright a\ncopyright b\ncopyright c\n\ny",
        "copyright a\ncopyright b\n\ny",
        "\n\n\n\ncopyright x\n\nb c",
        "\n\ncopyright x\n\nb c",
        "copyright company\ncopyright 1999\n2000 c\n\n2001 end of line\nkeep",
        "a\n\n.\n\nb",
        "a 4 license\n\nb",
    ]


def traps():
    out = [chr(c) for c in range(128)] + ["a" + chr(c) + "b" for c in range(128)]
    out += ["44", "4 4", "a4b4c", "1424", "4\\4/4|4\t4", "\t4\t", " 4 a 4 ", "GPL 4.0", "4\v4"]
    out += [
        "http://", "https://", "http:// x", "https://\n", "http://\nx", "http://a\nb", "x http://a", "xhttp://y z", "HTTP://A.B c", "Http://x",
        "https://X y", "httpS://x", "http:/x", "http//x", "http:///", "http://http://a b", "https://a.b/c?d=4#e f", "(http://a.b) c",
        "http://a\tb", "http://a\vb", "http://a\fb\rc", "http://\v", "http://\x7f", "http://$ x", "http://$x y", "ht$tp://x y", "http:|//x",
        "http://\0a b", "http://4", "'http://a'", "http://a http://b https://c", "ahttps://b\nchttp://d", "see <http://a.b/c>.",
    ]
    for sign in "\"'-([{)]}_":
        out += [f"a{sign * n}b" for n in (1, 2, 3, 7)] + [f"a {sign} {sign} b", f"a{sign}${sign}b", f"a{sign}\0{sign}b", f"{sign}\n{sign}"]
    out += ["'\"'\"", "([{([{", ")]})]}", "()", ")(", "[}", "_-_", "__--__", "-_-'\"'-_-", "((a))", "--a--", "''a\"\""]
    out += [f"a {sign} b{sign}c {sign * 3}" for sign in "$+<=>^|~`"] + ["$+<=>^|~`", "a$ $b", " $ ", "-|-", "a||b", "a | b", "|", "\\|/"]
    out += [" \v\f a \v b \f ", "\v", "\f\n\v", "a\vb\fc", "\r\n\r\n", "a\r\nb\r\n", "\ra\r", "\t\ta\t\tb\t", " a", "a ", "  a  b  "]
    out += ["\n" * n for n in (2, 4, 5, 100)] + [" \n" * 3, "\n \n\t\n", " " * 50, "\n" * 1000, "a\n" * 1000, "\n" * MOST]
    out += [c * 1000 for c in "a 4-'([)_$."] + [
        "'\"" * 500, "ab " * 333, "http://" + "x" * 993, "http://x " * 111, "http://ab" * 111, "https://x\n" * 100, "http://a" * 256, "a4" * 500,
        "a " * 500 + "\n" + "b" * 1000, "-_" * 500, "([{)]}" * 166, "$" * 999 + "a", " " * 999 + "a", "a" + " " * 999, "4" * 999 + "\na",
        "copyright " * 100, "dnl x\n" * 200, "my first license\n" * 100,
    ]
    return out + aggressive_traps()


def aggressive_traps():
    """Titles, copyright lines and common prefixes, and what is nearly one."""
    out = []
    for behind in ["\n\n", "\n", "\n\n\n", "\n \n", "\r\n\r\n", "\n.\n", ""]:
        out += [f"The Foo License{behind}body text", f"a license version 2{behind}body"]
    for title in ["license", "License", "licence", "a license.", "license version", "license version 2 3", "license version 2 copyright me",
                  "license copyright", "license x", "licenses", "a license b license", "my license version x y", "license version 2copyright"]:
        out.append(f"{title}\n\nb c d")
    for line in ["copyright", "copyright x", " copyright x", "x copyright y", "copyrigh", "Copyright (c) 1999", "copyright c 1", "copyright 20xx",
                 "copyright c1", "copyright 1 2 3 c c x", "copyright\n1999", "copyright\n\nc", "copyright44", "copyright\v2", "copyright (C) 2 3, 4"]:
        out += [f"{line}\na b", f"{line}\n\na b", f"a b\n{line}\nc d", f"a b\n\n{line}\n\nc d", f"\n{line}\n\nc", f"a b\n{line}"]
    for mark in ["dnl ", "dnl", "abcd", "abc", " * ", "// ", "#### ", "-- * x", "____ "]:
        lines = ["one", "two", "tri", "tree"]
        out.append("\n".join(mark + line for line in lines))
        out.append("\n".join(mark + line for line in lines) + "\nelse")
        out.append("\n".join(mark + line for line in lines) + "\nelse\nor\nnot")
        out.append("\n\n".join(mark + line for line in lines))
    return out + ["abcd e\nabcd f\nabcd e\nabcd f", "abcde\nabcde\nabcdx\nabcdx\nabcd", "aaaa\naaaa", "aaaa b\naaaa c\nx\naaaa d\naaaa"]


def licences():
    """The real texts, as base-files has them, in the order of their names; a name that only points at another is left out."""
    out = []
    for name in sorted(os.listdir(LICENCES)):
        path = os.path.join(LICENCES, name)
        if not os.path.islink(path):
            with open(path, "rb") as file:
                out.append(bytes(b for b in file.read() if b < 128).decode("ascii"))
    return out


def piece(rng, lines, most):
    """Some whole lines, one after the other, of at most so many bytes."""
    start = rng.randrange(len(lines))
    out = lines[start][:most]
    for line in lines[start + 1 :]:
        if len(out) + 1 + len(line) > most:
            break
        out += "\n" + line
    return out


def pieces(rng):
    out = []
    for whole in licences():
        lines = whole.split("\n")
        out += [whole[: rng.randint(300, 1800)], whole[-rng.randint(300, 900) :], piece(rng, lines, 400), piece(rng, lines, 900)]
        mark = rng.choice(MARKS)
        out.append("\n".join(mark + line for line in piece(rng, lines, 500).split("\n")))
    return out


def randoms(rng, how_many):
    out = []
    for i in range(how_many):
        kind = i % 10
        if kind < 6:
            out.append(compare.text(rng))
        elif kind < 8:
            out.append("".join(rng.choice(BYTES) for _ in range(rng.randint(1, 120))))
        elif kind < 9:
            out.append("\n".join(compare.text(rng) for _ in range(rng.randint(2, 6))))
        else:
            out.append(compare.soup(rng, 30, 200))
    return [t[:MOST] for t in out]


def all_texts(rng, how_many):
    """Heading and texts, of each source."""
    return [("cases", cases()), ("traps", traps()), ("licences", pieces(rng)), ("random", randoms(rng, how_many))]


# ---- lists of questions ------------------------------------------------------------------------------------------------------------------

SCANS = ("counteliminate", "countdown")


def asked(question):
    """A scan is asked with the bytes of its ranges."""
    return f"placed {question}" if question.startswith(SCANS) else question


class Theirs(Oracle):
    """The original of an edition, asked so."""

    def ask(self, *words):
        return super().ask(asked(" ".join(map(str, words))))


class List:
    """Questions as they are asked, each with its answer; a heading is a line without one. In edition 2 the texts have 4s in them, in edition 3
    accents, by the salt."""

    def __init__(self, oracle, salt):
        self.oracle, self.salt = oracle, salt
        self.questions, self.answers = [], []

    def text(self, text):
        return hexed(compare.drawn(self.oracle.edition, self.salt, text))

    def heading(self, words):
        self.questions.append(f"# {words}")

    def edition(self):
        """Told to the program that answers these."""
        self.questions.append(f"edition {self.oracle.edition}")

    def ask(self, *words):
        question = " ".join(map(str, words))
        answer = self.oracle.ask(question)
        self.questions.append(question)
        self.answers.append(answer)
        return answer

    def lines(self, text):
        return len(self.oracle.lines(text))


def replay_lines(out, rng):
    for source, texts in all_texts(rng, 250):
        out.heading(source)
        for t in texts:
            out.ask("lines", out.text(t))


def replay_views(out, rng):
    for source, texts in all_texts(rng, 250):
        out.heading(source)
        for i, t in enumerate(texts):
            n = out.lines(t)
            out.ask("view", 0, n, out.text(t))
            if source != "traps" and i % 2 == 0:
                out.ask("view", *compare.any_view(rng, n), out.text(t))
    t = "a b\n\ncopyright c\n\nd e"
    out.heading("every view of one text")
    for start in range(6):
        for end in range(start, 6):
            out.ask("view", start, end, out.text(t))


def of_made_texts(out, rng, question, times, longest):
    """Asks about a view of a made note, mostly the whole, and one of the texts it was made from."""
    for _ in range(times):
        stored = compare.shelf(rng)
        t = compare.note(rng, stored, longest)
        n = out.lines(t)
        view = compare.any_view(rng, n) if rng.random() < 0.4 else (0, n)
        out.ask(question, *view, out.text(t), out.text(rng.choice(stored).text))


def replay_tables(out, rng):
    texts = dict(all_texts(rng, 100))
    out.heading("tables")
    some = texts["cases"] + rng.sample(texts["traps"], 100) + texts["licences"][::2] + texts["random"]
    for t in some:
        out.ask("table", out.text(t))
    out.heading("scores")
    for t, licence in [
        (TEXT_2, LICENCE_A), ("copyright 20xx me irl\n\n //  my   first license", LICENCE_A), ("", LICENCE_A), (LICENCE_A, ""), ("", ""),
        ("one", "one"), ("a b", "b a"), ("a b a", "a b a"), ("b a b a", "a b a b"), ("a a a a", "a a"), ("a b c d", "x y z"),
    ]:
        out.ask("score", 0, out.lines(t), out.text(t), out.text(licence))
    of_made_texts(out, rng, "score", 120, 12)
    for whole in licences():
        lines = whole.split("\n")
        t = piece(rng, lines, 900)
        for licence in (t, piece(rng, lines, 900), rng.choice(texts["licences"])):
            out.ask("score", 0, out.lines(t), out.text(t), out.text(licence))


def stock(out, stored):
    out.ask("clear")
    for s in stored:
        out.ask("add", hexed(s.name), s.kind, out.text(s.text))


def budgets(out, word, before, text, stored):
    """One scan with every budget that matters."""
    count = int(out.ask(f"count{word}", before, WHOLE, out.text(text)).split(" ")[1])
    for budget in sorted({0, len(stored), max(0, count - 1), count, count + 1}):
        out.ask(f"count{word}", before, budget, out.text(text))


def scans_of(out, rng, stored, text, most_down):
    """The scans of one note: thresholds that are met exactly among them."""
    n = out.lines(text)
    met = [int(x, 16) for x in out.oracle.ask("scores", 0, n, out.text(text)).split(" ")]
    threshold = rng.choice([ZERO, HALF, NINETY, ONE, max(met), max(met)])
    shallow = rng.choice([ONE, bits(0.99), HALF, max(met)])
    optimize, passes = int(rng.random() < 0.85), rng.choice([0, 1, 2, 3])
    budgets(out, "eliminate", f"{threshold:08x} {shallow:08x} {optimize} {passes}", text, stored)
    if n <= most_down:
        step = rng.choice([1, 2, 3, 5, WHOLE])
        budgets(out, "down", f"{threshold:08x} {shallow:08x} {step}", text, stored)


def replay_scans(out, rng):
    out.heading("the marked cases, and the errors that look right")
    first = [compare.Stored("A", 2, LICENCE_A)]
    stock(out, first)
    out.ask("countbounds", 0, 4, out.text(TEXT_2), out.text(LICENCE_A))
    for budget in (0, 1, 8, 9, 19, 20, 21, WHOLE):
        out.ask("counteliminate", f"{NINETY:08x} {bits(0.99):08x} 1 10", budget, out.text(TEXT_2))
    for threshold in (ONE, bits(2 / 3), ZERO):  # reached and not passed
        for t in (LICENCE_A, TEXT_2, "", "\n\n"):
            out.ask("counteliminate", f"{threshold:08x} {ONE:08x} 1 3", WHOLE, out.text(t))
            for step in (1, 2, WHOLE):
                out.ask("countdown", f"{threshold:08x} {ONE:08x} {step}", WHOLE, out.text(t))
    for t in ["my first license" + "\n" * k for k in range(1, 9)] + ["\n" * k + "my first license\n\n" for k in range(1, 9)]:
        out.ask("countbounds", 0, out.lines(t), out.text(t), out.text(LICENCE_A))  # equal scores: the later index
    for between in ("\n", "\n\n", "\nx\n", "\nx y\n\n"):  # where top-down goes on
        t = between.join([LICENCE_A] * 3)
        for step in (1, 2, 3):
            out.ask("countdown", f"{NINETY:08x} {ONE:08x} {step}", WHOLE, out.text(t))

    out.heading("bounds")
    of_made_texts(out, rng, "countbounds", 60, 14)

    out.heading("scans of made texts")
    for _ in range(25):
        stored = compare.shelf(rng)
        stock(out, stored)
        scans_of(out, rng, stored, compare.note(rng, stored, 10), 10)

    out.heading("scans of licences")
    wholes = licences()
    for _ in range(6):
        stored = []
        for i, whole in enumerate(sorted(rng.sample(wholes, 3))):
            lines = whole.split("\n")
            stored.append(compare.Stored(f"L{i}", 2, piece(rng, lines, 600)))
            stored.append(compare.Stored(f"L{i}", rng.choice([3, 4]), piece(rng, lines, 300)))
        stock(out, stored)
        t = "\n".join(["int main() {", rng.choice(stored).text, "}", "", rng.choice(stored).text])[:MOST]
        scans_of(out, rng, stored, t, 12)

    out.heading("up to twelve stored texts, and every step")
    for n in range(6, 13):
        stored = [compare.Stored(f"N{i // 2:02}", 2 + 2 * (i % 2), compare.stored_text(rng)) for i in range(n)]
        stock(out, stored)
        t = compare.note(rng, stored, 8)
        met = max(int(x, 16) for x in out.oracle.ask("scores", 0, out.lines(t), out.text(t)).split(" "))
        for step in (1, 2, 3, 4, 5, 6, 7, WHOLE):
            out.ask("countdown", f"{rng.choice([ZERO, HALF, met]):08x} {ONE:08x} {step}", WHOLE, out.text(t))
        budgets(out, "eliminate", f"{rng.choice([HALF, met]):08x} {ONE:08x} 1 3", t, stored)

    out.heading("equal scores: three licences share a text, each as its original, its alternate or its header")
    for kinds in itertools.product((2, 3, 4), repeat=3):
        stock(out, [s for name, kind in zip("ABC", kinds) for s in of_kind(name, kind, LICENCE_A)])
        for t in (LICENCE_A, TEXT_2):
            out.ask("counteliminate", f"{HALF:08x} {ONE:08x} 1 2", WHOLE, out.text(t))
        out.ask("countdown", f"{NINETY:08x} {ONE:08x} 1", WHOLE, out.text(TEXT_2))


def of_kind(name, kind, text):
    """A licence with this text as its original, or, behind an empty one, as a text of another kind."""
    return [compare.Stored(name, 2, text)] if kind == 2 else [compare.Stored(name, 2, ""), compare.Stored(name, kind, text)]


def accent_texts(rng, how_many):
    alone = list(compare.HIGH) + [f"a{c}b" for c in compare.HIGH]
    return compare.fixed_texts(3) + alone, [compare.wide_text(rng)[: MOST // 2] for _ in range(how_many)]


def replay_accents(out, rng):
    out.edition()
    fixed, some = accent_texts(rng, 120)
    out.heading("lines")
    for t in fixed + some:
        out.ask("lines", hexed(t))
    out.heading("views and tables")
    fixed, some = accent_texts(rng, 160)
    for i, t in enumerate(fixed + some):
        n = len(out.oracle.lines(t))
        out.ask("view", 0, n, hexed(t))
        if i % 3 == 0:
            out.ask("view", *compare.any_view(rng, n), hexed(t))
        if i % 3 == 1 or t in compare.ACCENT_TEXTS:
            out.ask("table", hexed(t))
    out.heading("scores and bounds")
    of_made_texts(out, rng, "score", 80, 12)
    of_made_texts(out, rng, "countbounds", 50, 12)
    out.heading("scans")
    for _ in range(20):
        stored = compare.shelf(rng)
        stock(out, stored)
        scans_of(out, rng, stored, compare.note(rng, stored, 9), 9)


LISTS = {replay_lines: 1, replay_views: 1, replay_tables: 1, replay_scans: 1, replay_accents: 3}  # each with its edition


def listed(make, oracle, seed):
    """One list of a seed."""
    salt = f"{seed} {make.__name__}"
    out = List(oracle, salt)
    make(out, random.Random(salt))
    return out


def recorded(make, edition, seed):
    """One list, asked of a store that is empty."""
    out = listed(make, Theirs(edition), seed)
    sizes = [sum(len(row) + 1 for row in rows) for rows in (out.questions, out.answers)]
    print(f"{make.__name__}: {len(out.answers)} questions, {sizes[0]} and {sizes[1]} bytes")
    return out


def main():
    options = argparse.ArgumentParser(description="Records answers of the original.")
    options.add_argument("--seed", default="1", help="another seed gives other lists (default 1)")
    options = options.parse_args()
    lists = [recorded(make, edition, options.seed) for make, edition in LISTS.items()]
    folder = os.path.join(compare.REPOSITORY, "crates", "replay")
    for name, rows in (("stdin", [out.questions for out in lists]), ("stdout", [out.answers for out in lists])):
        with open(os.path.join(folder, name), "w", encoding="ascii") as file:
            file.writelines(f"{row}\n" for one in rows for row in one)
    return 0


if __name__ == "__main__":
    try:
        sys.exit(main())
    except Trouble as trouble:
        print(f"replay: {trouble}", file=sys.stderr)
        sys.exit(2)
