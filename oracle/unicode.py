#!/usr/bin/env python3
"""Checks what edition 3 says of the first 256 code points against Unicode's own data (Debian's package unicode-data 15.0.0-1).

    oracle/unicode.py

unicode/UnicodeData.txt and unicode/PropList.txt hold the lines of the published files for U+0000 to U+00FF. From these it derives the class of each
code point and its lower case, and checks

  table      the class table of crates/slices/src/class.rt, each entry
  NFC        that it changes no code point and no two of them (Python's unicodedata), and that none combines
  archive    by small texts that target/answers compiles under edition 3 (host/drivers/answers.sh), that the code treats each code point so
  published  that the lines are those of /usr/share/unicode, where the package is installed

No network is needed. The last line is 'N passed, M failed'; exit status 0 none failed, 1 some did, 2 it could not be checked.
"""

import collections
import os
import re
import sys
import unicodedata

import compare
import scale
from compare import HERE, REPOSITORY, Trouble

FILES = ("UnicodeData.txt", "PropList.txt")
PUBLISHED = "/usr/share/unicode"
TABLE = os.path.join(REPOSITORY, "crates", "slices", "src", "class.rt")
SHOWN = 10

# the classes, as class.rt numbers them
DROPPED, BAR, SLASH, FOUR, BLANK, NEWLINE, VERTICAL, NEXT_LINE, DIGIT, LEFT, UPPER, UNDERSCORE, QUOTE, DASH, OPENING, CLOSING, OTHER = range(1, 18)

# ---- Unicode's lines -----------------------------------------------------------------------------------------------------------------------


def lines_in(folder, name):
    """The lines of a file that are about these code points."""
    with open(os.path.join(folder, name), encoding="utf-8") as file:
        return [line for line in file if (found := re.match("[0-9A-F]{4,6}", line)) and int(found[0], 16) < 256]


Character = collections.namedtuple("Character", "category combining lower")


def characters():
    """What UnicodeData.txt says: the general category, the combining class, and the simple lower case or the character itself."""
    out = []
    for line in lines_in(os.path.join(HERE, "unicode"), FILES[0]):
        fields = line.rstrip("\n").split(";")
        out.append(Character(fields[2], int(fields[3]), chr(int(fields[13] or fields[0], 16))))
    if len(out) != 256:
        raise Trouble(f"unicode/{FILES[0]} has {len(out)} lines, not 256: take them anew from the package unicode-data")
    return out


def white_space():
    """The code points that PropList.txt calls so."""
    out = set()
    for line in lines_in(os.path.join(HERE, "unicode"), FILES[1]):
        points, said = line.split("#")[0].split(";")
        if said.strip() == "White_Space":
            first, *last = (int(point, 16) for point in points.split(".."))
            out |= set(range(first, (last or [first])[0] + 1))
    return out


# the bytes that a pass names by themselves
NAMED = {"|": BAR, **dict.fromkeys("/\\", SLASH), "4": FOUR, "\t": BLANK, "\n": NEWLINE, **dict.fromkeys("\v\f\r", VERTICAL), **dict.fromkeys("\"'", QUOTE)}
OF_CATEGORY = {"Zs": BLANK, "Nd": DIGIT, "Pc": UNDERSCORE, "Pi": QUOTE, "Pf": QUOTE, "Pd": DASH, "Ps": OPENING, "Pe": CLOSING, "Po": OTHER}


def class_of(point, character, spaces):
    """By Unicode's data, but for what is named."""
    if chr(point) in NAMED:
        return NAMED[chr(point)]
    if point in spaces and character.category != "Zs":
        return NEXT_LINE
    if character.category.startswith("L"):
        return LEFT if character.lower == chr(point) else UPPER
    return OF_CATEGORY.get(character.category, DROPPED)


# ---- checks --------------------------------------------------------------------------------------------------------------------------------


class Tally:
    def __init__(self):
        self.passed = self.failed = 0

    def check(self, good, told):
        self.passed += good
        self.failed += not good
        if not good and self.failed <= SHOWN:
            print(f"FAILED: {told}")


def entries():
    """The class table, as the source has it."""
    with open(TABLE, encoding="utf-8") as file:
        bare = [line.split("//")[0].strip() for line in file]
    start = bare.index("const CLASS: [u8; 256] = [")
    numbers = "".join(bare[start + 1 : bare.index("];", start)])
    return [int(number) for number in numbers.strip(",").split(",")]


def table(tally, classes):
    found = entries()
    tally.check(len(found) == 256, f"the class table has {len(found)} entries")
    for point, (got, want) in enumerate(zip(found, classes)):
        tally.check(got == want, f"U+{point:04X} has class {got} in class.rt, and by Unicode's data {want}")


def lower_case(tally, classes, data):
    """The code adds 32 to what has the class of upper case, and leaves the rest."""
    for point, character in enumerate(data):
        made = chr(point + 32 * (classes[point] == UPPER))
        tally.check(made == character.lower, f"U+{point:04X}: lower case is U+{ord(character.lower):04X}, not 32 above")


def normal_forms(tally, data):
    for point, (first, character) in enumerate(zip(compare.POINTS, data)):
        changed = [t for t in (first, *(first + second for second in compare.POINTS)) if unicodedata.normalize("NFC", t) != t]
        tally.check(not changed and character.combining == 0, f"NFC changes {changed[:3]}, or U+{point:04X} combines")


# ---- the archive: a text for each thing that a pass does ------------------------------------------------------------------------------------

SPACES = (BLANK, NEWLINE, VERTICAL, NEXT_LINE)
PARTING = (SLASH, *SPACES)
WORDS = (FOUR, DIGIT, LEFT, UPPER, UNDERSCORE)
SIGNS = {"'": QUOTE, "-": DASH, "(": OPENING, ")": CLOSING, "_": UNDERSCORE}


def probes(c, kind, kept):
    """Texts with this code point, and their words after all passes. `kept`: how it stands in a word, nothing where it does not."""
    yield f"z a{c}b y", f"z a{' ' if kind in PARTING else kept}b y"
    yield f"z http://a{c}b y", "z http blackboxed url b y" if kind in SPACES else "z http blackboxed url y"
    yield f"z http:{c}//b y", "z http blackboxed url y" if kind in (DROPPED, BAR) or c == "/" else f"z http{kept} b y"
    titled = kind in (NEWLINE, VERTICAL)
    yield f"license{c}.{c}b y z", "b y z" if titled else f"license{' ' if kind in PARTING else kept * 2}b y z"
    yield f"abcd x{c}abcd y", "x y" if kind == NEWLINE else f"abcd x{' ' if kind in PARTING else kept}abcd y"
    yield f"z\n\n.{c}copyright x\n\ny b", f"z {kept}copyright x y b" if kept or kind == NEXT_LINE else "z y b"
    dated = kind in (FOUR, DIGIT) or kept == "c"
    yield f"z\ncopyright {c}\ny b", "z y b" if dated else f"z copyright {kept} y b"
    for sign, run in SIGNS.items():
        start = f"a{c}{sign}{c}b"  # up to 3 bytes stay, more are a common prefix that goes
        word, apart = ("a_b", "a _ b") if sign == "_" else ("ab", "a b")
        left = apart if kind == NEWLINE else word if kind in (DROPPED, BAR, run) else ""
        yield f"{start} x\n{start} y\n{start} z", f"{left} x {left} y {left} z"


def tabled(words):
    """The answer of target/answers to `table` for a text of these words."""
    words = words.split()
    bigrams = collections.Counter(f"{a} {b}".encode("utf-8") for a, b in zip(words, words[1:]))
    return " ".join([str(bigrams.total()), *(f"{count}:{bigram.hex()}" for bigram, count in sorted(bigrams.items()))])


def archive(tally, classes, data):
    ours = scale.Ours(3)
    for point, c in enumerate(compare.POINTS):
        kept = data[point].lower if classes[point] in WORDS else ""
        for text, words in probes(c, classes[point], kept):
            got, want = ours.ask(f"table {compare.hexed(text)}"), tabled(words)
            tally.check(got == want, f"U+{point:04X}, class {classes[point]}: the table of {text!r} should be that of {words!r}, and is {got}")


def published(tally):
    for name in FILES:
        if not os.path.exists(os.path.join(PUBLISHED, name)):
            print(f"{name} is not installed: to compare with the published file, install the Debian package unicode-data")
            continue
        same = lines_in(PUBLISHED, name) == lines_in(os.path.join(HERE, "unicode"), name)
        tally.check(same, f"unicode/{name} has not the lines of {PUBLISHED}/{name}: take them anew")


def main():
    data, spaces, tally = characters(), white_space(), Tally()
    classes = [class_of(point, character, spaces) for point, character in enumerate(data)]
    table(tally, classes)
    lower_case(tally, classes, data)
    normal_forms(tally, data)
    archive(tally, classes, data)
    published(tally)
    print(f"{tally.passed} passed, {tally.failed} failed")
    return 1 if tally.failed else 0


if __name__ == "__main__":
    try:
        sys.exit(main())
    except Trouble as trouble:
        print(f"unicode: {trouble}", file=sys.stderr)
        sys.exit(2)
