#!/usr/bin/env python3
"""Tries whether the rows of rows.py can fail: each wrong reading of the rules below must answer some row otherwise than model.py does.

    oracle/wrong.py [--seed N]

A wrong reading is model.py with one place changed. It is asked the questions of `rows.py --quick`; the archive is not needed, since there it and
the model agree. Of some the own records break what #113 promises, which must be seen without the model, and of the model's none. Prints by how many rows
each is found. Exit status: 0 all are found, 1 some are not.
"""

import argparse
import inspect
import sys

import asking
import model
import rows

# places of model.py, and a test that is added to the first
UNSOUND = "any(shelf_or_none(book) is None for book in q.books)"
BEST_OVERALL = "    text, value = yield from best(note, 0, whole, shelf)\n    yield Overall(text, value)\n"
STORED_NAME = "= text.kind, len(text.name), text.part"
TWO_NAMES = "any(a.name {} b.name for a in shelved(q.books[:1]) for b in shelved(q.books[1:]))"
STARTS, SAID, LEFT = "book.startswith(FRONT[edition])", r'body in (b"\2\0", b"\3\0")', "    if a.refusal:\n"
LATEST = f"max(edition for edition in EDITIONS if {STARTS})"
FOUND = "shelf.append(Stored("
LINES, EACH = "lines_of(q.text, edition_of(q.books[0]))", "for book in q.books})"
READ, FIRST, ALL_BYTES = "if edition != ACCENTS:", 'if q.job == "compile" else edition_of(q.books[0])', 'text.decode("utf-8"), default'
WORDS, SPACES, MARKS = 'of_category("L", "Nd", "Pc")', 'SPACES = "\\t\\n\\v\\f\\r\\x85" + BLANKS', 'of_category("P")'
NO_URL, COLLAPSED, TWO_WORDS = 'f"https?://[^{SPACE}]+"', 're.sub(f"[{SPACE}]+", " ", text)', 'f"[{LOWER}]+ [{LOWER}]+"'
VALUED, TOLD = "if one and other else 0.0,", "bits_of(value), value.m, value.t"
VALUE, OVERALL, FOUND_THERE = f"{VALUED} m, t)", "tell(a, event.score)\n", "            tell(a, value)\n            return\n"
BETTER, RANK, HIGHER = "            found = text, value\n", asking.RANK, "rank(text, value) > rank(*found)"
EARLIEST = "next(x for x in shelf if score(note.table({}, {}), x.table) == value)"  # of equal scores, of whatever kind
FROM_OVERALL = "    yield Overall" + inspect.getsource(model.elimination).split("    yield Overall")[1]
NEED, HALVED, PASSES = "return RECORD_WIDTH * records_most(q)", "(line_count(q) + 1) // 2 if above_zero(q) else line_count(q)", "return q.passes if"
HALF, ABOVE, FEW = "(line_count(q) + 1) // 2", "of_bits(q.threshold) > 0.0", "len(q.results) < 4 * results_need(q)"
NONE_FOUND, RESUMED = "        if not latest:\n", "line = after + 1"
DOWN_FOUND = "        yield Found(latest[2].number, first, after, value)\n"
DOWN_BELOW = "        if value < threshold:\n            return\n" + DOWN_FOUND
KEPT = "    a.results = written(numbers, q.results)\n"
CUT, START, JOINED = 'text.split(b"\\n")', "start = min(before, len(text))", 'len(b"\\n".join(pieces[first:after]))'
PLACES, RECORDED = f"return start, start + {JOINED}", "places(q.text, event.first, event.after))\n"
WRITTEN, EARLIER = "*record)", "dataclasses.replace(a, results=numbers, records=a.records - 1).recorded"
OVERDRAWN, EXHAUSTED = "q.allowance.used > q.allowance.cap", "a.allowance.used == a.allowance.cap"
ENTRY, FREED = "    a = Answer(area", "    a.area, a.words = bytes(len(q.area)), bytes(len(q.words))\n"
BYTES, ONLY_LATER = '"utf-8" if edition == ACCENTS else "ascii"', "edition == 1 or "


def moved(job, number, behind):
    """The refusals of a job in another order: this one right behind that one."""
    order = [n for n in model.REFUSALS[job] if n != number]
    order.insert(order.index(behind) + 1, number)
    return f"{number} behind {behind} in {job}", f'"{job}": {model.REFUSALS[job]}', f'"{job}": {order}'


def needing(mode, numbers):
    """Another need of results in one mode, where `most` records can come."""
    return NEED, f"most = records_most(q)\n    return {numbers} if q.job == {mode!r} else RECORD_WIDTH * most"


def first_of_all(job, number):
    """The refusals of a job in another order: this one before all others."""
    order = model.REFUSALS[job]
    return f"{number} first in {job}", f'"{job}": {order}', f'"{job}": {[number] + [n for n in order if n != number]}'


def refused_so(number, change):
    """At a refusal before any work something changes that must not, where an allowance is lent."""
    return LEFT, f"{LEFT}        if q.allowance is not None and a.refusal == {number}:\n            {change}\n"


def left_so(allowance, where="True"):
    """At the end of a scan something else is left of its allowance, which `x` is at entry."""
    return FREED, f"{FREED}    if (x := q.allowance) is not None and {where}:\n        a.allowance = {allowance}\n"


# what it is, what stands in model.py, what stands there instead
WRONG = [
    ("areas of 8n+63", "8 * n + 64", "8 * n + 63"),
    ("areas of 8n+65", "8 * n + 64", "8 * n + 65"),
    ("areas of 12n+63", "12 * n + 64", "12 * n + 63"),
    ("areas of 12n+65", "12 * n + 64", "12 * n + 65"),
    ("results of 3P", *needing("eliminate", "3 * most")),
    ("results of 6P without optimize", 'q.job == "eliminate" and q.optimize', 'q.job == "eliminate"'),
    ("a text of 1,048,577 bytes", "len(q.text) > TEXT_MOST", "len(q.text) > TEXT_MOST + 1"),
    ("a byte of 128", "return text.isascii()", "return max(text, default=0) <= 128"),
    ("65,537 lines", "line_count(q) > LINES_MOST", "line_count(q) > LINES_MOST + 1"),
    ("an empty book unsound", "place, out = 0, []", "place, out = 0 if book else need(False), []"),
    ("a limit above 0.0 only", "0.0 <= of_bits", "0.0 < of_bits"),
    ("a limit below 1.0 only", "of_bits(bits) <= 1.0", "of_bits(bits) < 1.0"),
    ("the shallow limit not tested", "not in_unit(q.threshold) or not in_unit(q.shallow)", "not in_unit(q.threshold)"),
    ("a view that ends before L", "q.end <= line_count(q)", "q.end < line_count(q)"),
    ("an empty view refused", "q.start <= q.end <=", "q.start < q.end <="),
    ("stored number N", "q.number >= len", "q.number > len"),
    moved("score", 8, 3),
    moved("bounds", 10, 15),
    moved("score", 9, 15),
    moved("eliminate", 6, 3),
    moved("down", 7, 15),
    moved("compile", 1, 2),
    moved("compile", 2, 3),
    moved("compile", 10, 1),
    ("an output one too short", "len(q.out) < len(body)", "len(q.out) < len(body) - 1"),
    ("11 at the body's length", "len(q.out) < len(body)", "len(q.out) <= len(body)"),
    ("11 writes what fits", "        a.refusal = 11\n", "        a.refusal, a.out = 11, body[: len(q.out)]\n"),
    ("area cleared only where needed", "bytes(len(q.area)), bytes", "written(bytes(8 * len(q.text) + 64), q.area), bytes"),
    ("words cleared only where needed", "bytes(len(q.words))", "written(bytes(4 * (12 * len(q.text) + 64)), q.words)"),
    ("areas cleared after a refusal", "    if a.refusal:\n", "    if a.refusal:\n        a.area = bytes(len(q.area))\n"),
    ("results cleared behind the records", "written(numbers, q.results)", "numbers.ljust(len(q.results), b'\\0')"),
    ("one scoring more than paid", "a.count == q.budget", "a.count > q.budget"),
    ("12 where the count is the budget", "    a.results = written", "    a.refusal = 12 * (a.count == q.budget)\n    a.results = written"),
    ("no records with 12", "    a.results = written(numbers", "    numbers = b'' if a.refusal == 12 else numbers\n    a.results = written(numbers"),
    ("no overall score with 12", "                a.refusal = 12\n", "                a.refusal, a.score = 12, 0\n"),
    ("named at the threshold", "event.score > of_bits", "event.score >= of_bits"),
    ("stopped at the shallow limit", "value > shallow", "value >= shallow"),
    ("stopped without a name", "(value > threshold and value > shallow)", "value > shallow"),
    ("the first of equals in the search", "here >= best[1]", "here > best[1]"),
    ("left where both are equal", "at_low > at_high", "at_low >= at_high"),
    ("a search of width 2", "right - left > 3", "right - left > 2"),
    ("high-1 taken as high", "right = high - 1", "right = high"),
    ("the later of equal texts", HIGHER, "rank(text, value) >= rank(*found)"),
    ("no best after the last pass", "        text, _ = yield from best", "        if _ == q.passes - 1:\n            return\n        text, _ = yield from best"),
    ("the first line of a range not blanked", "first <= i < after", "first < i < after"),
    ("above the threshold in top-down", "value >= threshold", "value > threshold"),
    ("ends below L", "range(start, most + 1, step)", "range(start, most, step)"),
    ("starts up to L", "range(line, most, step)", "range(line, most + 1, step)"),
    ("a name of 65", "{1,64}", "{1,65}"),
    ("a name of 63", "{1,64}", "{1,63}"),
    ("an empty name", "{1,64}", "{0,64}"),
    ("a total of 8,388,607", "total <= TOTAL_MOST", "total < TOTAL_MOST"),
    ("totals modulo 2^32", "total == sum(counts.values())", "total == sum(counts.values()) % 2**32"),
    ("entries that do not rise", "bigram > last and", ""),
    ("1,023 texts", "len(shelf) <= STORED_MOST", "len(shelf) < STORED_MOST"),
    ("1,025 texts", "len(shelf) <= STORED_MOST", "len(shelf) <= STORED_MOST + 1"),
    ("names that do not rise", "all(a < b for", "all(a <= b for"),
    ("two originals", "(123*4*5*)*", "(12+3*4*5*)*"),
    ("one alias", "(123*4*5*)*", "(123*4*5?)*"),
    ("a record that breaks off", "need(place + size <= len(book))", "need(place + min(size, 6) <= len(book))"),
    ("kinds modulo 256", "length, kind = struct.unpack(\"<IH\", head)", "length, kind, _ = struct.unpack(\"<IBB\", head)"),
    ("a count of 0", "count >= 1 and", "count >= 0 and"),
    ("a name with a space", "[!-~]{1,64}", "[ -~]{1,64}"),
    ("a word in capitals", TWO_WORDS, 'f"[A-Z{LOWER}]+ [{LOWER}]+"'),
    ("distinct not looked at", "distinct == len(counts) and", ""),
    ("a score rounded down", "math.ldexp(round(", "math.ldexp(int("),
    ("numbers that start again in the second book", "number=len(shelf), part=", "part="),
    ("4 of the first book only", "for book in q.books)", "for book in q.books[:1])"),
    ("4 of the second book only", "for book in q.books)", "for book in q.books[-1:])"),
    ("4 only of both", "any(shelf_or_none(book) is None for", "all(shelf_or_none(book) is None for"),
    ("5 where either book is empty", "not shelved(q.books)", "not all(map(shelf_or_none, q.books))"),
    ("5 where the first book is empty", "not shelved(q.books)", "not shelved(q.books[:1])"),
    ("5 of an empty book before 4 of the other", UNSOUND, f"{UNSOUND} and b'' not in q.books"),
    ("N of the first book in 9", "q.number >= len(shelved(q.books))", "q.number >= len(shelved(q.books[:1]))"),
    ("N of the second book in 9", "q.number >= len(shelved(q.books))", "q.number >= len(shelved(q.books[-1:]))"),
    ("N of the first book in the budget", BEST_OVERALL, """\
    found = yield from best(note, 0, whole, [text for text in shelf if not text.part.second])
    if found:
        yield Overall(*found)
    other = yield from best(note, 0, whole, [text for text in shelf if text.part.second])
    text, value = other if found is None or (other and rank(*other) > rank(*found)) else found
    yield Overall(text, value)
"""),
    ("ties to the second book", RANK, "return value, -text.kind, text.part.second"),
    ("names that must rise from one book into the other", UNSOUND, f"{UNSOUND} or {TWO_NAMES.format('>=')}"),
    ("no equal names in both", UNSOUND, f"{UNSOUND} or {TWO_NAMES.format('==')}"),
    ("1,024 texts in both together", UNSOUND, f"{UNSOUND} or len(shelved(q.books)) > STORED_MOST"),
    ("16,777,216 bytes in both together", UNSOUND, f"{UNSOUND} or sum(map(len, q.books)) > BOOK_MOST"),
    ("the part of the first book always", "part=text.part._replace(second=second)", "part=text.part"),
    ("the part of the second book in one", "part=text.part._replace(second=second)", "part=text.part._replace(second=1)"),
    ("the part at the record's start", "Part(0, start, len(body))", "Part(0, start - 6, len(body))"),
    ("the part of the book's first name", "part = Part(0, start, len(body))", "part = Part(0, 6, len(body))"),
    ("the part of the book's last name", "STORED_MOST)\n    return shelf", "STORED_MOST)\n    return [text._replace(part=part) for text in shelf]"),
    ("the part counted on into the second book", "second=second)", "second=second, at=text.part.at + second * len(books[0]))"),
    ("a part without a name", "            tell(a, event.score)\n", "            tell(a, event.score)\n            a.part = event.text.part\n"),
    ("a part before N are paid", "a.refusal = 12\n", "a.refusal, a.part = 12, a.part if a.score else shelved(q.books)[0].part\n"),
    ("no part with 12", "a.refusal = 12\n", "a.refusal, a.part = 12, NO_PART\n"),
    moved("name", 9, 4),
    moved("name", 4, 5),
    ("every stored text an original", STORED_NAME, "= 2, len(text.name), text.part"),
    ("the part of the text before it", STORED_NAME, "= text.kind, len(text.name), shelved(q.books)[q.number - 1].part"),
    ("the part of the first equal name", STORED_NAME, "= text.kind, len(text.name), next(x.part for x in shelved(q.books) if x.name == text.name)"),
    ("the part of the last record", "a.records += 1", "a.records, a.part = a.records + 1, shelved(q.books)[event.number].part"),
    # m and t
    ("t 0 of an empty table", VALUE, f"{VALUED} m, t if one and other else 0)"),
    ("t 0 of an empty text", VALUE, f"{VALUED} m, t if one else 0)"),
    ("t 0 of an empty stored table", VALUE, f"{VALUED} m, t if other else 0)"),
    ("t 0 where nothing is shared", VALUE, f"{VALUED} m, t if m else 0)"),
    ("t of the view alone", VALUE, f"{VALUED} m, sum(one.values()))"),
    ("t of the stored text alone", VALUE, f"{VALUED} m, sum(other.values()))"),
    ("t of distinct pairs", VALUE, f"{VALUED} m, len(one) + len(other))"),
    ("t with shared pairs once", VALUE, f"{VALUED} m, t - m)"),
    ("m of distinct pairs", VALUE, f"{VALUED} len(one.keys() & other.keys()), t)"),
    ("m of the view's counts", VALUE, f"{VALUED} sum(count for bigram, count in one.items() if bigram in other), t)"),
    ("m twice", TOLD, "bits_of(value), 2 * value.m, value.t"),
    ("m and t in lowest terms", TOLD, "bits_of(value), *Fraction(value.m, value.t or 1).as_integer_ratio()"),
    ("m and t of 16 bits", TOLD, "bits_of(value), value.m % 2**16, value.t % 2**16"),
    ("m and t of the whole view in bounds", FOUND_THERE, """\
            whole = score(note_of(q).table(q.start, q.end), shelved(q.books)[q.number].table)
            tell(a, Value(value, whole.m, whole.t))
            return
"""),
    ("m and t of the search for the end", "    return first, after, value\n", """\
    to_end = score(note.table(start, after), text.table)
    return first, after, Value(value, to_end.m, to_end.t)
"""),
    ("no m and t without a name", OVERALL, "tell(a, event.score if event.score > of_bits(q.threshold) else Value(event.score, 0, 0))\n"),
    ("no m and t with 12", "                a.refusal = 12\n", "                a.refusal, a.m, a.t = 12, 0, 0\n"),
    ("m and t before N are paid", "                a.refusal = 12\n", """\
                a.refusal, a.t = 12, a.t or a.count and sum(shelved(q.books)[0].table.values())
"""),
    ("m and t of a later pass", FROM_OVERALL, FROM_OVERALL.replace("yield Overall(text, value)", "overall = text, value\n    yield Overall(*overall)") + """\
        yield Overall(overall[0], Value(overall[1], _.m, _.t))
"""),
    ("m and t of the last record", "a.records += 1", "a.records, a.m, a.t = a.records + 1, event.score.m, event.score.t"),
    ("ranked by m", RANK, "return value.m, -text.kind"),
    ("ranked by the fraction", RANK, "return Fraction(value.m, value.t or 1), -text.kind"),
    ("m and t of the later of equal texts", BETTER, f"{BETTER}        elif value == found[1]:\n            found = found[0], value\n"),
    ("m and t of the last text", BETTER, f"{BETTER}        found = found[0], Value(found[1], value.m, value.t)\n"),
    # equal scores
    ("the earliest of equal scores, of whatever kind", RANK, "return value"),
    ("a header before an original", RANK, "return value, text.kind"),
    ("an alternate as good as an original", RANK, "return value, text.kind != 4"),
    ("a header as good as an alternate", RANK, "return value, text.kind == 2"),
    ("an alternate before an original", RANK, "return value, (3, 2, 4).index(text.kind) * -1"),
    ("a header before an alternate", RANK, "return value, (2, 4, 3).index(text.kind) * -1"),
    ("the kind before the score", RANK, "return -text.kind, value"),
    ("the kind of what scores nearly as high", RANK, "return round(value, 1), -text.kind, value"),
    ("the kind before the score, where both are above 0.0", RANK, "return value > 0, -text.kind, value"),
    ("the book before the kind", RANK, "return value, -text.part.second, -text.kind"),
    ("the name before the kind", RANK, "return value, [-b for b in text.name], -text.kind"),
    ("the kind decides in the first book alone", RANK, "return value, 0 if text.part.second else -text.kind"),
    ("a tie at 1.0 lost by the early stop", RANK, "return value, -text.kind if value < 1 else 0"),
    ("a tie at 1.0 alone", RANK, "return value, -text.kind if value == 1 else 0"),
    ("a tie at 0.0 to the last original", HIGHER, f"{HIGHER} or not value and not found[1] and text.kind == 2"),
    ("a tie of equal fractions alone", HIGHER, "value > found[1] or value.m * found[1].t == found[1].m * value.t and text.kind < found[0].kind"),
    ("m and t of the text that a kind beats", BETTER, "            found = text, found[1] if found and found[1] == value else value\n"),
    ("the score of the text, the name of the earliest", "yield Overall(text, value)", f"yield Overall({EARLIEST.format(0, 'whole')}, value)"),
    ("the kind decides only what is named", "    for _ in range(q.passes):\n", f"""\
    text = {EARLIEST.format(0, "whole")}
    for _ in range(q.passes):
"""),
    ("the earliest bounded in later passes", "        text, _ = yield from best(note, 0, whole, shelf)\n", f"""\
        text, value = yield from best(note, 0, whole, shelf)
        text = {EARLIEST.format(0, "whole")}
"""),
    ("the earliest in top-down", "latest = start, end, text\n", f"latest = start, end, {EARLIEST.format('start', 'end')}\n"),
    ("what cannot win at 1.0 not scored", "        value = yield from scored(note, start, end, text)\n", """\
        if found and found[1] == 1 and text.kind >= found[0].kind:
            continue
        value = yield from scored(note, start, end, text)
"""),
    # the bytes of a range: the results
    ("results of 4P", *needing("eliminate", "4 * most")),
    ("results of 5P", *needing("eliminate", "5 * most")),
    ("results of 6P-1", *needing("eliminate", "6 * most - 1")),
    ("results of 6P+1", *needing("eliminate", "6 * most + q.optimize")),
    *((f"top-down: results of {numbers}", *needing("down", numbers)) for numbers in ("4 * most", "5 * most", "6 * most - 1", "6 * most + 1")),
    # ranges beside each other: how many there can be
    *((f"top-down: results of {numbers}", *needing("down", numbers)) for numbers in ("6 * most - 6", "6 * most + 6")),
    ("L / 2", HALVED, HALVED.replace(HALF, "line_count(q) // 2")),
    ("(L + 2) / 2", HALVED, HALVED.replace("+ 1)", "+ 2)")),
    ("(L + 1) / 2 + 1", HALVED, HALVED.replace("// 2", "// 2 + 1")),
    ("(L - 1) / 2, the newlines halved", HALVED, HALVED.replace("+ 1)", "- 1)")),
    ("(L + 2) / 3", HALVED, HALVED.replace(HALF, "(line_count(q) + 2) // 3")),
    ("L above 0.0 too", HALVED, "line_count(q)"),
    ("half of the numbers, not of the records", *needing("down", "3 * line_count(q) if above_zero(q) else 6 * most")),
    ("half of the numbers of one line more", *needing("down", "3 * (line_count(q) + 1) if above_zero(q) else 6 * most")),
    ("no last line behind a newline", HALVED, HALVED.replace(HALF, "(q.text.removesuffix(b'\\n').count(b'\\n') + 2) // 2")),
    ("blank lines not counted", HALVED, HALVED.replace(HALF, "(sum(map(bool, lines_of(q.text, 1))) + 1) // 2 if readable(q.text, 1) else 0")),
    ("half of the lines for one book alone", HALVED, HALVED.replace("above_zero(q)", "above_zero(q) and not q.books[1:]")),
    ("half of the lines for two books alone", HALVED, HALVED.replace("above_zero(q)", "above_zero(q) and q.books[1:]")),
    ("half of the lines for step 1 alone", HALVED, HALVED.replace("above_zero(q)", "above_zero(q) and q.step == 1")),
    ("half of the lines in edition 1 alone", HALVED, HALVED.replace("above_zero(q)", "above_zero(q) and edition_of(q.books[0]) == 1")),
    ("half of the lines where all is paid alone", HALVED, HALVED.replace("above_zero(q)", "above_zero(q) and q.budget == 2**64 - 1")),
    ("half of the lines also where not all is paid", HALVED, HALVED.replace("above_zero(q)", "(above_zero(q) or q.budget < 2**64 - 1)")),
    ("only room for what is recorded", FEW, f"""\
{FEW} and len(q.results) < 4 * RECORD_WIDTH * answered(
        dataclasses.replace(q, results=bytes(4 * results_need(q)))).records"""),
    # ranges beside each other: above 0.0
    ("half at 0.0 too", HALVED, HALF),
    ("half at 0.0 alone", HALVED, HALVED.replace("if above", "if not above")),
    ("half at -0.0 too", ABOVE, "q.threshold != 0"),
    ("half at 0.0 too, and not at -0.0", ABOVE, "q.threshold < 2**31"),
    ("denormals as 0.0", ABOVE, "of_bits(q.threshold) >= 2.0**-126"),
    ("the least denormal as 0.0", ABOVE, "of_bits(q.threshold) > 2.0**-149"),
    ("the least normal as 0.0", ABOVE, "of_bits(q.threshold) > 2.0**-126"),
    ("half below 1.0 alone", ABOVE, "0.0 < of_bits(q.threshold) < 1.0"),
    ("half at 1.0 alone", ABOVE, "of_bits(q.threshold) >= 1.0"),
    ("the shallow limit above 0.0 instead", ABOVE, "of_bits(q.shallow) > 0.0"),
    ("both limits above 0.0", ABOVE, f"{ABOVE} and of_bits(q.shallow) > 0.0"),
    ("either limit above 0.0", ABOVE, f"{ABOVE} or of_bits(q.shallow) > 0.0"),
    ("half where the limits differ", ABOVE, "of_bits(q.threshold) != of_bits(q.shallow)"),
    # ranges beside each other: elimination
    ("elimination by lines", PASSES, "return line_count(q) if"),
    ("elimination by half of the lines", PASSES, f"return {HALF} if"),
    ("elimination with no more than half of the lines", PASSES, f"return min(q.passes, {HALF}) if"),
    ("elimination with no more than the lines", PASSES, "return min(q.passes, line_count(q)) if"),
    ("elimination halved", PASSES, "return (q.passes + 1) // 2 if"),
    ("elimination halved above 0.0", PASSES, "return ((q.passes + 1) // 2 if above_zero(q) else q.passes) if"),
    # ranges beside each other: the refusal, and the area
    moved("down", 10, 15),
    moved("down", 10, 6),
    moved("down", 10, 3),
    moved("eliminate", 10, 15),
    moved("down", 7, 10),
    moved("down", 6, 10),
    ("12 of no budget before 10", FEW, f"q.budget and {FEW}"),
    ("more than is needed refused", FEW, FEW.replace("<", "!=")),
    ("more than is needed above 0.0 refused", FEW, f"{FEW} or q.job == 'down' and above_zero(q) and len(q.results) > 4 * results_need(q)"),
    ("results cleared up to the need", KEPT, "    a.results = written(numbers.ljust(4 * results_need(q), b'\\0'), q.results)\n"),
    ("results cleared above 0.0", KEPT, KEPT + "    a.results = a.results if not above_zero(q) else numbers.ljust(len(q.results), b'\\0')\n"),
    ("results cleared with 10", LEFT, LEFT + "        a.results = bytes(len(q.results)) if a.refusal == 10 else a.results\n"),
    # ranges beside each other: top-down
    ("resumed one line further", RESUMED, "line = after + 2"),
    ("resumed a step further", RESUMED, "line = after + q.step"),
    ("a range at the threshold left out", DOWN_BELOW, DOWN_BELOW.replace("<", "<=")),
    ("one range alone", RESUMED, "return"),
    ("no more than half of the lines at 0.0 too", "            a.records += 1\n", f"""\
            if a.records == {HALF} and q.job == "down":
                break
            a.records += 1
"""),
    # an allowance: 17
    *(first_of_all(job, 17) for job in asking.SCANS),
    *(moved(job, 17, n) for job in asking.SCANS for n in model.REFUSALS[job] if n not in (10, 17, 12)),
    ("no 17, and what is left modulo 2^64", "    17: overdrawn,\n", ""),
    ("12 in the place of 17", *refused_so(17, "a.refusal, a.area, a.words = 12, bytes(len(q.area)), bytes(len(q.words))")),
    ("12 in the place of 17, and no area changed", *refused_so(17, "a.refusal = 12")),
    ("17 where all is used too", OVERDRAWN, OVERDRAWN.replace(">", ">=")),
    ("17 where all is used alone", OVERDRAWN, OVERDRAWN.replace(">", "==")),
    ("17 where two more are used", OVERDRAWN, f"{OVERDRAWN} + 1"),
    ("17 where one is left too", OVERDRAWN, OVERDRAWN.replace(">", "+ 1 >=")),
    ("17 where less is used", OVERDRAWN, OVERDRAWN.replace(">", "<")),
    ("17 by 32 bits", OVERDRAWN, "q.allowance.used % 2**32 > q.allowance.cap % 2**32"),
    ("17 by signed numbers", OVERDRAWN, "(q.allowance.used ^ 2**63) > (q.allowance.cap ^ 2**63)"),
    ("a cap of 0 is no cap", OVERDRAWN, f"0 < q.allowance.cap and {OVERDRAWN}"),
    *((f"17 {who} alone", OVERDRAWN, f"{OVERDRAWN} and {test}") for who, test in (
        ("in elimination", "q.job == 'eliminate'"), ("in top-down", "q.job == 'down'"), ("with one book", "not q.books[1:]"),
        ("with two books", "bool(q.books[1:])"), ("with optimize", "q.optimize"), ("in edition 1", "edition_of(q.books[0]) == 1"),
        ("at the first note", "not q.kept"), ("where results are written", "results_need(q) > 0"),
    )),
    ("area cleared at 17", *refused_so(17, "a.area = bytes(len(q.area))")),
    ("words cleared at 17", *refused_so(17, "a.words = bytes(len(q.words))")),
    ("results cleared at 17", *refused_so(17, "a.results = bytes(len(q.results))")),
    ("a record of results cleared at 17", *refused_so(17, "a.results = written(bytes(min(24, len(q.results))), q.results)")),
    ("17 charges one", *refused_so(17, "a.allowance = a.allowance._replace(used=a.allowance.used + 1)")),
    ("17 sets used to the cap", *refused_so(17, "a.allowance = a.allowance._replace(used=a.allowance.cap)")),
    ("17 sets the cap to what is used", *refused_so(17, "a.allowance = a.allowance._replace(cap=a.allowance.used)")),
    ("17 begins anew", *refused_so(17, "a.allowance = a.allowance._replace(used=0)")),
    ("17 counts what is missing", *refused_so(17, "a.count = q.allowance.used - q.allowance.cap")),
    ("17 counts what is left modulo 2^64", *refused_so(17, "a.count = (q.allowance.cap - q.allowance.used) % 2**64")),
    # an allowance: the budget
    ("a budget of the cap", EXHAUSTED, "a.count == a.allowance.cap"),
    ("a budget of what is used", EXHAUSTED, "a.count == q.allowance.used"),
    ("a budget of one more than is left", EXHAUSTED, f"{EXHAUSTED} + 1"),
    ("a budget of one less than is left", EXHAUSTED, EXHAUSTED.replace("==", "+ 1 >=")),
    ("a budget that is not the allowance's", "if q.allowance is None else", "if True else"),
    ("no budget with an allowance", EXHAUSTED, "False"),
    ("a budget of 32 bits", EXHAUSTED, "a.count == (q.allowance.cap - q.allowance.used) % 2**32"),
    ("a budget of numbers of 32 bits", EXHAUSTED, "a.count >= q.allowance.cap % 2**32 - q.allowance.used % 2**32"),
    ("nothing left pays one", EXHAUSTED, f"{EXHAUSTED} and (a.count > 0 or q.allowance.used < q.allowance.cap)"),
    ("a cap of 2^64-1 is no cap", EXHAUSTED, f"{EXHAUSTED} < 2**64 - 1"),
    ("nothing left leaves the areas", FREED, f"{FREED}    a.area, a.words = (q.area, q.words) if q.allowance and not a.count else (a.area, a.words)\n"),
    ("nothing left is an answer", FREED, f"{FREED}    a.refusal = a.refusal if a.count or not q.allowance else 0\n"),
    ("no records where an allowance stops it", KEPT, "    numbers = b'' if q.allowance and a.refusal == 12 else numbers\n" + KEPT),
    # an allowance: what is charged
    ("used is the cap after every scan, so used and the budget for used and the count", *left_so("x._replace(used=x.cap)")),
    ("used and the cap for used and the count", *left_so("x._replace(used=min(x.used + x.cap, 2**64 - 1))")),
    ("used is the count alone", *left_so("x._replace(used=a.count)")),
    ("nothing is charged", *left_so("x")),
    ("12 charges nothing", *left_so("x", "a.refusal == 12")),
    ("12 alone charges", *left_so("x", "a.refusal == 0")),
    ("12 charges one more", *left_so("x._replace(used=x.cap + 1)", "a.refusal == 12")),
    ("12 charges one less", *left_so("x._replace(used=max(x.used, x.cap - 1))", "a.refusal == 12")),
    ("12 of nothing left charges one", *left_so("x._replace(used=x.used + 1)", "a.refusal == 12 and not a.count")),
    ("the count is charged twice", *left_so("x._replace(used=x.used + 2 * a.count)")),
    ("one is charged for a note", *left_so("x._replace(used=x.used + 1)", "a.count")),
    ("each text is charged once", *left_so("x._replace(used=x.used + min(a.count, len(shelved(q.books))))")),
    ("the records are charged", *left_so("x._replace(used=x.used + a.records)")),
    ("a count of 32 bits is left", *left_so("x._replace(used=(x.used + a.count) % 2**32)")),
    ("used stops at 2^32-1", *left_so("x._replace(used=max(x.used, min(x.used + a.count, 2**32 - 1)))")),
    ("used stops at 2^63-1", *left_so("x._replace(used=max(x.used, min(x.used + a.count, 2**63 - 1)))")),
    ("used stops at 2^64-2", *left_so("x._replace(used=max(x.used, min(x.used + a.count, 2**64 - 2)))")),
    ("only the first note is charged", *left_so("x", "q.kept")),
    ("elimination alone is charged", *left_so("x", "q.job == 'down'")),
    ("top-down alone is charged", *left_so("x", "q.job == 'eliminate'")),
    ("one book alone is charged", *left_so("x", "q.books[1:]")),
    ("two books alone are charged", *left_so("x", "not q.books[1:]")),
    ("ranges alone are charged", *left_so("x", "not a.records")),
    *((f"{n} charges what is left", *refused_so(n, "a.allowance = a.allowance._replace(used=max(a.allowance))")) for n in (1, 2, 3, 4, 5, 15, 6, 7, 10)),
    *((f"{n} charges one", *refused_so(n, "a.allowance = a.allowance._replace(used=a.allowance.used + 1)")) for n in (4, 10)),
    # an allowance: the cap
    ("the cap counts down", *left_so("x._replace(cap=x.cap - a.count)")),
    ("the cap counts down, and used up", *left_so("x._replace(cap=x.cap - a.count, used=x.used + a.count)")),
    ("the cap is what is used at the end", *left_so("x._replace(cap=x.used + a.count, used=x.used + a.count)")),
    ("the cap is 0 with 12", *left_so("x._replace(cap=0, used=x.cap)", "a.refusal == 12")),
    ("the cap and what is used exchanged", *left_so("x._replace(cap=x.used + a.count, used=x.cap)")),
    # an allowance: what is not looked at
    ("a second book where there is one", ENTRY, "    q = q if q.aside is None else dataclasses.replace(q, books=(*q.books, q.aside))\n" + ENTRY),
    ("4 of a second book where there is one", UNSOUND, UNSOUND.replace("in q.books", "in (*q.books, q.aside or b'')")),
    ("15 of a second book where there is one", EACH, "for book in (*q.books, *([] if q.aside is None else [q.aside]))})"),
    ("no second book where there are two", ENTRY, "    q = q if q.allowance is None else dataclasses.replace(q, books=q.books[:1])\n" + ENTRY),
    moved("eliminate", 7, 6),
    ("passes in top-down with an allowance", *needing("down", "RECORD_WIDTH * (q.passes if q.aside is not None and q.optimize else most)")),
    # the bytes of a range: ruling 1, of the note as it was lent
    ("places among the normalised lines", CUT, '[line(piece.decode("utf-8"), 2).encode("utf-8") for piece in text.split(b"\\n")]'),
    ("places without the blanks at the ends of lines", CUT, '[piece.strip() for piece in text.split(b"\\n")]'),
    ("places among the blanked lines", RECORDED, f"""\
places(
                b"\\n".join(b"" if any(r.first <= i < r.after for r in {EARLIER}) else piece for i, piece in enumerate(q.text.split(b"\\n"))),
                event.first, event.after))
"""),
    ("places without the blanked lines", RECORDED, f"""\
places(
                b"\\n".join(piece for i, piece in enumerate(q.text.split(b"\\n")) if not any(r.first <= i < r.after for r in {EARLIER})),
                event.first, event.after))
"""),
    ("places in points", CUT, '[piece.encode("latin-1") for piece in text.decode("utf-8").split("\\n")]'),
    ("places in points of ASCII alone", CUT, '[bytes(b for b in piece if b < 128) for piece in text.split(b"\\n")]'),
    # ruling 2, what ends a line
    ("a carriage return left out of the end", PLACES, 'return start, start + len(b"\\n".join(pieces[first:after]).rstrip(b"\\r"))'),
    ("carriage returns left out of all lines", CUT, '[piece.rstrip(b"\\r") for piece in text.split(b"\\n")]'),
    ("carriage return and newline a line's end of one byte", CUT, 'text.replace(b"\\r\\n", b"\\n").split(b"\\n")'),
    ("a carriage return ends a line", CUT, 'text.replace(b"\\r", b"\\n").split(b"\\n")'),
    ("a carriage return ends a line, and a newline does not", CUT, 'text.split(b"\\r")'),
    ("a vertical tab or a form feed ends a line", CUT, 're.split(rb"[\\n\\v\\f]", text)'),
    ("U+0085 ends a line of bytes", CUT, 're.split(rb"\\n|\\xc2\\x85", text)'),
    # ruling 3, where a range ends
    ("end: the start of the line after, less one", PLACES, "return start, start if first == after else min(sum(len(p) + 1 for p in pieces[:after]), len(text)) - 1"),
    ("end: the start of the line after", PLACES, "return start, start if first == after else min(sum(len(p) + 1 for p in pieces[:after]), len(text))"),
    ("end: with the newline", PLACES, f"return start, min(start + {JOINED} + (first < after), len(text))"),
    ("end: with the newline, one too many in the last line", PLACES, f"return start, start + {JOINED} + (first < after)"),
    ("end: its last byte", PLACES, f"return start, start + {JOINED} - (first < after)"),
    ("end: of the line after", JOINED, JOINED.replace("after]", "after + 1]")),
    ("end: of the first line", JOINED, JOINED.replace("first:after", "first:min(after, first + 1)")),
    ("end: a length", PLACES, f"return start, {JOINED}"),
    ("end: without the newlines between", JOINED, 'len(b"".join(pieces[first:after]))'),
    ("start: of the line before", "sum(sizes[:first])", "sum(sizes[: max(0, first - 1)])"),
    ("start: without the newlines before", "len(piece) + 1 for", "len(piece) for"),
    ("start: counted from 1", START, "start = min(before, len(text)) + 1"),
    ("start: at the newline before", START, "start = min(max(0, before - 1), len(text))"),
    ("start: behind the blanks of its line", PLACES, """\
start += first < after and len(pieces[first]) - len(pieces[first].lstrip())
    return start, start + len(b"\\n".join(pieces[first:after]).lstrip())"""),
    ("start and end exchanged", PLACES, f"return start + {JOINED}, start"),
    ("both before the score", WRITTEN, "*(record[:3] + record[4:] + record[3:4]))"),
    ("places in the lines' stead", WRITTEN, "*(record[:1] + record[4:] + record[3:4] + record[1:3]))"),
    ("all places behind all records", "    a.results = written(numbers, q.results)", """\
    found = dataclasses.replace(a, results=numbers).recorded
    numbers = b"".join(struct.pack("<4I", *r[:4]) for r in found) + b"".join(struct.pack("<2I", *r[4:]) for r in found)
    a.results = written(numbers, q.results)"""),
    ("the first record's places in all", RECORDED, f"places(q.text, *((*{EARLIER}, event)[0][1:3])))\n"),
    ("the last record's places in the next", RECORDED, f"places(q.text, *((event, *{EARLIER})[-1][1:3])))\n"),
    ("top-down: the carried place not moved past the gap line", RECORDED, f"""\
(
                place - sum(len(piece) + 1 for i, piece in enumerate(q.text.split(b"\\n")) if q.job == "down" and i in [r.after for r in {EARLIER}])
                for place in places(q.text, event.first, event.after)))
"""),
    # ruling 4, a last newline
    ("no empty last line", CUT, 'text.removesuffix(b"\\n").split(b"\\n")'),
    ("the last newline counts for its empty line", PLACES, f"return start, start + {JOINED} + (first < after == len(pieces) and text.endswith(b'\\n'))"),
    # ruling 5, empty ranges
    ("an empty range has the end of its line", PLACES, "return start, start + len(b'\\n'.join(pieces[first : max(after, first + 1)]))"),
    ("an empty range at the end of the line before", START, "start = min(max(0, before - (first == after)), len(text))"),
    ("an empty range ends at the end of the line before", PLACES, f"return start, max(0, start - 1) if first == after else start + {JOINED}"),
    ("an empty range before L at the text's length", START, "start = len(text) if first == after else min(before, len(text))"),
    ("an empty range at 0", START, "start = 0 if first == after else min(before, len(text))"),
    ("n + 1 at L", START, "start = before"),
    ("n - 1 at L", START, "start = min(before, len(text) - 1) if first == len(pieces) and text else min(before, len(text))"),
    ("0 at L", START, "start = min(before, len(text)) * (first < len(pieces))"),
    ("the last line's start at L", "sizes[:first]", "sizes[: min(first, len(pieces) - 1)]"),
    # ruling 6, how large they are, and with 12
    ("places of 16 bits", "*places(q.text, event.first, event.after)", "*(x % 2**16 for x in places(q.text, event.first, event.after))"),
    ("no places with 12", "    a.results = written(numbers", """\
    found = dataclasses.replace(a, results=numbers).recorded
    numbers = b"".join(struct.pack("<6I", *r[:4], 0, 0) for r in found) if a.refusal == 12 else numbers
    a.results = written(numbers"""),
    ("no places of the last record with 12", "    a.results = written(numbers", """\
    numbers = numbers[:-8] if a.refusal == 12 else numbers
    a.results = written(numbers"""),
    ("no places of a single pass", WRITTEN, "*(record if q.passes != 1 else record[:4] + (0, 0)))"),
    ("no places in top-down", WRITTEN, "*(record if q.job == 'eliminate' else record[:4] + (0, 0)))"),
    ("no places of two books", WRITTEN, "*(record[:4] + (0, 0) if q.books[1:] else record))"),
    # editions: what stays
    ("the 4 goes in edition 2", "2: MENDED", r'2: rf"[{BLANKS}\t\\/|4]+"'),
    ("the 4 goes in edition 3", "3: MENDED", r'3: rf"[{BLANKS}\t\\/|4]+"'),
    ("a 4 that stands alone goes in edition 2", "2: MENDED", r'2: rf"(?:[{BLANKS}\t\\/|]|\b4\b)+"'),
    ("spaces are not joined in edition 2", "2: MENDED", r'2: r"[\t\\/|]+"'),
    ("the 4 stays in edition 1", r'1: rf"[{BLANKS}\t\\/|4]+"', "1: MENDED"),
    ("lines of edition 1 always", LINES, "lines_of(q.text, 1)"),
    ("lines of edition 2 always", LINES, "lines_of(q.text, 2)"),
    ("lines of a second book's edition, which one book has not", LINES, 'lines_of(q.text, edition_of(b"".join(q.books[1:])))'),
    ("lines of edition 1 with two books", LINES, "lines_of(q.text, 1 if q.books[1:] else edition_of(q.books[0]))"),
    ("compiled under edition 1 always", "compiled(q.text, q.edition)", "compiled(q.text, 1)"),
    ("compiled under edition 2 always", "compiled(q.text, q.edition)", "compiled(q.text, 2)"),
    # editions: the record of kind 6
    ("no record of kind 6", "6?(123*4*5*)*", "(123*4*5*)*"),
    ("a record of kind 6 later too", "6?(123*4*5*)*", "6?(123*4*5*6?)*"),
    ("a record of kind 6 behind a name", "6?(123*4*5*)*", "6?(16?23*4*5*)*"),
    ("two records of kind 6", "6?(123*4*5*)*", "6*(123*4*5*)*"),
    ("a record of kind 6 in every book", "6?(123*4*5*)*", "(6(123*4*5*)*)?"),
    ("an alias behind the edition", "6?(123*4*5*)*", "(65*)?(123*4*5*)*"),
    ("0 said", SAID, r'body in (b"\0\0", b"\2\0", b"\3\0")'),
    ("1 said", SAID, r'body in (b"\1\0", b"\2\0", b"\3\0")'),
    ("4 said", SAID, r'body in (b"\4\0", b"\2\0", b"\3\0")'),
    ("3 not said", SAID, r'body == b"\2\0"'),
    ("2 not said", SAID, r'body == b"\3\0"'),
    ("all but 0 and 1 said", SAID, r'len(body) == 2 and body not in (b"\0\0", b"\1\0")'),
    ("the low byte said alone", SAID, r'len(body) == 2 and body[:1] in b"\2\3"'),
    ("said big-endian", SAID, r'body in (b"\0\2", b"\0\3")'),
    ("said in one byte", SAID, r'body.ljust(2, b"\0") in (b"\2\0", b"\3\0")'),
    ("said in three bytes", SAID, r'body[:2] in (b"\2\0", b"\3\0")'),
    ("an edition alone is unsound", "names, shelf = [], []", "names, shelf = need(book != FRONT[2]) or [], []"),
    ("an edition is a stored text", "names, shelf = [], []", "names, shelf = [], [Stored(0, b'', 6, {}, NO_PART)] * (edition_of(book) > 1)"),
    ("1,024 texts with the edition among them", "len(shelf) <= STORED_MOST", "len(shelf) + (edition_of(book) > 1) <= STORED_MOST"),
    ("places without the edition", "Part(0, start, len(body))", "Part(0, start - len(FRONT[edition_of(book)]), len(body))"),
    ("tables judged by the edition", FOUND, f"need(edition_of(book) > 1 or b'4' not in b''.join(table_in(body, 1))) or {FOUND}"),
    # editions: a book's
    ("2 without a record", LATEST, f"max(2, {LATEST})"),
    ("1 always", LATEST, "1"),
    ("2 for 3", LATEST, f"min(2, {LATEST})"),
    ("2 of the empty book", LATEST, f"{LATEST} if book else 2"),
    ("the edition of a record that breaks off", STARTS, f"({STARTS} or len(book) > 6 and FRONT[edition].startswith(book))"),
    ("the edition of a record anywhere", STARTS, "FRONT[edition] in book"),
    ("the edition of a sound book only", "a.edition = edition_of(q.books[0])", "a.edition = edition_of(q.books[0]) if shelf_or_none(q.books[0]) is not None else 1"),
    ("the edition by its kind alone", STARTS, ONLY_LATER + r'(edition == 2 and book[4:6] == b"\6\0")'),
    ("the edition of a body of any length", STARTS, ONLY_LATER + "book[4:8] == FRONT[edition][4:]"),
    ("the edition of a length of 16 bits", STARTS, ONLY_LATER + "book[:2] + book[4:8] == FRONT[edition][:2] + FRONT[edition][4:]"),
    ("the edition of a kind of 8 bits", STARTS, ONLY_LATER + "book[:5] + book[6:8] == FRONT[edition][:5] + FRONT[edition][6:]"),
    ("the edition in its low byte", STARTS, ONLY_LATER + "len(book) > 7 and book.startswith(FRONT[edition][:7])"),
    ("the edition big-endian", STARTS, ONLY_LATER + "book.startswith(FRONT[edition][:6] + bytes([0, edition]))"),
    # editions: of two books
    ("no 15", f"{EACH} > 1", f"{EACH} > 2"),
    ("no 15 between 2 and 3", "len({edition_of(book) for", "len({min(2, edition_of(book)) for"),
    ("no 15 between 1 and 3", "len({edition_of(book) for", "len({edition_of(book) % 2 for"),
    ("15 of one book, beside none", EACH, "for book in (*q.books, b'')[:2]})"),
    ("15 not beside an empty book", EACH, "for book in q.books if book})"),
    ("15 not beside a book without texts", EACH, "for book in q.books if shelf_or_none(book)})"),
    ("15 only where the first is older", "len({edition_of(book) for book in q.books}) > 1", "edition_of(q.books[0]) < edition_of(q.books[-1])"),
    ("15 only where the second is older", "len({edition_of(book) for book in q.books}) > 1", "edition_of(q.books[0]) > edition_of(q.books[-1])"),
    ("areas cleared after 15", LEFT, LEFT + "        a.area = bytes(len(q.area)) if a.refusal == 15 else a.area\n"),
    *(moved(job, 15, 4) for job in ("score", "bounds", "eliminate", "down", "name")),
    *(moved(job, 15, 3) for job in ("score", "bounds", "eliminate", "down")),
    *(moved(job, 15, 8) for job in ("score", "bounds")),
    *(moved(job, 15, 9) for job in ("score", "bounds", "name")),
    *(moved(job, 15, 10) for job in ("score", "bounds", "eliminate", "down")),
    *(moved(job, 15, 6) for job in ("eliminate", "down")),
    moved("down", 15, 7),
    # editions: compile's
    ("compile's edition of 16 bits", "q.edition not in EDITIONS", "q.edition % 65536 not in EDITIONS"),
    ("compile's edition of 8 bits", "q.edition not in EDITIONS", "q.edition % 256 not in EDITIONS"),
    ("compile takes 0", "q.edition not in EDITIONS", "q.edition not in (0, *EDITIONS)"),
    ("compile takes 4", "q.edition not in EDITIONS", "q.edition not in (*EDITIONS, 4)"),
    ("compile takes no 3", "q.edition not in EDITIONS", "q.edition not in (1, 2)"),
    ("compile takes 1 alone", "q.edition not in EDITIONS", "q.edition != 1"),
    ("compile takes 2 alone", "q.edition not in EDITIONS", "q.edition != 2"),
    ("areas cleared after compile's 4", LEFT, LEFT + "        a.words = bytes(len(q.words)) if (q.job, a.refusal) == ('compile', 4) else a.words\n"),
    moved("compile", 4, 1),
    moved("compile", 4, 2),
    moved("compile", 4, 10),
    # accents: what is read
    ("accents in edition 2", READ, "if edition not in (2, ACCENTS):"),
    ("accents in edition 1", READ, "if edition not in (1, ACCENTS):"),
    ("accents in no edition", READ, "if True:"),
    ("compile reads accents in any edition above 3", READ, "if edition < ACCENTS:"),
    ("compile reads accents in edition 0", READ, "if edition not in (0, ACCENTS):"),
    ("U+0100 read", '<= "\\xff"', '<= "\\u0100"'),
    ("all of UTF-8 read", '<= "\\xff"', '<= "\\U0010ffff"'),
    ("no U+00FF", '<= "\\xff"', '< "\\xff"'),
    ("no byte C2", ALL_BYTES, 'text.replace(b"\\xc2", b"\\xff").decode("utf-8"), default'),
    ("no U+0080", ALL_BYTES, 'text.replace(b"\\xc2\\x80", b"\\xff").decode("utf-8"), default'),
    ("overlong forms read", ALL_BYTES, 're.sub(rb"[\\xc0\\xc1][\\x80-\\xbf]", b"a", text).decode("utf-8"), default'),
    ("a byte order mark read", ALL_BYTES, 'text.decode("utf-8-sig"), default'),
    ("a lead at the end read", ALL_BYTES, 'text.rstrip(b"\\xc2\\xc3").decode("utf-8"), default'),
    ("a lead before a newline read", ALL_BYTES, 'text.replace(b"\\xc3\\n", b"\\n").decode("utf-8"), default'),
    ("a lone half read", ALL_BYTES, 're.sub(rb"(?<![\\xc2-\\xff])[\\x80-\\xbf]", b"", text).decode("utf-8"), default'),
    ("bytes read as code points", ALL_BYTES, 'text.decode("latin-1"), default'),
    # accents: by whose edition
    ("read by the last book", FIRST, FIRST.replace("[0]", "[-1]")),
    ("read by the latest of both", FIRST, 'if q.job == "compile" else max(map(edition_of, q.books))'),
    ("read by the older of both", FIRST, 'if q.job == "compile" else min(map(edition_of, q.books))'),
    ("read by a sound book only", FIRST, f"{FIRST} if shelf_or_none(q.books[0]) is not None else 1"),
    ("read by a book with texts only", FIRST, f"{FIRST} if shelf_or_none(q.books[0]) else 1"),
    ("read by any edition of a book", FIRST, 'if q.job == "compile" else ACCENTS'),
    ("read by no edition of a book", FIRST, 'if q.job == "compile" else 1'),
    ("read by compile's edition always", FIRST, "if True else 1"),
    *(moved(job, 2, 4) for job in ("score", "bounds", "eliminate", "down")),
    *(moved(job, 2, 15) for job in ("score", "bounds", "eliminate", "down")),
    # accents: NFC, and the classes
    ("NFD", "re.sub(JUNK, \"\", piece)", 're.sub(JUNK, "", unicodedata.normalize("NFD", piece))'),
    ("NFKC", "re.sub(JUNK, \"\", piece)", 're.sub(JUNK, "", unicodedata.normalize("NFKC", piece))'),
    ("the copyright sign is (c)", "re.sub(JUNK, \"\", piece)", 're.sub(JUNK, "", piece.replace("©", "(c)"))'),
    ("the copyright sign is c", "re.sub(JUNK, \"\", piece)", 're.sub(JUNK, "", piece.replace("©", "c"))'),
    ("the times sign a letter", WORDS, f'{WORDS} + "×"'),
    ("the division sign a letter", WORDS, f'{WORDS} + "÷"'),
    ("no ordinals", WORDS, 'of_category("Lu", "Ll", "Nd", "Pc")'),
    ("no micro sign", WORDS, f'{WORDS}.replace("µ", "")'),
    ("no sharp s", WORDS, f'{WORDS}.replace("ß", "")'),
    ("no y with diaeresis", WORDS, f'{WORDS}.replace("ÿ", "")'),
    ("no A with grave", WORDS, f'{WORDS}.replace("À", "")'),
    ("superscripts and fractions are digits", WORDS, 'of_category("L", "N", "Pc")'),
    ("the middle dot a letter", WORDS, f'{WORDS} + "·"'),
    ("lower case of ASCII alone", '"", text).lower()', '"", text).encode("latin-1").lower().decode("latin-1")'),
    ("no lower case of thorn", '"", text).lower()', '"", text).replace("Þ", "\\0").lower().replace("\\0", "Þ")'),
    ("a sharp s as ss", '"", text).lower()', '"", text).lower().replace("ß", "ss")'),
    ("folded to ASCII", '"", text).lower()', '"", unicodedata.normalize("NFD", text).encode("ascii", "ignore").decode("ascii")).lower()'),
    ("no quotes but ASCII's", '"\\"\'" + of_category("Pi", "Pf")', '"\\"\'"'),
    ("no closing quote of the two", '"\\"\'" + of_category("Pi", "Pf")', '"\\"\'" + of_category("Pi")'),
    ("quotes dropped in line pass 2", MARKS, 'of_category("Pc", "Pd", "Pe", "Po", "Ps")'),
    ("no punctuation but ASCII's", MARKS, 're.sub("[¡§¶·¿]", "", of_category("P"))'),
    ("the pilcrow sign dropped in line pass 2", MARKS, f'{MARKS}.replace("¶", "")'),
    ("the copyright sign a mark", MARKS, f'{MARKS} + "©"'),
    ("the soft hyphen a mark", MARKS, f'{MARKS} + "\\xad"'),
    ("the degree sign a mark", MARKS, f'{MARKS} + "°"'),
    ("the superscript two a mark", MARKS, f'{MARKS} + "²"'),
    ("a control a mark", MARKS, f'{MARKS} + "\\x80"'),
    ("the last control a mark", MARKS, f'{MARKS} + "\\x9f"'),
    # accents: U+0085 and U+00A0
    ("U+0085 no space", SPACES, SPACES.replace("\\x85", "")),
    ("U+00A0 no space", SPACES, SPACES.replace("BLANKS", '" "')),
    ("U+0084 a space", SPACES, SPACES.replace("\\x85", "\\x84\\x85")),
    ("U+0085 a gap", r'MENDED = rf"[{BLANKS}', r'MENDED = rf"[\x85{BLANKS}'),
    ("U+00A0 no gap", r'MENDED = rf"[{BLANKS}', r'MENDED = rf"[ '),
    ("U+0085 vertical", r'r"[\n-\r]", "\n"', r'r"[\n-\r\x85]", "\n"'),
    ("U+0085 a line's end", r'text.decode("utf-8").split("\n")', r're.split("[\n\x85]", text.decode("utf-8"))'),
    ("U+0085 in a URL", NO_URL, r'r"https?://[^\t-\r \xa0]+"'),
    ("U+00A0 in a URL", NO_URL, r'r"https?://[^\t-\r \x85]+"'),
    ("U+0085 not trimmed from a line", "    return piece.strip(SPACES)", r'    return piece.strip("\t\n\v\f\r \xa0")'),
    ("U+0085 no space of C", r'rf"|^copyright(?:[{SPACE}]+', r'r"|^copyright(?:[\t-\r \xa0]+'),
    ("U+0085 a space of A", r'r"(?:\A\n*|\n\n) *copyright', r'r"(?:\A\n*|\n\n)[ \x85]*copyright'),
    ("U+0085 in a version", "version [^{SPACE}]+", r"version [^\t-\r \xa0]+"),
    ("U+0085 not collapsed", COLLAPSED, r're.sub("[\t-\r \xa0]+", " ", text)'),
    ("U+0085 not trimmed from a prefix", 'errors="ignore").strip(SPACES)', r'errors="ignore").strip("\t\n\v\f\r \xa0")'),
    # accents: the common prefix
    ("a prefix counted in characters", 'len(prefix.encode("utf-8")) > 3', "len(prefix) > 3"),
    ("half a character counts", 'len(prefix.encode("utf-8")) > 3', "len(os.path.commonprefix([above.encode(), below.encode()]).strip()) > 3"),
    ("half a character stays", 'errors="ignore"', 'errors="replace"'),
    ("half a character takes the one before it", 'decode("utf-8", errors="ignore")', 'decode("utf-8", errors="replace").removesuffix("\\ufffd")[:-1]'),
    # accents: words, names, areas
    ("words of edition 3 in edition 2", BYTES, BYTES.replace("edition == ACCENTS", "edition > 1")),
    ("words of ASCII alone in edition 3", BYTES, '"ascii"'),
    ("words of bytes", BYTES, BYTES.replace("utf-8", "latin-1")),
    ("words in upper case with accents", TWO_WORDS, TWO_WORDS.replace("{LOWER}", "{LOWER}À-ÖØ-Þ")),
    ("words with a division sign", TWO_WORDS, TWO_WORDS.replace("{LOWER}", "{LOWER}÷")),
    ("words with superscripts", TWO_WORDS, TWO_WORDS.replace("{LOWER}", "{LOWER}²³¹")),
    ("words with U+0085", TWO_WORDS, TWO_WORDS.replace("{LOWER}", "{LOWER}\\x85")),
    ("words above U+00FF", TWO_WORDS, TWO_WORDS.replace("{LOWER}", "{LOWER}Ā-\\uffff")),
    ("U+00A0 between words", TWO_WORDS, 'f"[{LOWER}]+[ \\xa0][{LOWER}]+"'),
    *((f"no word with {c}", "(SPACES, WORDS, LEFT,", f'(SPACES, WORDS, LEFT.replace("{c}", ""),') for c in "ªµºßàþÿ"),
    ("names with accents", 'rb"[!-~]{1,64}"', 'rb"[!-~\\x80-\\xff]{1,64}"'),
    ("tables of code points", 'processed(lines).encode("utf-8")', 'processed(lines).encode("latin-1")'),
    ("areas counted in characters", "n = len(q.text)", 'n = len(q.text.decode("utf-8", "replace"))'),
    ("1,048,576 characters", "len(q.text) > TEXT_MOST", 'len(q.text.decode("utf-8", "replace")) > TEXT_MOST'),
]  # fmt: skip


# the same, of top-down alone: the records of each break what #113 promises of them
CROWDED = [
    ("resumed at the range end", RESUMED, "line = max(after, line + 1)"),
    ("resumed behind the first line of the range", RESUMED, "line = first + 1"),
    ("ranges below the threshold", DOWN_BELOW, DOWN_FOUND),
    ("an empty range where nothing is found", NONE_FOUND, f"{NONE_FOUND}            yield Found(0, line, line, 0.0)\n"),
    ("ranges without their last line", DOWN_FOUND, DOWN_FOUND.replace("after,", "max(first, after - 1),")),
    ("ranges with the line behind them", DOWN_FOUND, DOWN_FOUND.replace("after,", "after + 1,")),
    ("ranges with the line before them", DOWN_FOUND, DOWN_FOUND.replace("first,", "max(0, first - 1),")),
    ("every range twice", DOWN_FOUND, DOWN_FOUND * 2),
    ("the last range first", KEPT, """\
    records = [numbers[at : at + 24] for at in range(0, len(numbers), 24)]
    a.results = written(b"".join(records[::-1]) if q.job == "down" else numbers, q.results)
"""),
]  # fmt: skip


def answered(module, q):
    try:
        return vars(module.answered(q))
    except Exception as broken:  # a wrong reading may well break
        return repr(broken)


def crowded(q, answer):
    """Do the records of such an answer break it?"""
    return isinstance(answer, dict) and bool(rows.unkept(q, model.Answer(**answer)))


def main():
    options = argparse.ArgumentParser(description="Tries whether the rows can fail.")
    options.add_argument("--seed", default="1", help="another seed gives other questions (default 1)")
    asked = [q for _, q, _ in rows.rows(options.parse_args().seed, rows.QUICK, False)]
    right = [answered(model, q) for q in asked]
    lost = sum(map(crowded, asked, right))
    print(f"{lost:6} rows where the model breaks what #113 promises", flush=True)
    for what, old, new in WRONG + CROWDED:
        module = asking.reading(old, new)
        answers = [answered(module, q) for q in asked]
        found = sum(answer != want for answer, want in zip(answers, right))
        lost += not found
        print(f"{found:6} rows find: {what}", flush=True)
        if (what, old, new) in CROWDED:
            seen = sum(map(crowded, asked, answers))
            lost += not seen
            print(f"{seen:6} rows break the promise: {what}", flush=True)
    print(f"{len(WRONG + CROWDED)} wrong readings, {lost} not found, by {len(asked)} rows")
    return 1 if lost else 0


if __name__ == "__main__":
    sys.exit(main())
