#!/usr/bin/env python3
"""Measures a book with labelled texts: the License fields of Debian copyright files (DEP-5) whose labels books/labels.txt gives an SPDX name.

Says how many the program names rightly, rightly but for only / or-later, wrongly, or not at all. docs/BOOK.md has the numbers and how the texts
of the book and those measured are kept apart. With --files it scans whole copyright files, each of which has several licences; with --accents it says
which files an edition refuses for their characters, and what the later edition makes of them."""
import argparse
import collections
import glob
import hashlib
import json
import os
import re
import resource
import shlex
import subprocess
import sys
import tempfile

BOOKS = os.path.dirname(os.path.abspath(__file__))
DEFAULT = os.path.join(BOOKS, "debian-3.book")
BEFORE = os.path.join(BOOKS, "debian-2.book")
WIDE_MOST = 0xFF  # the last character that edition 3 takes
NOTE_MOST = 1048576  # bytes: a folder's larger files are not scanned
FEW = 10  # words: a shorter text only points elsewhere
Text = collections.namedtuple("Text", "mark label name path text")


def stop(message):
    print("measure.py: " + message, file=sys.stderr)
    sys.exit(2)


def read_table(file, columns):
    """The lines of a table in books/, cut into columns at white space; the last column is all that is left."""
    path = os.path.join(BOOKS, file)
    if not os.path.exists(path):
        stop(f"{path} is missing; it belongs to the repository")
    with open(path, encoding="ascii") as lines:
        rows = [line.split(None, columns - 1) for line in lines if line.strip() and not line.startswith("#")]
    for row in rows:
        if len(row) != columns:
            stop(f"{path}: a line has {columns} columns, but not this one: {' '.join(row)}")
    return [[cell.strip() for cell in row] for row in rows]


def license_fields(path):
    """Label and text of each License field of a file that follows DEP-5; nothing of any other file."""
    with open(path, encoding="utf-8", errors="surrogateescape") as file:
        content = file.read().replace("\r\n", "\n")
    if not re.search(r"^Format(-Specification)?:", content[:2000], re.M | re.I):
        return
    for field in re.finditer(r"^License:[ \t]*(.*)\n((?:[ \t]+\S.*(?:\n|\Z))*)", content, re.M | re.I):
        lines = [line[1:] for line in field.group(2).splitlines()]
        yield field.group(1).strip(), "\n".join("" if line.strip() == "." else line for line in lines)


def cut_pointer(text):
    """The text without the words that say where Debian keeps the whole licence: from 'On Debian', or else from the sentence that names the folder,
    up to the end of that stanza."""
    while True:
        at = text.find("/usr/share/common-licenses")
        if at < 0:
            return text
        ends = [0] + [m.end() for m in re.finditer(r"\n[ \t]*\n\s*|[.;:]\s+(?=[A-Z])", text[:at])]
        begins = [m.start() for m in re.finditer(r"\bon\s+(a\s+)?debian", text[:at], re.I) if at - m.start() < 400]
        begin = begins[-1] if begins else ends[-1]
        end = re.search(r"\n[ \t]*\n|\Z", text[at:])
        text = text[:begin] + text[at + end.start():]


def normal(text):
    return " ".join(re.findall(r"[a-z0-9]+", text.lower()))


def mark_of(text):
    return hashlib.sha256(normal(text).encode()).hexdigest()[:16]


def half_of(mark):
    """Which half a text is in: by the lowest bit of its mark, so equal texts are in the same half on every machine."""
    return "held" if int(mark, 16) % 2 else "open"


def find_files(places):
    if not places:
        return sorted(glob.glob("/usr/share/doc/*/copyright"))
    files = []
    for place in places:
        if os.path.isdir(place):
            files += sorted(os.path.join(folder, name) for folder, _, names in os.walk(place) for name in names)
        elif os.path.exists(place):
            files.append(place)
        else:
            stop(f"{place} is not there; name copyright files or folders of them")
    return files


def gather(files, names):
    """Each labelled text once, and a count of the fields that are left out, by the reason."""
    texts, left = {}, collections.Counter()
    for path in files:
        for label, whole in license_fields(path):
            text = cut_pointer(whole)
            if len(normal(text).split()) < FEW:
                left["without a text of their own"] += 1
            elif label.lower() not in names:
                left["with labels that name no single SPDX licence"] += 1
            else:
                key = mark_of(text), names[label.lower()]
                left["that stand elsewhere too"] += key in texts
                texts.setdefault(key, Text(key[0], label, key[1], path, text))
    return [texts[key] for key in sorted(texts)], left


def program():
    words = shlex.split(os.environ.get("CHULTARVI", ""))
    return words or [os.path.join(BOOKS, "..", "host", "run.sh")]


def run(words):
    """What the program prints, line by line as JSON."""
    try:
        done = subprocess.run(program() + words, stdout=subprocess.PIPE, check=False)
    except OSError as error:
        stop(f"{program()[0]}: {error.strerror}; set CHULTARVI to the program, or build it by host/run.sh")
    if done.returncode not in (0, 1):
        stop(f"the program ended with {done.returncode} on '{' '.join(words[:6])} ...'; what it says above tells why")
    return [json.loads(line) for line in done.stdout.decode("utf-8", "surrogateescape").splitlines()]


def scan_words(args):
    return ["scan", "--json", "--threshold", args.threshold, *shlex.split(args.options)]


def answers_to(args, book, notes, *options):
    """What the program says of each note, which is bytes, in their order; of one that is refused, that."""
    with tempfile.TemporaryDirectory() as folder:
        for number, note in enumerate(notes):
            with open(os.path.join(folder, f"{number:06}"), "wb") as file:
                file.write(note)
        answers = run([*scan_words(args), *options, "-r", book, folder]) if notes else []
        found = {os.path.basename(answer["note"]): answer for answer in answers if "refusal" in answer}
    for number in range(len(notes)):
        if f"{number:06}" not in found:
            stop(f"no answer to note {number}")
    return [found[f"{number:06}"] for number in range(len(notes))]


def bytes_of(text):
    return text.encode("utf-8", "surrogateescape")


def scan(args, texts, book=None):
    """The program's answer to each text, in their order; --ascii, so that none is refused for its characters."""
    answers = answers_to(args, book or args.book, [bytes_of(text) for text in texts], "--ascii")
    for number, answer in enumerate(answers):
        if "licence" not in answer:
            stop(f"no answer to text {number}: {answer}")
    return answers


def said_of(answer):
    """The licence of the whole; where none is named, that of the range with the highest score."""
    if answer["licence"] or not answer["ranges"]:
        return answer["licence"], answer["score"] or 0
    best = max(answer["ranges"], key=lambda part: part["score"])
    return best["licence"], best["score"]


def is_tied(answer):
    """Does the program name another licence that scores as high, where it names one?"""
    parts = [answer] if answer["licence"] else answer["ranges"]
    return any(part["rival"] for part in parts)


def version_of(name):
    """Family and version, without only / or-later."""
    return re.sub(r"-(only|or-later)$", "", name)


def judge(name, said):
    if said is None:
        return "none"
    if said == name:
        return "right"
    return "version" if version_of(said) == version_of(name) else "wrong"


def read_contradicted():
    """By a text's mark and its label, the words that show that both cannot be right."""
    return {(row[0], row[1].lower()): row[2:] for row in read_table("contradicted.txt", 4)}


def measure(args, names):
    texts, left = gather(find_files(args.places), names)
    contradicted = read_contradicted()
    if not texts:
        stop("no labelled text; name copyright files that follow DEP-5, or folders of them")
    texts = [text for text in texts if args.half in ("all", half_of(text.mark))]
    apart = [text for text in texts if (text.mark, text.label.lower()) in contradicted]
    counted = [text for text in texts if (text.mark, text.label.lower()) not in contradicted]
    answers = scan(args, [text.text for text in counted])
    stored = {version_of(line["licence"]) for line in run(["list", "--json", args.book])}
    results = [(judge(text.name, said_of(answer)[0]), text, answer) for text, answer in zip(counted, answers)]
    if args.list or args.texts:
        list_misses(results, stored, args.texts)
        for text in apart:
            print(f"contradicted  {text.mark} {text.label}: {' '.join(contradicted[text.mark, text.label.lower()])}")
    for reason, count in sorted(left.items()):
        print(f"{count} License fields {reason} are left out")
    print(f"{len(apart)} texts contradict their labels (books/contradicted.txt) and are not counted")
    print(f"{sum(answer.get('changed', 0) > 0 for answer in answers)} texts have characters that are not ASCII")
    print_counts(args, results, stored)


def list_misses(results, stored, with_texts):
    """Each text that is not right: what the program says, what the label says; 'near' is the best licence below the threshold, with --second."""
    for verdict, text, answer in sorted(results, key=lambda row: (row[0], row[1].name, row[1].mark)):
        if verdict == "right":
            continue
        said, score = said_of(answer)
        near = answer.get("second") if said is None else None
        more = f", near {near['licence']} {near['score']:.4f}" if near else ""
        absent = "" if version_of(text.name) in stored else ", which the book has not"
        print(f"{verdict:8} {text.mark} {text.label}: {text.name}{absent}; said {said} {score:.4f}{more}; {text.path}")
        if with_texts:
            print("    | " + text.text.replace("\n", "\n    | "))


VERDICTS = ("right", "right"), ("version", "right but for only / or-later"), ("wrong", "wrong"), ("none", "none")


def print_counts(args, results, stored):
    count = collections.Counter(verdict for verdict, _, _ in results)
    absent = [verdict for verdict, text, _ in results if version_of(text.name) not in stored]
    total = len(results)
    print(f"half {args.half}, threshold {args.threshold}: {total} texts")
    for verdict, words in VERDICTS:
        print(f"{count[verdict]:6} {100 * count[verdict] / max(total, 1):5.1f} %  {words}")
    print(f"of these {len(absent)} texts are of licences that the book has not: {absent.count('none')} none, {absent.count('wrong')} wrong")
    tied = collections.Counter(verdict for verdict, _, answer in results if is_tied(answer))
    print(f"another licence has the very score, and the program says so: {tied['wrong']} of the wrong ones, {tied['right']} of the right ones")


SAID = re.compile(r"(version\s+)(([123])(?:\.\d)?)(?=[\s,;.)])(?!\.\d)", re.I)
NOTICE_MOST = 4000  # characters: a longer text is the licence itself


def measure_made(args, names):
    """The FSF's notices that say their version once, with another put there. Where no licence has that version, one that is named without doubt is wrong."""
    contradicted = read_contradicted()
    notices = [text.text for text in gather(find_files(args.places), names)[0]
               if re.match("A?GPL|LGPL", text.name) and len(text.text) < NOTICE_MOST and len(SAID.findall(text.text)) == 1
               and (text.mark, text.label.lower()) not in contradicted]
    made = [SAID.sub(lambda said: said[1] + args.made.replace("V", said[2]).replace("N", said[3]), text) for text in notices]
    count = collections.Counter("none" if said_of(answer)[0] is None else "tied" if is_tied(answer) else "sure" for answer in scan(args, made))
    print(f"{len(made)} notices that say version {args.made}: {count['sure']} named without doubt, {count['tied']} with another as high, {count['none']} none")


def labelled(path, names, stored):
    """The licences of the book that a file has texts of, by family and version."""
    found = {version_of(names[label.lower()]) for label, text in license_fields(path)
             if label.lower() in names and len(normal(cut_pointer(text)).split()) >= FEW}
    return found & stored


def choose_files(args, names, stored):
    """Files of 1,500 to 30,000 bytes with two or more licences of the default book, whatever book is measured; each content once, and of these the
    ones whose paths have the lowest hashes."""
    chosen, seen = {}, set()
    for path in find_files(args.places):
        with open(path, "rb") as file:
            content = file.read()
        licences = labelled(path, names, stored) if 1500 <= len(content) <= 30000 and content not in seen else ()
        if len(licences) >= 2:
            seen.add(content)
            chosen[path] = licences
    order = sorted(chosen, key=lambda path: hashlib.sha256(os.path.abspath(path).encode()).hexdigest())
    return {path: chosen[path] for path in order[:args.files]}


def names_in(answer):
    """All licences that the program names in a file, by family and version."""
    parts = answer.get("ranges", []) + answer.get("further", [])
    return {version_of(name) for name in [answer.get("licence")] + [part["licence"] for part in parts] if name}


def measure_files(args, names):
    stored = {version_of(line["licence"]) for line in run(["list", "--json", DEFAULT])}
    chosen = choose_files(args, names, stored)
    if len(chosen) < args.files:
        print(f"measure.py: only {len(chosen)} files have two or more licences of the book", file=sys.stderr)
    began = resource.getrusage(resource.RUSAGE_CHILDREN).ru_utime
    answers = run([*scan_words(args), "--ascii", args.book, *chosen]) if chosen else []
    seconds = resource.getrusage(resource.RUSAGE_CHILDREN).ru_utime - began
    count = collections.Counter()
    for answer, (path, licences) in zip(answers, chosen.items()):
        found = names_in(answer)
        count.update(labelled=len(licences), found=len(licences & found), other=len(found - licences), whole=int(licences <= found))
        if args.list:
            print(f"{path}: found {' '.join(sorted(licences & found)) or '-'}; missed {' '.join(sorted(licences - found)) or '-'}; "
                  f"not labelled {' '.join(sorted(found - licences)) or '-'}")
    print(f"{len(chosen)} files, {count['labelled']} licences labelled, {count['found']} found, {count['whole']} files with all found, "
          f"{count['other']} names not labelled, {seconds:.1f} s of processor time")


def decoded(note):
    """The note's characters; None where it is no UTF-8."""
    try:
        return note.decode("utf-8")
    except UnicodeDecodeError:
        return None


def above(note):
    """The characters that edition 3 does not take, each once."""
    return {character for character in decoded(note) or "" if ord(character) > WIDE_MOST}


def read_contents(places):
    """The content of each file once, in the order of the files, with its path; but for those that are too large."""
    contents = {}
    for path in find_files(places):
        with open(path, "rb") as file:
            contents.setdefault(file.read(NOTE_MOST + 1), path)
    return {content: path for content, path in contents.items() if len(content) <= NOTE_MOST}


def without_name(answer):
    return {key: value for key, value in answer.items() if key != "note"}


def measure_ascii(args, contents):
    """Files that are ASCII: do both books answer alike?"""
    notes = [note for note in contents if note.isascii()]
    pairs = list(zip(notes, answers_to(args, args.before, notes), answers_to(args, args.book, notes)))
    differing = [row for row in pairs if without_name(row[1]) != without_name(row[2])]
    print(f"{len(notes)} ASCII files: {len(notes) - len(differing)} are answered alike, {len(differing)} otherwise")
    for note, before, now in differing if args.list else ():
        print(f"    {contents[note]}: {said_of(before)}, then {said_of(now)}")


def count_found(answers, licences):
    """Of files with labelled licences: how many of these are found, and how many names are not labelled."""
    found = [(names_in(answer), wanted) for answer, wanted in zip(answers, licences) if wanted]
    return f"{sum(len(said & wanted) for said, wanted in found)} found, {sum(len(said - wanted) for said, wanted in found)} names not labelled"


def measure_read(args, contents, read, names):
    """Files that are read now, with their answers: the licences of the book that their labels say, and those that are named; before, with --ascii."""
    stored = {version_of(line["licence"]) for line in run(["list", "--json", args.book])}
    licences = [labelled(contents[note], names, stored) for note in read]
    before = answers_to(args, args.before, list(read), "--ascii")
    print(f"{len(read)} files are read now; {sum(map(bool, licences))} of them have {sum(map(len, licences))} labelled licences of the book: "
          f"{count_found(read.values(), licences)}; before, with --ascii: {count_found(before, licences)}")


def measure_refused(args, contents, names):
    """Files that are not: how many were refused for that, how many still are, and why."""
    notes = [note for note in contents if not note.isascii()]
    before = [answer["refusal"] == 2 for answer in answers_to(args, args.before, notes)]
    answers = dict(zip(notes, answers_to(args, args.book, notes)))
    left = [note for note, answer in answers.items() if answer["refusal"] == 2]
    print(f"{len(notes)} other files: {sum(before)} were refused for their characters, {len(left)} are now")
    measure_read(args, contents, {note: answer for note, answer in answers.items() if "licence" in answer}, names)
    broken = sum(decoded(note) is None for note in left)
    print(f"of the {len(left)} refused {len(left) - broken} have characters above U+00FF, {broken} are no UTF-8")
    count = collections.Counter(character for note in left for character in above(note))
    often = sorted(count, key=lambda character: (-count[character], character))[:8]
    print("most often " + ", ".join(f"U+{ord(character):04X} in {count[character]}" for character in often))


def measure_labelled(args, names):
    """Labelled texts that are not ASCII and that edition 3 takes, as they stand; before, with --ascii, since they were refused."""
    contradicted = read_contradicted()
    texts = [text for text in gather(find_files(args.places), names)[0]
             if not text.text.isascii() and (text.mark, text.label.lower()) not in contradicted]
    taken = [text for text in texts if decoded(bytes_of(text.text)) is not None and not above(bytes_of(text.text))]
    now = answers_to(args, args.book, [bytes_of(text.text) for text in taken])
    before = scan(args, [text.text for text in taken], args.before)
    print(f"{len(texts)} labelled texts are not ASCII, {len(taken)} of them are taken; now, and before with --ascii:")
    counts = [collections.Counter(judge(text.name, said_of(answer)[0]) for text, answer in zip(taken, answers)) for answers in (now, before)]
    for verdict, words in VERDICTS:
        print(f"{counts[0][verdict]:6} {counts[1][verdict]:6}  {words}")
    for text, old, new in zip(taken, before, now) if args.list else ():
        if said_of(old)[0] != said_of(new)[0]:
            print(f"    {text.path}, {text.label}: {said_of(old)}, then {said_of(new)}")


def measure_accents(args, names):
    contents = read_contents(args.places)
    print(f"{len(contents)} files of at most {NOTE_MOST:,} bytes, each content once")
    measure_ascii(args, contents)
    measure_refused(args, contents, names)
    measure_labelled(args, names)


def main():
    parser = argparse.ArgumentParser(description=__doc__, formatter_class=argparse.RawDescriptionHelpFormatter)
    parser.add_argument("places", nargs="*", metavar="FILE", help="copyright files, or folders of them (/usr/share/doc/*/copyright)")
    parser.add_argument("--book", default=DEFAULT, help="the book (books/debian-3.book)")
    parser.add_argument("--half", choices=("open", "held", "all"), default="open", help="which half of the texts; only the open one is for tuning (open)")
    parser.add_argument("--threshold", default="0.9", help="as the program's (0.9)")
    parser.add_argument("--list", action="store_true", help="list what is not right; with --files, what each file has")
    parser.add_argument("--texts", action="store_true", help="the same, and each text with it")
    parser.add_argument("--files", type=int, metavar="N", help="scan N whole files that have several licences instead")
    parser.add_argument("--made", metavar="VERSION", help="put this version into the FSF's notices, V for theirs, N for its first number: --made N.4")
    parser.add_argument("--accents", action="store_true", help="count the files that --before refuses for their characters, and what --book makes of them")
    parser.add_argument("--before", default=BEFORE, metavar="BOOK", help="with --accents, the book of an earlier edition (books/debian-2.book)")
    parser.add_argument("--options", default="", help="further options of the program's scan, in one word: --options='--thorough'")
    args = parser.parse_args()
    for book in (args.book, args.before) if args.accents else (args.book,):
        if not os.path.exists(book):
            stop(f"{book} is not there; books/make.sh makes the default books")
    names = {label.lower(): name for label, name in read_table("labels.txt", 2)}
    if args.files:
        measure_files(args, names)
    elif args.made:
        measure_made(args, names)
    elif args.accents:
        measure_accents(args, names)
    else:
        measure(args, names)


if __name__ == "__main__":
    main()
