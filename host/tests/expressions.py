#!/usr/bin/env python3
"""Holds the command expression against the second reading (oracle/expressions.py), run by host/test.sh: expressions.py COMMAND...

Random expressions, half of them with damage, and random bytes, a line each on standard input, with a list of accepted parts. Of each line of JSON: the text
as it was given, the refusal and its place, or what is written, whether it is satisfied and which parts are not accepted, in their order. The last line is
'N passed, M failed'; the exit status is 0 only where M is 0."""
import json
import os
import random
import subprocess
import sys
import tempfile

sys.path.insert(0, os.path.join(os.path.dirname(os.path.abspath(__file__)), "..", "..", "oracle"))
import expressions
import expressions_compare

ACCEPTED = [b"a", b"MIT", b"GPL-2.0+", b"B", b"LicenseRef-a", b"c WITH x", b"zz OR b"]
SHOWN = 5


def texts(rng):
    drawn = [*expressions_compare.random_texts(rng, 3000), *(rng.randbytes(rng.randrange(40)) for _ in range(1000))]
    return [text.replace(b"\n", b"").replace(b"\0", b"").rstrip(b"\r") for text in drawn]


def expected(text, accepted):
    word, tree = expressions.expression(text)
    if word != "tree":
        return {"refusal": word, "place": tree}
    parts = [expressions.spelled(part) for part in expressions.parts_of(tree)]
    first = {part.lower(): part for part in reversed(parts)}  # letter case aside, where it stands first
    unmet = [part.decode() for part in sorted(first.values(), key=parts.index) if not expressions.satisfied(accepted, part)]
    return {"refusal": 0, "written": expressions.written(text).decode(), "satisfied": expressions.satisfied(accepted, text), "unmet": unmet}


def main():
    asked, accepted = texts(random.Random(7)), b"\n".join(ACCEPTED)
    with tempfile.NamedTemporaryFile() as lines:
        lines.write(accepted + b"\n")
        lines.flush()
        ran = subprocess.run([*sys.argv[1:], "expression", "--json", "--accept", lines.name, "-"], input=b"\n".join(asked) + b"\n", capture_output=True)
    got = [json.loads(line) for line in ran.stdout.splitlines()]
    failed = [] if ran.returncode == 1 and len(got) == len(asked) else [f"status {ran.returncode}, {len(got)} lines for {len(asked)}"]
    for text, row in zip(asked, got):
        row.pop("message", None)
        row["text"] = row["text"].encode("utf-8", "surrogateescape")
        want = {"text": text, **expected(text, accepted)}
        if row != want:
            failed.append(f"{text!r}: {row}, not {want}")
    for why in failed[:SHOWN]:
        print(f"failed: {why}")
    print(f"{len(asked) - len(failed)} passed, {len(failed)} failed")
    return 1 if failed else 0


if __name__ == "__main__":
    sys.exit(main())
