#!/usr/bin/env python3
"""Holds the second reading of licence expressions (expressions.py) against two packaged parsers.

    oracle/expressions_others.py [--seed N] [--texts N]

On Debian 12: `apt-get install -y --no-install-recommends python3-license-expression node-spdx-expression-parse` (30.1.0 and 3.0.1, the latter with
the license list of node-spdx-license-ids 3.0.12). Asks all three about N random expressions (default 10,000) of identifiers that the list has, half
of them with damage; half as many of any names; and every text of up to 5 pieces over an alphabet of 6. Of each: who accepts it; on what two or all
accept, whether the same lists satisfy it. That each package judges itself: the first puts true and false for the symbols and simplifies, the second's
tree is walked.

A text that one accepts and another refuses must be of one of the kinds below; prints each kind with its number and the shortest such text
(docs/DIFFERENCES.md explains them). Each kind must be met. The last line is 'N passed, M failed'. Exit status: 0 none failed, 1 some did, 2 a package
is not there.
"""

import argparse
import collections
import json
import os
import random
import re
import subprocess
import sys

import expressions
import expressions_compare as compare

PYTHON = """
import json, sys
import license_expression
algebra = license_expression.Licensing()
for line in sys.stdin:
    text, lists = json.loads(line)
    try:
        tree = algebra.parse(text)
        symbols = {s: s.render().lower() for s in tree.get_literals()}
        put = lambda given: {s: algebra.TRUE if name in given else algebra.FALSE for s, name in symbols.items()}
        print(json.dumps([tree.subs(put(given), simplify=True) == algebra.TRUE for given in lists]), flush=True)
    except Exception:
        print("null", flush=True)
"""

NODE = """
const parse = require('spdx-expression-parse')
const met = (given, tree) => tree.conjunction === 'and' ? met(given, tree.left) && met(given, tree.right)
  : tree.conjunction === 'or' ? met(given, tree.left) || met(given, tree.right)
  : given.includes((tree.license + (tree.plus ? '+' : '') + (tree.exception ? ' WITH ' + tree.exception : '')).toLowerCase())
require('readline').createInterface({ input: process.stdin }).on('line', line => {
  const [text, lists] = JSON.parse(line)
  let tree = null
  try { tree = parse(text) } catch { }
  console.log(JSON.stringify(tree && lists.map(given => met(given, tree))))
})
"""

LISTED = "MIT ISC 0BSD Apache-2.0 BSD-3-Clause GPL-2.0 GPL-2.0-only GPL-3.0-or-later LGPL-2.1 MPL-2.0 Zlib".split()
LISTED_EXCEPTIONS = ["Classpath-exception-2.0", "GCC-exception-3.1", "LLVM-exception"]
PIECES = ("MIT", "AND", "OR", " ", "(", ")")
PICKED = """DocumentRef-a: LicenseRef-b|DocumentRef-a :LicenseRef-b|GPL-2.0+OR MIT|MIT+AND MIT|GPL-2.0+WITH Classpath-exception-2.0|LicenseRef-; OR MIT
a OR b OR|(a)b OR c|AND+|a WITH x+|LicenseRef-a+|a++|a_b|a:b|a b|a or b|or|a\tOR b|\xe9|LicenseRef-""".replace("\n", "|").split("|")
PICKED += ["(" * depth + "MIT" + ")" * depth for depth in range(30, 36)]
FRONTS = (b"LicenseRef-", b"DocumentRef-")


class Trouble(Exception):
    pass


class Package:
    """A parser in a process of its own, which is asked a text and lists, and answers null or what each list does."""

    def __init__(self, command, **environment):
        env = {**os.environ, **environment}
        self.command = command
        self.process = subprocess.Popen(command, stdin=subprocess.PIPE, stdout=subprocess.PIPE, text=True, env=env)

    def ask(self, text, lists):
        try:
            self.process.stdin.write(json.dumps([text.decode("latin-1"), lists]) + "\n")
            self.process.stdin.flush()
        except BrokenPipeError:
            pass
        answer = self.process.stdout.readline()
        if not answer:
            raise Trouble(f"{self.command[0]} ends: is the package there?")
        return json.loads(answer)


# ---- kinds of differences: a name, and a test on the text and, where we accept it, its parts; the first that holds is taken -------------------

ID, SIGN = r"[A-Za-z0-9.-]+", r"[A-Za-z0-9.:+_-]"
WITH_DOCUMENT = re.compile(rf"(?<!{SIGN})DocumentRef-{ID}:LicenseRef-{ID}".encode("ascii"))
ALONE = rf"(?<!{SIGN})(?:%s)(?!{SIGN})"  # a word by itself
NO_WORD = rf"(?!(?:AND|OR|WITH)(?!{SIGN}))"


def some(pattern):
    compiled = re.compile(pattern.encode("ascii"))
    return lambda text, parts: compiled.search(text) is not None


def deep(text, parts):
    return expressions.first_deep(text) is not None


def of_parts(test):
    return lambda text, parts: any(test(*part[1:]) for part in parts)


def unlisted(name, plus, exception):
    return name.decode() not in LISTED and not name.startswith(FRONTS) or exception.decode() not in [*LISTED_EXCEPTIONS, ""]


# what we alone accept
LOST = {
    "python": {
        "AND, OR or WITH in other letters, as a name": of_parts(lambda name, plus, exception: {name.upper(), exception.upper()} & {b"AND", b"OR", b"WITH"}),
    },
    "node": {
        "WITH behind a license-ref": of_parts(lambda name, plus, exception: name.startswith(FRONTS) and exception),
        "a name that its list has not, or in other letters": of_parts(unlisted),
    },
}

# what the package alone accepts
GAINED = {
    "python": {
        "depth above 32": deep,
        "a letter that is not ASCII": some(r"[\x80-\xff]"),
        "white space other than blanks": some(r"[\t\n\r\v\f\x1c-\x1f]"),
        "an underscore in a name": some("_"),
        "`+` behind a license-ref": some(rf"LicenseRef-{ID}\+"),
        "`+` behind AND, OR or WITH": some(rf"(?<!{SIGN})(?:AND|OR|WITH)\+"),
        "`+` behind an exception": some(rf"WITH +{SIGN}*\+"),
        "`+` within a name, twice or alone": some(rf"\+{SIGN}|(?<!{SIGN})\+"),
        "`:` elsewhere than in a license-ref": lambda text, parts: b":" in WITH_DOCUMENT.sub(b"", text),
        "an operator in small letters": some(ALONE % "(?!AND|OR|WITH)(?i:and|or|with)"),
        "a front with nothing behind it, or a document alone": some(ALONE % f"LicenseRef-|DocumentRef-|DocumentRef-{ID}"),
        "nothing behind an operator": some(ALONE % "AND|OR" + r" *(?:\)|$)"),
        "a name behind a pair": some(rf"\) *{NO_WORD}{SIGN}"),
        "a blank in a name": some(rf"(?<!{SIGN}){NO_WORD}{SIGN}+ +{NO_WORD}{SIGN}"),
    },
    "node": {
        "depth above 32": deep,
        "an empty pair before an operand": some(r"\( *\)"),
        "a blank beside the colon of a license-ref": some(" :|: "),
        "another byte for the name of a reference": some(r"Ref-[^A-Za-z0-9.-]"),
        "no blank behind an operator": some(rf"(?:AND|OR|WITH){SIGN}"),
        "no blank before an operator": some(r"\+(?:AND|OR|WITH)"),
    },
}


# ---- what is asked -----------------------------------------------------------------------------------------------------------------------------


def texts(seed, number):
    rng = random.Random(seed)
    yield from compare.random_texts(rng, number, LISTED, LISTED_EXCEPTIONS)
    yield from compare.random_texts(rng, number // 2)
    yield from ("".join(each).encode() for each in compare.over(PIECES, 5))
    yield from (text.replace("a", "MIT").encode() for text, *_ in compare.MARKED)
    yield from (text.encode("latin-1") for text in PICKED)


def beside(part):
    """Itself, and parts that are almost it: with or without `+`, without the exception."""
    kind, name, plus, exception = part
    return {part, (kind, name, plus, b""), (kind, name, plus if name.startswith(FRONTS) else not plus, exception)}


def lists_for(rng, parts):
    """Some lists of these parts and of those beside them; of lines alike but for letters only one."""
    lines = {line.lower(): line for line in sorted(expressions.spelled(part).decode() for part in set().union(*map(beside, parts)))}
    return [[line for line in lines.values() if rng.random() < likely] for likely in (0.3, 0.5, 0.7, 0.9, 1)]


class Tally:
    def __init__(self):
        self.accepted, self.kinds, self.examples = collections.Counter(), collections.Counter(), {}
        self.lists, self.texts, self.failed = collections.Counter(), 0, 0

    def fail(self, told):
        self.failed += 1
        print(f"  {told}")

    def differ(self, name, who, kinds, text, parts):
        """Of a text that one of us accepts."""
        kind = next((kind for kind, test in kinds[name].items() if test(text, parts)), None)
        if kind is None:
            self.fail(f"{text!r}: accepted by {who} alone, of no kind that is known")
        self.kinds[name, who, kind] += 1
        self.examples[name, who, kind] = min(self.examples.get((name, who, kind), text), text, key=lambda t: (len(t), t))

    def hold(self, packages, text, rng):
        word, tree = expressions.expression(text)
        parts = expressions.parts_of(tree) if word == "tree" else []
        lists = lists_for(rng, parts)
        ours = [expressions.satisfied("\n".join(lines).encode(), text) for lines in lists] if parts else None
        answers = {name: package.ask(text, [[line.lower() for line in lines] for lines in lists]) for name, package in packages.items()}
        self.texts += 1
        self.accepted.update([name for name, answer in [("ours", ours), *answers.items()] if answer is not None])
        self.accepted["all three"] += None not in (ours, *answers.values())
        for name, answer in answers.items():
            if ours is not None and answer is not None:
                self.lists[name] += len(lists)
                if ours != answer:
                    self.fail(f"{text!r}, {lists}: ours {ours}, {name} {answer}")
            elif ours is not None:
                self.differ(name, "ours", LOST, text, parts)
            elif answer is not None:
                self.differ(name, name, GAINED, text, parts)


def main():
    options = argparse.ArgumentParser(description="Holds the second reading of licence expressions against two packaged parsers.")
    options.add_argument("--seed", default="1", help="another seed gives other texts and lists (default 1)")
    options.add_argument("--texts", type=int, default=10000, help="random texts of listed identifiers (default 10,000)")
    given = options.parse_args()
    packages = {"python": Package(["/usr/bin/python3", "-c", PYTHON]), "node": Package(["node", "-e", NODE], NODE_PATH="/usr/share/nodejs")}
    tally, rng = Tally(), random.Random(f"{given.seed} lists")
    for text in texts(given.seed, given.texts):
        tally.hold(packages, text, rng)
    print(f"{tally.texts} texts; accepted by " + ", ".join(f"{name} {count}" for name, count in tally.accepted.items()))
    for name in packages:
        print(f"satisfied by the same of {tally.lists[name]} lists: {name}")
        for who, kinds in (("ours", LOST), (name, GAINED)):
            for kind in kinds[name]:
                print(f"{tally.kinds[name, who, kind]:8} accepted by {who} alone: {kind}: {tally.examples.get((name, who, kind))!r}")
                if not tally.kinds[name, who, kind]:
                    tally.fail(f"not met: {name}, {kind}")
    print(f"{max(tally.texts - tally.failed, 0)} passed, {tally.failed} failed")
    return 1 if tally.failed else 0


if __name__ == "__main__":
    try:
        sys.exit(main())
    except Trouble as trouble:
        print(f"expressions_others: {trouble}", file=sys.stderr)
        sys.exit(2)
