#!/usr/bin/env python3
"""Holds scan --allowance against scan --budget, run by host/test.sh: allowance.py COMMAND...

Every note of a call by an allowance is answered as it is alone by a budget of what the notes before it have left. In JSON that is so but for `used`, which is
the sum of all scorings until then and never above the allowance, and for the message; in plain words but for which of the two stopped it, and for the last
line. The calls are those of places.py: books of each edition, one and two, both modes, --thorough, --second and --ascii; among their notes stand one that is
refused and one that is not there. The last line is 'N passed, M failed'; the exit status is 0 only where M is 0."""
import json
import os
import random
import sys
import tempfile

import places

MOST = 2**64 - 1
STOPPED = "refused (12): stopped by the allowance; scan this note alone, or all with a larger one"
MET = "within last unpaid further unread uncounted refused trouble beside down plain".split()


def scorings(told):
    return told.get("scorings", 0) + told.get("more", 0)


def is_stopped(told):
    return told.get("refusal") == 12 or told.get("stopped", False)


def status_of(told):
    return 2 if "trouble" in told else 1 if told["refusal"] or is_stopped(told) else 0


def told_by(command, words, notes):
    ran = places.run(command, *words, "--json", *notes)
    return [json.loads(line) for line in ran.stdout.splitlines()], ran.returncode


class Call:
    """A call without a limit, and with a budget of 0 for each note: what a note is that is paid to its end, and one that is not paid at all."""

    def __init__(self, command, words, notes):
        self.command, self.words, self.notes = command, words, notes
        self.paid, self.status = told_by(command, words, notes)
        self.unpaid, _ = told_by(command, [*words, "--budget", "0"], notes)
        self.all = sum(map(scorings, self.paid))

    def by_budget(self, at, left):
        if left >= scorings(self.paid[at]):
            return self.paid[at]
        return told_by(self.command, [*self.words, "--budget", str(left)], self.notes[at : at + 1])[0][0] if left else self.unpaid[at]


def bare(told):
    return {key: value for key, value in told.items() if key not in ("used", "message")}


def count_met(tally, told, left, paid):
    findings = told.get("ranges", []) + told.get("further", [])
    for what, met in (
        ("within", told.get("refusal") == 12 and left > 0), ("unpaid", told.get("refusal") == 12 and left == 0), ("further", told.get("stopped")),
        ("uncounted", any(each["m"] is None for each in findings)), ("refused", told.get("refusal") == 2), ("trouble", "trouble" in told),
        ("unread", any(each["rival"] is None for each in findings) and not is_stopped(told)), ("last", paid and left == scorings(told) > 0),
    ):
        tally.met[what] += bool(met)


def hold_cap(tally, call, cap):
    notes, status = told_by(call.command, [*call.words, "--allowance", str(cap)], call.notes)
    used, what = 0, f"{call.words}, an allowance of {cap}"
    tally.hold([each["note"] for each in notes] == call.notes, f"{what}: {notes}")
    for at, told in enumerate(notes):
        left = cap - used
        want = call.by_budget(at, left)
        used += scorings(told)
        tally.hold(bare(told) == bare(want), f"{what}, with {left} left: {told}, not {want}")
        tally.hold(told["used"] == used <= cap, f"{what}: {told['used']} used, not {used}")
        message = STOPPED if told.get("refusal") == 12 else want.get("message")
        tally.hold(told.get("message") == message, f"{what}: {told}, not with {message}")
        count_met(tally, told, left, want == call.paid[at])
    tally.hold(status == max(map(status_of, notes)), f"{what}: status {status}")
    return notes


def last_line(notes, cap):
    stopped = sum(map(is_stopped, notes))
    used = f"{notes[-1]['used']} of {cap} scoring{'' if cap == 1 else 's'} of the allowance used"
    whom = f"{stopped} note{'' if stopped == 1 else 's'}: scan {'it' if stopped == 1 else 'them'}"
    return used + (f"; it stopped {whom} alone, or all with a larger one\n" if stopped else "\n")


def hold_plain(tally, call, cap, notes):
    """In plain words: note by note what a budget says, the one word changed."""
    want, left = "", cap
    for at, told in enumerate(notes):
        alone = places.run(call.command, *call.words, "--budget", str(left), call.notes[at]).stdout.decode()
        want += alone.replace("stopped by the budget\n", "stopped by the allowance\n")
        left -= scorings(told)
    said = places.run(call.command, *call.words, "--allowance", str(cap), *call.notes).stdout.decode()
    tally.hold(said == want + last_line(notes, cap), f"{call.words}, an allowance of {cap}: {said}, not {want}")
    tally.met["plain"] += "stopped by the allowance\n" in said


def caps_of(rng, call):
    """Some within all scorings that the notes make, the ends of those of the first notes, and those around the sum."""
    first = sum(map(scorings, call.paid[: rng.randint(1, len(call.paid))]))
    return sorted({0, 1, first, rng.randint(0, call.all), rng.randint(0, call.all), call.all, max(call.all - 1, 0), call.all + 1, MOST})


def main():
    command, rng, tally = sys.argv[1:], random.Random(112), places.Tally(MET)
    command[-1] = os.path.abspath(command[-1])
    with tempfile.TemporaryDirectory() as folder:
        os.chdir(folder)
        places.write("refused", "\u20ac".encode())
        for turn, (words, notes, way) in enumerate(places.every_call(rng, command)):
            call = Call(command, ["scan", *words], rng.sample([*notes, "refused", "nowhere"], len(notes) + 2))
            told = {cap: hold_cap(tally, call, cap) for cap in caps_of(rng, call)}
            cap = rng.choice([*told])
            if turn % 4 == 0:
                hold_plain(tally, call, cap, told[cap])
            tally.met["beside"] += "--beside" in words
            tally.met["down"] += "--top-down" in way
    return tally.end()


if __name__ == "__main__":
    sys.exit(main())
