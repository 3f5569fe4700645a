"""What #113 promises of top-down ranges above 0.0, looked at in what the original says, for compare.py, agree.py and scale.py.

The original knows no such rule: it follows from what it does. At 0.0 it does not hold, which questions with a known answer must show first: so a broken
promise is known to be seen.
"""

import collections

import model
from original import Trouble

Range = collections.namedtuple("Range", "first after")
ZEROS = ("00000000", "80000000")  # 0.0 and -0.0
WHOLE = 2**64 - 1
LICENCE, NOTE = b"My First License".hex(), b"x\ny".hex()  # at 0.0 the empty range 2 2


def ranges_of(answer):
    """Of a scan, as the original tells it."""
    return [Range(*map(int, record.split(" ")[1:3])) for record in answer.split(" ; ")[1:]]


class Promise:
    """Counts what is looked at, and holds what breaks the promise. The oracle's store is filled anew."""

    def __init__(self, oracle):
        self.seen, self.lost = collections.Counter(), []
        oracle.ask("clear")
        oracle.ask("add", b"A".hex(), 2, LICENCE)
        asked = [f"down {zero} 3f800000 1 {NOTE}" for zero in ZEROS] + [f"countdown {zero} 3f800000 1 {WHOLE} {NOTE}" for zero in ZEROS]
        for question in asked:
            self.look(question, ranges_of(oracle.ask("placed", question)))
        if self.seen["broken at 0.0"] != len(asked):
            raise Trouble(f"at 0.0 the original breaks the promise of #113 in {self.seen['broken at 0.0']} of {len(asked)} answers that are known to")

    def look(self, question, ranges):
        """At the ranges that the original, or the counted copy, has for a `down` or `countdown`."""
        _, threshold, *_, text = question.split(" ")
        broken = model.broken(bytes.fromhex(text.strip("-")).count(b"\n") + 1, ranges)
        if threshold in ZEROS:
            self.seen["at 0.0"] += 1
            self.seen["broken at 0.0"] += bool(broken)
            return
        self.seen["above"] += 1
        self.seen["ranges"] += len(ranges)
        if broken:
            self.lost.append(f"{question}, not so of {[(one.first, one.after) for one in ranges]}: {', '.join(broken)}")

    def told(self):
        lost = "".join(f"\nbreaks the promise of #113: {what[:600]}" for what in self.lost[:10])
        above = f"{self.seen['above']} top-down answers of the original above 0.0, with {self.seen['ranges']} ranges"
        return f"{above}, {len(self.lost)} break the promise of #113; at 0.0 {self.seen['broken at 0.0']} of {self.seen['at 0.0']} do{lost}"
