"""nights.py LOG LINES: what became of each night of a log, the nights that are not in the mean first.

    crates/meterlog/out/meterlog < year.log > year.lines
    python3 python/nights.py year.log year.lines

It reads the log's bytes and the lines that the log program printed for them (document 01, "The log program"), and calls nothing of the core.
Each line has to belong to its item, and each `response` line has to count the days as the lines before it do; where one does not it says so on
standard error, prints no table and ends with 1. The values r and mean are not looked at.
"""

import pathlib
import re
import sys

from ledger import BEYOND_THE_PROGRAM, EDITION_UNKNOWN, NOT_MAXIMAL, PERIODS_OUT_OF_RANGE, STATES, Ledger, details, how_short, refusal

sys.path.append(str(pathlib.Path(__file__).resolve().parent.parent / "logs"))
from items import ASK, CAPTURE, EDITION, ENTER, OPEN, SAMPLE, START, WITHDRAW, decode

RAILS = (-8388608, 8388607)
VERDICTS = {"kept": "standing", "overload": "overloaded", "dead": "dead"}
DAY_OUT_OF_RANGE, DAY_STANDING, NOTHING_STANDING = 10, 11, 14
DAYS, MOST_PERIODS, MOST_KEPT, EDITIONS = 366, 16, 4, (1, 2)


class Fault(Exception):
    """The lines are not those of this log."""


class Reader:
    """A log read along with its lines."""

    def __init__(self, log, lines):
        self.log, self.at = log, 0
        self.lines, self.taken = lines, 0
        self.ledger, self.responses, self.counted = Ledger(), 0, 0
        self.length = self.capacity = self.day = self.periods = self.samples = self.last = None
        self.stopped = ""
        self.takes = {START: self.start, EDITION: self.edition, OPEN: self.open, CAPTURE: self.open, SAMPLE: self.sample}
        self.takes |= {ENTER: self.enter, WITHDRAW: self.withdraw, ASK: self.ask}

    def line(self, begins, numbers, ends=""):
        """The numbers of the next line, which has to begin with these words, and its last word where it may end with one."""
        if self.taken == len(self.lines):
            raise Fault(f"the lines end where `{begins} ..` is due, for byte {self.at} of the log")
        line = self.lines[self.taken]
        self.taken += 1
        rest = line[len(begins) :] if line.startswith(begins) else ""
        found = re.fullmatch(" (-?[0-9]{1,19})" * numbers + ends, rest)
        if not found:
            raise Fault(f"line {self.taken} is `{line}` where `{begins} ..` is due, for byte {self.at} of the log")
        return [int(word) if number < numbers else word for number, word in enumerate(found.groups())]

    def hold(self, holds, why):
        if not holds:
            raise Fault(f"line {self.taken}, `{self.lines[self.taken - 1]}`: {why}")

    def stands(self, day):
        return self.ledger.states.get(day) == "standing"

    def hold_standing(self, holds, day):
        self.hold(holds, f"day {day} {'stands' if self.stands(day) else 'does not stand'} there")

    def hold_periods(self, answer, day):
        """A night whose samples the program does not keep has one answer; any other is never refused for its periods."""
        m, never = self.periods, (PERIODS_OUT_OF_RANGE, BEYOND_THE_PROGRAM)
        if m is None or 1 <= m <= MOST_KEPT:
            self.hold(answer not in never, f"{'one period' if m is None else f'm = {m}'} is within the program's reach")
            return
        due = DAY_OUT_OF_RANGE if not 1 <= day <= DAYS else BEYOND_THE_PROGRAM if 1 <= m <= MOST_PERIODS else PERIODS_OUT_OF_RANGE
        self.hold(answer == due, f"m = {m} is answered with {due} there")

    # ---- the items

    def start(self, order, taps, capacity):
        answer, told = self.line("start", 1, "(?: ([0-9]{1,5}))?")
        self.length, self.capacity = (1 << order) - 1, capacity
        self.hold((answer == NOT_MAXIMAL) == (told is not None), "a period stands after 4 and nowhere else")
        self.hold(told is None or 0 < int(told) < self.length, f"a short register returns after 1 to {self.length - 1} steps there")
        if answer != 0:
            detail = how_short(int(told), self.length) if told else None
            self.stopped = f"the start was refused {refusal(answer, detail)}; no night was read"

    def edition(self, number):
        (answer,) = self.line("edition", 1)
        due = 0 if number in EDITIONS else EDITION_UNKNOWN
        self.hold(answer == due, f"edition {number} is answered with {due}")
        if answer != 0:
            self.stopped = f"the start was refused {refusal(answer)}; no night was read"

    def open(self, day, periods=None):
        """Opens a day, as a capture where periods are given."""
        self.day, self.periods, self.samples = day, periods, []

    def sample(self, value):
        self.samples.append(value)

    def enter(self):
        day, self.day = self.day, None
        answer, verdict = self.line(f"enter {day}", 1, " (kept|overload|dead|-)")
        self.hold((answer == 0) == (verdict in VERDICTS), "the answer and the verdict do not go together")
        self.hold_periods(answer, day)
        self.hold_standing(answer != (0 if self.stands(day) else DAY_STANDING), day)
        if answer != 0:
            detail = details(self.length, len(self.samples), self.capacity, self.periods).get(answer)
            self.ledger.refused("enter", day, refusal(answer, detail))
            return
        judged = self.samples if self.periods is None else self.samples[self.length :]
        place = next((k for k, value in enumerate(judged) if value in RAILS), None)
        self.hold((place is None) != (verdict == "overload"), f"the first sample at a rail: {'none' if place is None else place}")
        self.ledger.accepted("enter", day, VERDICTS[verdict], place)

    def withdraw(self, day):
        (answer,) = self.line(f"withdraw {day}", 1)
        self.hold_standing((answer == 0) == self.stands(day), day)
        if answer == 0:
            self.ledger.accepted("withdraw", day, "withdrawn")
        else:
            self.ledger.refused("withdraw", day, refusal(answer))

    def ask(self):
        answer, *counts = self.line("response", 5)
        tally = self.ledger.tally()
        self.hold(counts == list(tally.values()), f"the lines before it count {said(tally)}")
        self.hold(answer == (0 if tally["standing"] else NOTHING_STANDING), f"{tally['standing']} days stand")
        if answer == 0:
            for k in range(self.length):
                self.line(str(k), 2)
        self.responses, self.counted = self.responses + 1, len(self.ledger.notes)

    # ---- the log

    def allowed(self):
        """The kinds that may stand here."""
        if self.length is None:
            return (START,)
        if self.day is None:
            outside = (OPEN, CAPTURE, WITHDRAW, ASK)
            return (EDITION, *outside) if self.last == START else outside
        limit = self.length if self.periods is None else (self.periods + 1) * self.length
        return (ENTER,) if len(self.samples) == limit else (SAMPLE, ENTER)

    def bad(self):
        (offset,) = self.line("bad", 1)
        self.hold(offset == self.at, f"the log is bad at byte {self.at}")
        self.stopped = f"the log is bad at byte {self.at} of {len(self.log)}; what follows was not read"
        if self.day is not None:
            self.ledger.failed("enter", self.day, f"opened and not entered: the log is bad at byte {self.at}")

    def read(self):
        """Reads both to their ends."""
        while self.at < len(self.log) and not self.stopped:
            kind, item = self.log[self.at], decode(self.log, self.at)
            if kind not in self.allowed() or item is None:
                self.bad()
            else:
                self.takes[kind](*item[0])
                self.at, self.last = item[1], kind
        if not self.stopped and (self.day is not None or not self.log):
            self.bad()
        if self.taken < len(self.lines):
            raise Fault(f"line {self.taken + 1}, `{self.lines[self.taken]}`: the log has no item for it")

    # ---- the table

    def table(self):
        """The table's lines, and how much of it the response lines counted."""
        missing = self.ledger.not_in_mean([day for day in self.ledger.states if self.stands(day)])
        there = {day: words for day, words in self.ledger.nights().items() if day not in missing}
        for title, nights in (("not in the mean", missing), ("in the mean", there)):
            yield f"{title}: {len(nights)}"
            yield from (f"  day {day:5}  {words}" for day, words in nights.items())
        yield f"{said(self.ledger.tally())}; response lines that agree: {self.responses}"
        if self.counted < len(self.ledger.notes):
            yield f"calls after the last of these lines, which none counts: {len(self.ledger.notes) - self.counted}"
        if self.stopped:
            yield self.stopped


def said(tally):
    return ", ".join(f"{state} {tally[state]}" for state in STATES[1:])


def printed(data):
    """The lines of a file, each of which ends."""
    *lines, rest = data.decode("ascii", "replace").split("\n")
    if rest:
        raise Fault(f"line {len(lines) + 1}, `{rest}`, is cut")
    return lines


def main(words):
    if len(words) != 2:
        print("usage: nights.py LOG LINES", file=sys.stderr)
        return 2
    try:
        log, lines = (pathlib.Path(word).read_bytes() for word in words)
        reader = Reader(log, printed(lines))
        reader.read()
    except (Fault, OSError) as fault:
        print(f"nights: {fault}", file=sys.stderr)
        return 1
    print("\n".join(reader.table()))
    return 0


if __name__ == "__main__":
    sys.exit(main(sys.argv[1:]))
