"""What became of each night, in words: a note of every call that names a day, so that no night is left out of the mean unseen.

It calls nothing of the core. `meter.Campaign` keeps a ledger of the calls made on it, `nights.py` one of the lines that the log program printed.
"""

from typing import NamedTuple, Optional

STATES = ("unseen", "standing", "overloaded", "dead", "withdrawn")
NOT_MAXIMAL, BEYOND_THE_PROGRAM, PERIODS_OUT_OF_RANGE, VERDICT_DIFFERS, EDITION_UNKNOWN = 4, 17, 18, 23, 24

# Document 01, "Refusal numbers", and those that the requests of document 02 add.
CAUSES = {
    1: "order below 2 or above 16",
    2: "taps not below 2^N",
    3: "tap 0 clear",
    NOT_MAXIMAL: "register not maximal",
    5: "recording or response not exactly P long, capture not exactly (m+1)*P",
    6: "output or working room too short",
    7: "a value outside the sample range",
    8: "a predicted sample outside the sample range",
    9: "slot count not 1 to 64",
    10: "day not 1 to 366",
    11: "day already standing",
    12: "verdict kept and C days stand",
    13: "day not standing",
    14: "nothing standing",
    15: "record does not hold together",
    16: "player's window zero or not below 2^N",
    BEYOND_THE_PROGRAM: "the program only: order above 9, slots above 8, or 5 to 16 periods",
    PERIODS_OUT_OF_RANGE: "periods not 1 to 16",
    VERDICT_DIFFERS: "verdict handed in is not what judging gives",
    EDITION_UNKNOWN: "edition not 1 or 2",
}


def explain(number):
    """An answer in words, as `meter_explain` of include/meter.h has them."""
    return "accepted" if number == 0 else CAUSES.get(number, "unknown")


def refusal(number, detail=None):
    """A refusal in document 01's words, with the numbers at hand where they say more."""
    words = f"{number}: {explain(number)}"
    if not detail:
        return words
    return f"{words}: {detail}" if number == NOT_MAXIMAL else f"{words} ({detail})"


def how_short(period, length):
    """The detail of a register that is not maximal: it returns after its period, where a maximal one takes the whole length P."""
    return f"it returns after {period} {'step' if period == 1 else 'steps'} of {length}"


def details(length, given, capacity=None, periods=None, shown=None):
    """The numbers at hand of a recording given where P samples are wanted, or of a capture of so many periods where (m+1)*P are, and the verdict shown
    where one was handed in, by the refusal whose words leave them unsaid."""
    said = {5: f"P is {length}, {given} given", 12: f"C is {capacity}", VERDICT_DIFFERS: f"{shown} was handed in"}
    if periods is None:
        return said
    asked = f"m is {periods}"
    return said | {5: f"(m+1)*P is {(periods + 1) * length}, {given} given", BEYOND_THE_PROGRAM: asked, PERIODS_OUT_OF_RANGE: asked}


class Note(NamedTuple):
    """A call that named a day, "enter", which is what a filing is noted as too, or "withdraw": the state that it gave the day, None where it gave none,
    and that in words."""

    call: str
    day: int
    state: Optional[str]
    words: str


class Ledger:
    """The notes of a campaign, in the order of the calls, and the state that the last accepted call gave each day."""

    def __init__(self):
        self.notes, self.states = [], {}

    def accepted(self, call, day, state, place=None):
        """Notes a call that gave the day this state; the place is an overload's."""
        self.notes.append(Note(call, day, state, state if place is None else f"{state} at sample {place}"))
        self.states[day] = state

    def failed(self, call, day, words):
        """Notes a call that changed nothing, and why."""
        self.notes.append(Note(call, day, None, words))

    def refused(self, call, day, cause):
        """Notes a refused call, the cause as `refusal` has it."""
        self.failed(call, day, f"refused {cause}" if call == "enter" else f"withdrawal refused {cause}")

    def tally(self):
        """How many days are in each state but the first."""
        states = list(self.states.values())
        return {state: states.count(state) for state in STATES[1:]}

    def nights(self):
        """Each day named, in day order: what gave it its state, and after that the last failure of each call, since a withdrawal that failed
        is not why the day has no recording."""
        said = {}
        for note in self.notes:
            before = [] if note.state else said.get(note.day, [])
            said[note.day] = [n for n in before if n.state or n.call != note.call] + [note]
        return {day: "; then ".join(note.words for note in said[day]) for day in sorted(said)}

    def not_in_mean(self, standing):
        """Each day named that is not one of those standing, with its reason."""
        return {day: words for day, words in self.nights().items() if day not in standing}
