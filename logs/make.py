"""Makes a log from readable text: `python3 logs/make.py < examples/paper.txt > paper.log`.

The text is that of `second text`: one item a line, `samples` any number of them; `#` begins a comment.

    start 3 3 2
    day 1
    samples -4 -12 -4 12 12 -12 4
    enter
    ask
    withdraw 1

A night of several periods is opened with `capture DAY M` in the place of `day DAY`: a run-in and M periods, (M + 1) * P samples. Directly after `start`
may stand `edition 2`, and the means are then those of edition 2 of the report rules; `edition 1`, or none, is edition 1.

Each number has to fit its bytes and no more is checked, so that a log which the program must call bad can be made too. A bad line is named
with its number, nothing is written, and the exit status is 1; 2 where the input is not text.
"""

import re
import sys

from items import ASK, CAPTURE, EDITION, ENTER, OPEN, SAMPLE, START, WITHDRAW, encode

DAY = ("day", 0, 65535)
NUMBERS = {
    "start": (START, [("order", 0, 255), ("taps", 0, 65535), ("slots", 0, 255)], "write `start ORDER TAPS SLOTS`"),
    "edition": (EDITION, [("edition", 0, 255)], "write `edition N`"),
    "day": (OPEN, [DAY], "write `day N`, and the samples on lines of their own"),
    "capture": (CAPTURE, [DAY, ("m", 0, 255)], "write `capture DAY M`, and the samples on lines of their own"),
    "enter": (ENTER, [], "nothing may follow `enter`"),
    "withdraw": (WITHDRAW, [DAY], "write `withdraw N`"),
    "ask": (ASK, [], "nothing may follow `ask`"),
}

# White space as Unicode has it: Python's own takes four control characters more.
WORD = re.compile(r"[\S\x1c-\x1f]+")


class BadLine(Exception):
    """The first bad line, with its number."""


def value(word, name, low, high):
    """A whole number that its place in a log can hold."""
    found = re.fullmatch("([+-]?)0*([0-9]{1,10})", word)
    if found and low <= int(found[1] + found[2]) <= high:
        return int(found[1] + found[2])
    raise BadLine(f"{name} `{word}` is not a whole number from {low} to {high}")


def items(line):
    """The bytes of a line's items."""
    words = WORD.findall(line.split("#")[0])
    if not words:
        return b""
    name, *values = words
    if name == "samples":
        if not values:
            raise BadLine("write `samples` and at least one value")
        return b"".join(encode(SAMPLE, value(word, "sample", -8388608, 8388607)) for word in values)
    if name not in NUMBERS:
        raise BadLine(f"`{name}` is not one of start, edition, day, capture, samples, enter, withdraw, ask")
    kind, places, otherwise = NUMBERS[name]
    if len(values) != len(places):
        raise BadLine(otherwise)
    return encode(kind, *(value(word, *place) for word, place in zip(values, places)))


def log_from_text(text):
    """The log's bytes."""
    log = []
    for number, line in enumerate(text.split("\n"), 1):
        try:
            log.append(items(line))
        except BadLine as fault:
            raise BadLine(f"line {number}: {fault}") from None
    return b"".join(log)


def main():
    try:
        log = log_from_text(sys.stdin.buffer.read().decode())
    except BadLine as fault:
        print(f"make: {fault}", file=sys.stderr)
        return 1
    except UnicodeDecodeError as fault:
        print(f"make: the input is not text: {fault}", file=sys.stderr)
        return 2
    sys.stdout.buffer.write(log)
    return 0


if __name__ == "__main__":
    sys.exit(main())
