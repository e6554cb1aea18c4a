"""The items of a log as bytes (document 01, "The log program", which calls them records; a capture is of request 1 of document 02, an edition of
request 9).

One byte of kind, then a body whose length the kind fixes; numbers little-endian.
"""

START, OPEN, SAMPLE, ENTER, WITHDRAW, ASK, CAPTURE, EDITION = range(1, 9)

# How many bytes each number of a kind's body has. A sample is signed, the others are not.
BODIES = {START: (1, 2, 1), OPEN: (2,), SAMPLE: (3,), ENTER: (), WITHDRAW: (2,), ASK: (), CAPTURE: (2, 1), EDITION: (1,)}


def encode(kind, *numbers):
    """The item's bytes."""
    body = (n.to_bytes(width, "little", signed=kind == SAMPLE) for width, n in zip(BODIES[kind], numbers, strict=True))
    return bytes([kind]) + b"".join(body)


def decode(log, at):
    """The numbers of the item whose kind stands at this byte, and where the next begins; None where the kind is unknown or the body cut."""
    kind = log[at]
    if kind not in BODIES or at + 1 + sum(BODIES[kind]) > len(log):
        return None
    at, numbers = at + 1, []
    for width in BODIES[kind]:
        numbers.append(int.from_bytes(log[at : at + width], "little", signed=kind == SAMPLE))
        at += width
    return numbers, at
