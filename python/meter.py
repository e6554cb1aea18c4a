"""The response meter from Python: a thin ctypes wrapper over the proved C door (include/meter.h). It needs no numpy.

    door/archive                        # proves the meter and writes target/staticlib/libmeter.a
    python3 python/example.py           # from a list of nights to the nights that are not in the mean, and the mean

The shared object is linked from that archive at the first import, by `cc`; METER_LIBRARY names another. Samples are whole numbers
from -8388608 to 8388607; any sequence of them will do. A refused call raises `Refused`, with document 01's number, and changes nothing; taps that
are not maximal are refused with the number of steps after which their register returns. `explain` has every answer in words.
A `Campaign` notes its refused calls in a ledger, and `not_in_mean()` says which nights are missing and why. A night is one period, or with `periods=m` a
capture: a run-in of one period, which is dropped, and m that are summed. `judge` says what a night's verdict would be and keeps nothing; `Campaign.file`
takes the night with that verdict, and `Campaign.enter` does both in one call. A campaign keeps the edition of the report rules that it was started in:
HALVES_AWAY, which is 1, or HALVES_TO_EVEN, which is 2. Only a mean at an exact half depends on it.
A short room is measured with a Legendre sequence, of one of the periods in LEGENDRE_PERIODS: `legendre_sequence`, `legendre_recording`, `legendre_predict`.
"""

import contextlib
import ctypes
import operator
import os
import pathlib
import subprocess
import tempfile
from typing import NamedTuple, Optional

from ledger import NOT_MAXIMAL, STATES, Ledger, details, explain, how_short, refusal

DAYS = 366
SLOTS = 64
HALVES_AWAY, HALVES_TO_EVEN = 1, 2
LEGENDRE_PERIODS = (7, 11, 19, 23, 31, 43, 47, 59, 67, 71, 79, 83, 103, 107, 127)


class Refused(Exception):
    """A call's refusal: `number` is document 01's, `detail` the numbers at hand where they say more, and `period`, where the number is 4, the steps
    after which the register first returns to all ones; it is None elsewhere."""

    def __init__(self, number, detail=None, period=None):
        super().__init__(number, detail, period)
        self.number, self.detail, self.period = number, detail, period

    def __str__(self):
        return refusal(self.number, self.detail)


class Verdict(NamedTuple):
    """What became of a night: its state, and the slot of one that stands or the first place at a rail of one that is overloaded, counted behind the
    run-in."""

    state: str
    value: int


class Judged(NamedTuple):
    """What judging says of a night before anything is kept: "kept", which has no slot yet, "overloaded" with the first place at a rail, counted behind the
    run-in, or "dead". Only one that is overloaded has a place."""

    verdict: str
    place: Optional[int] = None

    def __str__(self):
        return f"{self.verdict}" if self.place is None else f"{self.verdict} at sample {self.place}"


class Levels(NamedTuple):
    """The highest r, the lowest r and r at the peak, each over (P+1) times the periods standing."""

    highest: float
    lowest: float
    peak: float


# ---- the shared object


def _shared_object():
    """The path of the shared object, linked from the archive where the archive is newer; it comes whole into its place, so that
    another process at the same import never finds half of it."""
    named = os.environ.get("METER_LIBRARY")
    if named:
        return named
    root = pathlib.Path(__file__).resolve().parent.parent
    archive, made = root / "target/staticlib/libmeter.a", root / "target/python/libmeter.so"
    if not archive.exists():
        raise ImportError(f"{archive} is not there: run `door/archive`")
    if not made.exists() or made.stat().st_mtime < archive.stat().st_mtime:
        made.parent.mkdir(parents=True, exist_ok=True)
        whole = ["-Wl,--whole-archive", str(archive), "-Wl,--no-whole-archive"]
        with tempfile.TemporaryDirectory(dir=made.parent) as room:
            linked = pathlib.Path(room) / made.name
            subprocess.run([os.environ.get("CC", "cc"), "-shared", "-o", str(linked), *whole], check=True)
            linked.replace(made)
    return str(made)


_door = ctypes.CDLL(_shared_object())
_u32, _i32, _f64, _size = ctypes.c_uint32, ctypes.c_int32, ctypes.c_double, ctypes.c_size_t
_P = ctypes.POINTER


def _types(*kinds):
    """The C types of parameters: a ctypes type for a number, [type] for a slice."""
    return [t for k in kinds for t in ((_P(k[0]), _size) if isinstance(k, list) else (k,))]


_RECORD = (_u32, _u32, _u32, _u32, [ctypes.c_uint8], [ctypes.c_uint16], [ctypes.c_uint8], [_i32], [ctypes.c_int64])
_ROOM = ([ctypes.c_int64], [ctypes.c_uint16])
_PERIOD = _P(_u32)
for _name, _kinds in {
    "taps": (_u32, _u32, _PERIOD),
    "default_taps": (_u32, _P(_u32)),
    "sequence": (_u32, _u32, [ctypes.c_uint8], _PERIOD),
    "player_new": (_u32, _u32, *[_P(_u32)] * 4),
    "player_step": (*[_P(_u32)] * 4, _P(_i32)),
    "player_play": (*[_P(_u32)] * 4, [ctypes.c_int8]),
    "recording": (_u32, _u32, [_i32], [ctypes.c_int64], *_ROOM, _PERIOD),
    "predict": (_u32, _u32, [_i32], [_i32], _PERIOD),
    "legendre_sequence": (_u32, [ctypes.c_uint8]),
    "legendre_recording": (_u32, [_i32], [ctypes.c_int64]),
    "legendre_predict": (_u32, [_i32], [_i32]),
    "judge": (_u32, _u32, [_i32], _P(_u32), _P(_size), _PERIOD),
    "judge_capture": (_u32, _u32, _u32, [_i32], _P(_u32), _P(_size), _PERIOD),
    "start": (*_RECORD, _PERIOD),
    "enter": (*_RECORD, _u32, [_i32], _P(_u32), _P(_size)),
    "capture": (*_RECORD, _u32, _u32, [_i32], _P(_u32), _P(_size)),
    "file": (*_RECORD, _u32, [_i32], _u32, _size, _P(_u32), _P(_size)),
    "file_capture": (*_RECORD, _u32, _u32, [_i32], _u32, _size, _P(_u32), _P(_size)),
    "withdraw": (*_RECORD, _u32),
    "counts": (*_RECORD, *[_P(_u32)] * 5),
    "response": (*_RECORD, [ctypes.c_int64], [_i32], *_ROOM),
    "summary": (*_RECORD, *_ROOM, _P(_u32), *[_P(_f64)] * 3),
}.items():
    _function = getattr(_door, "meter_" + _name)
    _function.argtypes, _function.restype = _types(*_kinds), _u32


def _answer(name, *arguments):
    """What meter_NAME answers: an array goes as a pointer and a length, a lent number by reference."""
    flat = []
    for a in arguments:
        if isinstance(a, ctypes.Array):
            flat += [a, len(a)]
        elif isinstance(a, ctypes._SimpleCData):
            flat.append(ctypes.byref(a))
        else:
            flat.append(a)
    return getattr(_door, "meter_" + name)(*flat)


def _call(name, *arguments, told={}):
    """Calls meter_NAME. Raises on a refusal, with what is told of its number."""
    answer = _answer(name, *arguments)
    if answer != 0:
        raise Refused(answer, told.get(answer))


def _call_maximal(name, order, *arguments, told={}):
    """Calls meter_NAME, which wants maximal taps, and gives their period, P. Raises as `_call` does, at 4 with the period that there is."""
    period = _u32()
    answer = _answer(name, order, *arguments, period)
    if answer == NOT_MAXIMAL:
        raise Refused(answer, how_short(period.value, _length(order)), period.value)
    if answer != 0:
        raise Refused(answer, told.get(answer))
    return period.value


# ---- what is handed to C


def _whole(value, name):
    """A whole number, or a TypeError that names the parameter."""
    try:
        return operator.index(value)
    except TypeError:
        raise TypeError(f"{name} must be a whole number, not {type(value).__name__}") from None


def _number(value, name):
    """A number that fits C's 32 bits as it is; one that does not is the largest, which every check refuses as it would the number."""
    value = _whole(value, name)
    return value if 0 <= value < 2**32 else 2**32 - 1


def _samples(values, name):
    """Samples for C. One beyond 32 bits is the nearest that fits: it is beyond the sample range too, and refused in its own place."""
    try:
        each = iter(values)
    except TypeError:
        raise TypeError(f"{name} must be a sequence of whole numbers, not {type(values).__name__}") from None
    values = list(each)
    return (_i32 * len(values))(*(max(-(2**31), min(_whole(v, "a sample of " + name), 2**31 - 1)) for v in values))


def _periods(periods):
    """How many periods a capture is said to have, as it was given and as C takes it; of a night of one period None and nothing."""
    return (None, ()) if periods is None else (_whole(periods, "periods"), (_number(periods, "periods"),))


# The words of judging, each at the number of the state that the verdict would give a day; none leaves a day unseen.
_JUDGED = (None, "kept", "overloaded", "dead")


def _pair(verdict):
    """The two numbers of a judged verdict. One made up by hand that judging never gives is a pair that says none, which C refuses with 23."""
    if not isinstance(verdict, Judged):
        raise TypeError(f"verdict must be what judge() answers, not {type(verdict).__name__}")
    if verdict.verdict == "overloaded":
        place = _whole(verdict.place, "the place of an overloaded verdict")
        return _JUDGED.index("overloaded"), place if 0 <= place < 2**64 else 2**64 - 1
    said = verdict.verdict if verdict.place is None and verdict.verdict in _JUDGED else None
    return _JUDGED.index(said), 0


def _register(order, taps):
    """Order and taps; where no taps are given, the order's default ones."""
    order = _number(order, "order")
    return order, default_taps(order) if taps is None else _number(taps, "taps")


def _length(order):
    """P, or the least place for an order that the call will refuse."""
    return (1 << order) - 1 if 2 <= order <= 16 else 1


def _room(order):
    p = _length(order)
    return (ctypes.c_int64 * (p + 1))(), (ctypes.c_uint16 * p)()


# ---- the register


def check_taps(order, taps):
    """The steps after which the register first returns to all ones: P, since taps that are not maximal are refused, with the fewer steps in
    `Refused.period`."""
    return _call_maximal("taps", _number(order, "order"), _number(taps, "taps"))


def default_taps(order):
    """The order's default taps."""
    taps = _u32()
    _call("default_taps", _number(order, "order"), taps)
    return taps.value


def sequence(order, taps=None):
    """The bits s(0) to s(P-1)."""
    order, taps = _register(order, taps)
    bits = (ctypes.c_uint8 * _length(order))()
    _call_maximal("sequence", order, taps, bits)
    return list(bits)


class Player:
    """Gives the next sign at each sample clock; maximal taps are not asked for."""

    def __init__(self, order, taps=None):
        self._numbers = [_u32() for _ in range(4)]
        _call("player_new", *_register(order, taps), *self._numbers)

    @property
    def window(self):
        return self._numbers[2].value

    @property
    def count(self):
        return self._numbers[3].value

    def step(self):
        """The next sign, +1 or -1."""
        sign = _i32()
        _call("player_step", *self._numbers, sign)
        return sign.value

    def play(self, n):
        """The next n signs."""
        signs = (ctypes.c_int8 * _whole(n, "n"))()
        _call("player_play", *self._numbers, signs)
        return list(signs)


# ---- one recording


def recording(y, order, taps=None):
    """The response r(0) to r(P-1) of a recording of P samples, as whole numbers: (P+1) times the impulse response, where y is one played."""
    (order, taps), y = _register(order, taps), _samples(y, "y")
    out = (ctypes.c_int64 * _length(order))()
    _call_maximal("recording", order, taps, y, out, *_room(order), told=details(_length(order), len(y)))
    return list(out)


def predict(h, order, taps=None):
    """The recording predicted from a response of P samples."""
    (order, taps), h = _register(order, taps), _samples(h, "h")
    out = (_i32 * _length(order))()
    _call_maximal("predict", order, taps, h, out, told=details(_length(order), len(h)))
    return list(out)


# ---- a short room


def _short_room(p):
    """The period as C takes it, and how many places a call writes: p, or the least for a period that the call will refuse."""
    p = _number(p, "p")
    return p, p if p in LEGENDRE_PERIODS else 1


def legendre_sequence(p):
    """The bits of the Legendre sequence of period p, which is one of LEGENDRE_PERIODS."""
    p, places = _short_room(p)
    bits = (ctypes.c_uint8 * places)()
    _call("legendre_sequence", p, bits)
    return list(bits)


def legendre_recording(p, samples):
    """The response r(0) to r(p-1) of a recording of p samples, as whole numbers: (p+1) times the impulse response, where it is one played."""
    (p, places), y = _short_room(p), _samples(samples, "samples")
    out = (ctypes.c_int64 * places)()
    _call("legendre_recording", p, y, out, told=details(p, len(y)))
    return list(out)


def legendre_predict(p, response):
    """The recording predicted from a response of p samples."""
    (p, places), h = _short_room(p), _samples(response, "response")
    out = (_i32 * places)()
    _call("legendre_predict", p, h, out, told=details(p, len(h)))
    return list(out)


# ---- a night judged


def judge(order, taps, samples, periods=None):
    """What the verdict on a night is, before anything is kept: a recording of P samples, or a capture of so many periods behind a run-in, (periods+1)*P
    samples. It wants no campaign and no day, and writes nothing. Where `taps` is None the order's default ones are taken."""
    (order, taps), y, state, value = _register(order, taps), _samples(samples, "samples"), _u32(), _size()
    asked, m = _periods(periods)
    told = details(_length(order), len(y), periods=asked)
    _call_maximal("judge_capture" if m else "judge", order, taps, *m, y, state, value, told=told)
    word = _JUDGED[state.value]
    return Judged(word, value.value if word == "overloaded" else None)


# ---- a campaign


class Campaign:
    """A year of nights: each is judged, and what is kept is averaged, by the edition of the report rules that is chosen here. Every call that names a day
    is noted in `ledger`."""

    def __init__(self, order, taps=None, capacity=SLOTS, edition=HALVES_AWAY):
        self._numbers = (*_register(order, taps), _number(capacity, "capacity"), _number(edition, "edition"))
        p, room = _length(self.order), max(1, min(self._numbers[2], SLOTS))
        self._tables = (ctypes.c_uint8 * DAYS)(), (ctypes.c_uint16 * SLOTS)(), (ctypes.c_uint8 * SLOTS)()
        self._lent = (_i32 * (room * p))(), (ctypes.c_int64 * p)()
        self.ledger = Ledger()
        _call_maximal("start", *self._record())

    @property
    def order(self):
        return self._numbers[0]

    @property
    def edition(self):
        return self._numbers[3]

    def _record(self):
        return (*self._numbers, *self._tables, *self._lent)

    @contextlib.contextmanager
    def _noting(self, call, day):
        """Notes why a call that names the day fails, where it does, and lets it fail."""
        try:
            yield
        except Refused as fault:
            self.ledger.refused(call, day, fault)
            raise
        except Exception as fault:
            self.ledger.failed(call, day, f"{type(fault).__name__}: {fault}")
            raise

    def enter(self, day, y, periods=None):
        """The verdict on a day's night, 1 to 366: a recording of P samples, or a capture of so many periods behind a run-in, (periods+1)*P samples. It is
        judged and filed in one call."""
        return self._filed(day, y, "y", periods)

    def file(self, day, samples, verdict, periods=None):
        """A day's night filed with the verdict that `judge` gave for it, and what `enter` answers. A verdict that is not what judging gives for this
        night is refused with 23."""
        return self._filed(day, samples, "samples", periods, verdict)

    def _filed(self, day, samples, name, periods, *shown):
        """The verdict on a night that is filed with the verdict shown of it, or entered where none was; the name is that of the samples."""
        day, state, value = _whole(day, "day"), _u32(), _size()
        with self._noting("enter", day):
            y, (asked, m) = _samples(samples, name), _periods(periods)
            pair = [number for verdict in shown for number in _pair(verdict)]
            told = details(_length(self.order), len(y), self._numbers[2], asked, *shown)
            call = ("file_capture" if m else "file") if shown else ("capture" if m else "enter")
            _call(call, *self._record(), _number(day, "day"), *m, y, *pair, state, value, told=told)
        verdict = Verdict(STATES[state.value], value.value)
        self.ledger.accepted("enter", day, verdict.state, verdict.value if verdict.state == "overloaded" else None)
        return verdict

    def withdraw(self, day):
        """Takes a standing day out again."""
        day = _whole(day, "day")
        with self._noting("withdraw", day):
            _call("withdraw", *self._record(), _number(day, "day"))
        self.ledger.accepted("withdraw", day, "withdrawn")

    def not_in_mean(self):
        """Each day that a call has named and that does not stand, in day order, with the last reason in words: {7: "dead", ..}."""
        return self.ledger.not_in_mean(self.states().get("standing", []))

    def states(self):
        """The days that are not unseen, by their state: {"standing": [1, 2], "dead": [7], ..}."""
        found = {}
        for i, state in enumerate(self._tables[0]):
            if state != 0:
                found.setdefault(STATES[state], []).append(i + 1)
        return found

    def periods(self):
        """How many periods the night of each standing day has: {1: 1, 9: 4, ..}."""
        return {day: m for day, m in sorted(zip(self._tables[1], self._tables[2])) if day != 0}

    def counts(self):
        """How many days are in each of the five states."""
        numbers = [_u32() for _ in STATES]
        _call("counts", *self._record(), *numbers)
        return dict(zip(STATES, (n.value for n in numbers)))

    def response(self):
        """r worked from the sums of the standing days, and the mean over their periods, exact halves rounded as the campaign's edition has them."""
        p = _length(self.order)
        r, mean = (ctypes.c_int64 * p)(), (_i32 * p)()
        _call("response", *self._record(), r, mean, *_room(self.order))
        return list(r), list(mean)

    def summary(self) -> Optional[Levels]:
        """The three levels, or None where nothing stands."""
        stands, levels = _u32(), [_f64() for _ in range(3)]
        _call("summary", *self._record(), *_room(self.order), stands, *levels)
        return Levels(*(x.value for x in levels)) if stands.value else None


def trend(nights, order, taps=None, capacity=SLOTS, edition=HALVES_AWAY):
    """From a list of nights, (day, samples) or of a capture (day, samples, periods), to the mean response of those that stand, None where none does, and
    the days not in it, as `not_in_mean()` gives them once all are entered."""
    campaign = Campaign(order, taps, capacity, edition)
    for night in nights:
        with contextlib.suppress(Refused):
            campaign.enter(*night)
    return campaign.response()[1] if campaign.summary() else None, campaign.not_in_mean()
