"""Tries every call of meter.py on document 01's numbers and on its order of checks, short rooms at all fifteen periods, captures of several periods, nights
judged and then filed, both editions of the report rules, the room that it lends, the periods of registers that it tells, the ledger of nights, and the
example."""
import ctypes
import os
import pathlib
import pickle
import random
import shutil
import subprocess
import sys
import tempfile
import unittest

here = pathlib.Path(__file__).resolve().parent
sys.path.insert(0, str(here))
import meter

Y = [-1, -3, -1, 3, 3, -3, 1]
R = [16, 0, -8, 0, 0, 0, 0]
# A night that is kept, one that is dead, and one at a rail.
NIGHT = [4 * v for v in Y]
QUIET = [5, 4, 9, 5, 6, 11, 5]
HIT = NIGHT[:3] + [-8388608] + NIGHT[4:]
BEYOND = 2**31
# A run-in at the rails and two periods, their sum, and the response of that, worked by hand.
RUN_IN = [8388607] * 7
SECOND = [-3, -13, -2, 12, 10, -11, 3]
BOTH = [-7, -25, -6, 24, 22, -23, 7]
R_OF_BOTH = [122, 0, -66, 4, 0, -2, 6]


class Case(unittest.TestCase):
    def refused(self, number, call, *arguments):
        with self.assertRaises(meter.Refused) as met:
            call(*arguments)
        self.assertEqual(met.exception.number, number)
        return str(met.exception)


class Calls(Case):
    def test_register(self):
        self.assertEqual([meter.check_taps(*register) for register in [(2, 3), (3, 5), (4, 9), (16, 45)]], [3, 7, 15, 65535])
        self.refused(2, meter.check_taps, 4, 2**32 + 9)
        self.assertEqual([meter.default_taps(n) for n in range(2, 17)], [3, 3, 3, 5, 3, 3, 29, 17, 9, 5, 83, 27, 43, 3, 45])
        self.refused(1, meter.default_taps, 17)
        self.refused(1, meter.sequence, -1, 3)
        self.assertEqual(meter.sequence(3), [1, 1, 1, 0, 0, 1, 0])
        self.assertEqual(meter.sequence(4, 3), [1, 1, 1, 1, 0, 0, 0, 1, 0, 0, 1, 1, 0, 1, 0])
        self.refused(3, meter.sequence, 3, 2)

    def test_player(self):
        player = meter.Player(3)
        self.assertEqual([player.step() for _ in range(3)] + player.play(4), [-1, -1, -1, 1, 1, -1, 1])
        self.assertEqual((player.window, player.count), (7, 7))
        self.refused(2, meter.Player, 3, 8)

    def test_recording(self):
        self.assertEqual(meter.predict([2, 0, -1, 0, 0, 0, 0], 3), Y)
        self.assertEqual(meter.recording(Y, 3), R)
        self.assertEqual(meter.recording([-8388608] * 7, 3), [67108864] * 7)
        self.refused(7, meter.recording, [8388608] + Y[1:], 3)
        self.refused(8, meter.predict, [8388607, 8388607, 0, 0, 0, 0, 0], 3)

    def test_campaign(self):
        c = meter.Campaign(3, capacity=2)
        self.assertIsNone(c.summary())
        self.refused(14, c.response)
        self.assertEqual(c.enter(1, NIGHT), ("standing", 0))
        self.assertEqual(c.enter(2, QUIET), ("dead", 0))
        self.assertEqual(c.enter(366, HIT), ("overloaded", 3))
        self.refused(10, c.enter, 367, NIGHT)
        self.refused(11, c.enter, 1, NIGHT)
        self.assertEqual(c.counts(), {"unseen": 363, "standing": 1, "overloaded": 1, "dead": 1, "withdrawn": 0})
        self.assertEqual(c.states(), {"standing": [1], "dead": [2], "overloaded": [366]})
        self.assertEqual(c.response(), ([4 * v for v in R], [8, 0, -4, 0, 0, 0, 0]))
        self.assertEqual(c.summary(), (8.0, -4.0, 8.0))
        c.withdraw(1)
        self.refused(13, c.withdraw, 1)
        self.assertEqual(c.states()["withdrawn"], [1])
        self.refused(9, meter.Campaign, 3, 3, 65)
        c._tables[0][7] = 5
        self.refused(15, c.counts)

    def test_dead_up_to_a_spread_of_7(self):
        c = meter.Campaign(3, capacity=1)
        for low in (-8388607, -1000, -4, 0, 1000, 8388598):
            for spread in range(9):
                night = [low, low, low + spread // 2, low + spread, low, low, low]
                self.assertEqual(c.enter(1, night), ("dead", 0) if spread <= 7 else ("standing", 0))
            c.withdraw(1)


LOWEST, HIGHEST = -8388608, 8388607


def signs(p):
    """Document 001's signs: x(0) is -1, x(n) is 1 where n is a square modulo p, and else -1."""
    squares = {k * k % p for k in range(1, p)}
    return [1 if n in squares else -1 for n in range(p)]


def turned_back(x, y):
    """Document 01's r of a recording, by plain sums; a negative place of a list counts modulo its length."""
    return [sum(y[j] * x[j - k] for j in range(len(x))) - sum(y) for k in range(len(x))]


def played_through(x, h):
    """Document 01's recording of a response of any length, by plain sums."""
    return [sum(v * x[(j - i) % len(x)] for i, v in enumerate(h)) for j in range(len(x))]


class ShortRooms(Case):
    def test_document_001s_seven(self):
        self.assertEqual(meter.legendre_sequence(7), [1, 0, 0, 1, 0, 1, 1])
        self.assertEqual(meter.legendre_predict(7, [2, 0, -1, 0, 0, 0, 0]), [-1, 3, 3, -3, 1, -1, -3])
        self.assertEqual(meter.legendre_recording(7, [-1, 3, 3, -3, 1, -1, -3]), R)
        self.assertEqual(meter.legendre_recording(7, (0, 0, 0, 5, 0, 0, 0)), [-10, 0, 0, -10, -10, -10, 0])

    def test_the_signs_and_their_two_properties(self):
        for p in meter.LEGENDRE_PERIODS:
            x = [1 - 2 * bit for bit in meter.legendre_sequence(p)]
            self.assertEqual(x, signs(p))
            self.assertEqual(sum(x), -1)
            self.assertEqual([sum(x[j] * x[j - k] for j in range(p)) for k in range(p)], [p] + [-1] * (p - 1))

    def test_a_register_of_the_same_period_plays_another(self):
        for order, p in [(3, 7), (5, 31), (7, 127)]:
            self.assertEqual((meter.legendre_sequence(p)[:2], meter.sequence(order)[:2]), ([1, 0], [1, 1]))

    def test_a_response_comes_back_times_p_and_1(self):
        draw = random.Random(10)
        for p in meter.LEGENDRE_PERIODS:
            for _ in range(20):
                loudness = draw.choice([1, 100, HIGHEST // p])
                h = [draw.randint(-loudness, loudness) for _ in range(p)]
                y = meter.legendre_predict(p, h)
                self.assertEqual(y, played_through(signs(p), h))
                self.assertEqual(meter.legendre_recording(p, y), [(p + 1) * v for v in h])

    def test_a_longer_response_folds_onto_itself(self):
        draw = random.Random(11)
        for p in meter.LEGENDRE_PERIODS:
            h = [draw.randint(-1000, 1000) for _ in range(2 * p + 3)]
            folded = [sum(h[k::p]) for k in range(p)]
            self.assertEqual(meter.legendre_recording(p, played_through(signs(p), h)), [(p + 1) * v for v in folded])

    def test_any_recording_by_plain_sums_the_loudest_too(self):
        draw = random.Random(12)
        for p in meter.LEGENDRE_PERIODS:
            x = signs(p)
            with_signs = [HIGHEST if v == 1 else LOWEST for v in x]
            against_signs = [LOWEST if v == 1 else HIGHEST for v in x]
            rails = [draw.choice([LOWEST, HIGHEST]) for _ in range(p)]
            for y in [with_signs, against_signs, rails, [draw.randint(LOWEST, HIGHEST) for _ in range(p)]]:
                self.assertEqual(meter.legendre_recording(p, y), turned_back(x, y))
            self.assertEqual(meter.legendre_recording(p, [LOWEST] * p), [(p + 1) * -LOWEST] * p)
            self.assertEqual(meter.legendre_recording(p, [HIGHEST] * p), [(p + 1) * -HIGHEST] * p)

    def test_a_period_is_offered_exactly_if_it_is_in_the_list(self):
        calls = [(meter.legendre_sequence,), (meter.legendre_recording, []), (meter.legendre_predict, [BEYOND])]
        for p in [*range(-1, 131), 263, 65543, 2**31 + 7, 2**32 - 1, 2**32, 2**32 + 7, 2**64 + 7]:
            if p in meter.LEGENDRE_PERIODS:
                self.assertEqual([len(meter.legendre_sequence(p)), len(meter.legendre_recording(p, [0] * p))], [p, p])
                self.assertEqual(meter.legendre_predict(p, [0] * p), [0] * p)
            else:
                for call, *given in calls:
                    self.assertEqual(self.refused(25, call, p, *given), "25: unknown")
        self.assertEqual(len(meter.LEGENDRE_PERIODS), 15)

    def test_the_order_of_its_checks(self):
        for p in meter.LEGENDRE_PERIODS:
            for call in (meter.legendre_recording, meter.legendre_predict):
                for given in (0, p - 1, p + 1):
                    said = f"5: recording or response not exactly P long, capture not exactly (m+1)*P (P is {p}, {given} given)"
                    self.assertEqual(self.refused(5, call, p, [BEYOND] * given), said)
                for value in (HIGHEST + 1, LOWEST - 1, BEYOND, -(2**40)):
                    self.refused(7, call, p, [HIGHEST] * (p - 1) + [value])
            self.refused(8, meter.legendre_predict, p, [HIGHEST] * 2 + [0] * (p - 2))

    def test_6_is_refused_by_the_door_alone(self):
        # Python lends as many places as a call writes, so that only a call made by hand is short of one.
        for p in meter.LEGENDRE_PERIODS:
            silence, short = (ctypes.c_int32 * p)(), p - 1
            self.assertEqual(meter._answer("legendre_sequence", p, (ctypes.c_uint8 * short)()), 6)
            self.assertEqual(meter._answer("legendre_recording", p, silence, (ctypes.c_int64 * short)()), 6)
            self.assertEqual(meter._answer("legendre_predict", p, silence, (ctypes.c_int32 * short)()), 6)

    def test_a_prediction_up_to_the_ends_of_the_range(self):
        for p in meter.LEGENDRE_PERIODS:
            x = signs(p)
            for end, beyond in [(LOWEST, LOWEST - 1), (HIGHEST, HIGHEST + 1)]:
                for value in (end, beyond):
                    # c times the signs turned back has c * p at place 0 and -c elsewhere, and the rest at every place takes the rest away.
                    c, rest = -(-value // p), -value % p
                    h = [c * x[-i] + rest for i in range(p)]
                    self.assertEqual(played_through(x, h), [value] + [-c - rest] * (p - 1))
                    if value == end:
                        self.assertEqual(meter.legendre_predict(p, h), played_through(x, h))
                    else:
                        self.refused(8, meter.legendre_predict, p, h)

    def test_a_wrong_type_names_its_parameter(self):
        for name, call in {
            "p": lambda: meter.legendre_sequence(7.0),
            "samples": lambda: meter.legendre_recording(7, 5),
            "a sample of samples": lambda: meter.legendre_recording(7, [0.5] * 7),
            "response": lambda: meter.legendre_predict(7, None),
            "a sample of response": lambda: meter.legendre_predict(7, "abcdefg"),
        }.items():
            with self.assertRaisesRegex(TypeError, f"^{name} must be ", msg=name):
                call()

    def test_the_manual_has_the_periods_and_what_is_shown(self):
        manual = (here.parent / "docs/MANUAL.md").read_text()
        *all_but_last, last = meter.LEGENDRE_PERIODS
        self.assertIn(f"p = {', '.join(map(str, all_but_last))} and {last}", manual)
        y = meter.legendre_predict(7, [2, 0, -1, 0, 0, 0, 0])
        listing = [
            ">>> meter.legendre_sequence(7)",
            repr(meter.legendre_sequence(7)),
            ">>> y = meter.legendre_predict(7, [2, 0, -1, 0, 0, 0, 0])",
            ">>> y",
            repr(y),
            ">>> [v / 8 for v in meter.legendre_recording(7, y)]",
            repr([v / 8 for v in meter.legendre_recording(7, y)]),
            ">>> meter.legendre_sequence(13)",
            f"meter.Refused: {self.refused(25, meter.legendre_sequence, 13)}",
        ]
        self.assertIn("\n".join(["```", *listing, "```"]), manual)


class Captures(Case):
    def test_two_periods_behind_a_run_in(self):
        c = meter.Campaign(3, capacity=2)
        self.assertEqual(c.enter(1, RUN_IN + NIGHT + SECOND, periods=2), ("standing", 0))
        self.assertEqual((list(c._lent[0]), list(c._lent[1])), (BOTH + [0] * 7, BOTH))
        self.assertEqual((c.periods(), list(c._tables[2])), ({1: 2}, [2] + [0] * 63))
        self.assertEqual(c.response(), (R_OF_BOTH, [8, 0, -4, 0, 0, 0, 0]))
        self.assertEqual(c.summary(), (122 / 16, -66 / 16, 122 / 16))
        self.assertEqual(c.enter(2, NIGHT), ("standing", 1))
        self.assertEqual(c.periods(), {1: 2, 2: 1})
        # 24 divides now: 8 times 3 periods.
        self.assertEqual(c.response(), ([186, 0, -98, 4, 0, -2, 6], [8, 0, -4, 0, 0, 0, 0]))
        self.assertEqual(c.summary(), (186 / 24, -98 / 24, 186 / 24))
        c.withdraw(1)
        self.assertEqual((c.periods(), list(c._tables[2])), ({2: 1}, [0, 1] + [0] * 62))
        self.assertEqual(c.response(), ([4 * v for v in R], [8, 0, -4, 0, 0, 0, 0]))

    def test_how_many_periods(self):
        c = meter.Campaign(3, capacity=1)
        for m in (1, 2, 4, 5, 16):
            self.assertEqual(c.enter(1, RUN_IN + NIGHT * m, periods=m), ("standing", 0))
            self.assertEqual((c.periods(), list(c._lent[0])), ({1: m}, [m * v for v in NIGHT]))
            self.assertEqual(c.response(), ([4 * m * v for v in R], [8, 0, -4, 0, 0, 0, 0]))
            c.withdraw(1)
        for m in (0, 17, 255, 256 + 1, 2**32 - 1, 2**32, 2**32 + 1, -1):
            self.assertEqual(self.refused(18, c.enter, 1, NIGHT * 2, m), f"18: periods not 1 to 16 (m is {m})")
            self.refused(10, c.enter, 0, NIGHT * 2, m)

    def test_how_many_samples(self):
        c = meter.Campaign(3, capacity=1)
        for m in (1, 2, 16):
            for given in (7 * m, 7 * m + 6, 7 * m + 8):
                said = f"5: recording or response not exactly P long, capture not exactly (m+1)*P ((m+1)*P is {7 * m + 7}, {given} given)"
                self.assertEqual(self.refused(5, c.enter, 1, ([9, -9] * 64)[:given], m), said)
        self.refused(5, c.enter, 1, NIGHT * 2)

    def test_verdicts_are_of_what_follows_the_run_in(self):
        c = meter.Campaign(3, capacity=1)
        for m in (1, 2, 16):
            quiet = [5, 4, 9, 5, 6, 11, 5] * m
            self.assertEqual(c.enter(1, RUN_IN + quiet, m), ("dead", 0))
            for place in (0, 7 * m - 1):
                for rail in (-8388608, 8388607):
                    heard = list(quiet)
                    heard[place] = rail
                    self.assertEqual(c.enter(1, RUN_IN + heard, periods=m), ("overloaded", place))
            # One more apart, and in the last period alone.
            self.assertEqual(c.enter(1, [0] * 7 + quiet[:-1] + [12], periods=m), ("standing", 0))
            c.withdraw(1)
            for place in (0, 6, 7, 7 * m + 6):
                heard = [0] * 7 + quiet
                heard[place] = 8388608
                self.refused(7, c.enter, 1, heard, m)

    def test_a_capture_in_the_ledger_and_a_trend(self):
        hit = [0] * 7 + NIGHT + HIT
        nights = [(1, RUN_IN + NIGHT + SECOND, 2), (2, hit, 2), (3, NIGHT * 2, 17), (4, NIGHT * 2, 2), (5, NIGHT)]
        mean, missing = meter.trend(nights, 3, capacity=1)
        self.assertEqual(mean, [8, 0, -4, 0, 0, 0, 0])
        length = "recording or response not exactly P long, capture not exactly (m+1)*P"
        self.assertEqual(
            missing,
            {
                2: "overloaded at sample 10",
                3: "refused 18: periods not 1 to 16 (m is 17)",
                4: f"refused 5: {length} ((m+1)*P is 21, 14 given)",
                5: "refused 12: verdict kept and C days stand (C is 1)",
            },
        )

    def test_records_that_do_not_hold_together(self):
        c = meter.Campaign(3, capacity=2)
        c.enter(1, [0] * 7 + [8388606] * 6 + [0] + [8388606] * 7, 2)
        for slot, m in [(0, 0), (0, 1), (0, 17), (1, 1), (2, 1), (63, 16)]:
            stood, c._tables[2][slot] = c._tables[2][slot], m
            self.refused(15, c.counts)
            self.refused(15, c.enter, 2, NIGHT * 2, 1)
            c._tables[2][slot] = stood
            self.assertEqual(c.counts()["standing"], 1)
        c.withdraw(1)
        c._tables[2][0] = 2
        self.refused(15, c.summary)


# A night that is kept, one that is dead and one at a rail, each with what judging says of it.
JUDGED = [(NIGHT, ("kept", None)), (QUIET, ("dead", None)), (HIT, ("overloaded", 3))]


class Judging(Case):
    def test_what_judging_says(self):
        for night, said in JUDGED:
            self.assertEqual(meter.judge(3, 3, night), said)
            self.assertEqual(meter.judge(3, None, night), said)
            self.assertEqual(meter.judge(3, 3, tuple(night)), said)
            for m in (1, 2, 16):
                self.assertEqual(meter.judge(3, 3, RUN_IN + night * m, m), said)
                self.assertEqual(meter.judge(3, 3, RUN_IN + QUIET * (m - 1) + night, periods=m).verdict, said[0])
        self.assertEqual(meter.judge(3, 3, RUN_IN + NIGHT + HIT, 2), ("overloaded", 10))
        self.assertEqual([str(meter.judge(3, 3, night)) for night, _ in JUDGED], ["kept", "dead", "overloaded at sample 3"])

    def test_the_order_of_its_checks(self):
        bad = [BEYOND] * 6
        for number, order, taps, y, m in [
            (1, 17, 2**17, bad, 0),
            (1, 17, None, bad, None),
            (2, 3, 8, bad, 0),
            (3, 3, 2, bad, None),
            (4, 3, 7, bad, 17),
            (18, 3, 3, bad, 0),
            (18, 3, 3, bad, 2**32 + 1),
            (5, 3, 3, bad, 1),
            (5, 3, 3, bad, None),
            (7, 3, 3, NIGHT[:6] + [8388608], None),
            (7, 3, 3, [-8388609] + RUN_IN[1:] + HIT, 1),
        ]:
            with self.assertRaises(meter.Refused) as met:
                meter.judge(order, taps, y, m)
            self.assertEqual((met.exception.number, met.exception.period), (number, 1 if number == 4 else None))

    def test_a_refusal_in_words(self):
        self.assertEqual(self.refused(4, meter.judge, 4, 15, NIGHT), "4: register not maximal: it returns after 5 steps of 15")
        self.assertEqual(self.refused(18, meter.judge, 3, 3, NIGHT, 17), "18: periods not 1 to 16 (m is 17)")
        length = "5: recording or response not exactly P long, capture not exactly (m+1)*P"
        self.assertEqual(self.refused(5, meter.judge, 3, 3, NIGHT[:6]), f"{length} (P is 7, 6 given)")
        self.assertEqual(self.refused(5, meter.judge, 3, 3, NIGHT, 2), f"{length} ((m+1)*P is 21, 7 given)")

    def test_wrong_types(self):
        for name, call in {
            "order": lambda: meter.judge("3", 3, NIGHT),
            "taps": lambda: meter.judge(3, 3.0, NIGHT),
            "samples": lambda: meter.judge(3, 3, 5),
            "a sample of samples": lambda: meter.judge(3, 3, NIGHT[:6] + [1.5]),
            "periods": lambda: meter.judge(3, 3, NIGHT, "1"),
        }.items():
            with self.assertRaisesRegex(TypeError, f"^{name} must be ", msg=name):
                call()


def memory(campaign):
    """Every number that a campaign lends."""
    return [list(part) for part in campaign._tables + campaign._lent]


class Filing(Case):
    def test_judged_and_filed_is_entered(self):
        for m in (None, 1, 3):
            entered, filed = meter.Campaign(3, capacity=2), meter.Campaign(3, capacity=2)
            for day, (night, _) in enumerate(JUDGED * 2, 1):
                night = night if m is None else RUN_IN + night * m
                before = memory(filed)
                verdict = meter.judge(3, 3, night, m)
                self.assertEqual(memory(filed), before)
                self.assertEqual(filed.file(day, night, verdict, m), entered.enter(day, night, m))
                self.assertEqual(memory(filed), memory(entered))
            self.assertEqual((filed.counts(), filed.response()), (entered.counts(), entered.response()))
            self.assertEqual(filed.ledger.notes, entered.ledger.notes)

    def test_any_other_verdict_is_23_and_changes_nothing(self):
        c = meter.Campaign(3, capacity=2)
        c.enter(9, NIGHT)
        before = memory(c)
        verdicts = [("kept", None), ("dead", None), *(("overloaded", place) for place in [*range(9), 2**32 + 3, 2**64 + 3, 2**64, -1])]
        made_up = [("kept", 0), ("dead", 3), ("standing", None), ("unseen", None), ("", None), (None, None), (1, None), ([], None)]
        for night, said in JUDGED:
            for pair in verdicts + made_up:
                if pair != said:
                    self.refused(23, c.file, 1, night, meter.Judged(*pair))
                    self.refused(23, c.file, 1, RUN_IN + night, meter.Judged(*pair), 1)
        self.assertEqual(memory(c), before)

    def test_23_in_words(self):
        c = meter.Campaign(3)
        said = "23: verdict handed in is not what judging gives"
        self.assertEqual(self.refused(23, c.file, 1, NIGHT, meter.judge(3, 3, QUIET)), f"{said} (dead was handed in)")
        self.assertEqual(self.refused(23, c.file, 1, QUIET, meter.judge(3, 3, HIT)), f"{said} (overloaded at sample 3 was handed in)")
        self.assertEqual(c.not_in_mean(), {1: f"refused {said} (overloaded at sample 3 was handed in)"})

    def test_the_manual_has_what_is_shown_and_filed(self):
        campaign, heard, unplugged = meter.Campaign(3), NIGHT, QUIET
        verdict = meter.judge(3, 3, heard)
        listing = [
            ">>> verdict = meter.judge(3, 3, heard)",
            ">>> print(verdict)",
            str(verdict),
            ">>> campaign.file(7, heard, verdict)",
            repr(campaign.file(7, heard, verdict)),
            ">>> campaign.file(8, unplugged, verdict)",
            f"meter.Refused: {self.refused(23, campaign.file, 8, unplugged, verdict)}",
        ]
        self.assertIn("\n".join(["```", *listing, "```"]), (here.parent / "docs/MANUAL.md").read_text())

    def test_the_order_of_its_checks(self):
        kept, dead = meter.Judged("kept"), meter.Judged("dead")
        c = meter.Campaign(3, capacity=1)
        c.file(1, NIGHT, kept)
        for number, day, y, verdict, m in [
            (10, 367, NIGHT[:6], dead, 17),
            (18, 1, NIGHT[:6], dead, 17),
            (5, 1, [BEYOND] * 6, dead, None),
            (7, 1, [BEYOND] * 7, dead, None),
            (11, 1, NIGHT, dead, None),
            (23, 2, NIGHT, dead, None),
            (12, 2, NIGHT, kept, None),
            (12, 2, RUN_IN + NIGHT, kept, 1),
        ]:
            self.refused(number, c.file, day, y, verdict, m)
        self.assertEqual((c.file(2, QUIET, dead), c.file(2, HIT, meter.Judged("overloaded", 3))), (("dead", 0), ("overloaded", 3)))
        c._lent[1][0] += 1
        self.refused(15, c.file, 0, NIGHT, dead)

    def test_a_verdict_of_the_wrong_type_says_what_is_wanted(self):
        c = meter.Campaign(3)
        entered = c.enter(9, NIGHT)
        before = memory(c)
        for wrong in (entered, ("kept", None), "kept", 1, None, meter.Judged):
            with self.assertRaisesRegex(TypeError, r"^verdict must be what judge\(\) answers, not ", msg=wrong):
                c.file(1, NIGHT, wrong)
        for place in (None, "3", 3.0):
            with self.assertRaisesRegex(TypeError, "^the place of an overloaded verdict must be a whole number, not ", msg=place):
                c.file(1, HIT, meter.Judged("overloaded", place))
        with self.assertRaisesRegex(TypeError, "^samples must be "):
            c.file(1, 5, meter.Judged("kept"))
        self.assertEqual((memory(c), c.ledger.notes[-1].words), (before, "TypeError: samples must be a sequence of whole numbers, not int"))

    def test_a_judged_verdict_comes_back_from_a_pickle(self):
        c = meter.Campaign(3)
        again = pickle.loads(pickle.dumps(meter.judge(3, 3, HIT)))
        self.assertEqual(c.file(1, HIT, again), ("overloaded", 3))


# A night whose r, over 8, is at an exact half at every place but one; r, and the mean in each edition.
AT_HALVES = [-6, 9, 0, 5, -1, -1, -8]
R_AT_HALVES = [-4, -12, 4, -24, 20, 20, 12]
MEANS = {1: [-1, -2, 1, -3, 3, 3, 2], 2: [0, -2, 0, -3, 2, 2, 2]}


class Editions(Case):
    def test_the_means_of_each(self):
        for edition, mean in MEANS.items():
            c = meter.Campaign(3, capacity=2, edition=edition)
            self.assertEqual(c.edition, edition)
            c.enter(1, AT_HALVES)
            c.withdraw(1)
            c.file(1, RUN_IN + AT_HALVES, meter.judge(3, 3, AT_HALVES), 1)
            self.assertEqual(c.response(), (R_AT_HALVES, mean))
            self.assertEqual((c.summary(), c.counts()["standing"], c.edition), ((20 / 8, -24 / 8, -24 / 8), 1, edition))
            self.assertEqual(meter.trend([(1, AT_HALVES)], 3, edition=edition), (mean, {}))

    def test_it_is_1_where_none_is_chosen(self):
        self.assertEqual((meter.HALVES_AWAY, meter.HALVES_TO_EVEN, meter.Campaign(3).edition), (1, 2, 1))
        c = meter.Campaign(3)
        c.enter(1, AT_HALVES)
        self.assertEqual((c.response()[1], meter.trend([(1, AT_HALVES)], 3)[0]), (MEANS[1], MEANS[1]))

    def test_only_the_mean_depends_on_it(self):
        draw, differed = random.Random(1), 0
        for _ in range(200):
            one, two = (meter.Campaign(3, edition=edition) for edition in MEANS)
            for day in range(1, 1 + draw.randrange(1, 5)):
                night = meter.predict([draw.randrange(-9, 10) for _ in range(7)], 3)
                self.assertEqual(one.enter(day, night), two.enter(day, night))
            self.assertEqual((memory(one), one.counts(), one.summary()), (memory(two), two.counts(), two.summary()))
            if one.summary() is None:
                continue
            (r, away), (r_again, to_even) = one.response(), two.response()
            divisor = 8 * len(one.periods())
            # Python rounds halves to even too.
            self.assertEqual((r, to_even), (r_again, [round(v / divisor) for v in r]))
            for v, a, e in zip(r, away, to_even):
                at_odd_half = abs(v) % (2 * divisor) == divisor // 2
                self.assertEqual(a - e, (1 if v > 0 else -1) if at_odd_half else 0)
                differed += at_odd_half
        self.assertGreater(differed, 50)

    def test_no_other_can_be_started(self):
        for edition in (0, 3, 257, 258, 2**32 - 1, 2**32 + 1, 2**32 + 2, -1):
            self.assertEqual(self.refused(24, meter.Campaign, 3, 3, 2, edition), "24: edition not 1 or 2")
            self.refused(24, meter.trend, [(1, AT_HALVES)], 3, 3, 2, edition)
            for capacity in (0, 65):
                self.refused(9, meter.Campaign, 3, 3, capacity, edition)
            with self.assertRaises(meter.Refused) as met:
                meter.Campaign(4, 15, 2, edition)
            self.assertEqual((met.exception.number, met.exception.period), (4, 5))

    def test_a_record_of_no_edition_is_15(self):
        for edition in (0, 3, 2**32 - 1):
            c = meter.Campaign(3, capacity=2)
            c.enter(1, NIGHT)
            before = memory(c)
            c._numbers = (*c._numbers[:3], edition)
            for call, *arguments in [
                (c.enter, 2, NIGHT),
                (c.enter, 2, RUN_IN + NIGHT, 1),
                (c.file, 2, NIGHT, meter.Judged("kept")),
                (c.file, 2, RUN_IN + NIGHT, meter.Judged("kept"), 1),
                (c.withdraw, 1),
                (c.counts,),
                (c.response,),
                (c.summary,),
            ]:
                self.refused(15, call, *arguments)
            self.assertEqual(memory(c), before)

    def test_it_stays_and_a_wrong_type_is_named(self):
        c = meter.Campaign(3, edition=2)
        with self.assertRaises(AttributeError):
            c.edition = 1
        for wrong in ("1", 1.0, None):
            with self.assertRaisesRegex(TypeError, "^edition must be a whole number, not "):
                meter.Campaign(3, edition=wrong)

    def test_the_manual_has_both(self):
        listing = []
        for edition, words in [(1, ""), (2, ", edition=2")]:
            mean, _ = meter.trend([(1, AT_HALVES)], 3, edition=edition)
            listing += [f">>> meter.trend([(1, {AT_HALVES})], 3{words})[0]", repr(mean)]
        listing += [">>> meter.Campaign(3, edition=3)", f"meter.Refused: {self.refused(24, meter.Campaign, 3, 3, 64, 3)}"]
        self.assertIn("\n".join(["```", *listing, "```"]), (here.parent / "docs/MANUAL.md").read_text())


class Room(Case):
    def test_every_order_gets_by_on_p_tags(self):
        for order in range(2, 17):
            p = 2**order - 1
            h = [3] + [0] * (p - 2) + [-2]
            self.assertEqual([len(buffer) for buffer in meter._room(order)], [p + 1, p])
            y = meter.predict(h, order)
            self.assertEqual(meter.recording(y, order), [(p + 1) * value for value in h])
            c = meter.Campaign(order, capacity=1)
            c.enter(1, y)
            self.assertEqual((c.response()[1], c.summary()), (h, (3.0, -2.0, 3.0)))

    def test_the_manual_has_the_bytes_that_are_lent(self):
        manual = (here.parent / "docs/MANUAL.md").read_text()
        for order in (9, 12, 16):
            p, c = 2**order - 1, meter.Campaign(order)
            wide, tags = map(ctypes.sizeof, meter._room(order))
            recording, r, mean = 4 * p, 8 * p, 4 * p
            once = recording + r + wide + tags
            held = once + mean + sum(map(ctypes.sizeof, c._tables + c._lent))
            row = f"| {order} | {p:,} | {wide:,} + {tags:,} | {once:,} ({once + tags:,}) | {held:,} ({held + tags:,}) |"
            self.assertIn(row, manual)


# Registers that are not maximal: order, taps, and the steps after which they return.
SHORT = [(4, 15, 5), (4, 5, 6), (3, 7, 1), (5, 3, 21), (16, 65535, 17), (16, 99, 64897)]


class Periods(Case):
    def test_every_call_tells_how_short(self):
        for order, taps, period in SHORT:
            zeros = [0] * (2**order - 1)
            for call, *arguments in [
                (meter.check_taps, order, taps),
                (meter.sequence, order, taps),
                (meter.recording, zeros, order, taps),
                (meter.predict, zeros, order, taps),
                (meter.judge, order, taps, zeros),
                (meter.judge, order, taps, zeros * 2, 1),
                (meter.Campaign, order, taps),
                (meter.trend, [], order, taps),
            ]:
                with self.assertRaises(meter.Refused, msg=(call, taps)) as met:
                    call(*arguments)
                self.assertEqual((met.exception.number, met.exception.period), (4, period), msg=(call, taps))

    def test_the_words(self):
        self.assertEqual(self.refused(4, meter.Campaign, 4, 15), "4: register not maximal: it returns after 5 steps of 15")
        self.assertEqual(self.refused(4, meter.check_taps, 3, 7), "4: register not maximal: it returns after 1 step of 7")
        shown = f"{meter.check_taps(4, 9)}\n>>> meter.check_taps(4, 15)\nmeter.Refused: {self.refused(4, meter.check_taps, 4, 15)}\n"
        self.assertIn(">>> meter.check_taps(4, 9)\n" + shown, (here.parent / "docs/MANUAL.md").read_text())

    def test_any_other_refusal_tells_none(self):
        c = meter.Campaign(3)
        for number, call, *arguments in [
            (1, meter.check_taps, 17, 3),
            (2, meter.sequence, 4, 16),
            (3, meter.Campaign, 4, 14),
            (5, meter.recording, Y[:6], 3),
            (7, meter.predict, [BEYOND] * 7, 3),
            (8, meter.predict, [8388607, 8388607, 0, 0, 0, 0, 0], 3),
            (9, meter.Campaign, 3, 3, 65),
            (10, c.enter, 367, NIGHT),
            (14, c.response),
        ]:
            with self.assertRaises(meter.Refused) as met:
                call(*arguments)
            self.assertEqual((met.exception.number, met.exception.period), (number, None))


class Refusals(Case):
    def test_a_sample_beyond_32_bits_is_refused_in_its_own_place(self):
        for value in (BEYOND, -BEYOND - 1, 2**32, -(2**40)):
            self.refused(1, meter.recording, [value] * 6, 1, 3)
            self.refused(2, meter.recording, [value] * 6, 3, 8)
            self.refused(5, meter.recording, [value] * 6, 3)
            self.refused(7, meter.recording, Y[:6] + [value], 3)
            self.refused(5, meter.predict, [value] * 8, 3)
            c = meter.Campaign(3, capacity=1)
            c.enter(1, NIGHT)
            self.refused(10, c.enter, 0, [value] * 7)
            self.refused(5, c.enter, 2, [value] * 8)
            self.refused(7, c.enter, 1, NIGHT[:6] + [value])

    def test_a_wrong_length_says_P_and_the_length_given(self):
        said = "5: recording or response not exactly P long, capture not exactly (m+1)*P (P is 7, 6 given)"
        self.assertEqual(self.refused(5, meter.recording, Y[:6], 3), said)
        self.assertEqual(self.refused(5, meter.predict, Y[:6], 3), said)
        self.assertEqual(self.refused(5, meter.Campaign(3).enter, 1, NIGHT[:6]), said)

    def test_answers_in_words(self):
        program = "the program only: order above 9, slots above 8, or 5 to 16 periods"
        said = ["accepted", "verdict kept and C days stand", program, "periods not 1 to 16", "unknown", "verdict handed in is not what judging gives"]
        self.assertEqual([meter.explain(n) for n in (0, 12, 17, 18, 19, 23, 24, 25)], [*said, "edition not 1 or 2", "unknown"])

    def test_a_refusal_keeps_its_number_when_pickled(self):
        with self.assertRaises(meter.Refused) as met:
            meter.recording(Y[:6], 3)
        again = pickle.loads(pickle.dumps(met.exception))
        self.assertEqual((again.number, str(again)), (5, str(met.exception)))
        with self.assertRaises(meter.Refused) as met:
            meter.sequence(4, 15)
        again = pickle.loads(pickle.dumps(met.exception))
        self.assertEqual((again.number, again.period, str(again)), (4, 5, str(met.exception)))

    def test_a_wrong_type_names_its_parameter(self):
        c = meter.Campaign(3)
        for name, call in {
            "order": lambda: meter.recording(Y, "3"),
            "taps": lambda: meter.sequence(3, 3.0),
            "capacity": lambda: meter.Campaign(3, 3, "2"),
            "n": lambda: meter.Player(3).play(None),
            "y": lambda: c.enter(1, 5),
            "a sample of y": lambda: c.enter(1, NIGHT[:6] + [1.5]),
            "a sample of h": lambda: meter.predict("abcdefg", 3),
            "day": lambda: c.withdraw("1"),
            "periods": lambda: c.enter(1, NIGHT, "1"),
        }.items():
            with self.assertRaisesRegex(TypeError, f"^{name} must be ", msg=name):
                call()

    def test_the_order_of_a_campaign_stays(self):
        c = meter.Campaign(3)
        c.enter(1, NIGHT)
        with self.assertRaises(AttributeError):
            c.order = 4
        self.assertEqual((c.order, c.response()[0]), (3, [4 * v for v in R]))


class Nights(Case):
    def test_a_day_entered_again_and_kept_is_not_listed(self):
        self.assertEqual(meter.trend([(1, HIT), (1, NIGHT)], 3), ([8, 0, -4, 0, 0, 0, 0], {}))

    def test_every_day_named_that_does_not_stand_is_listed(self):
        c = meter.Campaign(3, capacity=1)
        self.assertEqual(c.not_in_mean(), {})
        c.enter(200, NIGHT)
        c.enter(6, QUIET)
        c.enter(5, HIT)
        for number, day, y in [(5, 4, NIGHT[:6]), (7, 3, [BEYOND] * 7), (12, 2, NIGHT), (11, 200, NIGHT), (10, 367, NIGHT), (12, 6, NIGHT)]:
            self.refused(number, c.enter, day, y)
        for number, day in [(13, 5), (13, 2), (13, 2), (10, -1)]:
            self.refused(number, c.withdraw, day)
        with self.assertRaises(TypeError):
            c.enter(8, [1.5] * 7)
        full = "refused 12: verdict kept and C days stand (C is 1)"
        self.assertEqual(
            list(c.not_in_mean().items()),
            [
                (-1, "withdrawal refused 10: day not 1 to 366"),
                (2, full + "; then withdrawal refused 13: day not standing"),
                (3, "refused 7: a value outside the sample range"),
                (4, "refused 5: recording or response not exactly P long, capture not exactly (m+1)*P (P is 7, 6 given)"),
                (5, "overloaded at sample 3; then withdrawal refused 13: day not standing"),
                (6, "dead; then " + full),
                (8, "TypeError: a sample of y must be a whole number, not float"),
                (367, "refused 10: day not 1 to 366"),
            ],
        )
        c.withdraw(200)
        c.enter(6, NIGHT)
        listed = c.not_in_mean()
        self.assertEqual((listed[200], 6 in listed), ("withdrawn", False))

    def call_at_random(self, draw, c, day, night, periods=None):
        """A withdrawal, an entry, or a filing with one of the three verdicts, of which two are wrong."""
        what = draw.random()
        if what < 0.3:
            c.withdraw(day)
        elif what < 0.7:
            c.enter(day, night, periods)
        else:
            c.file(day, night, meter.Judged(*draw.choice(JUDGED)[1]), periods)

    def test_the_ledger_says_what_the_core_says(self):
        draw = random.Random(1)
        nights = [[NIGHT], [QUIET], [HIT], [NIGHT[:6]], [[BEYOND] * 7], [NIGHT * 3, 2], [QUIET * 3, 2], [NIGHT + HIT, 1], [HIT + NIGHT, 1], [NIGHT * 3, 17]]
        for _ in range(200):
            c, named = meter.Campaign(3, capacity=3), set()
            for _ in range(40):
                day = draw.choice([0, 1, 2, 3, 4, 5, 6, 366, 367])
                named.add(day)
                try:
                    self.call_at_random(draw, c, day, *draw.choice(nights))
                except meter.Refused:
                    pass
                stands = set(c.states().get("standing", []))
                self.assertEqual(set(c.not_in_mean()), named - stands)
                self.assertEqual(c.ledger.tally(), {s: n for s, n in c.counts().items() if s != "unseen"})


class Programs(Case):
    def test_first_import_from_eight_processes_at_once(self):
        environment = {k: v for k, v in os.environ.items() if k != "METER_LIBRARY"}
        with tempfile.TemporaryDirectory() as room:
            root = pathlib.Path(room)
            shutil.copytree(here, root / "python")
            (root / "target").mkdir()
            (root / "target/staticlib").symlink_to(here.parent / "target/staticlib")
            for _ in range(6):
                shutil.rmtree(root / "target/python", ignore_errors=True)
                words = [sys.executable, "-c", "import meter; print(meter.default_taps(8))"]
                started = [
                    subprocess.Popen(words, cwd=root / "python", env=environment, stdout=subprocess.PIPE, stderr=subprocess.PIPE, text=True)
                    for _ in range(8)
                ]
                self.assertEqual([process.communicate() for process in started], [("29\n", "")] * 8)
                self.assertEqual(os.listdir(root / "target/python"), ["libmeter.so"])

    def test_example(self):
        done = subprocess.run([sys.executable, str(here / "example.py")], capture_output=True, text=True, check=True)
        self.assertEqual(
            done.stdout.split("\n"),
            [
                "not in the mean: day 3, dead",
                "not in the mean: day 4, overloaded at sample 4",
                "not in the mean: day 5, refused 5: recording or response not exactly P long, capture not exactly (m+1)*P (P is 7, 6 given)",
                "not in the mean: day 6, refused 12: verdict kept and C days stand (C is 2)",
                "mean [16, 0, -8, 0, 0, 0, 0]",
                "",
            ],
        )
        self.assertIn(done.stdout + "```", (here.parent / "docs/MANUAL.md").read_text())


if __name__ == "__main__":
    unittest.main()
