"""Tries nights.py on the examples, as the manual and README.md show them too, on a year that has more good nights than slots, on random logs and on
lines that are not the log's; `door/run` builds the second program, whose lines these are, before."""
import pathlib
import subprocess
import sys
import tempfile
import unittest

here = pathlib.Path(__file__).resolve().parent
root = here.parent
sys.path[:0] = [str(here), str(root / "logs")]
import items
import make
import nights

SECOND = root / "second/target/release/second"
EXAMPLES = sorted((root / "examples").glob("*.log"))


def answered(log):
    return subprocess.run([SECOND, "answer"], input=log, capture_output=True, check=True).stdout


def capture(day, m, samples, enter=True):
    """A capture's items."""
    return items.encode(items.CAPTURE, day, m) + b"".join(items.encode(items.SAMPLE, v) for v in samples) + items.encode(items.ENTER) * enter


def table(log, lines):
    reader = nights.Reader(log, nights.printed(lines))
    reader.read()
    return list(reader.table())


class Tables(unittest.TestCase):
    def test_the_year(self):
        words = [str(root / "examples" / name) for name in ("year.log", "year.lines")]
        done = subprocess.run([sys.executable, str(here / "nights.py"), *words], capture_output=True, text=True)
        self.assertEqual((done.returncode, done.stderr), (0, ""))
        self.assertEqual(
            done.stdout.split("\n"),
            [
                "not in the mean: 6",
                "  day     1  withdrawn; then withdrawal refused 13: day not standing",
                "  day    15  dead",
                "  day    29  withdrawn",
                "  day    36  refused 12: verdict kept and C days stand (C is 3)",
                "  day    43  dead",
                "  day   367  refused 10: day not 1 to 366",
                "in the mean: 3",
                "  day     8  standing; then refused 11: day already standing",
                "  day    22  standing",
                "  day   366  standing",
                "standing 3, overloaded 0, dead 2, withdrawn 2; response lines that agree: 3",
                "",
            ],
        )

    def test_every_example(self):
        ends = {path.stem: table(path.read_bytes(), path.with_suffix(".lines").read_bytes())[-1] for path in EXAMPLES}
        self.assertEqual(
            ends,
            {
                "capture": "standing 0, overloaded 1, dead 0, withdrawn 1; response lines that agree: 2",
                "edges": "the log is bad at byte 861 of 865; what follows was not read",
                "edition-3": "the start was refused 24: edition not 1 or 2; no night was read",
                "edition-late": "the log is bad at byte 6 of 8; what follows was not read",
                "halves": "standing 1, overloaded 0, dead 0, withdrawn 0; response lines that agree: 1",
                "halves-even": "standing 0, overloaded 0, dead 0, withdrawn 1; response lines that agree: 2",
                "late": "standing 1, overloaded 0, dead 0, withdrawn 1; response lines that agree: 3",
                "order-1": "the start was refused 1: order below 2 or above 16; no night was read",
                "order-10": "the start was refused 17: the program only: order above 9, slots above 8, or 5 to 16 periods; no night was read",
                "order-17": "the start was refused 1: order below 2 or above 16; no night was read",
                "paper": "standing 0, overloaded 0, dead 1, withdrawn 1; response lines that agree: 2",
                "short": "the start was refused 4: register not maximal: it returns after 5 steps of 15; no night was read",
                "year": "standing 3, overloaded 0, dead 2, withdrawn 2; response lines that agree: 3",
            },
        )

    def test_what_the_pages_show(self):
        for name, page in [("year", "docs/MANUAL.md"), ("paper", "README.md")]:
            log, lines = ((root / "examples" / f"{name}.{kind}").read_bytes() for kind in ("log", "lines"))
            self.assertIn("\n".join(["", *table(log, lines), "```"]), (root / page).read_text())
        self.assertIn(f"$ cat paper.lines\n{lines.decode()}$ ", (root / "README.md").read_text())
        for name in ("halves-even", "late"):
            lines = (root / f"examples/{name}.lines").read_text()
            self.assertIn(f"$ crates/meterlog/out/meterlog < examples/{name}.log\n{lines}```", (root / "docs/MANUAL.md").read_text())

    def test_300_good_nights_in_8_slots(self):
        night = "samples -4 -12 -4 12 12 -12 4\nenter\n"
        log = make.log_from_text("start 3 3 8\n" + "".join(f"day {day}\n{night}" for day in range(1, 301)) + "ask\n")
        lines = table(log, answered(log))
        full = "refused 12: verdict kept and C days stand (C is 8)"
        self.assertEqual(lines[:293], ["not in the mean: 292"] + [f"  day {day:5}  {full}" for day in range(9, 301)])
        self.assertEqual(lines[293:302], ["in the mean: 8"] + [f"  day {day:5}  standing" for day in range(1, 9)])
        self.assertEqual(lines[302:], ["standing 8, overloaded 0, dead 0, withdrawn 0; response lines that agree: 1"])

    def test_a_night_that_is_never_entered(self):
        log = make.log_from_text("start 3 3 1\nday 9\nsamples 1 2\n")
        self.assertEqual(table(log, answered(log))[1], f"  day     9  opened and not entered: the log is bad at byte {len(log)}")

    def test_random_logs_name_each_day_once(self):
        stopped, whole = 0, 0
        with tempfile.TemporaryDirectory() as room:
            subprocess.run([SECOND, "make", "1", "300", room], check=True)
            for path in sorted(pathlib.Path(room).iterdir()):
                log = path.read_bytes()
                lines = answered(log)
                reader = nights.Reader(log, nights.printed(lines))
                reader.read()
                named = {int(words[1]) for words in map(bytes.split, lines.splitlines()) if words[0] in (b"enter", b"withdraw")}
                never_entered = set() if reader.day is None else {reader.day}
                listed = [int(line.split()[1]) for line in reader.table() if line.startswith("  day ")]
                self.assertEqual(sorted(listed), sorted(named | never_entered), msg=path.name)
                stopped, whole = stopped + bool(reader.stopped), whole + (not reader.stopped)
        self.assertTrue(stopped > 50 and whole > 50, msg=(stopped, whole))


# A period that is kept, one that is dead, and a run-in at the rails.
NIGHT, QUIET, RAILS = [-4, -12, -4, 12, 12, -12, 4], [5, 4, 9, 5, 6, 11, 5], [8388607, -8388608] * 3 + [8388607]
START = make.log_from_text("start 3 3 2\n")


class Captures(unittest.TestCase):
    """The lines are written by hand, from document 02's words."""

    def test_what_becomes_of_each(self):
        hit = NIGHT[:6] + [-8388608]
        log = START + b"".join(
            [
                capture(1, 2, RAILS + NIGHT + NIGHT),
                capture(2, 1, RAILS + QUIET),
                capture(3, 4, RAILS + NIGHT * 3 + hit),
                capture(4, 2, NIGHT * 2),
                capture(5, 0, NIGHT),
                capture(6, 17, NIGHT * 18),
                capture(7, 255, []),
                capture(8, 5, NIGHT * 6),
                capture(1, 16, [8388607]),
                capture(367, 5, []),
                capture(0, 0, []),
                capture(1, 1, NIGHT * 2),
                items.encode(items.ASK),
            ]
        )
        entered = ["1 0 kept", "2 0 dead", "3 0 overload", "4 5 -", "5 18 -", "6 18 -", "7 18 -", "8 17 -", "1 17 -", "367 10 -", "0 10 -", "1 11 -"]
        rows = ["0 128 8", "1 0 0", "2 -64 -4", "3 0 0", "4 0 0", "5 0 0", "6 0 0"]
        lines = ["start 0", *(f"enter {line}" for line in entered), "response 0 1 1 1 0", *rows]
        program = "the program only: order above 9, slots above 8, or 5 to 16 periods"
        self.assertEqual(
            table(log, "".join(line + "\n" for line in lines).encode()),
            [
                "not in the mean: 9",
                "  day     0  refused 10: day not 1 to 366",
                "  day     2  dead",
                "  day     3  overloaded at sample 27",
                "  day     4  refused 5: recording or response not exactly P long, capture not exactly (m+1)*P ((m+1)*P is 21, 14 given)",
                "  day     5  refused 18: periods not 1 to 16 (m is 0)",
                "  day     6  refused 18: periods not 1 to 16 (m is 17)",
                "  day     7  refused 18: periods not 1 to 16 (m is 255)",
                f"  day     8  refused 17: {program} (m is 5)",
                "  day   367  refused 10: day not 1 to 366",
                "in the mean: 1",
                "  day     1  standing; then refused 11: day already standing",
                "standing 1, overloaded 1, dead 1, withdrawn 0; response lines that agree: 1",
            ],
        )

    def test_one_sample_too_many(self):
        for m in (0, 1, 2, 4, 5, 16, 17, 255):
            most = (m + 1) * 7
            log = START + capture(9, m, ([9, -9] * 1000)[: most + 1])
            bad = len(START) + 4 + 4 * most
            ends = f"the log is bad at byte {bad} of {len(log)}; what follows was not read"
            self.assertEqual(table(log, b"start 0\nbad %d\n" % bad)[-1], ends)
            with self.assertRaisesRegex(nights.Fault, f": the log is bad at byte {bad}$"):
                table(log, b"start 0\nbad %d\n" % (bad - 4))

    def test_where_it_may_stand(self):
        inside = START + capture(9, 1, [1], enter=False)
        for log in (capture(1, 1, []), inside + capture(1, 1, []), inside, START + items.encode(items.CAPTURE, 1, 1)[:-1]):
            at = 0 if log[0] == items.CAPTURE else len(inside) if log.startswith(inside) else len(START)
            lines = (b"" if at == 0 else b"start 0\n") + b"bad %d\n" % at
            self.assertIn(f"the log is bad at byte {at} of {len(log)}; what follows was not read", table(log, lines))

    def test_answers_that_cannot_be(self):
        for day, m, samples, line, why in [
            (1, 0, NIGHT, "0 kept", "m = 0 is answered with 18 there"),
            (1, 0, [], "5 -", "m = 0 is answered with 18 there"),
            (1, 0, [], "17 -", "m = 0 is answered with 18 there"),
            (0, 17, [], "18 -", "m = 17 is answered with 10 there"),
            (1, 17, [], "17 -", "m = 17 is answered with 18 there"),
            (1, 5, NIGHT * 6, "0 kept", "m = 5 is answered with 17 there"),
            (367, 16, [], "17 -", "m = 16 is answered with 10 there"),
            (1, 16, [], "18 -", "m = 16 is answered with 17 there"),
            (1, 4, NIGHT * 5, "17 -", "m = 4 is within the program's reach"),
            (1, 1, NIGHT * 2, "18 -", "m = 1 is within the program's reach"),
            (1, 1, RAILS + NIGHT, "0 overload", "the first sample at a rail: none"),
            (1, 2, NIGHT * 2 + RAILS, "0 kept", "the first sample at a rail: 7"),
        ]:
            with self.assertRaisesRegex(nights.Fault, f": {why}$", msg=(m, line)):
                table(START + capture(day, m, samples), f"start 0\nenter {day} {line}\n".encode())
        one = make.log_from_text("start 3 3 2\nday 1\nsamples 1\nenter\n")
        with self.assertRaisesRegex(nights.Fault, ": one period is within the program's reach$"):
            table(one, b"start 0\nenter 1 18 -\n")


EDITION = {n: items.encode(items.EDITION, n) for n in (0, 1, 2, 3, 255)}
ENTERED = START + make.log_from_text("day 1\nsamples 1 2 3 4 5 6 9\nenter\n")


class Editions(unittest.TestCase):
    def test_an_edition_that_is_one(self):
        night = ENTERED[len(START) :] + items.encode(items.ASK)
        rows = "".join(f"{k} 0 0\n" for k in range(7))
        lines = f"enter 1 0 kept\nresponse 0 1 0 0 0\n{rows}".encode()
        without = table(START + night, b"start 0\n" + lines)
        for n in (1, 2):
            self.assertEqual(table(START + EDITION[n] + night, b"start 0\nedition 0\n" + lines), without)
            self.assertEqual(table(START + EDITION[n], b"start 0\nedition 0\n"), table(START, b"start 0\n"))

    def test_an_edition_that_is_none(self):
        for n in (0, 3, 255):
            for behind in (b"", items.encode(items.ASK), EDITION[1], b"\x63"):
                lines = table(START + EDITION[n] + behind, b"start 0\nedition 24\n")
                ends = "the start was refused 24: edition not 1 or 2; no night was read"
                self.assertEqual(lines[:2] + lines[-1:], ["not in the mean: 0", "in the mean: 0", ends])

    def test_where_it_may_stand(self):
        opened, asked = START + make.log_from_text("day 1\n"), START + items.encode(items.ASK)
        withdrawn = START + make.log_from_text("withdraw 1\n")
        for log, lines, at in [
            (EDITION[1] + START, "", 0),
            (START + EDITION[2] + EDITION[2], "start 0\nedition 0\n", len(START) + 2),
            (opened + EDITION[2], "start 0\n", len(opened)),
            (asked + EDITION[2], "start 0\nresponse 14 0 0 0 0\n", len(asked)),
            (withdrawn + EDITION[2], "start 0\nwithdraw 1 13\n", len(withdrawn)),
            (ENTERED + EDITION[1], "start 0\nenter 1 0 kept\n", len(ENTERED)),
            (START + EDITION[2][:1], "start 0\n", len(START)),
        ]:
            self.assertIn(f"the log is bad at byte {at} of {len(log)}; what follows was not read", table(log, f"{lines}bad {at}\n".encode()))

    def test_lines_that_cannot_be(self):
        for n, answer, why in [
            (1, 24, "edition 1 is answered with 0"),
            (2, 24, "edition 2 is answered with 0"),
            (2, 9, "edition 2 is answered with 0"),
            (3, 0, "edition 3 is answered with 24"),
            (0, 15, "edition 0 is answered with 24"),
        ]:
            with self.assertRaisesRegex(nights.Fault, f": {why}$", msg=(n, answer)):
                table(START + EDITION[n], b"start 0\nedition %d\n" % answer)
        for log, lines in [
            (START + EDITION[2], b"start 0\n"),
            (START, b"start 0\nedition 0\n"),
            (START + EDITION[2], b"start 0\nedition 0 2\n"),
            (START + EDITION[3], b"start 0\nedition 24\nbad 5\n"),
            (START + EDITION[2], b"start 9\nedition 0\n"),
        ]:
            with self.assertRaises(nights.Fault, msg=lines):
                table(log, lines)


class OtherLines(unittest.TestCase):
    def refuses(self, log, lines):
        with self.assertRaises(nights.Fault, msg=lines):
            table(log, lines)

    def each(self):
        for path in EXAMPLES:
            yield path.read_bytes(), path.with_suffix(".lines").read_bytes().splitlines(keepends=True)

    def test_a_line_lost_or_doubled(self):
        for log, lines in self.each():
            for i in range(len(lines)):
                self.refuses(log, b"".join(lines[:i] + lines[i + 1 :]))
                self.refuses(log, b"".join(lines[: i + 1] + lines[i:]))
            self.refuses(log, b"".join(lines)[:-1])

    def test_a_count_that_is_one_more(self):
        changed = 0
        for log, lines in self.each():
            for i, line in enumerate(lines):
                words = line.split()
                for place in range(1, 6 if words[0] == b"response" else 0):
                    other = [b"%d" % (int(word) + (k == place)) if k else word for k, word in enumerate(words)]
                    self.refuses(log, b"".join(lines[:i] + [b" ".join(other) + b"\n"] + lines[i + 1 :]))
                    changed += 1
        self.assertEqual(changed, 95)

    def test_a_verdict_that_is_another(self):
        log, lines = (root / "examples/year.log").read_bytes(), (root / "examples/year.lines").read_bytes()
        for old, new in [(b"1 0 kept", b"1 0 dead"), (b"15 0 dead", b"15 0 kept"), (b"22 0 overload", b"22 0 dead"), (b"36 12 -", b"36 0 kept")]:
            self.assertEqual(lines.count(b"enter " + old), 1)
            self.refuses(log, lines.replace(b"enter " + old, b"enter " + new))

    def test_lines_that_cannot_be(self):
        night, hit, kept = "day 1\nsamples 1 2 3 4 5 6 9\nenter\n", "day 1\nsamples 1 2 3 8388607 5 6 9\nenter\n", "enter 1 0 kept\n"
        together = "the answer and the verdict do not go together"
        for text, lines, why in [
            (night, "enter 1 0 -\n", together),
            (night, "enter 1 12 kept\n", together),
            (night, "enter 1 11 -\n", "day 1 does not stand there"),
            (night + night, kept + kept, "day 1 stands there"),
            (night + "withdraw 1\n", kept + "withdraw 1 13\n", "day 1 stands there"),
            ("withdraw 1\n", "withdraw 1 0\n", "day 1 does not stand there"),
            (night, "enter 1 0 overload\n", "the first sample at a rail: none"),
            (hit, kept, "the first sample at a rail: 3"),
            (night + "enter\n", kept + "bad 5\n", "the log is bad at byte 37"),
            (night, kept + "ask\n", "the log has no item for it"),
        ]:
            with self.assertRaisesRegex(nights.Fault, f": {why}$", msg=lines):
                table(make.log_from_text("start 3 3 2\n" + text), b"start 0\n" + lines.encode())

    def test_starts_that_cannot_be(self):
        alone, within = "a period stands after 4 and nowhere else", "a short register returns after 1 to 14 steps there"
        for lines, why in [("start 4", alone), ("start 0 15", alone), ("start 9 5", alone), ("start 4 0", within), ("start 4 15", within)]:
            with self.assertRaisesRegex(nights.Fault, f"`: {why}$", msg=lines):
                table(make.log_from_text("start 4 15 1\n"), lines.encode() + b"\n")
        for lines in (b"start 4 5 5\n", b"start 4 -5\n", b"start 4 5\nbad 5\n"):
            self.refuses(make.log_from_text("start 4 15 1\n"), lines)

    def test_it_says_so_and_prints_no_table(self):
        with tempfile.TemporaryDirectory() as room:
            lines = pathlib.Path(room) / "lines"
            lines.write_bytes((root / "examples/year.lines").read_bytes().replace(b"response 0 2 1 2 1", b"response 0 2 0 2 1"))
            words = [sys.executable, str(here / "nights.py"), str(root / "examples/year.log"), str(lines)]
            done = subprocess.run(words, capture_output=True, text=True)
        said = "nights: line 30, `response 0 2 0 2 1`: the lines before it count standing 2, overloaded 1, dead 2, withdrawn 1\n"
        self.assertEqual((done.returncode, done.stdout, done.stderr), (1, "", said))


if __name__ == "__main__":
    unittest.main()
