"""Holds make.py to the examples' logs, and to `second text` on good and bad lines, drawn at random; and the manual's examples to their logs and lines.
`door/run` builds the second program before."""
import pathlib
import random
import subprocess
import sys
import unittest

here = pathlib.Path(__file__).resolve().parent
root = here.parent
sys.path.insert(0, str(here))
import make
import items

GOOD = ["start 3 3 2", "start 255 65535 255", "edition 1", "edition 2", "edition 255", "day 1", "capture 1 2", "capture 65535 255", "samples -8388608 8388607", "samples +3 -0 00003", "enter", "withdraw 65535", "ask # why", ""]
WORDS = "start edition day capture samples enter withdraw ask Start # 0 1 -1 + - 255 256 65536 8388608 -8388609 2147483648 1_0 1.0 0x1".split()
WORDS += ["9" * 5000, "0" * 5000 + "7", "\u0663", "\ufeff"]
SPACES = [" ", "  ", "\t", "\r", "\x0b", "\x1c", "\x1f", "\x85", "\xa0", "\u2003", "\u2028", "\u200b"]


def run(*words, text):
    done = subprocess.run(words, input=text.encode(), capture_output=True)
    return done.returncode, done.stdout, done.stderr.decode().partition(": ")[2]


class Make(unittest.TestCase):
    def test_the_examples(self):
        texts = sorted((root / "examples").glob("*.txt"))
        self.assertGreater(len(texts), 0)
        for text in texts:
            status, log, said = run(sys.executable, str(here / "make.py"), text=text.read_text())
            self.assertEqual((status, log, said), (0, text.with_suffix(".log").read_bytes(), ""), msg=text.name)

    def test_the_manual_has_the_paper_in_hex_with_its_lines(self):
        block = (root / "docs/MANUAL.md").read_text().partition("```\n01 03")[2].partition("```")[0]
        rows = ("01 03" + block).splitlines()
        log, lines = (root / "examples" / name for name in ("paper.log", "paper.lines"))
        self.assertEqual(bytes.fromhex("".join(row[:17] for row in rows)), log.read_bytes())
        self.assertEqual([row[45:] for row in rows if row[45:]], lines.read_text().splitlines())

    def test_the_manual_has_a_night_in_both_editions(self):
        manual = (root / "docs/MANUAL.md").read_text()
        away, to_even = ((root / "examples" / f"{name}.lines").read_text() for name in ("halves", "halves-even"))
        means = [[list(map(int, line.split())) for line in lines.splitlines() if line[0].isdigit()] for lines in (away, to_even)]
        rows = [f"| {k} | {r} | {r / 8:g} | {one} | {two} |" for (k, r, one), (_, _, two) in zip(*means, strict=True)]
        self.assertEqual(len(rows), 7)
        self.assertIn("\n".join(["|---|---|---|---|---|", *rows, ""]), manual)
        self.assertIn(f"$ crates/meterlog/out/meterlog < examples/halves-even.log\n{to_even}```", manual)

    def test_a_capture_is_its_kind_the_day_and_the_periods(self):
        self.assertEqual(make.log_from_text("capture 258 4"), b"\x07\x02\x01\x04")

    def test_a_capture_that_does_not_fit_is_named(self):
        for line, said in [
            ("capture 1 256", "m `256` is not a whole number from 0 to 255"),
            ("capture 1 -1", "m `-1` is not a whole number from 0 to 255"),
            ("capture 65536 1", "day `65536` is not a whole number from 0 to 65535"),
            ("capture 1", "write `capture DAY M`, and the samples on lines of their own"),
            ("capture 1 2 3", "write `capture DAY M`, and the samples on lines of their own"),
        ]:
            with self.assertRaisesRegex(make.BadLine, f"^line 1: {said}$"):
                make.log_from_text(line)

    def test_an_edition_is_its_kind_and_its_number(self):
        self.assertEqual([make.log_from_text(f"edition {n}") for n in (0, 1, 2, 255)], [b"\x08\x00", b"\x08\x01", b"\x08\x02", b"\x08\xff"])
        self.assertEqual(make.log_from_text("start 3 3 2\nedition 2 # to even\nask"), b"\x01\x03\x03\x00\x02\x08\x02\x06")

    def test_an_edition_that_does_not_fit_is_named(self):
        for line, said in [
            ("edition 256", "edition `256` is not a whole number from 0 to 255"),
            ("edition -1", "edition `-1` is not a whole number from 0 to 255"),
            ("edition two", "edition `two` is not a whole number from 0 to 255"),
            ("edition", "write `edition N`"),
            ("edition 1 2", "write `edition N`"),
        ]:
            with self.assertRaisesRegex(make.BadLine, f"^line 1: {said}$"):
                make.log_from_text(line)

    def test_a_bad_line_is_named_and_nothing_written(self):
        status, log, said = run(sys.executable, str(here / "make.py"), text="start 3 3 2\nday 65536\n")
        self.assertEqual((status, log, said), (1, b"", "line 2: day `65536` is not a whole number from 0 to 65535\n"))

    def test_the_same_as_second(self):
        draw, refused = random.Random(1), 0
        for _ in range(500):
            lines = [draw.choice(GOOD) for _ in range(draw.randrange(4))]
            if draw.random() < 0.7:
                lines.append(draw.choice(SPACES).join(draw.choice(WORDS) for _ in range(draw.randrange(1, 5))))
            text = "\n".join(lines)
            try:
                ours = 0, make.log_from_text(text), ""
            except make.BadLine as fault:
                ours = 1, b"", f"{fault}\n"
                refused += 1
            self.assertEqual(ours, run(root / "second/target/release/second", "text", text=text), msg=repr(text))
        self.assertTrue(100 < refused < 400)

    def test_what_is_written_is_read_back(self):
        for item in [(1, 255, 65535, 255), (2, 0), (3, -8388608), (3, 8388607), (3, -1), (4,), (5, 65535), (6,), (7, 0, 0), (7, 65535, 255), (8, 0), (8, 255)]:
            log = items.encode(*item)
            self.assertEqual(items.decode(log, 0), (list(item[1:]), len(log)))
            if len(log) > 1:
                self.assertIsNone(items.decode(log[:-1], 0))
        self.assertIsNone(items.decode(b"\x09\x00\x00\x00\x00", 0))


if __name__ == "__main__":
    unittest.main()
