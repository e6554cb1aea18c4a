#!/usr/bin/env python3
"""report.py TIMES SHORT COMPILER: prints the tables of times, of ratios and of what was asked, and those of Legendre sequences. With --write behind these
it also puts them into docs/BENCHMARKS.md, between their marks, and the plot into docs/benchmarks.svg."""
import datetime
import math
import os
import pathlib
import platform
import re
import subprocess
import sys

root = pathlib.Path(__file__).resolve().parent.parent

PIECES = {
    "recording": "one recording",
    "paper": "(a) document 002's route in doubles, tags ready",
    "plain": "(b) plain int64 C",
    "ready": "(b) plain int64 C, tags ready",
    "fftw": "(c) correlation by FFTW",
    "predict": "prediction",
    "plain_predict": "(b) prediction by plain int64 C",
    "refused": "taps refused with 4, after nearly P steps",
    "walk": "(e) these steps by plain C",
    "enter": "enter into the 64th slot",
    "file": "file into it with the verdict shown",
    "dead": "enter a dead night, every slot used",
    "withdraw": "withdraw it",
    "response": "response of 64 nights",
    "response_even": "response of 64 nights in edition 2",
    "pass": "(d) one pass over the store",
    "capture": "enter a capture of 16 periods into the 64th slot",
    "heard": "(f) one pass over its samples and the store",
    "enter_one": "enter into the only slot",
    "capture_one": "enter a capture of 16 periods into the only slot",
    "heard_one": "(g) one pass over its samples and the only slot",
    "response_one": "response of that capture, the only night",
    "response_one_even": "response of it in edition 2",
    "judge": "judge a night of one period",
    "night": "(h) one pass over its samples",
    "judge_capture": "judge a capture of 16 periods",
    "captured": "(i) one pass over its samples",
}
RATIOS = [
    ("one recording to (a)", ["recording"], ["paper"]),
    ("one recording to (b)", ["recording"], ["plain"]),
    ("one recording to (b), tags ready", ["recording"], ["ready"]),
    ("(c) to one recording", ["fftw"], ["recording"]),
    ("prediction to (b)", ["predict"], ["plain_predict"]),
    ("taps refused with 4 to (e)", ["refused"], ["walk"]),
    ("enter to (d)", ["enter"], ["pass"]),
    ("file to enter", ["file"], ["enter"]),
    ("a dead night to (d)", ["dead"], ["pass"]),
    ("withdraw to (d)", ["withdraw"], ["pass"]),
    ("response to one recording and (d)", ["response"], ["recording", "pass"]),
    ("response in edition 2 to one recording and (d)", ["response_even"], ["recording", "pass"]),
    ("response in edition 2 to that in edition 1", ["response_even"], ["response"]),
    ("a capture to (f)", ["capture"], ["heard"]),
    ("a capture into the only slot to (g)", ["capture_one"], ["heard_one"]),
    ("response of the only night in edition 2 to that in edition 1", ["response_one_even"], ["response_one"]),
    ("a night judged to (h)", ["judge"], ["night"]),
    ("a capture judged to (i)", ["judge_capture"], ["captured"]),
]
# The same of Legendre sequences.
SHORT_PIECES = {
    "recording": "one recording",
    "plain": "(j) the direct sum by plain int64 C",
    "ready": "(k) the direct sum by plain int32 C, signs ready",
    "fftw": "(l) correlation by FFTW",
    "predict": "prediction",
    "plain_predict": "(m) prediction by plain int64 C",
}
SHORT_RATIOS = [
    ("one recording to (j)", ["recording"], ["plain"]),
    ("one recording to (k), signs ready", ["recording"], ["ready"]),
    ("(l) to one recording", ["fftw"], ["recording"]),
    ("prediction to (m)", ["predict"], ["plain_predict"]),
]
# What was asked at the largest order: a bound on a ratio of bests.
ASKED = [
    ("enter with 64 slots: at most 2.5 times (d)", ["enter"], ["pass"], "most", 2.5),
    ("a response: at most 1.5 times one recording and (d)", ["response"], ["recording", "pass"], "most", 1.5),
    ("a response of the only night in edition 2: at most 1.1 times that in edition 1", ["response_one_even"], ["response_one"], "most", 1.1),
    ("one recording: at most 0.9 of plain int64 C, which makes its tags in the call, as ours does", ["recording"], ["plain"], "most", 0.9),
    ("one recording: at most 0.9 of plain int64 C that is handed its tags", ["recording"], ["ready"], "most", 0.9),
    ("one recording: at least 3 times faster than FFTW", ["fftw"], ["recording"], "least", 3),
    ("a capture of 16 periods with 64 slots: at most 1.5 times (f)", ["capture"], ["heard"], "most", 1.5),
    ("a capture of 16 periods with one slot: at most 1.5 times (g)", ["capture_one"], ["heard_one"], "most", 1.5),
]


class Measured:
    """The best and the median of each piece at each order, or at each period of a Legendre sequence, in microseconds."""

    def __init__(self, lines):
        self.best, self.median = {}, {}
        for line in lines:
            order, name, low, middle = line.split()
            key = int(order), name
            self.best[key] = min(self.best.get(key, math.inf), float(low))
            self.median[key] = min(self.median.get(key, math.inf), float(middle))
        self.orders = sorted({order for order, _ in self.best})
        self.names = {name for _, name in self.best}

    def ratio(self, times, of, over, order):
        return sum(times[order, name] for name in of) / sum(times[order, name] for name in over)


# ---- the tables


def table(head, rows):
    return ["| " + " | ".join(head) + " |", "|---" * len(head) + "|"] + ["| " + " | ".join(row) + " |" for row in rows]


def measured_tables(m, size, digits, pieces, ratios):
    head = [f"{size} {n}" for n in m.orders]
    times = [
        [words] + [f"{m.best[n, name]:.{digits}f} / {m.median[n, name]:.{digits}f}" for n in m.orders]
        for name, words in pieces.items()
        if name in m.names
    ]
    ratios = [
        [words] + ["%.2f / %.2f" % (m.ratio(m.best, of, over, n), m.ratio(m.median, of, over, n)) for n in m.orders]
        for words, of, over in ratios
        if m.names.issuperset(of + over)
    ]
    return table(["µs, best / median", *head], times) + [""] + table(["ratio, of bests / of medians", *head], ratios)


def asked_table(m):
    order, rows = m.orders[-1], []
    for words, of, over, bound, limit in ASKED:
        found = "not measured"
        if m.names.issuperset(of + over):
            ratio = m.ratio(m.best, of, over, order)
            kept = ratio <= limit if bound == "most" else ratio >= limit
            found = f"{'kept' if kept else 'not kept'}: {ratio:.2f}"
        rows.append([words, found])
    return table([f"Asked, at order {order}", "Found (ratio of bests)"], rows)


def machine(m, compiler, fftw):
    cpu = re.search(r"model name\s*: (.*)", pathlib.Path("/proc/cpuinfo").read_text())
    cpu = cpu[1] if cpu else platform.machine()
    kit = subprocess.run(["rt", "version"], capture_output=True, text=True).stdout.strip()
    commit = subprocess.run(["git", "rev-parse", "--short", "HEAD"], capture_output=True, text=True, cwd=root).stdout.strip()
    said = f"{datetime.date.today()}: {cpu}, {os.cpu_count()} processors, {platform.system()} {platform.machine()}."
    said += f" Plain C: {compiler}. The meter: {kit}, at {commit}."
    return said if "fftw" in m.names else said + f" FFTW was not on this machine; {fftw} is left out."


def put(page, name, lines):
    """The page with these lines between the marks of this name."""
    made, times = re.subn(rf"(<!-- {name} -->\n).*(<!-- end {name} -->)", lambda at: at[1] + "\n".join(lines) + "\n" + at[2], page, flags=re.S)
    if times != 1:
        sys.exit(f"report.py: docs/BENCHMARKS.md has not one place marked {name}")
    return made


# ---- the plot: time against order, both logarithmic in effect, since the order is the logarithm of P

TITLE = "The time of a call against the order: ours thick, what it is compared with grey"
OURS = {"recording": "#0a7d3c", "enter": "#0a5fb4", "response": "#b4470a"}
PANELS = [("One recording", ["recording", "paper", "plain", "ready", "fftw"]), ("A campaign of 64 slots", ["enter", "response", "pass"])]
SHORTER = {"paper": "(a) document 002, doubles", "plain": "(b) plain C", "ready": "(b) plain C, tags ready", "fftw": "(c) FFTW"}
WIDTH, HEIGHT, TOP, BOTTOM = 1000, 420, 76, 44
PANEL, LEFT, PLOT, GAP, STEP = 490, 80, 200, 22, 17


def spread(ends):
    """Labels at least a step apart, each as near to its line's end as the others let it; one of ours outweighs the others. Of (height, name)."""
    ends, pools = sorted(ends), []
    for i, (height, name) in enumerate(ends):
        pools.append((height - i * STEP, 20 if name in OURS else 1, 1))
        while len(pools) > 1 and pools[-2][0] > pools[-1][0]:
            (a, v, m), (b, w, n) = pools[-2:]
            pools[-2:] = [((a * v + b * w) / (v + w), v + w, m + n)]
    heights = [at for at, _, count in pools for _ in range(count)]
    return [(height + i * STEP, *end) for i, (height, end) in enumerate(zip(heights, ends))]


def plot(m):
    shown = [name for _, names in PANELS for name in names if name in m.names]
    logs = [math.log10(m.best[n, name]) for n in m.orders for name in shown]
    low, high = math.floor(min(logs)), math.ceil(max(logs))
    svg = [f'<svg xmlns="http://www.w3.org/2000/svg" width="{WIDTH}" height="{HEIGHT}" font-family="sans-serif" font-size="12">']
    svg += [f"<title>{TITLE}</title>", f'<rect width="{WIDTH}" height="{HEIGHT}" fill="white"/>']
    svg.append(f'<text x="{LEFT}" y="28" font-size="16" font-weight="bold">{TITLE}</text>')

    def y(time):
        return HEIGHT - BOTTOM - (math.log10(time) - low) / (high - low) * (HEIGHT - TOP - BOTTOM)

    for i, (title, names) in enumerate(PANELS):
        svg += panel(m, i * PANEL + LEFT, y, range(low, high + 1), title, [name for name in names if name in m.names])
    return "\n".join(svg + ["</svg>"]) + "\n"


def panel(m, left, y, powers, title, names):
    def x(order):
        return left + (order - m.orders[0]) / (m.orders[-1] - m.orders[0]) * PLOT

    yield f'<text x="{left}" y="{TOP - 16}" font-size="13" font-weight="bold" fill="#333">{title}</text>'
    for power in powers:
        at = y(10**power)
        yield f'<line x1="{left}" y1="{at:.1f}" x2="{left + PLOT}" y2="{at:.1f}" stroke="#e4e4e4"/>'
        yield f'<text x="{left - 8}" y="{at + 4:.1f}" text-anchor="end" fill="#555">{10**power:,} µs</text>'
    for n in m.orders:
        yield f'<text x="{x(n):.1f}" y="{HEIGHT - BOTTOM + 20}" text-anchor="middle" fill="#555">order {n}</text>'
    for name in sorted(names, key=lambda name: name in OURS):
        colour, width = (OURS[name], 4) if name in OURS else ("#a0a0a0", 1.5)
        points = " ".join(f"{x(n):.1f},{y(m.best[n, name]):.1f}" for n in m.orders)
        yield f'<polyline points="{points}" fill="none" stroke="{colour}" stroke-width="{width}" stroke-linejoin="round" stroke-linecap="round"/>'
    for at, end, name in spread([(y(m.best[m.orders[-1], name]), name) for name in names]):
        colour, weight = (OURS[name], "bold") if name in OURS else ("#777", "normal")
        yield f'<line x1="{left + PLOT + 4}" y1="{end:.1f}" x2="{left + PLOT + GAP - 3}" y2="{at:.1f}" stroke="{colour}" stroke-width="0.8"/>'
        yield f'<text x="{left + PLOT + GAP}" y="{at + 4:.1f}" fill="{colour}" font-weight="{weight}">{SHORTER.get(name, PIECES[name])}</text>'


def main(words):
    if len(words) < 3 or words[3:] not in ([], ["--write"]):
        sys.exit(__doc__)
    *times, compiler = words[:3]
    m, legendre = (Measured(pathlib.Path(path).read_text().splitlines()) for path in times)
    blocks = {
        "measured": [machine(m, compiler, "(c)"), "", *measured_tables(m, "order", 1, PIECES, RATIOS)],
        "asked": asked_table(m),
        "short": [machine(legendre, compiler, "(l)"), "", *measured_tables(legendre, "p =", 3, SHORT_PIECES, SHORT_RATIOS)],
    }
    print("\n".join([*blocks["measured"], "", *blocks["asked"], "", "Legendre sequences. " + blocks["short"][0], *blocks["short"][1:]]))
    if words[3:]:
        page = root / "docs/BENCHMARKS.md"
        said = page.read_text()
        for name, lines in blocks.items():
            said = put(said, name, lines)
        page.write_text(said)
        (root / "docs/benchmarks.svg").write_text(plot(m))


if __name__ == "__main__":
    main(sys.argv[1:])
