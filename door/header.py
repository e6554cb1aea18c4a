#!/usr/bin/env python3
"""Holds include/meter.h to the source: each exported function of crates/meter_c is declared, with the parameters that it has, by type and by name, and
no other is; and meter_explain and the manual's table have Python's words for every refusal.

With a file as its argument it holds that file to them instead."""
import pathlib
import re
import sys

root = pathlib.Path(__file__).resolve().parent.parent
sys.path.insert(0, str(root / "python"))
from ledger import CAUSES, explain

numbers = {"u8": "uint8_t", "i8": "int8_t", "u16": "uint16_t", "u32": "uint32_t", "i32": "int32_t", "i64": "int64_t", "usize": "size_t", "f64": "double"}
# C has a new player's numbers under longer names.
longer = {"o: &mut u32": "player_order", "t: &mut u32": "player_taps"}


def crossing(parameter):
    """The C parameters of a Rattle one: a slice `x` is a pointer `x` and a length `x_len`."""
    parameter = " ".join(parameter.split())
    name, kind = parameter.split(": ")
    name = longer.get(parameter, name)
    found = re.fullmatch(r"(&mut |&)?(\[)?(\w+)\]?", kind)
    lent, slice_of, of = found[1], found[2], numbers[found[3]]
    if lent is None:
        return [f"{of} {name}"]
    pointer = ("const " if lent == "&" else "") + f"{of} *{name}"
    return [pointer, f"size_t {name}_len"] if slice_of else [pointer]


source = {}
for path in sorted((root / "crates/meter_c/src").glob("*.rt")):
    for name, parameters, answer in re.findall(r'pub extern "C" fn (\w+)\((.*?)\)\s*->\s*(\w+)', path.read_text(), re.S):
        source[name] = [numbers[answer]] + [c for p in parameters.split(",") if p.strip() for c in crossing(p)]

header = {}
declarations = pathlib.Path(sys.argv[1]) if len(sys.argv) > 1 else root / "include/meter.h"
text = re.sub(r"/\*.*?\*/", "", declarations.read_text(), flags=re.S)
for answer, name, parameters in re.findall(r"(\w+) (meter_\w+)\((.*?)\);", text, re.S):
    header[name] = [answer] + [" ".join(p.split()) for p in parameters.split(",")]

faults = [name for name in sorted(source.keys() | header.keys()) if source.get(name) != header.get(name)]
for name in faults:
    print(f"wrong: {name}\n  source {source.get(name)}\n  header {header.get(name)}")
print(f"meter.h: {len(source)} functions in the source, {len(faults)} declared otherwise")

named = {name: int(number) for name, number in re.findall(r"(METER_\w+) = (\d+)", text)}
explained = re.findall(r'case (\w+): return "(.*?)";', text)
in_words = {named.get(name, name): words for name, words in explained}
in_python = {number: explain(number) for number in [0, *CAUSES]}
others = [n for n in in_words.keys() | in_python.keys() if in_words.get(n) != in_python.get(n)]
for n in others:
    print(f"wrong: answer {n}\n  python {in_python.get(n)}\n  header {in_words.get(n)}")
print(f"meter.h: {len(in_python)} answers in words, {len(others)} other than Python's")

# Editions are numbered too, and only the names that meter_explain has are refusals.
rows = [f"| {named[name]} | `{name}` | {CAUSES[named[name]]} |" for name, _ in explained if named.get(name) in CAUSES]
missing = [row for row in rows if row not in (root / "docs/MANUAL.md").read_text().splitlines()]
print("\n".join(f"docs/MANUAL.md has no row {row}" for row in missing) or f"docs/MANUAL.md: the {len(rows)} refusals of meter.h")
sys.exit(bool(faults or others or missing))
