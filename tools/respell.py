#!/usr/bin/env python3
"""Turns this repository's own definitions and lemmas to today's spelling: functions, fields, constructors and lemmas in snake case, where a dash stands
only between two names. Types, modules, functions of src/, exported names and what the kit's library spells stay as they are.

usage: python3 tools/respell.py KIT      at the top of the repository, once, behind KIT/port/port.py; KIT is the kit's folder
It prints each name that was turned, and stops where two names would fall together."""

import collections
import os
import re
import sys

TOKEN = re.compile(r"[^\s(){}\[\],;.\"«»@]+")
# Words of the library, and names of operators, that a dash may join to another name.
WORDS = set("length take drop get_or set append replicate reverse map sum total table put put_at seek some every many sign ring nat_abs mag pos negsuc "
            "add sub mul div mod neg le lt eq suc zero one of_z to_z le_z lt_z eq_z".split())


def files(*ends):
    for folder, dirs, names in os.walk("crates"):
        dirs[:] = sorted(d for d in dirs if d != "out")
        yield from (os.path.join(folder, f) for f in sorted(names) if f.endswith(ends))


def read(path):
    with open(path, encoding="utf-8") as f:
        return f.read()


def plain(text, mark):
    return re.sub(r"(?m)%s.*$" % mark, "", text)


def library(kit):
    known = set()
    for folder, _, names in os.walk(os.path.join(kit, "rattle")):
        for f in names:
            if f.endswith(".antt"):
                with open(os.path.join(folder, f), encoding="utf-8", errors="replace") as t:
                    known.update(TOKEN.findall(t.read()))
    return known


def snake(word):
    """sampleOut is sample_out; a capital is a word of its own, and letters that are no ASCII stay."""
    if re.match(r"[A-Z]", word):
        return word
    return re.sub(r"(?<=[a-z0-9])([A-Z]+)", lambda m: "_" + m.group(1).lower(), word)


def respelt(name, names):
    parts = [snake(p) for p in name.split("-")]
    out = parts[0]
    for before, part in zip(parts, parts[1:]):
        joins = not re.match(r"\w", part) or not re.search(r"\w", before) or re.match(r"[A-Z]", before) or (before in names and part in names)
        out += ("-" if joins else "_") + part
    return out


def candidates(known):
    """The repository's own names that have a dash or a capital inside."""
    found = collections.Counter()
    for path in files(".antt"):
        if os.path.basename(path) == "Proof.antt":
            continue
        for t in TOKEN.findall(plain(read(path), "--")):
            if t not in known and (re.search(r"\w-[\w*+≤]|ℤ-\w", t) or re.match(r"[a-z].*[a-z0-9][A-Z]", t)):
                found[t] += 1
    for path in files(".rt"):
        for t in TOKEN.findall(plain(read(path), "//")):
            if t not in known and re.fullmatch(r"[a-z][a-z0-9]*[A-Z]\w*", t):
                found[t] += 1
    return found


def turned(text, mark, names):
    out = []
    for line in text.split("\n"):
        at = line.find(mark)
        code, rest = (line, "") if at < 0 else (line[:at], line[at:])
        out.append(TOKEN.sub(lambda m: names.get(m.group(0), m.group(0)), code) + comment(rest, names))
    return "\n".join(out)


def comment(text, names):
    """In a comment only what stands between backquotes is code."""
    return re.sub(r"`[^`]*`", lambda q: TOKEN.sub(lambda m: names.get(m.group(0), m.group(0)), q.group(0)[1:-1]).join("``"), text)


def main(kit):
    known = library(kit)
    found = candidates(known)
    specs = {snake(t) for p in files(".antt") if "/specs/" in p for t in re.findall(r"(?m)^(?:(?:pub|abbrev|unfoldable) )*([a-z]\w*)", read(p))}
    names = {t: respelt(t, WORDS | specs) for t in found}
    names = {a: b for a, b in names.items() if a != b}
    others = set()
    for path in files(".antt"):
        if os.path.basename(path) != "Proof.antt":
            others.update(TOKEN.findall(plain(read(path), "--")))
    # A lemma that would have the name of what it is about ends in _lem.
    defined = {b for a, b in names.items() if "-" not in a}
    names = {a: b + "_lem" if "-" in a and (b in defined or b in known & others) else b for a, b in names.items()}
    # A definition may have the name of the function of src/ that computes it, whose folder in proofs/ the files name.
    for path in files(".rt"):
        others -= set(re.findall(r"\b(?:fn|mod) (\w+)", read(path)))
    back = collections.defaultdict(list)
    for a, b in names.items():
        back[b].append(a)
    together = {b: a for b, a in back.items() if len(a) > 1 or b in others}
    for b, a in sorted(together.items()):
        print(f"together: {' '.join(a)} -> {b}{' (stands already)' if b in others else ''}", file=sys.stderr)
    if together:
        return 1
    for path in files(".antt"):
        text = read(path)
        new = turned(text, "--", names)
        if new != text:
            with open(path, "w", encoding="utf-8") as f:
                f.write(new)
    for path in files(".rt"):
        text = read(path)
        new = turned(text, "//", names)
        if new != text:
            with open(path, "w", encoding="utf-8") as f:
                f.write(new)
    for a, b in sorted(names.items()):
        print(a, b)
    return 0


if __name__ == "__main__":
    raise SystemExit(main(sys.argv[1]))
