#!/usr/bin/env python3
"""Counts, for each point of docs/DESIGN-PASS.md, the places in src/ that have the old form.

    python3 tools/forms.py [-v]       -v also prints each place
"""
import re
import sys
from pathlib import Path

ROOT = Path(__file__).resolve().parent.parent
VERBOSE = "-v" in sys.argv

LINES = [
    ("1a", "own enums", r"^(pub )?enum "),
    ("1b", "a number told from 0 where nothing is refused, a flag beside a value", r"number (!=|==) 0|found: (true|false)"),
    ("1c", "a refusal made from a number", r"answers::(refusal|no_refusal)\("),
    ("1d", "a tag told by its number", r"meaning::[A-Z]+_TAG =>|[!=]= meaning::[A-Z]+_TAG"),
    ("1e", "255 or 16 for none", r"\b(NO_SLOT|NONE_DUE|WILD)\b"),
    ("3a", "while and loop", r"^\s*(while|loop)\b"),
    ("4a", "conversions and tests of byte_runs", r"\b(byte_runs::)?(wide|word|index|byte)\([^)]"),
    ("4b", "as, outside constants", r"^(?!\s*(pub )?const ).*\bas (u8|u16|u32|u64|usize)\b"),
    ("6a", "a slice cut by a count that stands beside it", r"&(mut )?(symbols|predicates|known|states|sets|marks|verdicts|file|text|out|sheet)\[\.\.[a-z]+\]"),
    ("7a", "a switch on which step to run", r"\bWay::"),
]


def sources():
    for path in sorted(ROOT.glob("crates/*/src/*.rt")):
        yield path, path.read_text()


def functions(text):
    """The name and the parameters of each function."""
    for m in re.finditer(r"^ *(?:pub )?(?:extern \"C\" )?fn (\w+)(?:<[^(]*>)?\(", text, re.M):
        depth, i = 1, m.end()
        while depth:
            depth += {"(": 1, ")": -1}.get(text[i], 0)
            i += 1
        inner = text[m.end():i - 1]
        parts, depth, part = [], 0, ""
        for c in inner:
            if c in "(<[":
                depth += 1
            if c in ")>]":
                depth -= 1
            if c == "," and depth == 0:
                parts.append(part.strip())
                part = ""
            else:
                part += c
        if part.strip():
            parts.append(part.strip())
        yield m.group(1), parts


def main():
    for label, what, pattern in LINES:
        found = []
        for path, text in sources():
            for n, line in enumerate(text.splitlines(), 1):
                if re.search(pattern, line.split("//")[0]) and not line.strip().startswith("ghost use"):
                    found.append(f"    {path.parent.parent.name}:{n}: {line.strip()}")
        print(f"{label} {what}: {len(found)}")
        if VERBOSE:
            print("\n".join(found))
    many, total = [], 0
    for path, text in sources():
        for name, parts in functions(text):
            total += 1
            if len(parts) > 7:
                many.append((len(parts), path.parent.parent.name, name))
    print(f"5a functions of more than seven parameters: {len(many)} of {total}, {sum(n for n, _, _ in many)} parameters")
    if VERBOSE:
        for n, crate, name in sorted(many, reverse=True):
            print(f"    {n} {crate}::{name}")
    for label, what, names in [
        ("5b", "functions that take arities, starts, tables and m by themselves", ("starts:", "tables:", "m:")),
        ("5c", "functions that take code and plan by themselves", ("code:", "plan:")),
        ("5d", "functions that take file, from and count by themselves", ("file:", "from:", "count:")),
        ("5e", "functions that take file and known by themselves", ("file:", "known:")),
    ]:
        found = [f"    {p.parent.parent.name}::{n}" for p, t in sources() for n, parts in functions(t)
                 if all(any(x.startswith(y) and "&mut" not in x for x in parts) for y in names)]
        print(f"{label} {what}: {len(found)}")
        if VERBOSE:
            print("\n".join(found))
    lines = {name: sum(len(p.read_text().splitlines()) for p in ROOT.glob(glob)) for name, glob in [
        ("src", "crates/*/src/*.rt"), ("specs", "crates/*/specs/**/*.antt"),
        ("proofs of functions", "crates/*/proofs/*/**/*.antt"), ("lemmas", "crates/*/proofs/*.antt")]}
    print("8 lines: " + ", ".join(f"{k} {v}" for k, v in lines.items()))


main()
