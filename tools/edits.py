#!/usr/bin/env python3
"""Writes docs/EDITS.md: each edit that the proofs must refuse, and the fact at which the check refuses it.

    python3 tools/edits.py LOG        from what `rt must-fail` of all crates printed; exits with 1 if an edit was not refused at a fact
    python3 tools/edits.py --check    only says whether docs/EDITS.md lists the edits that there are

What is wrong is the first comment line of an edit. A line `# 01: ..` says which wrong program of the specification it is.
"""
import re
import sys
from pathlib import Path

ROOT = Path(__file__).resolve().parent.parent
PAGE = ROOT / "docs" / "EDITS.md"
HEAD = """# The edits that must be refused

Each is a wrong program, or a wrong definition, that keeps the shape of the text (`crates/NAME/must-fail/LABEL.edit`); the gate tries each and fails if
one is still proved. This page is written by `tools/edits.py` from the edits and from what `rt must-fail` says of them: the fact is the first that the
prover refuses.

## The wrong programs that 01 lists

| 01 | edits |
|---|---|
"""


def crates():
    for line in (ROOT / "crates.txt").read_text().splitlines():
        name = line.split("#")[0].split(":")[0].split(" ")[0].strip()
        if name:
            yield name


def edits():
    """Crate, label, what is wrong, and the wrong programs of 01 that it is."""
    for crate in crates():
        for file in sorted((ROOT / "crates" / crate / "must-fail").glob("*.edit")):
            notes = [line[2:].strip() for line in file.read_text().splitlines() if line.startswith("# ")]
            yield crate, file.stem, notes[0], [n[4:] for n in notes[1:] if n.startswith("01: ")]


def facts(log):
    """For each crate and label the fact that the prover refuses first, and whether it is one: not a measure, an index, or what a call asks for."""
    found = {}
    for crate, label, said in re.findall(r"must-fail (\w+)/(\w+)\.edit: refused, as it must be(?:: (.*))?$", log, re.M):
        found[crate, label] = fact(crate, said)
    return found


def fact(crate, said):
    law = re.match(r"\./proofs/([\w/+]+)\.antt:\d+:\d+: error: `([^`]+)`", said)
    if law:
        folder, _, last = law.group(1).rpartition("/")
        if last not in ("Answers", "Invariants"):
            return f"law `{law.group(2)}` ({law.group(1)})", True
        function, goal = folder.split("/")[-1], law.group(2)
        of_cycle = re.match(r"(\w+)-(.+)", goal)
        if function.startswith("+") and of_cycle and of_cycle.group(1) in function:
            function, goal = of_cycle.groups()
        return name_of(function.strip("+"), goal)
    note = re.match(r"note: (src/[\w/]+\.rt):(\d+):(\d+): .*\(`([^`]+)`", said)
    if note:
        path, line, column, goal = note.groups()
        lines = (ROOT / "crates" / crate / path).read_text().splitlines()
        # a note on the whole function stands at its first line, any other within it
        near = lines[int(line) - 1 :] if column == "1" else reversed(lines[: int(line)])
        return name_of(next(f.group(1) for f in map(re.compile(r"\bfn (\w+)").search, near) if f), goal)
    return "(the text alone)" if said else "(not said)", False


def name_of(function, goal):
    if goal.startswith("returns"):
        return f"what `{function}` ensures", True
    if re.fullmatch(r".*loop.*-init", goal):
        return f"the loop's invariant of `{function}`, before the first turn", True
    if re.fullmatch(r".*loop.*-preserved", goal):
        return f"the loop's invariant of `{function}`, after a turn", True
    return f"`{goal}` in `{function}`", False


def page(rows, found):
    named = {}
    for crate, label, _, wrong in rows:
        for w in wrong:
            named.setdefault(w, []).append(f"`{crate}/{label}`")
    lines = [f"| {w} | {', '.join(labels)} |" for w, labels in named.items()]
    lines += ["", "## All of them", "", "| what is wrong | edit | refused at |", "|---|---|---|"]
    lines += [f"| {what} | `{crate}/{label}` | {found[crate, label]} |" for crate, label, what, _ in rows]
    return HEAD + "\n".join(lines) + "\n"


def main():
    rows = list(edits())
    if "--check" in sys.argv:
        listed = set(re.findall(r"^\| .* \| `(\w+/\w+)` \| ", PAGE.read_text(), re.M))
        there = {f"{crate}/{label}" for crate, label, _, _ in rows}
        for name in sorted(listed ^ there):
            print(f"docs/EDITS.md: {name} {'is gone' if name in listed else 'is missing'}; run tools/edits.py after the gate")
        return 1 if listed != there else 0
    said = facts(Path(sys.argv[1]).read_text())
    found = {(crate, label): said.get((crate, label), ("(not refused)", False)) for crate, label, _, _ in rows}
    PAGE.write_text(page(rows, {k: v[0] for k, v in found.items()}))
    weak = [f"{c}/{l}: {said}" for (c, l), (said, is_fact) in found.items() if not is_fact]
    for w in weak:
        print("not refused at a fact:", w)
    print(f"{len(rows)} edits, {len(weak)} not refused at a fact")
    return 1 if weak else 0


sys.exit(main())
