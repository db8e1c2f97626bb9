#!/usr/bin/env python3
"""Writes docs/SIZES.md: the lines of each crate, and its edits."""
from pathlib import Path

ROOT = Path(__file__).resolve().parent.parent
HEAD = """# Sizes

Lines of definitions (`specs`), code (`src`) and proof (`proofs`), comments and imports included, and the edits that must be refused. Written by
`tools/sizes.py`.

| crate | definitions | code | proof | edits |
|---|---|---|---|---|
"""


def names():
    for line in (ROOT / "crates.txt").read_text().splitlines():
        name = line.split("#")[0].split(":")[0].split(" ")[0].strip()
        if name:
            yield name


def lines(folder, kind):
    return sum(len(path.read_text().splitlines()) for path in folder.rglob(f"*.{kind}")) if folder.exists() else 0


def main():
    table, totals = [], [0] * 4
    for name in names():
        crate = ROOT / "crates" / name
        row = [lines(crate / "specs", "antt"), lines(crate / "src", "rt"), lines(crate / "proofs", "antt"), len(list((crate / "must-fail").glob("*.edit")))]
        totals = [a + b for a, b in zip(totals, row)]
        table.append(f"| `{name}` | " + " | ".join(map(str, row)) + " |")
    table.append("| all | " + " | ".join(map(str, totals)) + " |")
    (ROOT / "docs" / "SIZES.md").write_text(HEAD + "\n".join(table) + "\n")
    print(f"{len(table) - 1} crates: definitions {totals[0]}, code {totals[1]}, proof {totals[2]} lines, {totals[3]} edits")


main()
