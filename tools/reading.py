#!/usr/bin/env python3
"""Prints what a reader must believe, file by file, with its lines: comments, imports and empty lines are not counted.

    python3 tools/reading.py            prints the table
    python3 tools/reading.py --write    puts it between the `reading` marks of docs/TRUST.md; tools/check_docs.py says if another stands there
"""
import re
import sys
from pathlib import Path

ROOT = Path(__file__).resolve().parent.parent
SPECS = ROOT / "crates" / "meaning" / "specs"

# in the order of reading: what the statements are about, then the statements, then what the exported contracts add
ORDER = """Lists Limits Syntax Fields Contents Refusals Encoding Legal Types Cells States Files Clauses Ground Certificates Calls Given Demand1 Demand2 Demand3""".split()


def lines(path):
    kept = 0
    for line in path.read_text().splitlines():
        line = line.strip()
        if line and not line.startswith(("--", "//", "use ", "ghost use ", "pub mod ")):
            kept += 1
    return kept


def subject(path):
    """The first sentence of the file's first comment."""
    comment = []
    for line in path.read_text().splitlines():
        if not line.startswith("--"):
            break
        comment.append(line[2:].strip())
    return re.split(r"(?<=[a-z)])[.;:] ", " ".join(comment) + " ")[0].rstrip(". ")


def rows():
    named = {path.stem for path in SPECS.glob("*.antt")} - {"Lib"}
    assert named == set(ORDER), f"the order of reading and crates/meaning/specs differ: {sorted(named ^ set(ORDER))}"
    files = [SPECS / f"{name}.antt" for name in ORDER] + [ROOT / "crates" / "exports" / "specs" / "Numbers.antt", ROOT / "crates" / "exports" / "src" / "lib.rt"]
    table = ["| file | lines | subject |", "|---|---|---|"]
    total = 0
    for path in files:
        total += lines(path)
        about = "The three exported calls with their contracts" if path.suffix == ".rt" else subject(path)
        table.append(f"| `{path.relative_to(ROOT)}` | {lines(path)} | {about} |")
    return table + [f"| all | {total} | |"]


if __name__ == "__main__":
    if "--write" in sys.argv:
        page = ROOT / "docs" / "TRUST.md"
        page.write_text(re.sub(r"(<!-- reading -->\n).*?(?=<!-- end -->)", lambda m: m[1] + "\n".join(rows()) + "\n", page.read_text(), flags=re.S))
    else:
        print("\n".join(rows()))
