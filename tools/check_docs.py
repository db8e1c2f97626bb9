#!/usr/bin/env python3
"""Checks that what the documents name is there: files, crates, functions, definitions, theorems, edits; and that the tables that scripts write are as they write them.

Exits with 1 and a line for each name that is not. A name is what stands between two backquotes, or the target of a link.
"""
import re
import subprocess
import sys
from pathlib import Path

import picture
import reading

ROOT = Path(__file__).resolve().parent.parent
# words between backquotes that look like names and are none of ours
OTHERS = set("semi-naive RULES_LIB_DIR add-one length-drop".split())
# pages that name what is no more
HISTORY = {"PORT.md", "DESIGN-PASS.md", "LOOK-BACK.md"}
# parts of words that stand for any name
ANY = re.compile(r"NAME|LABEL|FUNCTION|NNN|Pn|\.\.|\+f\+g")


def tracked(*patterns):
    out = subprocess.run(["git", "ls-files", "--", *patterns], cwd=ROOT, capture_output=True, text=True, check=True).stdout
    return [ROOT / line for line in out.splitlines()]


FILES = {str(path.relative_to(ROOT)) for path in tracked()}
FOLDERS = {str(parent) for name in FILES for parent in Path(name).parents}
CRATES = {name.split("/")[1] for name in FILES if re.fullmatch(r"crates/\w+/src/\w+\.rt", name)}
EDITS = {f"{p.parts[1]}/{p.stem}" for p in map(Path, FILES) if p.suffix == ".edit"}


def declared():
    """Every name that a file of Rattle, antt, C or Rust declares, and for each crate those of its code."""
    names, code = set(), {crate: set() for crate in CRATES}
    for path in tracked("*.antt", "*.rt", "*.h", "*.c", "*.rs", "*.py"):
        text = path.read_text()
        if path.suffix == ".antt":
            names |= set(re.findall(r"^\s*(?:abbrev |unfoldable )?(?:pub )?(?:record |data )?(\S+) (?=[:({])", text, re.M))
            names |= set(re.findall(r"^\s*(?:pub )?(?:record|data) (\w+)", text, re.M)) | set(re.findall(r"^ +([\w ]+) : \w+$", text, re.M))
        else:
            here = set(re.findall(r"\b(?:fn|struct|enum|const|def|define|mod)\s+(\w+)", text)) | set(re.findall(r"\b(\w+)\s*\(", text))
            here |= set(re.findall(r'"([\w-]+)"', text))
            names |= here
            if path.suffix == ".rt":
                code[path.relative_to(ROOT).parts[1]] |= here
    return {part for name in names for part in [name, *name.split()]}, code


NAMES, CODE = declared()


def is_there(word):
    """Whether a name exists; what is no name at all counts as there."""
    if word in OTHERS or ANY.search(word):
        return True
    if re.fullmatch(r"[\w./+-]+\.(md|antt|rt|edit|py|h|c|rs|txt|toml|listing|rules|png|svg|dot)", word):
        return word in FILES or any(name.endswith("/" + word) for name in FILES)
    if "::" in word:
        crate, _, rest = word.partition("::")
        return crate not in CRATES and crate not in NAMES or rest.split("::")[-1].split("(")[0] in CODE.get(crate, NAMES) | {"*"}
    if re.fullmatch(r"\w+/\w+", word) and word.split("/")[0] in CRATES:
        return word in EDITS or f"crates/{word}" in FOLDERS or word in FOLDERS
    if re.fullmatch(r"(crates|docs|bindings|rules|include|tools)/[\w/.+-]*", word):
        return word.rstrip("/") in FOLDERS | FILES
    if re.fullmatch(r"[a-z][\w']*([-_][\w']+)+", word):
        return word in NAMES | CRATES or re.sub(r"-requires(-clause-\w+)?$", "", word) in NAMES  # what a call asks for
    if re.fullmatch(r"[A-Za-z]*[a-z][A-Z]\w*|[A-Z][a-z]+\w*", word):
        return word in NAMES or any(name.endswith(f"/{word}.antt") for name in FILES)
    return True


def missing(page):
    text = re.sub(r"^    .*$", "", page.read_text(), flags=re.M)  # without the commands, which are indented
    for word in sorted(set(re.findall(r"`([^`\n]+)`", text))):
        if not is_there(word):
            yield f"`{word}` is nowhere"
    for target in re.findall(r"\]\(([^)#:]+)\)", text):
        if not (page.parent / target).resolve().exists():
            yield f"the link to {target} leads nowhere"


def reading_table():
    text = (ROOT / "docs" / "TRUST.md").read_text()
    held = re.search(r"<!-- reading -->\n(.*?)\n<!-- end -->", text, re.S)
    if held is None or held.group(1).splitlines() != reading.rows():
        yield "docs/TRUST.md: its table is not what tools/reading.py prints"


def rooms():
    """Whether the picture is as its script draws it, and docs/ARCHITECTURE.md has a line for each crate and no other."""
    if not picture.PICTURE.exists() or picture.PICTURE.read_text() != picture.draw():
        yield "docs/rooms.svg: not what tools/picture.py draws"
    lines = re.findall(r"^\| `(\w+)` \|", (ROOT / "docs" / "ARCHITECTURE.md").read_text(), re.M)
    for crate in sorted(set(lines) ^ set(picture.read_crates()[0])):
        yield f"docs/ARCHITECTURE.md: `{crate}` {'is no crate of crates.txt' if crate in lines else 'has no line'}"


def main():
    found = [f"{page.relative_to(ROOT)}: {what}" for page in tracked("*.md") if page.name not in HISTORY for what in missing(page)]
    found += list(reading_table()) + list(rooms())
    for line in found:
        print(line)
    edits = subprocess.run([sys.executable, ROOT / "tools" / "edits.py", "--check"], check=False).returncode
    print(f"documents: {len(found) + edits} names or tables are not right" if found or edits else "documents: every name is there")
    return 1 if found or edits else 0


if __name__ == "__main__":
    sys.exit(main())
