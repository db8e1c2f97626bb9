#!/usr/bin/env python3
"""A mutation run over the definitions of crates/meaning/specs.

    tools/bend.py            every bend of tools/bends.txt
    tools/bend.py WORD ..    the bends whose group or comment has one of the words
    tools/bend.py -n ..      only see that each bend can be made

Each bend changes a definition in a copy of crates/meaning, and `rt check` of the copy must refuse it. bends.txt says how a bend is written.
One line a bend: refused (with the first proof that fails, and `+ rows` where the computed rows of proofs/Cases.antt fail too), survives (as
bends.txt expects), SURVIVES (nothing refused it), REFUSED (though bends.txt expects it to survive), HOLLOW (the definitions themselves do not
check, or no verdict came: the bend tests nothing and is to be rewritten). The last line counts them.
Exit status: 0 all as expected; 1 some not, or hollow; 2 a bend cannot be made, or the crate does not check as it stands.
"""
import re
import shutil
import subprocess
import sys
import tempfile
from concurrent.futures import ThreadPoolExecutor
from pathlib import Path

HERE = Path(__file__).resolve().parent
CRATE = HERE.parent / "crates" / "meaning"
JOBS = 2
SECONDS = 600  # the longest that one check may take
ERROR = re.compile(r"/((?:specs|proofs)/[\w/]+\.antt):\d+:\d+: error: (?:`([^`]+)`: )?(.*)")


def fail(text):
    sys.exit(print("bend.py: " + text, file=sys.stderr) or 2)


def read_bends(path):
    """The bends in order: group, comment, reason to survive or None, and the edits as [file, line to look after or None, old, new]."""
    bends, group, where = [], None, None
    for number, line in enumerate(path.read_text().splitlines(), 1):
        mark, text = line[:1], line[1:].strip()
        if line.startswith("== "):
            group = line[3:].strip()
        elif group is None or not line.strip():
            continue  # the introduction, and empty lines
        elif mark == "#":
            bends.append({"group": group, "comment": text, "reason": None, "edits": []})
            where = ["specs/%s.antt" % group, None]
        elif mark == "!" and text.startswith("survives:"):
            bends[-1]["reason"] = text[len("survives:"):].strip()
        elif mark == "@":
            name, _, after = text.partition(":")
            where = [("" if "/" in name else "specs/") + name.strip() + ".antt", after.strip() or None]
        elif mark == "-":
            bends[-1]["edits"].append(where + [text, None])
        elif mark == "+" and bends[-1]["edits"][-1][3] is None:
            bends[-1]["edits"][-1][3] = text
        else:
            fail("%s:%d: not a line of a bend: %s" % (path.name, number, line))
    return bends


def place_of(lines, after, old):
    """The line of an edit: the one that is the old text, or else the one that has it; where a line to look after is given, the first there."""
    start = next((i + 1 for i, line in enumerate(lines) if after in line), len(lines)) if after else 0
    places = [i for i in range(start, len(lines)) if lines[i].strip() == old] or [i for i in range(start, len(lines)) if old in lines[i]]
    return places[0] if old and places and (after or len(places) == 1) and lines[places[0]].count(old) == 1 else None


def bent_files(bend, crate):
    """The files that the bend changes, with their text afterwards. Each edit is found in the text as it stands in the crate."""
    files = {}
    for file, after, old, new in bend["edits"]:
        lines = (crate / file).read_text().split("\n") if (crate / file).is_file() else []
        place = place_of(lines, after, old)
        bent = files.setdefault(file, list(lines))
        if place is None or new is None or old not in bent[place]:
            fail("%s: %s: not once in %s: %s" % (bend["group"], bend["comment"], file, old))
        bent[place] = bent[place].replace(old, new)
    return {file: "\n".join(lines) for file, lines in files.items()}


def check(crate, files):
    """`rt check` of a copy of the crate with some files changed: the exit status (None: none came), the errors as (file, declaration, message)."""
    with tempfile.TemporaryDirectory(prefix="bend-") as folder:
        copy = Path(folder) / "crates" / crate.name
        shutil.copytree(crate, copy)
        (Path(folder) / "crates.txt").write_text("%s:\n" % crate.name)
        for file, text in files.items():
            (copy / file).write_text(text)
        try:
            run = subprocess.run(["rt", "check"], cwd=copy, stdout=subprocess.PIPE, stderr=subprocess.STDOUT, text=True, timeout=SECONDS)
        except subprocess.TimeoutExpired:
            return None, []
        return run.returncode, [found.groups() for found in map(ERROR.search, run.stdout.splitlines()) if found]


def judge(bend, status, errors):
    """The word for a bend, and its line."""
    name = "%s: %s" % (bend["group"], bend["comment"])
    if status == 0:
        return ("survives", "%s  (%s)" % (name, bend["reason"])) if bend["reason"] else ("SURVIVES", name)
    if status != 1 or not errors:
        return "HOLLOW", "%s  no verdict (rt check: %s)" % (name, status)
    file, declaration, message = errors[0]
    if file.startswith("specs/") or "not in scope" in message or "can be named from here" in message:
        return "HOLLOW", "%s  by %s %s: %s" % (name, file, declaration, message[:120])
    rows = any(d == "cases" and "was not admitted" not in m for f, d, m in errors)
    return "REFUSED" if bend["reason"] else "refused", "%s  by %s %s%s" % (name, file, declaration, " + rows" if rows else "")


def main(words):
    only_make = "-n" in words
    words = [word.lower() for word in words if word != "-n"]
    bends = [b for b in read_bends(HERE / "bends.txt") if not words or any(w in ("%(group)s %(comment)s" % b).lower() for w in words)]
    with tempfile.TemporaryDirectory(prefix="bend-") as folder:  # one copy for the whole run, whatever happens to the crate meanwhile
        crate = Path(folder) / CRATE.name
        for part in ("src", "specs", "proofs"):
            shutil.copytree(CRATE / part, crate / part)
        made = [bent_files(bend, crate) for bend in bends]
        if only_make:
            return print("%d bends can be made" % len(bends))
        if check(crate, {})[0] != 0:
            fail("the crate does not check as it stands")
        counts = dict.fromkeys(("refused", "REFUSED", "survives", "SURVIVES", "HOLLOW"), 0)
        with ThreadPoolExecutor(JOBS) as pool:
            for bend, answer in zip(bends, pool.map(lambda files: check(crate, files), made)):
                word, line = judge(bend, *answer)
                counts[word] += 1
                print("%-8s %s" % (word, line), flush=True)
    if counts["SURVIVES"] or counts["REFUSED"]:
        print("not as expected: %(SURVIVES)d survive, %(REFUSED)d refused" % counts)
    print("%d refused, %d survive, %d hollow" % (counts["refused"] + counts["REFUSED"], counts["survives"] + counts["SURVIVES"], counts["HOLLOW"]))
    return 1 if counts["SURVIVES"] or counts["REFUSED"] or counts["HOLLOW"] else 0


if __name__ == "__main__":
    sys.exit(main(sys.argv[1:]))
