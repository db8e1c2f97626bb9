#!/usr/bin/env python3
"""Brings the repository's own definitions, lemmas and record fields to one spelling: words in snake case, a dash only between two names after which a lemma is
named, no middle dot; and gives the crate `bytes`, whose name a library of the toolchain has, the name `byte_runs`.

usage: tools/respell.py [--check]     at the top of the repository, once, after the toolchain's own porting script

It goes by whole words: in .antt files everywhere but in quoted text, in .rt files in contracts, ghost items and `ghost use` lines, in comments what stands between
backticks. Names that Rattle generates, functions of src/, strings and outputs keep their spelling. Names that would fall together stop it, and nothing is written.
"""

import collections
import os
import re
import sys

CRATE = ("bytes", "byte_runs")
WORD = re.compile(r'[^\s(){}.;,@"«»`]+')
CAMEL = re.compile(r"(?<=[a-z0-9])(?=[A-Z])")
SIGNATURE = re.compile(r"^(\s*)((?:pattern |unfoldable |abbrev |pub )*)((?:record |data )?)([^\s:(){}]+(?: [^\s:(){}]+)*)\s*(?:\{[^}]*\}\s*|\([^)]*\)\s*)*:\s")

# Words for operators and constructors of the library, as they stand in the names of lemmas.
OPERATORS = set(
    "le lt eq ne mem nil cons zero suc add sub mul div mod pow append snoc singleton length take drop set map replicate get_or get_elem reverse sum max min not and or "
    "cond eqb leb ltb T true false some none fst snd ◌ All Id perm subset bit xor".split()
)

# The aliases of the library's names that the scripts left with a middle dot.
DOTTED = {
    "Iff·trans": "iff_trans",
    "Option·getD": "option_get_or",
    "Option·none-ne-some": "none-ne-some",
    "Option·some-injective": "some_injective",
    "Option·some-ne-none": "some-ne-none",
    "Permᴰ·symm": "perm_symm",
    "Permᴰ·refl": "perm_refl",
    "List·Permᴰ·cons": "perm_cons",
    "List·Permᴰ·nil": "perm_nil",
    "List·Permᴰ·swap": "perm_swap",
    "List·Permᴰ·trans": "perm_trans",
    "List-as-Permᴰ": "Permᴰ",
    "List-as-Memᴰ": "Memᴰ",
    "List·Memᴰ·append-cases": "mem-append_cases",
    "List·Memᴰ·cases-cons": "mem_cases-cons",
    "List·Memᴰ·eq-of-singleton": "mem-eq_of_singleton",
    "List·Memᴰ·head": "mem_head",
    "List·Memᴰ·not-nil": "mem_not-nil",
    "List·Memᴰ·tail": "mem_tail",
    "Memᴰ·append-left": "mem-append_left",
    "Memᴰ·append-right": "mem-append_right",
    "Memᴰ·cast": "mem_cast",
    "Memᴰ·map": "mem-map",
    "Memᴰ·of-map": "mem_of-map",
    "eqb·suc-suc": "eqb-suc-suc",
    "eqb·suc-zero": "eqb-suc-zero",
    "eqb·zero-suc": "eqb-zero-suc",
    "leb·suc-suc": "leb-suc-suc",
    "leb·suc-zero": "leb-suc-zero",
    "List·getD-append": "get_or-append",
    "List·getD-eq-default": "get_or-eq_default",
    "List·getD-map": "get_or-map",
}

# Names that would fall together with another under the rules, or hide one.
OWN = {
    "check_done": "check_done_lem",
    "fields_within": "fields_within_lem",
    "meets_at": "meets_at_lem",
    "one_more": "one_more_lem",
    "place_at": "place_at_lem",
    "read_answer": "read_answer_lem",
    "too_many": "too_many_lem",
    "sheetAnswer": "answer_of_sheet",
}


def files(endings):
    for folder, dirs, names in os.walk("crates"):
        dirs[:] = sorted(d for d in dirs if d not in ("out", ".git"))
        for name in sorted(names):
            if name.endswith(endings):
                yield os.path.join(folder, name)


def read(path):
    with open(path, encoding="utf-8") as f:
        return f.read()


# Whether the file proves one function: it has names that Rattle generates.
def of_function(path):
    return bool(re.search(r"/proofs/[^/]+/[^/]+\.antt$", path))


def uncommented(line):
    return re.sub(r"(^|\s)--.*", "", line)


def snake(word):
    return "-".join("_".join(p.lower() if i else p for i, p in enumerate(CAMEL.split(part))) if part[:1].islower() else part for part in word.split("-"))


# Every name that is declared outside the proofs of functions, with whether it is a function or a type.
def declared():
    names, functions = {}, set()
    for path in files(".antt"):
        if of_function(path):
            continue
        for line in read(path).split("\n"):
            m = SIGNATURE.match(uncommented(line) + " ")
            if not m:
                continue
            for name in m.group(4).split(" "):
                if WORD.fullmatch(name):
                    names.setdefault(name, path)
                    if "/specs/" in path or "abbrev" in m.group(2) or "unfoldable" in m.group(2):
                        functions.add(snake(name))
    return names, functions


def spelling(name, functions):
    if name in OWN:
        return OWN[name]
    if name in DOTTED:
        return DOTTED[name]
    parts = snake(name.replace("getD", "get_or")).split("-")
    named = lambda p: p in functions or p in OPERATORS or p[:1].isupper()
    new = parts[0]
    for i, part in enumerate(parts[1:]):
        headed = i == 0 and parts[0][:1].isupper()
        new += ("-" if headed or named(parts[i]) and named(part) else "_") + part
    return new


def table():
    names, functions = declared()
    words, imported = collections.Counter(), set()
    camel = set()
    for path in files(".antt"):
        for line in read(path).split("\n"):
            line = uncommented(line)
            for m in WORD.finditer(line):
                word = m.group(0)
                words[word] += not GIVEN.search(line[: m.start()][-12:])
                if not of_function(path) and re.search(r"[a-z0-9][A-Z]", word) and word[0].islower() and "→" not in word:
                    camel.add(word)
    rows = {}
    for name in sorted(set(names) | camel | set(DOTTED) | set(OWN)):
        if "→" in name or not re.search(r"[A-Za-z]", name):
            continue
        new = spelling(name, functions)
        if new != name:
            rows[name] = new
    # A lemma that would have its function's name.
    for name in sorted(rows):
        if "-" in name and any(other != name and "-" not in other and rows[other] == rows[name] for other in rows):
            rows[name] += "_lem"
    return rows, words


# Names that stand elsewhere only as those of a function of src/, or of a value that is named within one proof.
APART = {"content_at", "count_of", "row_is"}


def together(rows, words):
    back = collections.defaultdict(list)
    for old, new in rows.items():
        back[new].append(old)
    bad = []
    for new, olds in back.items():
        if len(olds) > 1 or (words[new] and new not in rows and new not in DOTTED.values() and new not in APART):
            bad.append((new, olds, words.get(new, 0)))
    return bad


QUIET = re.compile(r'"(?:[^"\\\n]|\\.)*"|(?<![^\s(){}.;,@"«»])--[^\n]*', re.S)
# What stands behind these is named by Rattle, or is a function of src/.
GIVEN = re.compile(r"\b(?:tie|goal|c|args|initial|fn|new|auto|ranges|before|proofs|Rattle)\.$")


def turned(text, rows, local=frozenset()):
    out, at = [], 0
    for m in WORD.finditer(text):
        word = m.group(0)
        if word in rows and word not in local and not GIVEN.search(text[: m.start()][-12:]):
            out += [text[at : m.start()], rows[word]]
            at = m.end()
    return "".join(out + [text[at:]])


def spans(comment, rows):
    return re.sub(r"`[^`\n]+`", lambda m: turned(m.group(0), rows), comment)


def antt(path, rows):
    text = read(path)
    local = set()
    if of_function(path):
        local = {m.group(4) for m in map(SIGNATURE.match, text.split("\n")) if m and not m.group(1)}
    out, at = [], 0
    for m in QUIET.finditer(text):
        out += [turned(text[at : m.start()], rows, local), m.group(0) if m.group(0).startswith('"') else spans(m.group(0), rows)]
        at = m.end()
    return "".join(out + [turned(text[at:], rows, local)])


# The contracts, ghost items and `ghost use` lines of a .rt file.
BEGIN = re.compile(r"(?:requires|ensures)\*?\s*(?:\w+\s*)?\{|ghost\s+\w[\w ]*(?::[^{;]*|=\s*)?\{|ghost\s+use\b[^;]*;")


def rt(path, rows):
    text = read(path)
    out, at = [], 0
    for m in BEGIN.finditer(text):
        if m.start() < at:
            continue
        end = m.end()
        if not m.group(0).endswith(";"):
            depth = 1
            while depth:
                depth += {"{": 1, "}": -1}.get(text[end], 0)
                end += 1
        out += [text[at : m.start()], turned(text[m.start() : end], rows)]
        at = end
    return "".join(out + [text[at:]])


def hidden(rows):
    for path in files(".rt"):
        text = read(path)
        for old, new in rows.items():
            if re.search(r"(?<![\w·-])" + re.escape(old) + r"(?![\w·-])", text) and re.search(r"\b" + re.escape(new) + r"\s*:", text):
                yield path, old, new


def crate(text):
    old, new = CRATE
    text = re.sub(rf"\bRattle\.{old}\b", f"Rattle.{new}", text)
    return re.sub(rf"(?<![\w.])(\*?){old}::", rf"\1{new}::", text)


def main():
    rows, words = table()
    bad = together(rows, words) + list(hidden(rows))
    if "--rows" in sys.argv:
        for old, new in rows.items():
            print(f"{old}\t{new}")
    for row in bad:
        print("together:", *row, file=sys.stderr)
    if bad:
        return 1
    if "--check" in sys.argv:
        return 0
    for path in list(files((".antt", ".rt"))):
        text = crate(antt(path, rows) if path.endswith(".antt") else rt(path, rows))
        if text != read(path):
            with open(path, "w", encoding="utf-8") as f:
                f.write(text)
    old, new = CRATE
    if os.path.isdir(f"crates/{old}"):
        os.rename(f"crates/{old}", f"crates/{new}")
        lines = [re.sub(rf"\b{old}\b", new, line) if not line.startswith("#") else line for line in read("crates.txt").split("\n")]
        with open("crates.txt", "w", encoding="utf-8") as f:
            f.write("\n".join(lines))
    return 0


if __name__ == "__main__":
    sys.exit(main())
