#!/usr/bin/env python3
"""Draws the crates of crates.txt to docs/rooms.svg: the groups in rows, and an arrow from a crate to each that it stands on.

    python3 tools/picture.py            writes docs/rooms.svg
    python3 tools/picture.py --check    only says whether docs/rooms.svg is what would be written

Arrows that follow from others are left out. Each crate has a phrase below and each phrase a crate, or the script fails.
"""
import sys
from html import escape
from pathlib import Path

ROOT = Path(__file__).resolve().parent.parent
PICTURE = ROOT / "docs" / "rooms.svg"

# the groups from the top of the picture to its foot: what a crate stands on is in the same row or in one below
ROWS = [["printing", "calls", "sheets"], ["automaton", "engine"], ["rule file", "commons", "definitions"]]

# what a crate holds, in one line or two
PHRASES = """
meaning          what is claimed, / and its theorems
evaluation       semi-naive evaluation: / definitions, laws
answers          refusals: a number / and a place
byte_runs        tests of bytes, / copies, fills
bitsets          states, predicates, / clauses as bits
cells            powers of m, cells / of rows, segments
buffers          are lent buffers / long enough (9)
fields           a field: tag, / length, content
names            names of 1 to 8 bytes, / symbols, productions
terms            terms and atoms / in prefix order
clauses          contents of clauses / and of queries
declarations     one field judged by / those before: 3 to 6
parser           the whole file read: / 1 to 7
automaton        sets of types; symbols / over rows of sets
states           determinisation; / tables
acceptance       a file accepted, / or refused: 1 to 8
index_update     the index of atoms / by argument: kept
index_lookup     the index of atoms / by argument: asked
term_code        terms compiled to / instructions
domains          the states left / to a variable
variable_order   which variable / gets a slot next
clause_code      a clause compiled: / order, slots, hints
schedule         all clauses compiled; / which of them are due
propagation      instructions run up to / the next variable
derivation       valuation complete: / body, then head
join             one clause: a search / driven by the delta
clause_runs      the due clauses, / in file order
marks            a predicate's marks: / zeroed, counted
delta_merge      a round settled: the / delta into the stage
fixpoint         rounds, until nothing / is new: the model
conditions       the states that / meet a condition
queries          the verdict of / a query
sheet_reader     a sheet read / field by field
sheet_layout     a sheet's fields (10) / and states (11)
sheet_atoms      a sheet's atoms / marked (12)
sheet_closure    is a sheet closed / under the clauses (13)
sheet_writer     the bytes of / a written sheet
sheet_answer     10 to 13 / in their order
sheet_check      the call / check
analysis_output  model and verdicts / into lent buffers
analysis         the call analyse
certificate      the call / write
exports          the three calls / on slices
exports_c        the static library / for C and Rust
text             decimals / into a buffer
listing_text     the text of / a listing's lines
listing_answer   analysis for a listing, / or a refusal's line
listing          program: prints / a listing
folders          numbered files / read and played
vectors          program: plays inputs, / compares listings
sheet_vectors    program: plays sheets, / compares answers
"""

BOX, HIGH, ACROSS, DOWN = 146, 50, 16, 28  # a crate's box, and the room between two
PAD, TITLE, APART, MARGIN = 14, 28, 20, 10  # inside a group, above its crates, between groups, around all
NAME, SMALL = 13, 11  # sizes of type
LANE = 5  # from one passing arrow to the next
SHADES = {"far": "#b9bfc5", "next": "#87909a", "near": "#3c444c"}  # to a row further down; to another group; inside a group


def fail(text):
    sys.exit(print("picture.py: " + text, file=sys.stderr) or 2)


def read_crates():
    """The group of each crate, and the crates that it stands on, less those that another of them stands on."""
    group, stands, last = {}, {}, None
    for line in (ROOT / "crates.txt").read_text().splitlines():
        if line.startswith("# == "):
            last = line[5:].strip()
        name, colon, rest = line.split("#")[0].partition(":")
        if colon:
            name = name.split()[0]  # without what kind of library it is
            group[name], stands[name] = last, rest.split()
    if set(group.values()) != {g for row in ROWS for g in row}:
        fail("the groups of crates.txt are not those of the picture's rows")
    stands = {c: [d for d in on if d in stands] for c, on in stands.items()}  # without the toolchain's libraries
    row_of = {g: i for i, row in enumerate(ROWS) for g in row}
    for c, d in ((c, d) for c in stands for d in stands[c] if row_of[group[d]] < row_of[group[c]]):
        fail("%s stands on %s, which is in a higher row" % (c, d))
    below = {}

    def all_below(c):
        if c not in below:
            below[c] = set(stands[c]).union(*map(all_below, stands[c]))
        return below[c]

    return group, {c: [d for d in on if not any(d in all_below(e) for e in on)] for c, on in stands.items()}


def length(text):
    """About how long a text is in DejaVu Sans, one of the widest fonts, by its size."""
    return sum(0.36 if c in " ijlf.,:;()'" else 0.42 if c in "rt" else 0.96 if c in "mw" else 0.63 for c in text)


def read_phrases(crates):
    """The lines under each crate's name."""
    phrases = {}
    for line in PHRASES.strip().splitlines():
        name, text = line.split(None, 1)
        phrases[name] = [part.strip() for part in text.split("/")]
        if len(phrases[name]) > 2 or max(map(length, phrases[name])) * SMALL > BOX - 10 or length(name) * NAME * 1.12 > BOX - 10:
            fail("%s, or its phrase, does not fit its box" % name)
    if set(phrases) != set(crates):
        fail("a crate has no phrase, or a phrase no crate: " + " ".join(sorted(set(phrases) ^ set(crates))))
    return phrases


class Layout:
    """Where everything stands. A shelf is a line of boxes; a crate is on a higher shelf than those of its row that it stands on."""

    def __init__(self, group, stands):
        self.group, self.stands = group, stands
        level, shelves = {}, {}
        for row in ROWS:
            level.update(self.levels([c for c in group if group[c] in row]))
        for c in group:
            shelves.setdefault((group[c], level[c]), []).append(c)
        across = {g: max(len(shelf) for (h, _), shelf in shelves.items() if h == g) for row in ROWS for g in row}
        self.width = {g: n * (BOX + ACROSS) - ACROSS + 2 * PAD for g, n in across.items()}
        total = max(sum(self.width[g] for g in row) + APART * (len(row) - 1) for row in ROWS)
        self.wide = total + 2 * MARGIN
        self.left = {}
        for row in ROWS:  # a row is as wide as the widest
            at, space = MARGIN, (total - sum(self.width[g] for g in row)) / max(len(row) - 1, 1)
            for g in row:
                self.left[g] = round(at)
                at += self.width[g] + space
        self.x, self.y = {}, {}
        self.order(shelves)
        self.boxes, self.tops, at = {}, [], MARGIN  # of each group; of each shelf, from the top
        for row in ROWS:
            most = max(level[c] for c in group if group[c] in row)
            self.tops += [at + TITLE + k * (HIGH + DOWN) for k in range(most + 1)]
            self.y.update({c: at + TITLE + (most - level[c]) * (HIGH + DOWN) for c in group if group[c] in row})
            for g in row:
                ys = [self.y[c] for c in group if group[c] == g]
                self.boxes[g] = self.left[g], min(ys) - TITLE, self.width[g], max(ys) - min(ys) + TITLE + HIGH + PAD
            at = self.tops[-1] + HIGH + PAD + APART
        self.high = at - APART + MARGIN

    def levels(self, crates):
        def level(c):
            return max((level(d) + 1 for d in self.stands[c] if d in crates), default=0)

        return {c: level(c) for c in crates}

    def order(self, shelves):
        """Boxes of a shelf by where those stand that arrows join them to, some times over."""
        joined = {c: set(self.stands[c]) | {d for d in self.stands if c in self.stands[d]} for c in self.stands}

        def put(g, shelf):
            first = self.left[g] + (self.width[g] - len(shelf) * (BOX + ACROSS) + ACROSS) / 2
            self.x.update({c: round(first + i * (BOX + ACROSS)) for i, c in enumerate(shelf)})

        for (g, _), shelf in shelves.items():
            put(g, shelf)
        for _ in range(8):
            for (g, _), shelf in sorted(shelves.items(), key=lambda item: item[0][1]):
                shelf.sort(key=lambda c: sum(self.x[d] for d in joined[c]) / max(len(joined[c]), 1))
                put(g, shelf)

    def free(self, top):
        """The places where an arrow can pass a shelf."""
        taken = sorted(self.x[c] for c in self.x if self.y[c] == top)
        edges = [-4] + [e for x in taken for e in (x, x + BOX)] + [self.wide + 4]
        for a, e in zip(edges[::2], edges[1::2]):
            n = int(e - a - 8) // LANE
            middle = (a + e) / 2
            yield from (round(middle + (i - n / 2) * LANE) for i in range(n + 1))


def ports(arrows, x, here, there):
    """Where on its side of a box each arrow begins (or ends): spread, by where its other end stands."""
    place = {}
    for c in x:
        ends = sorted((a for a in arrows if a[here] == c), key=lambda a: (x[a[there]], a))
        place.update({a: round(x[c] + BOX * (i + 1) / (len(ends) + 1)) for i, a in enumerate(ends)})
    return place


def route(layout, arrows):
    """Where each arrow passes the shelves between its ends: beside the boxes, the shortest way; only arrows to the same crate share a place."""
    start, end = ports(arrows, layout.x, 0, 1), ports(arrows, layout.x, 1, 0)
    used, ways = {}, {}
    for a in sorted(arrows, key=lambda a: (layout.y[a[1]] - layout.y[a[0]], a)):
        tops = [top for top in layout.tops if layout.y[a[0]] < top < layout.y[a[1]]]
        best = {start[a]: (0, [])}
        for top in tops + [None]:
            gaps = [] if top is None else list(layout.free(top))
            places = [end[a]] if top is None else [p for p in gaps if used.get((top, p), a[1]) == a[1]] or gaps
            best = {p: min((cost + abs(p - q) + (p - q) ** 2 / 400, way + [p]) for q, (cost, way) in best.items()) for p in places}
        way = best[end[a]][1][:-1]
        used.update({(top, p): a[1] for top, p in zip(tops, way)})
        ways[a] = start[a], list(zip(tops, way)), end[a]
    return ways


def is_clear(layout, x, y, to, top):
    """Whether the curve from one place to another passes no box."""
    between = [(layout.x[c], layout.y[c]) for c in layout.x if y < layout.y[c] + HIGH and layout.y[c] < top]
    for k in range(1, 40):
        s = k / 40
        a, b = x + (to - x) * s * s * (3 - 2 * s), y + (top - y) * (1.5 * s - 1.5 * s * s + s ** 3)
        if any(c - 5 < a < c + BOX + 5 and d - 3 < b < d + HIGH + 3 for c, d in between):
            return False
    return True


def path(layout, arrow, way):
    """An arrow as curves from one shelf that it passes to another, straight beside the boxes, with as few curves as leave it clear of them."""
    first, passed, last = way
    x, y = first, layout.y[arrow[0]] + HIGH
    text = "M%d,%d" % (x, y)
    stops = [(p, top - 3, top + HIGH + 3) for top, p in passed] + [(last, layout.y[arrow[1]] - 1, None)]
    while stops:
        k = next(k for k in reversed(range(len(stops))) if k == 0 or is_clear(layout, x, y, *stops[k][:2]))
        to, top, foot = stops[k]
        bend = (top - y) / 2
        text += " C%d,%d %d,%d %d,%d" % (x, y + bend, to, top - bend, to, top)
        if foot is not None:
            text += " V%d" % foot
        x, y, stops = to, foot, stops[k + 1:]
    return text


def draw():
    group, stands = read_crates()
    phrases = read_phrases(group)
    layout = Layout(group, stands)
    row_of = {g: i for i, row in enumerate(ROWS) for g in row}
    ways = route(layout, [(c, d) for c in stands for d in stands[c]])

    def kind(arrow):
        c, d = (group[end] for end in arrow)
        return "near" if c == d else "next" if row_of[d] - row_of[c] < 2 else "far"

    lines = ['<svg xmlns="http://www.w3.org/2000/svg" width="%d" height="%d" viewBox="0 0 %d %d" font-family="DejaVu Sans, Verdana, sans-serif">'
             % (layout.wide, layout.high, layout.wide, layout.high),
             "<title>The crates and what each stands on</title>", "<!-- drawn from crates.txt by tools/picture.py -->", "<defs>"]
    for name, shade in SHADES.items():
        head = '<path d="M0,0 L6,3 L0,6 z" fill="%s"/>' % shade
        lines.append('<marker id="%s" markerWidth="7" markerHeight="7" refX="6" refY="3" orient="auto">%s</marker>' % (name, head))
    lines += ["</defs>", '<rect width="%d" height="%d" fill="#ffffff"/>' % (layout.wide, layout.high)]
    for box in layout.boxes.values():
        lines.append('<rect x="%d" y="%d" width="%d" height="%d" rx="6" fill="#f2f4f6" stroke="#c3c9cf"/>' % box)
    for shade in SHADES:
        for arrow, way in ways.items():
            if kind(arrow) == shade:
                lines.append('<path d="%s" fill="none" stroke="%s" marker-end="url(#%s)"/>' % (path(layout, arrow, way), SHADES[shade], shade))
    for g, (x, y, _, _) in layout.boxes.items():
        lines.append('<rect x="%d" y="%d" width="%d" height="16" fill="#f2f4f6"/>' % (x + PAD - 2, y + 4, 8 * len(g) + 6))
        lines.append('<text x="%d" y="%d" font-size="%d" fill="#59636d">%s</text>' % (x + PAD, y + 16, NAME, escape(g)))
    for c in group:
        x, y = layout.x[c], layout.y[c]
        lines.append('<rect x="%d" y="%d" width="%d" height="%d" rx="3" fill="#ffffff" stroke="#3c444c"/>' % (x, y, BOX, HIGH))
        lines.append('<text x="%d" y="%d" font-size="%d" font-weight="bold">%s</text>' % (x + 6, y + 17, NAME, escape(c)))
        for i, part in enumerate(phrases[c]):
            lines.append('<text x="%d" y="%d" font-size="%d" fill="#333333">%s</text>' % (x + 6, y + 31 + 13 * i, SMALL, escape(part)))
    return "\n".join(lines + ["</svg>"]) + "\n"


def main():
    text = draw()
    if "--check" in sys.argv:
        if PICTURE.exists() and PICTURE.read_text() == text:
            return 0
        print("docs/rooms.svg is not what tools/picture.py draws")
        return 1
    PICTURE.write_text(text)
    print("docs/rooms.svg: %d crates, %d arrows" % (text.count('font-weight="bold"'), text.count("marker-end")))
    return 0


if __name__ == "__main__":
    sys.exit(main())
