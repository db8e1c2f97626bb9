#!/usr/bin/env python3
"""Makes a rule file from a readable text.

    python3 make.py NAME.txt NAME.rules     makes the rule file; what is wrong or doubtful is printed with line and column
    python3 make.py --help                  prints this

One declaration a line; # begins a comment. Lines may stand in any order; the things of a kind are numbered from 0 as they stand.

    symbol nil/0, row/2                        symbols and their arities, 0 to 2
    type none, one                             types
    one -> row(active, none) | row(plain, one) productions of a type, parted by |
    predicate shown/1, move/2                  predicates and their arities, 0 to 3
    clause shown(row(active, nil))             a clause without body
    clause shown(Y) :- shown(X), move(X, Y)    a clause: head :- body of at most 4 atoms
    query move(X, Y) where X is one, Y not one a query; a variable with no condition is free

A name is 1 to 8 of a-z 0-9 [ ] _ . A variable begins with a capital letter, or with _ and a capital letter if it is meant to stand once; a clause or
query has at most 6, numbered as they first stand.

Errors: a text that cannot be said in a rule file, and a condition on a variable that does not stand in the query's atom. All are printed, and
nothing is written. Whether a file has more than 16 states is not looked at: the analyser says so.
Warnings: a type that no term has; a query that is CLEAR for that reason, whatever the clauses say; a predicate of a body that no head feeds; a
symbol in no production; a variable of a head that stands once in its clause, and so for every term. The file is written all the same.
"""
import os
import re
import sys

KINDS = ["symbol", "type", "production", "predicate", "clause", "query"]  # tags 1 to 6
MOST = [24, 12, 200, 16, 64, 32]
MOST_CONTENT = 250
FIRST_VARIABLE, FREE, NOT_OF = 128, 255, 128
ANY = -1  # the arity of a name whose declaration is wrong: nothing more is said of it


class Bad(Exception):
    """What is wrong, at a line and a column; both count from 1."""

    def __init__(self, text, line, column):
        super().__init__(text)
        self.where = (line, column, text)


def is_variable(word):
    return re.fullmatch(r"_?[A-Z]\w*", word, re.ASCII) is not None


class Words:
    """The words of a line, taken from the left, each with its column."""

    def __init__(self, line, text):
        self.line = line
        self.left = [(m.group(), m.start() + 1) for m in re.finditer(r"->|:-|[\w\[\]]+|\S", text, re.ASCII)]
        self.column = 1  # of the word taken last
        self.end = len(text.rstrip()) + 1

    def bad(self, text):
        return Bad(text, self.line, self.column)

    def next(self):
        return self.left[0][0] if self.left else ""

    def take(self):
        if not self.left:
            raise Bad("the line ends too early", self.line, self.end)
        word, self.column = self.left.pop(0)
        return word

    def skip(self, word):
        """Takes the word if it comes next, and tells whether it did."""
        if self.next() != word:
            return False
        self.take()
        return True

    def need(self, word):
        if not self.skip(word):
            found = "'%s' found" % self.next() if self.left else "the line ends"
            raise Bad("'%s' expected, but %s" % (word, found), self.line, self.left[0][1] if self.left else self.end)


class Maker:
    """Reads the declarations, and keeps of them what the warnings look at; a place is a line and a column."""

    def __init__(self):
        self.symbols, self.types, self.predicates = {}, {}, {}  # name: (number, arity, place)
        self.produced = []  # type, symbol, types of the arguments
        self.heads, self.bodies = set(), []  # predicates; predicate and place
        self.asked = []  # a type that a variable of a query must be of, the query's number and its place
        self.variables = {}  # of the clause or query at hand, name: number
        self.stand = {}  # name: its places there
        self.warnings = []

    def warn(self, text, place):
        self.warnings.append((*place, text))

    def declare(self, words, kind, table, most):
        """A name, with its arity if most is not None; its field's content."""
        name = words.take()
        place = (words.line, words.column)
        if not re.fullmatch(r"[a-z0-9\[\]_]{1,8}", name):
            raise words.bad("'%s' is not a name: 1 to 8 of a-z 0-9 [ ] _" % name)
        if name in table:
            raise words.bad("%s '%s' is declared twice" % (kind, name))
        table[name] = (len(table), ANY if most is not None else 0, place)
        if most is None:
            return name.encode()
        words.need("/")
        digit = words.take()
        if digit not in [str(n) for n in range(most + 1)]:
            raise words.bad("the arity of %s '%s' must be 0 to %d" % (kind, name, most))
        table[name] = (table[name][0], int(digit), place)
        return bytes([int(digit)]) + name.encode()

    def look(self, words, kind, table):
        name = words.take()
        if name not in table:
            raise words.bad("%s '%s' is not declared" % (kind, name))
        return name, table[name]

    def applied(self, words, kind, table, argument):
        """A symbol or predicate and its arguments, each read by the function argument; its name and bytes."""
        name, (number, arity, _) = self.look(words, kind, table)
        column, out, count = words.column, bytes([number]), 0
        if words.skip("("):
            more = True
            while more:
                out += argument(words)
                count += 1
                more = words.skip(",")
            words.need(")")
        if count != arity and arity != ANY:
            raise Bad("%s '%s' has arity %d, not %d" % (kind, name, arity, count), words.line, column)
        return name, out

    def type(self, words):
        name, (number, _, _) = self.look(words, "type", self.types)
        return name, bytes([number])

    def variable(self, words):
        name = words.take()
        if not is_variable(name):
            raise words.bad("'%s' is not a variable: it must begin with a capital letter" % name)
        number = self.variables.setdefault(name, len(self.variables))
        if number == 6:
            raise words.bad("'%s' is the seventh variable; 6 are the most" % name)
        self.stand.setdefault(name, []).append((words.line, words.column))
        return number

    def term(self, words):
        if is_variable(words.next()):
            return bytes([FIRST_VARIABLE + self.variable(words)])
        return self.applied(words, "symbol", self.symbols, self.term)[1]

    def atom(self, words):
        return self.applied(words, "predicate", self.predicates, self.term)

    def production(self, words, target):
        types = []

        def argument(words):
            name, number = self.type(words)
            types.append(name)
            return number

        symbol, out = self.applied(words, "symbol", self.symbols, argument)
        self.produced.append((target[0], symbol, types))
        return target[1] + out

    def clause(self, words):
        self.variables, self.stand = {}, {}
        predicate, head = self.atom(words)
        of_head, body = list(self.stand), []
        self.heads.add(predicate)
        more = words.skip(":-")
        while more:
            place = (words.line, words.left[0][1] if words.left else words.end)
            predicate, out = self.atom(words)
            body.append(out)
            self.bodies.append((predicate, place))
            more = words.skip(",")
        if len(body) > 4:
            raise words.bad("%d body atoms; 4 are the most" % len(body))
        for name in of_head:
            if len(self.stand[name]) == 1 and not name.startswith("_"):
                self.warn("variable '%s' stands once, in the head: it stands for every term" % name, self.stand[name][0])
        return bytes([len(self.variables), len(body)]) + head + b"".join(body)

    def query(self, words, number):
        self.variables, self.stand = {}, {}
        atom, conditions = self.atom(words)[1], {}
        count = len(self.variables)
        more = words.skip("where")
        while more:
            variable = self.variable(words)
            if variable >= count:
                raise words.bad("variable '%s' does not stand in the query's atom" % list(self.variables)[variable])
            if variable in conditions:
                raise words.bad("a second condition for one variable")
            negative = words.skip("not")
            if not negative:
                words.need("is")
            name, type_number = self.type(words)
            if not negative:
                self.asked.append((name, number, (words.line, words.column)))
            conditions[variable] = type_number[0] + NOT_OF * negative
            more = words.skip(",")
        return bytes([count] + [conditions.get(v, FREE) for v in range(count)]) + atom

    def contents(self, kind, words, number):
        """The field contents that a line gives; number is that of the first."""
        if kind == "production":
            target = self.type(words)
            words.need("->")
            item, comma = lambda: self.production(words, target), "|"
        elif kind == "symbol":
            item, comma = lambda: self.declare(words, kind, self.symbols, 2), ","
        elif kind == "type":
            item, comma = lambda: self.declare(words, kind, self.types, None), ","
        elif kind == "predicate":
            item, comma = lambda: self.declare(words, kind, self.predicates, 3), ","
        elif kind == "clause":
            item, comma = lambda: self.clause(words), None
        else:
            item, comma = lambda: self.query(words, number), None
        found = [item()]
        while comma and words.skip(comma):
            found.append(item())
        if words.left:
            words.take()
            raise words.bad("that is not expected here")
        return found

    def empty_types(self):
        """The types that no term has."""
        some, more = set(), True
        while more:
            more = {t for t, _, arguments in self.produced if t not in some and all(a in some for a in arguments)}
            some |= more
        return [name for name in self.types if name not in some]

    def doubts(self):
        """All warnings, by line."""
        empty = self.empty_types()
        for name in empty:
            self.warn("no term is of type '%s'" % name, self.types[name][2])
        for name, number, place in self.asked:
            if name in empty:
                self.warn("query %d is CLEAR because no term is of type '%s', whatever the clauses say" % (number, name), place)
        for predicate, place in self.bodies:
            if predicate not in self.heads:
                self.warn("no clause has predicate '%s' in its head, so this clause brings nothing" % predicate, place)
        for name in self.symbols:
            if all(symbol != name for _, symbol, _ in self.produced):
                self.warn("symbol '%s' stands in no production: its terms have no type" % name, self.symbols[name][2])
        return sorted(self.warnings)


def lines_of(text):
    """The lines by kind, and what is wrong with those of no kind."""
    lines, errors = {kind: [] for kind in KINDS}, []
    for number, line in enumerate(text.split("\n"), 1):
        words = Words(number, line.partition("#")[0])
        if not words.left:
            continue
        if len(words.left) > 1 and words.left[1][0] == "->":
            lines["production"].append(words)
            continue
        kind = words.take()
        if kind in KINDS and kind != "production":
            lines[kind].append(words)
        else:
            errors.append(words.bad("a line begins with symbol, type, predicate, clause, query or TYPE ->, not with '%s'" % kind).where)
    return lines, errors


def make(text):
    """The bytes of the rule file, the errors and the warnings, each a line, a column and a text. With an error the bytes are of no use."""
    lines, errors = lines_of(text)
    maker, out = Maker(), b""
    for tag, kind in enumerate(KINDS, 1):
        count = 0
        for words in lines[kind]:
            try:
                for content in maker.contents(kind, words, count):
                    count += 1
                    if count == MOST[tag - 1] + 1:
                        raise words.bad("%s number %d; %d are the most" % (kind, count, MOST[tag - 1]))
                    if len(content) > MOST_CONTENT:
                        raise words.bad("the %s takes %d bytes; %d are the most" % (kind, len(content), MOST_CONTENT))
                    out += bytes([tag, 0, len(content)]) + content
            except Bad as bad:
                errors.append(bad.where)
            except RecursionError:
                errors.append((words.line, 1, "a term takes more than %d bytes" % MOST_CONTENT))
    if not errors and all(arity for _, arity, _ in maker.symbols.values()):
        errors.append((1, 1, "no symbol of arity 0 is declared"))
    return out, sorted(errors), [] if errors else maker.doubts()


def main():
    if sys.argv[1:] in (["--help"], ["-h"]):
        print(__doc__.strip())
        return
    if len(sys.argv) != 3 or sys.argv[1].startswith("-"):
        sys.exit("usage: python3 make.py NAME.txt NAME.rules, or --help")
    source, target = sys.argv[1:]
    try:
        if os.path.exists(target) and os.path.samefile(source, target):
            sys.exit("%s: the rule file would take the place of its text" % target)
        with open(source, encoding="utf-8-sig", errors="replace") as text:  # a byte order mark is passed over, and CRLF read as a line's end
            out, errors, warnings = make(text.read())
        for line, column, said in errors:
            print("%s:%d:%d: %s" % (source, line, column, said), file=sys.stderr)
        for line, column, said in warnings:
            print("%s:%d:%d: warning: %s" % (source, line, column, said), file=sys.stderr)
        if errors:
            sys.exit(1)
        with open(target, "wb") as file:
            file.write(out)
    except OSError as error:
        sys.exit(str(error))


if __name__ == "__main__":
    main()
