#!/usr/bin/env python3
"""Tests of make.py: the samples made again, every error at its line and column, every warning.

    python3 rules/test_make.py
"""
import os
import subprocess
import sys
import tempfile
import unittest

HERE = os.path.dirname(os.path.abspath(__file__))
sys.path.insert(0, HERE)
from make import make  # noqa: E402

# rule set E of the specification, and its bytes
E = """symbol z/0, s/1
type even, odd
even -> z | s(odd)
odd -> s(even)
predicate p/1
clause p(z)
clause p(s(s(X))) :- p(X)
query p(X) where X not even
query p(X) where X not odd
"""
E_BYTES = bytes.fromhex(
    "010002007A 0100020173 0200046576656E 0200036F6464 0300020000 0300030001 01 030003010100 0400020170 05000400000000 0500080101000101800080 06000401800080 06000401810080"
)


def run(*words):
    return subprocess.run([sys.executable, os.path.join(HERE, "make.py"), *words], capture_output=True, text=True)


class Made(unittest.TestCase):
    def test_rule_set_e(self):
        self.assertEqual(make(E), (E_BYTES, [], []))

    def test_samples(self):
        for folder in (HERE, os.path.join(HERE, "bench")):
            for name in sorted(n for n in os.listdir(folder) if n.endswith(".txt")):
                with open(os.path.join(folder, name), encoding="utf-8") as text, open(os.path.join(folder, name[:-4] + ".rules"), "rb") as rules:
                    self.assertEqual(make(text.read()), (rules.read(), [], []), name)

    def test_file(self):
        """A byte order mark and CRLF are taken; the text is never overwritten; nothing is written with an error."""
        with tempfile.TemporaryDirectory() as folder:
            text, rules = os.path.join(folder, "e.txt"), os.path.join(folder, "e.rules")
            with open(text, "wb") as file:
                file.write(b"\xef\xbb\xbf" + E.replace("\n", "\r\n").encode())
            self.assertEqual(run(text, rules).returncode, 0)
            with open(rules, "rb") as file:
                self.assertEqual(file.read(), E_BYTES)
            self.assertNotEqual(run(text, text).returncode, 0)
            with open(text, "rb") as file:
                self.assertTrue(file.read().startswith(b"\xef\xbb\xbfsymbol"))
            with open(text, "a") as file:
                file.write("clause q(z)\n")
            os.remove(rules)
            done = run(text, rules)
            self.assertEqual((done.returncode, done.stderr), (1, text + ":10:8: predicate 'q' is not declared\n"))
            self.assertFalse(os.path.exists(rules))

    def test_help(self):
        self.assertIn("NAME.rules", run("--help").stdout)
        self.assertNotEqual(run().returncode, 0)


class Errors(unittest.TestCase):
    def errors(self, more, *expected):
        self.assertEqual(make(E + more)[1], [(line + 9, column, text) for line, column, text in expected])

    def test_all_at_once(self):
        self.errors("clause p(y)\nquery q(X)\nclause p(z, z)\n", (1, 10, "symbol 'y' is not declared"), (2, 7, "predicate 'q' is not declared"), (3, 8, "predicate 'p' has arity 1, not 2"))

    def test_lines(self):
        self.errors("rule p(z)\n", (1, 1, "a line begins with symbol, type, predicate, clause, query or TYPE ->, not with 'rule'"))
        self.errors("clause p(z) z\n", (1, 13, "that is not expected here"))
        self.errors("clause p(z\n", (1, 11, "')' expected, but the line ends"))
        self.errors("clause p(   # a comment\n", (1, 10, "the line ends too early"))

    def test_names(self):
        self.errors("symbol Z/0\n", (1, 8, "'Z' is not a name: 1 to 8 of a-z 0-9 [ ] _"))
        self.errors("type abcdefghi\n", (1, 6, "'abcdefghi' is not a name: 1 to 8 of a-z 0-9 [ ] _"))
        self.errors("symbol z/1\n", (1, 8, "symbol 'z' is declared twice"))
        self.errors("symbol t/3\nclause p(t(z))\n", (1, 10, "the arity of symbol 't' must be 0 to 2"))
        self.errors("predicate r/4\n", (1, 13, "the arity of predicate 'r' must be 0 to 3"))
        self.errors("three -> z\n", (1, 1, "type 'three' is not declared"))

    def test_limits(self):
        self.errors("clause p(z) :- p(z), p(z), p(z), p(z), p(z)\n", (1, 43, "5 body atoms; 4 are the most"))
        self.errors("predicate r/3\nclause r(A, B, C) :- r(D, E, F), p(G)\n", (2, 36, "'G' is the seventh variable; 6 are the most"))
        self.errors("clause p(%sz%s)\n" % ("s(" * 247, ")" * 247), (1, 752, "the clause takes 251 bytes; 250 are the most"))
        self.assertEqual(make("symbol " + ", ".join("s%d/0" % i for i in range(25)))[1], [(1, 170, "symbol number 25; 24 are the most")])
        self.assertEqual(make("symbol s/1")[1], [(1, 1, "no symbol of arity 0 is declared")])

    def test_conditions(self):
        self.errors("query p(X) where Y is even\n", (1, 18, "variable 'Y' does not stand in the query's atom"))
        self.errors("query p(X) where X is even, X not odd\n", (1, 29, "a second condition for one variable"))
        self.errors("query p(X) where X even\n", (1, 20, "'is' expected, but 'even' found"))


class Warnings(unittest.TestCase):
    def warnings(self, more, *expected):
        out, errors, warnings = make(E + more)
        self.assertEqual((bool(out), errors, warnings), (True, [], [(line + 9, column, text) for line, column, text in expected]))

    def test_empty_type(self):
        self.warnings("type big\nbig -> s(big)\n", (1, 6, "no term is of type 'big'"))

    def test_clear_query(self):
        self.warnings("type big\nquery p(X) where X is big\nquery p(X) where X not big\n", (1, 6, "no term is of type 'big'"), (2, 23, "query 2 is CLEAR because no term is of type 'big', whatever the clauses say"))

    def test_unfed_predicate(self):
        self.warnings("predicate q/0\nclause p(s(z)) :- p(z), q\n", (2, 25, "no clause has predicate 'q' in its head, so this clause brings nothing"))

    def test_symbol_without_production(self):
        self.warnings("symbol t/0\n", (1, 8, "symbol 't' stands in no production: its terms have no type"))

    def test_head_variable(self):
        self.warnings("clause p(s(Y)) :- p(X)\n", (1, 12, "variable 'Y' stands once, in the head: it stands for every term"))
        self.warnings("clause p(s(_Y)) :- p(X)\n")


if __name__ == "__main__":
    unittest.main()
