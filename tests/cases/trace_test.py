"""The column of cases in docs/TRACE.md: what a mark belongs to, and what is told where it belongs to nothing."""

import importlib.util
import pathlib
import unittest

import language

# Python has a module of this name
SPEC = importlib.util.spec_from_file_location("column", pathlib.Path(__file__).resolve().parent / "trace.py")
column = importlib.util.module_from_spec(SPEC)
SPEC.loader.exec_module(column)

TABLE = """\
| Sentence | Cases |
|---|---|
| **14** outside its domain | old |
| 14 outside again | |
| D1 | |
| P4 north `99.9` | |
| The host is written in C. | - about the host |
| 3.1 of 000 | - as D1 |
| 3.2 of 000 | - as D9 |

| Sentence | Held by |
|---|---|
| D2 | x |
"""


def case(name, *marks):
    return language.Case("case", ("tests/cases/a.cases", 7), name, "", list(marks))


def told(*cases):
    """The rows, and what is told, where these are all cases."""
    rows = column.rows_of(TABLE.splitlines(keepends=True))
    return rows, list(column.give(cases, rows))


class Column(unittest.TestCase):
    def test_rows(self):
        self.assertEqual([row.key for row in told()[0]], [
            "14 outside its domain", "14 outside again", "D1", "P4 north 99.9", "The host is written in C.",
            "3.1 of 000", "3.2 of 000"])

    def test_cells(self):
        rows, wrong = told(*(case("c%d" % n, "D1", "P4", '"14 outside its"') for n in range(5)), case("a|b", "P4"))
        self.assertEqual(rows[2].cell(), "**a** c0; c1; c2 and 2 more")
        self.assertEqual(rows[3].cell(), "**a** c0; c1; c2 and 3 more")
        self.assertEqual((rows[0].line(), wrong), ("| **14** outside its domain | **a** c0; c1; c2 and 2 more |\n", []))
        self.assertEqual(column.shown([case("a|b")]), "**a** a\\|b")

    def test_faults(self):
        for mark, fault in (('"No such"', 'no row of docs/TRACE.md begins with "No such"'), ("D2", "no row"),
                            ('"14 outside"', "rows of docs/TRACE.md begin with"), ("nothing", "no row"),
                            ('"The host"', '"The host" belongs to a row that says `- about the host`')):
            wrong = told(case("c", mark), case("d", mark))[1]
            self.assertEqual(len(wrong), 1)
            self.assertIn("tests/cases/a.cases, line 7: c: " + fault, wrong[0])

    def test_leaning_rows(self):
        rows, _ = told(case("c", "D1"))
        wrong = list(column.unresolved(rows))
        self.assertEqual(len(wrong), 1)
        self.assertIn("D9", wrong[0])


if __name__ == "__main__":
    unittest.main()
