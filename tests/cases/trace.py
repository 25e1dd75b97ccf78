"""The column `Cases` of docs/TRACE.md, from what the cases of tests/cases derive from.

    trace.py            writes the column
    trace.py --check    writes nothing, and fails where the column is not what it would write

A row is known by its first column. The mark `D1` of a case belongs to the row of this reading; a mark in quotes belongs
to the row that begins with it. A cell that begins with `-` is written by hand: it says why no case can be run, or, as
`- as X`, which row's cases try it. X is a reading or a row's first words; several stand with `, and` between."""

import pathlib
import re
import sys

import language

TRACE = language.ROOT / "docs" / "TRACE.md"
READING = re.compile(r"[A-Z][0-9]+|[0-9]+\.[0-9]+")
AS = "- as "
SHOWN = 3


class Row:
    """A row of a table whose last column is made: its line, its key, what is written, and the cases that it gets."""

    def __init__(self, at, cells):
        self.at = at
        self.key = plain(cells[0])
        self.first, self.written = cells[:-1], cells[-1]
        self.cases = []

    def is_by_hand(self):
        return self.written.startswith("-")

    def others(self):
        """The marks of the rows whose cases try this one."""
        words = self.written[len(AS):].split(", and ") if self.written.startswith(AS) else []
        return [part if READING.fullmatch(part) else '"%s"' % plain(part) for part in words]

    def cell(self):
        return self.written if self.is_by_hand() else shown(self.cases)

    def line(self):
        return "| " + " | ".join(self.first + [self.cell()]) + " |\n"


def plain(words):
    """A first column, or a mark, without what is there for its looks."""
    words = words.replace("*", "").replace("`", "").replace("\\|", "|").strip()
    return words[1:-1] if len(words) > 1 and words[0] == words[-1] == '"' else words


def shown(cases):
    """The names of cases, file by file."""
    files = {}
    for case in cases:
        files.setdefault(pathlib.Path(case.place[0]).stem, []).append(case.name.replace("|", "\\|"))
    return " ".join("**%s** %s" % (file, few(names)) for file, names in files.items())


def few(names):
    more = " and %d more" % (len(names) - SHOWN) if len(names) > SHOWN else ""
    return "; ".join(names[:SHOWN]) + more


def cells_of(line):
    """The cells of a line of a table."""
    return [cell.strip() for cell in re.split(r"(?<!\\)\|", line.strip())[1:-1]]


def rows_of(lines):
    """The rows of the tables whose last column is headed `Cases`."""
    rows, is_made = [], False
    for at, line in enumerate(lines):
        if not line.startswith("|"):
            is_made = False
        elif at + 1 < len(lines) and lines[at + 1].startswith("|---"):
            is_made = cells_of(line)[-1] == "Cases"
        elif is_made and not line.startswith("|---"):
            rows.append(Row(at, cells_of(line)))
    return rows


def rows_with(mark, rows):
    """The rows that a mark belongs to; there should be one."""
    key = plain(mark)
    if mark.startswith('"'):
        return [row for row in rows if row.key.startswith(key)]
    if not READING.fullmatch(key):
        return []
    return ([row for row in rows if row.key == key] or
            [row for row in rows if row.key.startswith((key + " ", key + ":"))])


def give(cases, rows):
    """Gives each case to the rows that it derives from, and tells once what is wrong with a mark."""
    told = set()
    for case in cases:
        for mark in case.sentences:
            found = rows_with(mark, rows)
            fault = fault_of(mark, found)
            if not fault and case not in found[0].cases[-1:]:
                found[0].cases.append(case)
            elif fault and (case.place[0], mark) not in told:
                told.add((case.place[0], mark))
                yield "%s, line %d: %s: %s" % (*case.place, case.name, fault)


def fault_of(mark, found):
    """What is wrong with a mark that belongs to these rows; None where nothing is."""
    if not found:
        return "no row of docs/TRACE.md begins with %s" % mark
    if len(found) > 1:
        return "rows of docs/TRACE.md begin with %s: %s" % (mark, "; ".join(row.key[:60] for row in found))
    return "%s belongs to a row that says `%s`" % (mark, found[0].written) if found[0].is_by_hand() else None


def unresolved(rows):
    """Tells of each row that leans on another where there is no such row, or it has no cases."""
    for row in rows:
        for mark in row.others():
            found = rows_with(mark, rows)
            if len(found) != 1 or not found[0].cases:
                yield "docs/TRACE.md, line %d: as %s: %s" % (
                    row.at + 1, mark, "the row has no cases" if len(found) == 1 else
                    "more than one row" if found else "no row")


def main(arguments):
    if arguments not in ([], ["--check"]):
        raise SystemExit("usage: trace.py [--check]")
    lines = TRACE.read_text(encoding="utf-8").splitlines(keepends=True)
    rows = rows_of(lines)
    wrong = list(give(language.all_cases(), rows))
    wrong += ["docs/TRACE.md, line %d: no case derives from: %s" % (row.at + 1, row.key)
              for row in rows if not row.cases and not row.is_by_hand()]
    wrong += unresolved(rows)
    other = [row for row in rows if lines[row.at] != row.line()]
    if arguments and other:
        wrong.append("docs/TRACE.md, line %d and %d more: other cases; run python3 tests/cases/trace.py" % (
            other[0].at + 1, len(other) - 1))
    elif other:
        for row in other:
            lines[row.at] = row.line()
        TRACE.write_text("".join(lines), encoding="utf-8")
    for line in wrong:
        print(line)
    return 1 if wrong else 0


if __name__ == "__main__":
    sys.exit(main(sys.argv[1:]))
