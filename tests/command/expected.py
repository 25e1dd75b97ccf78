"""What the command has to say, from the man page and the independent implementation of the rules (tests/oracle) alone.

A line is shown as text; a column here counts from 0, in the man page and in JSON from 1."""
import os
import pathlib
import re
import resource
import subprocess
import sys
import tempfile
import unittest

from support import ROOT, vendorfinch

sys.path[:0] = [str(ROOT / "tests/oracle"), str(ROOT / "tests/cases")]
import language  # noqa: E402
import oracle  # noqa: E402
import parts  # noqa: E402

# the refusals as the man page words them
WORDS = {
    1: "file above 16,777,216 bytes",
    2: "model bad",
    3: "last line has no LF, or ends in the mark",
    4: "byte not permitted",
    5: "mark not followed by CONT and space",
    7: "another line code expected, or no line left",
    8: "MOTR in place of MTID",
    9: "name wrong or not in order",
    10: "mandatory table skipped",
    11: "field missing or extra",
    12: "undefined where not allowed, mixed coordinate",
    13: "field has wrong shape",
    14: "outside its domain, text too long",
    15: "identification used twice",
    17: "reference names no object of its table",
    18: "straight or arc not in the forms",
    20: "writing: width not 16 to 65,535",
    21: "writing: output room or 16,777,216 bytes too small",
}
LIMIT = 16777216
# a line is surely shown whole up to here: a terminal's width with the four spaces before it
SHOWN_WHOLE = 76


class Folder(unittest.TestCase):
    """Tests with a folder of their own."""

    def setUp(self):
        folder = tempfile.TemporaryDirectory(prefix="vendorfinch.")
        self.addCleanup(folder.cleanup)
        self.folder = pathlib.Path(folder.name)
        # the folder's mode is 0700; tests that run the command as another user need it
        self.folder.chmod(0o755)
        self.model = self.made("model.bin", parts.SAMPLE_MODEL)

    def made(self, name, content):
        """A file in the folder."""
        path = self.folder / name
        path.write_bytes(content)
        return path

    def answers(self, words, status, out, err=b"", **more):
        """Runs the command in the folder and compares all that it answers."""
        more.setdefault("cwd", self.folder)
        got = vendorfinch(*words, **more)
        self.assertEqual(got, (status, out, err), "vendorfinch %s" % " ".join(str(w) for w in words))

    def unprivileged(self):
        """More for `vendorfinch`, so that another user runs it if we are root: one who may not change /dev, and may not
        read everything. The folder is open to that user. Skips the test where that user may not start the command."""
        self.folder.chmod(0o777)
        if os.geteuid() != 0:
            return {}

        def other():
            os.setgroups([])
            os.setgid(65534)
            os.setuid(65534)
        try:
            able = vendorfinch("--version", preexec_fn=other)[0] == 0
        except (PermissionError, subprocess.SubprocessError):
            able = False
        if not able:
            self.skipTest("another user may not start the command")
        return {"preexec_fn": other}

    def limited(self, size):
        """More for `vendorfinch`, so that it has so many bytes; skips where it does not start with them."""
        def limit():
            resource.setrlimit(resource.RLIMIT_AS, (size, size))
        if vendorfinch("--version", preexec_fn=limit)[0] != 0:
            self.skipTest("the command does not start with so little memory")
        return {"cwd": self.folder, "preexec_fn": limit}

    def fails(self, words, **more):
        """Runs the command in the folder: status 2, a message and nothing else. Gives the message."""
        more.setdefault("cwd", self.folder)
        status, out, err = vendorfinch(*words, **more)
        what = "vendorfinch %s" % " ".join(str(w) for w in words)
        self.assertEqual((status, out), (2, b""), what + "\n" + err.decode("utf-8", "replace"))
        self.assertRegex(err, rb"\w.*\n\Z", what)
        return err


# ---- Physical and logical lines -------------------------------------------------------------------------------

def physical_lines(file):
    """The contents of the physical lines, without their ends, and whether the last has one."""
    pieces = file.split(b"\n")
    rest = pieces.pop()
    lines = [p[:-1] if p.endswith(b"\r") else p for p in pieces]
    return lines + ([rest] if rest else []), not rest


def logical_lines(mark, file):
    """Each logical line of a file that unfolds, with its first and its last physical line, from 1."""
    out, begun, first = [], b"", None
    for n, content in enumerate(physical_lines(file)[0], 1):
        part = content if first is None else content[5:]
        first = first or n
        if content.endswith(mark):
            begun += part[:-1]
        else:
            out.append((begun + part, first, n))
            begun, first = b"", None
    return out


def fields(line):
    """Where each field of a line begins and ends, in bytes."""
    return [found.span() for found in re.finditer(rb"[^ \t]+", line)]


def shown(line):
    """The line as text, and the column of each of its bytes, with the end behind."""
    out, columns = "", []
    for byte in line:
        columns.append(len(out))
        if byte == 9:
            out += " "
        elif 0x20 <= byte <= 0x7E or byte >= 0xA0:
            out += chr(byte)
        else:
            out += "\\x%02X" % byte
    return out, columns + [len(out)]


def is_permitted(byte):
    return byte == 9 or 0x20 <= byte <= 0x7E or byte >= 0xA0


# ---- A refusal ------------------------------------------------------------------------------------------------

class Refused:
    """What is said of a refused file: its four numbers, the place in words, what JSON has of it, and the line that is
    shown, None where none is. `begin` and `length` are the marked bytes of the line, `start` and `end` the columns of
    the marks under its text. JSON has the line's own characters, and length 0 where there is nothing to mark."""

    def __init__(self, model, file, answer):
        self.number, self.place, self.field, _ = answer
        self.where, self.line, self.text = "", None, None
        self.parts = {"number": self.number, "words": WORDS[self.number]}
        if self.number == 2:
            self.where = ": record at byte %d" % self.place
            self.parts["byte"] = self.place
        elif self.number in (3, 4, 5):
            self.physical_fault(bytes([oracle.decode(model).mark]), file)
        elif self.number not in (1, 20, 21):
            self.logical_fault(bytes([oracle.decode(model).mark]), file)

    def physical_fault(self, mark, file):
        lines, ended = physical_lines(file)
        marked = [line.endswith(mark) and (ended or n + 1 < len(lines)) for n, line in enumerate(lines)]
        if self.number == 3:
            at = len(lines) - 1
        elif self.number == 4:
            at = next(n for n, line in enumerate(lines) if not all(map(is_permitted, line)))
        else:
            at = next(n for n, line in enumerate(lines) if n and marked[n - 1] and not line.startswith(b"CONT "))
        if self.number == 3:
            self.show(lines[at], len(lines[at]), 0)
        elif self.number == 4:
            self.show(lines[at], next(n for n, byte in enumerate(lines[at]) if not is_permitted(byte)), 1)
        else:
            self.show(lines[at], 0, min(5, len(lines[at])))
        # the lines that the logical line stands on: each but the last ends in the mark; for 5 up to the wrong one
        first, last = at, at
        while first and marked[first - 1]:
            first -= 1
        while self.number != 5 and marked[last] and last + 1 < len(lines):
            last += 1
        self.tell("line %d" % self.place, self.place, first + 1, last + 1, at + 1)
        self.parts["at"] = at + 1

    def logical_fault(self, mark, file):
        lines = logical_lines(mark, file)
        number, what = self.place, "line %d"
        if self.number == 17:
            self.parts["object"] = self.place
            number, what = self.object_line(lines), "object %d, line %%d" % self.place
        what = (what + ", field %d") % (number, self.field)
        self.parts["field"] = self.field
        if number > len(lines):
            last = len(physical_lines(file)[0])
            self.where = ": %s (%s)" % (what, "behind physical line %d, the last" % last if last
                                        else "the file is empty")
            self.parts["line"] = number
            return
        line, first, last = lines[number - 1]
        places = fields(line)
        if self.field <= len(places):
            begin, end = places[self.field - 1]
            self.show(line, begin, end - begin)
        else:
            # where the next field would begin: behind a blank, or at the beginning
            self.show(line, len(line) + (fields(line[-1:]) != []), 0)
        self.tell(what, number, first, last)

    def show(self, line, begin, length):
        self.line, self.begin, self.length = line, begin, length
        self.text, columns = shown(line)
        columns.append(columns[-1] + 1)
        self.start = columns[begin]
        self.end = max(self.start + 1, columns[begin + length])

    def object_line(self, lines):
        """The number of the object's line: OBJE lines count behind the description."""
        behind = next(n for n, (line, _, _) in enumerate(lines) if line.startswith(b"////"))
        objects = [n + 1 for n, (line, _, _) in enumerate(lines) if n > behind and line.split()[:1] == [b"OBJE"]]
        return objects[self.place]

    def tell(self, what, line, first, last, at=0):
        lines = "physical line %d" % first if first == last else "physical lines %d to %d" % (first, last)
        self.where = ": %s (%s%s)" % (what, lines, ", at %d" % at if at and first < last else "")
        self.parts.update({"line": line, "physical": [first, last]})

    def is_whole(self):
        """Whether what is shown is surely the whole line."""
        return self.text is None or max(len(self.text), self.end) <= SHOWN_WHOLE

    def first_line(self, name):
        return "%s: refused, %d %s%s" % (name, self.number, WORDS[self.number], self.where)

    def told(self, name):
        """The lines of text about a file of this name."""
        out = [self.first_line(name)]
        if self.text is not None:
            out += ["    " + self.text, "    " + " " * self.start + "^" * (self.end - self.start)]
        return "".join(line + "\n" for line in out).encode()

    def as_json(self, name):
        """The JSON object about a file of this name."""
        out = {"file": name, "status": "refused", **self.parts}
        if self.line is not None:
            out.update({"text": self.line.decode("latin-1"), "column": self.begin + 1, "length": self.length})
        return out


def marked_rightly(case, text, column, length, refused):
    """Holds a shown text, perhaps left off at its ends, and its marks (column from 0) to what they should be."""
    whole, start, end = refused.text, refused.start, refused.end
    case.assertLess(len(text), 200, text)
    case.assertLess(column + length, 200, text)
    case.assertGreater(length, 0)
    if text == whole:
        case.assertEqual((column, length), (start, end - start), text)
        return
    core = text[3:] if text.startswith("...") and not whole.startswith(text[:10]) else text
    left = len(text) - len(core)
    core = core[:-3] if core.endswith("...") and not whole.endswith(core[-10:]) else core
    case.assertLess(len(core), len(text), "neither whole nor with ... where it was left off: " + text)
    # what is left stands in the whole line, and the marks are at the field there; a line may have it several times
    shifts = [found.start() for found in re.finditer("(?=%s)" % re.escape(core), whole)]
    case.assertTrue(shifts, "not a part of the line: " + text)
    case.assertIn(start, [shift + column - left for shift in shifts], text)
    case.assertGreaterEqual(column, left)
    case.assertLessEqual(length, end - start)
    if end - start < 40:
        case.assertEqual(length, end - start, text)


def answer_of(model, file):
    """The answer of reading: four numbers."""
    return table_of(model, file)[0]


def table_of(model, file):
    """The answer of reading, and what reading leaves (None where it refuses)."""
    try:
        if len(file) > LIMIT:
            raise oracle.Refusal(1)
        m = oracle.good_model(model)
        reading = oracle.Reading(m, oracle.logical_lines(m.mark, file), oracle.NO_LIMIT)
        reading.read()
    except oracle.Refusal as refusal:
        return refusal.answer, None
    return (0, len(reading.rows), len(reading.cells), len(reading.points)), reading


def refused(model, file):
    """What is said of a file that is refused."""
    return Refused(model, file, answer_of(model, file))


def count(n, word):
    return "%d %s%s" % (n, word, "" if n == 1 else "s")


def counts(answer):
    """The three counts of a table in words."""
    return ", ".join(count(n, word) for n, word in zip(answer[1:], ("object", "cell", "point")))


def told(model, file, name):
    """The lines of `read` about a file of this name."""
    answer = answer_of(model, file)
    if answer[0]:
        return Refused(model, file, answer).told(name)
    return ("%s: read, %s\n" % (name, counts(answer))).encode()


def as_json(model, file, name):
    """The JSON object of `read` about a file of this name."""
    answer = answer_of(model, file)
    if answer[0]:
        return Refused(model, file, answer).as_json(name)
    return {"file": name, "status": "read", "objects": answer[1], "cells": answer[2], "points": answer[3]}


def listing(model, file):
    """What `list` prints."""
    answer, reading = table_of(model, file)
    lines = [answer]
    if reading:
        ends = reading.rows[1:] + [len(reading.cells)]
        lines += [reading.cells[row:end] for row, end in zip(reading.rows, ends)] + reading.points
    return "".join(" ".join(map(str, line)) + "\n" for line in lines).encode()


def unfolded(model, file):
    """What `unfold` prints for a file that unfolds."""
    return oracle.text_of(oracle.logical_lines(oracle.decode(model).mark, file))


def written(model, file, width=80):
    """What `write` writes for a file that is read."""
    m = oracle.decode(model)
    answer, reading = table_of(model, file)
    assert answer[0] == 0, answer
    lent = oracle.Lent(list(unfolded(model, file)), reading.marks, reading.rows, reading.cells, reading.flat_points(),
                       *answer[1:])
    return b"".join(oracle.cut_line(m.mark, width, line) for line in oracle.lines_of_table(m, lent))


# ---- Files ----------------------------------------------------------------------------------------------------

def cut_line(line, places, ends=(b"\n",), mark=b"\\"):
    """A logical line cut before each of these bytes; the physical lines' ends are taken in turn."""
    out, begin = b"", 0
    for n, place in enumerate([*places, len(line)]):
        part = (b"CONT " if n else b"") + line[begin:place] + (mark if n < len(places) else b"")
        out += part + ends[n % len(ends)]
        begin = place
    return out


def sample_file(n=0, line=b"", places=(), ends=(b"\n",)):
    """The sample with its line n (none for 0) replaced and cut."""
    lines = [other + b"\n" for other in parts.SAMPLE_LINES]
    if n:
        lines[n - 1] = cut_line(line, places, ends)
    return b"".join(lines)


def bordered(size, begin=parts.SAMPLE_FILE[:5], rest=parts.SAMPLE_FILE[5:]):
    """The sample with a description that makes it so many bytes long."""
    need = size - len(begin) - len(rest)
    line = b"x" * 79 + b"\n"
    lines, left = divmod(need, len(line))
    return begin + line * lines + (b"y" * (left - 1) + b"\n" if left else b"") + rest
