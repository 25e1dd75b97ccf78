"""The language of the cases: what words make, and what is said of words that are wrong."""

import pathlib
import tempfile
import unittest

import language

SAMPLE = language.ROOT / "sample"


def said(text):
    """The cases that a text says."""
    with tempfile.TemporaryDirectory() as folder:
        path = pathlib.Path(folder) / "a.cases"
        path.write_text(text, encoding="utf-8")
        return language.cases_of(path)


def case(*lines):
    """The one case of these lines."""
    return said("case a\n" + "".join("  %s\n" % line for line in lines))[0]


def file_of(*lines):
    return case("read sample against sample", *lines, "answer 7 1 1 0").file


class Words(unittest.TestCase):
    def test_sample(self):
        sample = case("read sample against sample", "answer 7 1 1 0")
        self.assertEqual(sample.model, (SAMPLE / "model.bin").read_bytes())
        self.assertEqual(sample.file, (SAMPLE / "file.itf").read_bytes())

    def test_edits(self):
        lines = (SAMPLE / "file.itf").read_bytes().splitlines(keepends=True)
        self.assertEqual(file_of("7 | x", "  | y"), b"".join(lines[:6] + [b"x\n", b"y\n"] + lines[7:]))
        self.assertEqual(file_of("2-17 | x"), b"SCNT\nx\nENDE\n")
        self.assertEqual(file_of("2-17 -", "1 | x"), b"x\nENDE\n")
        self.assertEqual(file_of("2-18 -", "+2 | x", "+1 | y"), b"y\nSCNT\nx\n")
        self.assertEqual(file_of("2-18 -", "+19 | x"), b"SCNT\nx\n")

    def test_own_lines(self):
        own = case("read against sample", "| x", "|", "3 times | a{n}", "answer 7 1 1 0")
        self.assertEqual(own.file, b"x\n\na0\na1\na2\n")
        self.assertEqual(case("read against sample", "answer 7 1 1 0").file, b"")
        gap = case("read frame against sample", "| x", "answer 7 1 1 0")
        self.assertEqual(gap.file, b"SCNT\n////\nMTID T\nMODL M\nx\nEMOD\nENDE\n")

    def test_escapes(self):
        own = case("read against sample", r"| \\\t\s\r\n\xff\3*a\2*\x01\2*\\", r"| \\c", r"| x\c", "answer 7 1 1 0")
        self.assertEqual(own.file, b"\\\t \r\n\xffaaa\x01\x01\\\\\n\\c\nx")

    def test_models(self):
        bad = said("model a\n  bare\n  transfer T ! # $\n  record 5 \\x00x\n  bytes yz\n  end\n  less 1\n"
                   "case a\n  check a\n  answer 2 8 0 0\n")[0]
        self.assertEqual(bad.model, b"\4\0\1\0!#$T\2\0\5\0\0xyz\0\0\6")
        own = case("check", "2 times topic N{n}; table A optional; r reference A", 'e enumeration 3 optional', "no end",
                   "answer 0 2 0 0")
        table = b"\2\0\4\0\1A\5\0\5\0\0\1%c\0r"
        self.assertEqual(own.model, b"\4\0\1\0_@\\T\1\0\2\0M" + b"\2\0\3\0N0" + table % 0 + b"\2\0\3\0N1" + table % 1
                         + b"\5\0\5\0\1\7\3\0e")

    def test_table(self):
        made = case("write sample against sample", "cells 13 is 2 3", "text 51 is xy", "counts 1 2 3", "width 16",
                    "rooms rows 1 output 9", "answer 19 0 0 0")
        self.assertEqual((made.table.cells[12:15], bytes(made.table.text[50:54])), ([1, 2, 3], b" xy "))
        self.assertEqual((made.table.objects, made.table.cells_used, made.table.points_used), (1, 2, 3))
        self.assertEqual((made.table.rows, made.rooms["output"], made.width), ([0], 9, 16))

    def test_expectation(self):
        made = case("read table against one(D)", "| OBJE a 19990101", "answer 0 1 5 0", "row 0 43 1 1 19990101",
                    "marks 1 1", "text of table", "| OBJE a 19990101")
        self.assertEqual((made.expected.rows, made.expected.points), ([[0, 43, 1, 1, 19990101]], []))
        self.assertEqual((made.expected.marks, made.expected.text), ([1, 1], made.file))
        first, second = said("case a\n  unfold against sample\n  | x\n  answer 0 2 0 0\n"
                             "case b\n  unfold against sample\n  | x\\r\n  as a\n")
        self.assertEqual((first.expected.text, second.expected.text), (b"x\n", b"x\n"))

    def test_unsaid(self):
        cut = case("read against sample", "| x\\\\", "| CONT y", "answer 0 1 5 1 alone")
        self.assertEqual([getattr(cut.expected, part) for part in ("text", "marks", "rows", "points")], [None] * 4)

    def test_values(self):
        read = said("values text 2\n  from D1\n  \\x61..\\x62 is 2 45\n  \\x01 answer 4 7 0 0\n  xyz refused 14\n")
        self.assertEqual([one.expected.answer for one in read],
                         [(0, 1, 5, 0), (0, 1, 5, 0), (4, 7, 0, 0), (14, 7, 3, 0)])
        self.assertEqual(read[1].file[38:47], b"OBJE a b\n")
        self.assertEqual((read[1].expected.rows, read[3].sentences), ([[0, 43, 1, 2, 45]], ["D1"]))
        written, refused = said("cells date\n  1 101 as 00000101\n  1 0 refused 19\n")
        self.assertEqual(written.table.cells, [0, 0, 1, 1, 101])
        self.assertEqual(written.expected.output[38:54], b"OBJE a 00000101\n")
        self.assertEqual((refused.expected.answer, refused.expected.output), ((19, 0, 0, 0), None))


ODD = "a blank at a line's end, a tab or a byte above 7E; in bytes these are \\s, \\t and \\xHH"
WRONG = [
    ("case a\n\tcheck sample", "line 2: " + ODD),
    ("values coordinate 1 0..9 0..9\n  1 is 1 1", "line 1: values are of types with one field"),
    ("case a\n  check sample\n  answer 0 1 0 0\n  row 1", "line 4: a case of check does not say row"),
    ("case a\n  read sample against sample\n  answer 0 2 18 3\n  point 1 2 3 4",
     "line 1: 1 points are said, and the answer counts 3"),
    ("foo", "line 1: a block is one of case, values, cells, model, file, rooms, with a name or more behind it"),
    ("  answer 0 0 0 0", "line 1: a block begins at the margin"),
    ("case a\n  read x against sample\n  answer 0 0 0 0", "line 2: there is no file x"),
    ("case a\n  read sample against x\n  answer 0 0 0 0", "line 2: there is no model x"),
    ("case a\n  read sample against sample", "line 1: there is no answer"),
    ("case a\n  from D1", "line 1: there is no call"),
    ("case a\n  answer 0 0 0 0", "line 2: the call comes first"),
    ("case a\n  check sample\n  check sample\n  answer 0 1 0 0", "line 3: there is a call already"),
    ("case a\n  check sample\n  answer 0 1 0", "line 3: an answer is four numbers"),
    ("case a\n  check sample\n  answer 0 1 0 x", "line 3: a number is due, not x"),
    ("case a\n  check sample\n  anser 0 1 0 0", "line 3: the word is unknown: anser"),
    ("case a\n  check sample\n  answer 0 1 0 0\ncase a\n  check sample\n  answer 0 1 0 0",
     "line 4: another case has this name"),
    ("case a\n  check sample \n  answer 0 1 0 0", "line 2: " + ODD),
    ("case \xe4\n", "line 1: " + ODD),
    ("case a\n  read sample against sample\n  40 | x\n  answer 0 0 0 0", "line 1: the file has 18 lines"),
    ("case a\n  read sample against sample\n  7 | x\n  7 | y\n  answer 0 0 0 0", "line 1: line 7 is changed twice"),
    ("case a\n  read sample against sample\n  | x\n  answer 0 0 0 0",
     "line 1: the file has no ... for lines without a number"),
    ("case a\n  read against sample\n  | \\q\n  answer 0 0 0 0", "line 3: an escape is unknown: \\q"),
    ("case a\n  read sample against sample\n  answer 0 2 18 3\n  row 1 2 3",
     "line 1: 1 rows of 3 cells are said, and the answer counts 2 of 18"),
    ("case a\n  read sample against sample\n  answer 0 2 18 3\n  point 1 2 3",
     "line 1: a point is four cells"),
    ("case a\n  read sample against sample\n  answer 14 7 5 0\n  marks 1",
     "line 1: after a refusal all buffers are zero"),
    ("case a\n  read sample against sample\n  answer 0 2 18 3\n  marks 1 1 1",
     "line 1: no rows and no points; or is the answer expected `alone`?"),
    ("case a\n  read frame against sample\n  answer 0 0 0 0 alone\n  marks 0", "line 1: the answer is not `alone`"),
    ("case a\n  read frame against sample\n  answer 0 0 0 0\n  row 0\n  marks 0",
     "line 1: 1 rows of 1 cells are said, and the answer counts 0 of 0"),
    ("case a\n  read sample against sample\n  answer 22 0 0 0", "line 3: there is no refusal 22"),
    ("case a\n  check sample\n  answer 0 1 1 0", "line 3: the third number is 0"),
    ("case a\n  read sample against sample\n  answer 7 1 1 1", "line 3: the last number is 0"),
    ("case a\n  check sample\n  answer 0 1 0 0\n  answer 0 1 0 0", "line 4: answer is said twice"),
    ("case a\n  check sample\n  answer 0 1 0 0\ncase b\n  check sample\n  answer 0 1 0 0\n  as a",
     "line 7: answer and as are said"),
    ("case a\n  check sample\n  | x\n  answer 0 1 0 0", "line 3: a case of check does not say line"),
    ("case a\n  list sample against sample\n  rooms rows 3\n  answer 0 1 0 0",
     "line 3: a case of list does not say rooms"),
    ("case a\n  read sample against sample\n  width 16\n  answer 0 1 0 0",
     "line 3: a case of read does not say width"),
    ("case a\n  check sample\n  answer 0 1 0 0\n  marks 1", "line 4: a case of check does not say marks"),
    ("case a\n  list sample against sample\n  answer 0 2 18 3\n  text of sample",
     "line 4: a case of list does not say text"),
    ("case a\n  unfold against sample\n  | x\n  answer 0 3 0 0",
     "line 1: 2 bytes are said, and the answer counts 3"),
    ("case a\n  read sample against sample\n  rooms tex 3\n  answer 0 0 0 0", "line 3: there is no room tex"),
    ("case a\n  write sample against sample\n  cells 99999 is 3\n  answer 19 0 0 0",
     "line 1: this place is not lent"),
    ("case a\n  write sample against sample\n  7 | x\n  answer 19 0 0 0",
     "line 1: the independent implementation refuses the file: 7 7 1 0"),
    ("case a\n  read sample against sample\n  cells 1 is 3\n  answer 7 1 1 0",
     "line 3: a case of read does not say change"),
    ("case a\n  check sample\n  as b", "line 3: no case before this one is named b"),
    ("model a\n  topic N; table A; a foo", "line 2: the type is unknown: foo"),
    ("model a\n  topic N; table A; a text", "line 2: a text has its longest length"),
    ("model a\n  topic N; table A; a date 3", "line 2: a date has no parameters"),
    ("model a\n  topic N O; table A; a date", "line 2: a topic has a name"),
    ("model a\n  topic N; table A; a date; transfer T", "line 1: transfer and model come first"),
    ("model a\n  topic N; table A; end date", "line 2: no attribute is named end"),
    ("model a\n  topic N; table A; a number 1 0..9 0..9", "line 2: a number has one component"),
    ("model a\n  topic N; table A; a line 1 0..9 0..9",
     "line 2: a line has straights, arcs or both, and two or three components"),
    ("file a\n  | x\n  ...\n  ...", "line 4: a file has one ..."),
    ("rooms text 3\n  | x", "line 1: rooms have one line"),
    ("values text 1\n  \\x62..\\x61 is 2 45", "line 2: a range goes up"),
    ("model a\n  topic N; table A; a number 0..9", "line 2: the decimals are missing"),
    ("model a\n  topic N; table A; a coordinate 1 0..9", "line 2: a coordinate has two or three components"),
    ("model a\n  topic N; table A; a reference B", "line 2: the topic has no table B"),
    ("model sample\n  topic N", "line 1: the model is there already"),
    ("file sample\n  | x", "line 1: the file is there already"),
    ("file a\n  7 | x", "line 2: a line of a file stands behind |"),
    ("values date\n  19990101", "line 2: words are missing, or there are too many"),
    ("values date\n  19990101 was 1 2", "line 2: a field is, is refused, or has an answer"),
    ("values date\n  1 refused 13\n  1 refused 13", "line 3: the value is there already"),
    ("cells date\n  1 2 was 3", "line 2: cells are written as a field, or refused"),
]


class Mistakes(unittest.TestCase):
    def test_messages(self):
        for text, message in WRONG:
            with self.subTest(text), self.assertRaises(SystemExit) as raised:
                said(text + "\n")
            self.assertTrue(str(raised.exception).endswith(message), str(raised.exception))


if __name__ == "__main__":
    unittest.main()
