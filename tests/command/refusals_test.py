"""Every refusal that a file can bring: its number, words, place, physical lines, and the shown line with its marks."""
import json
import random

import expected
from expected import LIMIT, cut_line, language, oracle, parts, sample_file
from support import vendorfinch

SAMPLE = parts.SAMPLE_MODEL
# what is refused, the file, what is said behind "NAME: refused, ", the shown line, its marks, and what JSON has beside
# these; its text, column and length are those of the shown line where it does not say others
SAID = [
    ("3 no LF", sample_file()[:-1],
     "3 last line has no LF, or ends in the mark: line 18 (physical line 18)",
     "ENDE",
     "    ^", {"line": 18, "physical": [18, 18], "at": 18, "length": 0}),
    ("3 one CR", sample_file() + b"\r",
     "3 last line has no LF, or ends in the mark: line 19 (physical line 19)",
     "\\x0D",
     "    ^", {"line": 19, "physical": [19, 19], "at": 19, "text": "\r", "column": 2, "length": 0}),
    ("3 no LF behind a cut", sample_file(7, b"OBJE k1 A_1 10.0 20.5", (9, 10))[:-1],
     "3 last line has no LF, or ends in the mark: line 18 (physical line 20)",
     "ENDE",
     "    ^", {"line": 18, "physical": [20, 20], "at": 20, "length": 0}),
    ("3 ends in the mark", sample_file(18, b"ENDE\\"),
     "3 last line has no LF, or ends in the mark: line 18 (physical line 18)",
     "ENDE\\",
     "     ^", {"line": 18, "physical": [18, 18], "at": 18, "length": 0}),
    ("3 ends in the mark and CR LF, behind a cut", sample_file(18, b"EN\\\r\nCONT DE\\\r"),
     "3 last line has no LF, or ends in the mark: line 18 (physical lines 18 to 19, at 19)",
     "CONT DE\\",
     "        ^", {"line": 18, "physical": [18, 19], "at": 19, "length": 0}),
    ("4 in a field", sample_file(7, b"OBJE k1 A\x01B 10.0 20.5"),
     "4 byte not permitted: line 7 (physical line 7)",
     "OBJE k1 A\\x01B 10.0 20.5",
     "         ^^^^", {"line": 7, "physical": [7, 7], "at": 7, "text": "OBJE k1 A\x01B 10.0 20.5", "length": 1}),
    ("4 a CR within", sample_file(1, b"SC\rNT"),
     "4 byte not permitted: line 1 (physical line 1)",
     "SC\\x0DNT",
     "  ^^^^", {"line": 1, "physical": [1, 1], "at": 1, "text": "SC\rNT", "length": 1}),
    ("4 two CR before LF", sample_file(1, b"SCNT\r\r"),
     "4 byte not permitted: line 1 (physical line 1)",
     "SCNT\\x0D",
     "    ^^^^", {"line": 1, "physical": [1, 1], "at": 1, "text": "SCNT\r", "length": 1}),
    ("4 the first of two", sample_file(3, b"MTID T\x80\x81"),
     "4 byte not permitted: line 3 (physical line 3)",
     "MTID T\\x80\\x81",
     "      ^^^^", {"line": 3, "physical": [3, 3], "at": 3, "text": "MTID T\x80\x81", "length": 1}),
    ("4 behind a Latin letter", sample_file(3, b"MTID \xe9\x7f"),
     "4 byte not permitted: line 3 (physical line 3)",
     "MTID \u00e9\\x7F",
     "      ^^^^", {"line": 3, "physical": [3, 3], "at": 3, "text": "MTID \u00e9\x7f", "length": 1}),
    ("4 in the description", sample_file(2, b"tabs\tand\x9fbytes\n////"),
     "4 byte not permitted: line 2 (physical line 2)",
     "tabs and\\x9Fbytes",
     "        ^^^^", {"line": 2, "physical": [2, 2], "at": 2, "text": "tabs\tand\x9fbytes", "length": 1}),
    ("7 another code", sample_file(1, b"SCNTX"),
     "7 another line code expected, or no line left: line 1, field 1 (physical line 1)",
     "SCNTX",
     "^^^^^", {"line": 1, "field": 1, "physical": [1, 1]}),
    ("7 behind blanks", sample_file(8, b" \t ETOB x"),
     "7 another line code expected, or no line left: line 8, field 1 (physical line 8)",
     "   ETOB x",
     "   ^^^^", {"line": 8, "field": 1, "physical": [8, 8], "text": " \t ETOB x"}),
    ("7 an empty line", sample_file(7, b""),
     "7 another line code expected, or no line left: line 7, field 1 (physical line 7)",
     "",
     "^", {"line": 7, "field": 1, "physical": [7, 7], "length": 0}),
    ("7 blanks alone", sample_file(7, b"   "),
     "7 another line code expected, or no line left: line 7, field 1 (physical line 7)",
     "   ",
     "   ^", {"line": 7, "field": 1, "physical": [7, 7], "length": 0}),
    ("7 no line left", b"SCNT\n////\nMTID T\n",
     "7 another line code expected, or no line left: line 4, field 1 (behind physical line 3, the last)",
     None, None, {"line": 4, "field": 1}),
    ("7 no end of the description", sample_file(2, b" ////"),
     "7 another line code expected, or no line left: line 19, field 1 (behind physical line 18, the last)",
     None, None, {"line": 19, "field": 1}),
    ("7 no line left behind cuts", cut_line(b"SCNT", (1, 2, 3), (b"\r\n",)),
     "7 another line code expected, or no line left: line 2, field 1 (behind physical line 4, the last)",
     None, None, {"line": 2, "field": 1}),
    ("7 an empty file", b"",
     "7 another line code expected, or no line left: line 1, field 1 (the file is empty)",
     None, None, {"line": 1, "field": 1}),
    ("7 a line behind ENDE", sample_file() + b"more lines\n",
     "7 another line code expected, or no line left: line 19, field 1 (physical line 19)",
     "more lines",
     "^^^^", {"line": 19, "field": 1, "physical": [19, 19]}),
    ("7 ELIN right behind STPT", sample_file(12, b"ELIN"),
     "7 another line code expected, or no line left: line 12, field 1 (physical line 12)",
     "ELIN",
     "^^^^", {"line": 12, "field": 1, "physical": [12, 12]}),
    ("8 MOTR", sample_file(3, b"MOTR T"),
     "8 MOTR in place of MTID: line 3, field 1 (physical line 3)",
     "MOTR T",
     "^^^^", {"line": 3, "field": 1, "physical": [3, 3]}),
    ("9 transfer", sample_file(3, b"MTID Transfer"),
     "9 name wrong or not in order: line 3, field 2 (physical line 3)",
     "MTID Transfer",
     "     ^^^^^^^^", {"line": 3, "field": 2, "physical": [3, 3]}),
    ("9 topic", sample_file(5, b"TOPI   Netze"),
     "9 name wrong or not in order: line 5, field 2 (physical line 5)",
     "TOPI   Netze",
     "       ^^^^^", {"line": 5, "field": 2, "physical": [5, 5]}),
    ("10 at TABL", sample_file(6, b"TABL Leitung"),
     "10 mandatory table skipped: line 6, field 2 (physical line 6)",
     "TABL Leitung",
     "     ^^^^^^^", {"line": 6, "field": 2, "physical": [6, 6]}),
    ("10 at ETOP", parts.file_of(parts.SAMPLE_LINES[:8] + [b"ETOP", b"EMOD", b"ENDE"]),
     "10 mandatory table skipped: line 9, field 1 (physical line 9)",
     "ETOP",
     "^^^^", {"line": 9, "field": 1, "physical": [9, 9]}),
    ("11 a field missing", sample_file(10, b"OBJE p1 k1"),
     "11 field missing or extra: line 10, field 4 (physical line 10)",
     "OBJE p1 k1",
     "           ^", {"line": 10, "field": 4, "physical": [10, 10], "length": 0}),
    ("11 a field missing behind a blank", sample_file(10, b"OBJE p1 k1\t "),
     "11 field missing or extra: line 10, field 4 (physical line 10)",
     "OBJE p1 k1  ",
     "            ^", {"line": 10, "field": 4, "physical": [10, 10], "text": "OBJE p1 k1\t ", "length": 0}),
    ("11 a name missing", sample_file(4, b"MODL"),
     "11 field missing or extra: line 4, field 2 (physical line 4)",
     "MODL",
     "     ^", {"line": 4, "field": 2, "physical": [4, 4], "length": 0}),
    ("11 a field too many", sample_file(10, b"OBJE p1 k1 @ more"),
     "11 field missing or extra: line 10, field 5 (physical line 10)",
     "OBJE p1 k1 @ more",
     "             ^^^^", {"line": 10, "field": 5, "physical": [10, 10]}),
    ("12 a reference", sample_file(10, b"OBJE p1 @ @"),
     "12 undefined where not allowed, mixed coordinate: line 10, field 3 (physical line 10)",
     "OBJE p1 @ @",
     "        ^", {"line": 10, "field": 3, "physical": [10, 10]}),
    ("12 two undefined bytes", sample_file(7, b"OBJE k1 A_1 @@"),
     "12 undefined where not allowed, mixed coordinate: line 7, field 4 (physical line 7)",
     "OBJE k1 A_1 @@",
     "            ^^", {"line": 7, "field": 4, "physical": [7, 7]}),
    ("12 a line", parts.file_of(parts.SAMPLE_LINES[:10] + parts.SAMPLE_LINES[13:]),
     "12 undefined where not allowed, mixed coordinate: line 11, field 1 (physical line 11)",
     "ELIN",
     "^^^^", {"line": 11, "field": 1, "physical": [11, 11]}),
    ("13 no point", sample_file(7, b"OBJE k1 A_1 10 20.5"),
     "13 field has wrong shape: line 7, field 4 (physical line 7)",
     "OBJE k1 A_1 10 20.5",
     "            ^^", {"line": 7, "field": 4, "physical": [7, 7]}),
    ("13 behind tabs", sample_file(7, b"OBJE\tk1\t\tA_1 \t1O.0\t20.5"),
     "13 field has wrong shape: line 7, field 4 (physical line 7)",
     "OBJE k1  A_1  1O.0 20.5",
     "              ^^^^", {"line": 7, "field": 4, "physical": [7, 7], "text": "OBJE\tk1\t\tA_1 \t1O.0\t20.5"}),
    ("13 behind Latin letters", sample_file(7, b"OBJE \xe9\xc4 \xfc\xd8 1O.0 20.5"),
     "13 field has wrong shape: line 7, field 4 (physical line 7)",
     "OBJE \u00e9\u00c4 \u00fc\u00d8 1O.0 20.5",
     "           ^^^^", {"line": 7, "field": 4, "physical": [7, 7]}),
    ("13 a byte of no text", sample_file(7, b"OBJE k1 A\xd7\xf7 10.0 20.5"),
     "13 field has wrong shape: line 7, field 3 (physical line 7)",
     "OBJE k1 A\u00d7\u00f7 10.0 20.5",
     "        ^^^", {"line": 7, "field": 3, "physical": [7, 7]}),
    ("13 a blank that separates nothing", sample_file(7, b"OBJE k1 A\xa0B 10.0 20.5"),
     "13 field has wrong shape: line 7, field 3 (physical line 7)",
     "OBJE k1 A\u00a0B 10.0 20.5",
     "        ^^^", {"line": 7, "field": 3, "physical": [7, 7]}),
    ("14 text too long", sample_file(7, b"OBJE k1 ABCDE 10.0 20.5"),
     "14 outside its domain, text too long: line 7, field 3 (physical line 7)",
     "OBJE k1 ABCDE 10.0 20.5",
     "        ^^^^^", {"line": 7, "field": 3, "physical": [7, 7]}),
    ("14 of Latin letters", sample_file(7, b"OBJE k1 \xe9\xe9\xe9\xe9\xe9 10.0 20.5"),
     "14 outside its domain, text too long: line 7, field 3 (physical line 7)",
     "OBJE k1 \u00e9\u00e9\u00e9\u00e9\u00e9 10.0 20.5",
     "        ^^^^^", {"line": 7, "field": 3, "physical": [7, 7]}),
    ("14 in a point", sample_file(12, b"ARCP 11.0 100.0"),
     "14 outside its domain, text too long: line 12, field 3 (physical line 12)",
     "ARCP 11.0 100.0",
     "          ^^^^^", {"line": 12, "field": 3, "physical": [12, 12]}),
    ("15 used twice", sample_file(10, b"OBJE k1 k1 @"),
     "15 identification used twice: line 10, field 2 (physical line 10)",
     "OBJE k1 k1 @",
     "     ^^", {"line": 10, "field": 2, "physical": [10, 10]}),
    ("17 names nothing", sample_file(10, b"OBJE p1 k9 @"),
     "17 reference names no object of its table: object 1, line 10, field 3 (physical line 10)",
     "OBJE p1 k9 @",
     "        ^^", {"line": 10, "field": 3, "physical": [10, 10], "object": 1}),
    ("17 an object of another table", sample_file(10, b"OBJE p1  p1 @"),
     "17 reference names no object of its table: object 1, line 10, field 3 (physical line 10)",
     "OBJE p1  p1 @",
     "         ^^", {"line": 10, "field": 3, "physical": [10, 10], "object": 1}),
    ("17 behind objects in the description", sample_file(2, b"OBJE a b c\nOBJE d\n////").replace(b"p1 k1", b"p1 k9"),
     "17 reference names no object of its table: object 1, line 12, field 3 (physical line 12)",
     "OBJE p1 k9 @",
     "        ^^", {"line": 12, "field": 3, "physical": [12, 12], "object": 1}),
    # a line that begins with a blank does not end the description
    ("17 behind //// and an object in the description",
     sample_file(2, b" ////\nOBJE a\n\t////\nOBJE b\n////").replace(b"p1 k1", b"p1 k9"),
     "17 reference names no object of its table: object 1, line 14, field 3 (physical line 14)",
     "OBJE p1 k9 @",
     "        ^^", {"line": 14, "field": 3, "physical": [14, 14], "object": 1}),
    ("17 its code cut", sample_file(10, b"OBJE p1 k9 @", (1, 3), (b"\r\n",)),
     "17 reference names no object of its table: object 1, line 10, field 3 (physical lines 10 to 12)",
     "OBJE p1 k9 @",
     "        ^^", {"line": 10, "field": 3, "physical": [10, 12], "object": 1}),
    ("14 cut within the field", sample_file(7, b"OBJE k1 ABCDE 10.0 20.5", (10,)),
     "14 outside its domain, text too long: line 7, field 3 (physical lines 7 to 8)",
     "OBJE k1 ABCDE 10.0 20.5",
     "        ^^^^^", {"line": 7, "field": 3, "physical": [7, 8]}),
    ("14 cut at every byte", sample_file(7, b"OBJE k1 ABCDE 10.0 20.5", range(1, 23), (b"\r\n", b"\n")),
     "14 outside its domain, text too long: line 7, field 3 (physical lines 7 to 29)",
     "OBJE k1 ABCDE 10.0 20.5",
     "        ^^^^^", {"line": 7, "field": 3, "physical": [7, 29]}),
    ("14 behind cuts", sample_file(2, b"////", (1, 1, 1, 2, 4), (b"\r\n",)).replace(b"A_1", b"ABCDE"),
     "14 outside its domain, text too long: line 7, field 3 (physical line 12)",
     "OBJE k1 ABCDE 10.0 20.5",
     "        ^^^^^", {"line": 7, "field": 3, "physical": [12, 12]}),
    ("14 a text's own mark before the cut's", sample_file(7, b"OBJE k1 AB\\CDE 10.0 20.5", (11,)),
     "14 outside its domain, text too long: line 7, field 3 (physical lines 7 to 8)",
     "OBJE k1 AB\\CDE 10.0 20.5",
     "        ^^^^^^", {"line": 7, "field": 3, "physical": [7, 8]}),
    ("14 a line that ends in the mark", sample_file(7, b"OBJE k1 A 10.0 20.5 \\", (21,)),
     "11 field missing or extra: line 7, field 6 (physical lines 7 to 8)",
     "OBJE k1 A 10.0 20.5 \\",
     "                    ^", {"line": 7, "field": 6, "physical": [7, 8]}),
    ("7 a cut of nothing", sample_file(7, b"", (0, 0, 0)),
     "7 another line code expected, or no line left: line 7, field 1 (physical lines 7 to 10)",
     "",
     "^", {"line": 7, "field": 1, "physical": [7, 10], "length": 0}),
    ("11 missing behind cuts", sample_file(10, b"OBJE p1 k1", (4, 5)),
     "11 field missing or extra: line 10, field 4 (physical lines 10 to 12)",
     "OBJE p1 k1",
     "           ^", {"line": 10, "field": 4, "physical": [10, 12], "length": 0}),
    ("14 behind a description with CONT", sample_file(2, b"CONT a\nCONT b \\\nCONT c\nCONT\n////")
     .replace(b"A_1", b"ABCDE"),
     "14 outside its domain, text too long: line 10, field 3 (physical line 11)",
     "OBJE k1 ABCDE 10.0 20.5",
     "        ^^^^^", {"line": 10, "field": 3, "physical": [11, 11]}),
    ("5 CONT without its space", sample_file(7, b"OBJE k1 A_1 10.0 20.5").replace(b"A_1", b"A_\\\nCONT1"),
     "5 mark not followed by CONT and space: line 7 (physical lines 7 to 8, at 8)",
     "CONT1 10.0 20.5",
     "^^^^^", {"line": 7, "physical": [7, 8], "at": 8}),
    ("5 CONT alone", sample_file(1, b"SCNT\\\nCONT"),
     "5 mark not followed by CONT and space: line 1 (physical lines 1 to 2, at 2)",
     "CONT",
     "^^^^", {"line": 1, "physical": [1, 2], "at": 2}),
    ("5 CONT and a tab", sample_file(1, b"SCNT\\\nCONT\tx"),
     "5 mark not followed by CONT and space: line 1 (physical lines 1 to 2, at 2)",
     "CONT x",
     "^^^^^", {"line": 1, "physical": [1, 2], "at": 2, "text": "CONT\tx"}),
    ("5 an empty line", sample_file(1, b"SCNT\\\n"),
     "5 mark not followed by CONT and space: line 1 (physical lines 1 to 2, at 2)",
     "",
     "^", {"line": 1, "physical": [1, 2], "at": 2, "length": 0}),
    ("5 the third line of a cut", sample_file(7, b"OBJE k1\\\nCONT  A_1\\\nCNT 10.0 20.5"),
     "5 mark not followed by CONT and space: line 7 (physical lines 7 to 9, at 9)",
     "CNT 10.0 20.5",
     "^^^^^", {"line": 7, "physical": [7, 9], "at": 9}),
    ("5 a byte not permitted within its first five", sample_file(1, b"SC\\\n\x01NT"),
     "5 mark not followed by CONT and space: line 1 (physical lines 1 to 2, at 2)",
     "\\x01NT",
     "^^^^^^", {"line": 1, "physical": [1, 2], "at": 2, "text": "\x01NT", "length": 3}),
    ("4 in the second line of a cut", sample_file(7, b"OBJE k1 A\\\r\nCONT _\x021 10.0\\\nCONT  20.5"),
     "4 byte not permitted: line 7 (physical lines 7 to 9, at 8)",
     "CONT _\\x021 10.0\\",
     "      ^^^^", {"line": 7, "physical": [7, 9], "at": 8, "text": "CONT _\x021 10.0\\", "length": 1}),
]
# refusals under other models
FORMS = [
    ("18 an arc among straights", parts.one(parts.L1), parts.frame(b"OBJE a", b"STPT 1.0 1.0", b"ARCP 2.0 2.0",
                                                                   b"LIPT 3.0 3.0", b"ELIN"),
     "18 straight or arc not in the forms: line 9, field 1 (physical line 9)",
     "ARCP 2.0 2.0",
     "^^^^", {"line": 9, "field": 1, "physical": [9, 9]}),
    ("18 a straight among arcs", parts.one(parts.L2), parts.frame(b"OBJE a", b"STPT 1.0 1.0", b"LIPT 3.0 3.0",
                                                                  b"ELIN"),
     "18 straight or arc not in the forms: line 9, field 1 (physical line 9)",
     "LIPT 3.0 3.0",
     "^^^^", {"line": 9, "field": 1, "physical": [9, 9]}),
    ("12 a mixed coordinate", parts.one(parts.P_), parts.frame(b"OBJE a 1.0 @"),
     "12 undefined where not allowed, mixed coordinate: line 7, field 4 (physical line 7)",
     "OBJE a 1.0 @",
     "           ^", {"line": 7, "field": 4, "physical": [7, 7]}),
    ("12 two undefined bytes in a coordinate", parts.one(parts.P_), parts.frame(b"OBJE a 1.0 @@"),
     "12 undefined where not allowed, mixed coordinate: line 7, field 4 (physical line 7)",
     "OBJE a 1.0 @@",
     "           ^^", {"line": 7, "field": 4, "physical": [7, 7]}),
    ("14 a day that there is not", parts.one(parts.D), parts.frame(b"OBJE a 19990229"),
     "14 outside its domain, text too long: line 7, field 3 (physical line 7)",
     "OBJE a 19990229",
     "       ^^^^^^^^", {"line": 7, "field": 3, "physical": [7, 7]}),
    ("14 a leaf that there is not", parts.one(parts.E), parts.frame(b"OBJE a 3"),
     "14 outside its domain, text too long: line 7, field 3 (physical line 7)",
     "OBJE a 3",
     "       ^", {"line": 7, "field": 3, "physical": [7, 7]}),
    ("17 the second of two references", parts.one(parts.R_, oracle.reference(b"S", 0, 1)),
     parts.frame(b"OBJE a @ a", b"OBJE b a \xe9", b"OBJE c x y"),
     "17 reference names no object of its table: object 1, line 8, field 4 (physical line 8)",
     "OBJE b a \u00e9",
     "         ^", {"line": 8, "field": 4, "physical": [8, 8], "object": 1}),
    ("2 under a bad model", SAMPLE[:-4], parts.SAMPLE_FILE, "2 model bad: record at byte 186", None, None,
     {"byte": 186}),
    ("2 before a fault of the file", b"", b"\x01", "2 model bad: record at byte 0", None, None, {"byte": 0}),
]
EVERY = [(what, SAMPLE, *rest) for what, *rest in SAID] + FORMS


def as_told(said, line, marks):
    """What is printed about the file a.itf."""
    out = "a.itf: refused, %s\n" % said
    if line is not None:
        out += "    %s\n    %s\n" % (line, marks)
    return out.encode()


def as_json(said, line, marks, numbers):
    number = int(said.split()[0])
    out = {"file": "a.itf", "status": "refused", "number": number, "words": expected.WORDS[number]}
    if line is not None:
        out.update({"text": line, "column": 1 + marks.index("^"), "length": marks.count("^")})
    return {**out, **numbers}


class Said(expected.Folder):
    """Each refusal as it is written here by hand."""

    def told(self, model, file):
        self.made("m.bin", model)
        self.made("a.itf", file)
        return vendorfinch("read", "m.bin", "a.itf", cwd=self.folder)

    def test_every_number_is_here(self):
        numbers = {int(said.split()[0]) for _, _, _, said, _, _, _ in EVERY}
        self.assertEqual(numbers, {2, 3, 4, 5, 7, 8, 9, 10, 11, 12, 13, 14, 15, 17, 18})

    def test_by_the_rules(self):
        """What is written here is what the rules say: number and place are those of the independent implementation."""
        for what, model, file, said, line, marks, numbers in EVERY:
            with self.subTest(what):
                self.assertEqual(expected.told(model, file, "a.itf"), as_told(said, line, marks))
                self.assertEqual(expected.as_json(model, file, "a.itf"), as_json(said, line, marks, numbers))

    def test_in_text(self):
        for what, model, file, said, line, marks, _ in EVERY:
            with self.subTest(what):
                self.assertEqual(self.told(model, file), (1, as_told(said, line, marks), b""))

    def test_in_json(self):
        for what, model, file, said, line, marks, numbers in EVERY:
            with self.subTest(what):
                self.made("m.bin", model)
                self.made("a.itf", file)
                status, out, err = vendorfinch("read", "--json", "m.bin", "a.itf", cwd=self.folder)
                self.assertEqual((status, err), (1, b""))
                self.assertEqual(out.count(b"\n"), 1)
                self.assertEqual(json.loads(out), as_json(said, line, marks, numbers))

    def test_json_as_in_the_man_page(self):
        """Its example, byte by byte."""
        self.made("b.itf", b"SCNT\n// a\\\nCONT  description\n" + sample_file(7, b"OBJE k1 ABCDE 10.0 20.5", (9,))[5:])
        # one line more in the description, and two physical ones
        self.answers(["read", "--json", "model.bin", "b.itf"], 1,
                     b'{"file": "b.itf", "status": "refused", "number": 14, '
                     b'"words": "outside its domain, text too long", "line": 8, "field": 3, "physical": [9, 10], '
                     b'"text": "OBJE k1 ABCDE 10.0 20.5", "column": 9, "length": 5}\n')

    def test_text_as_in_the_man_page(self):
        self.made("FILE", sample_file(1, b"SCNT", (2,))[:-5] + b"ENDE\n")
        file = (self.folder / "FILE").read_bytes().replace(b"A_1", b"AB\\\nCONT CDE")
        self.made("FILE", file)
        self.answers(["read", "model.bin", "FILE"], 1, b"""\
FILE: refused, 14 outside its domain, text too long: line 7, field 3 (physical lines 8 to 9)
    OBJE k1 ABCDE 10.0 20.5
            ^^^^^
""")

    def test_file_too_long(self):
        self.made("a.itf", expected.bordered(LIMIT + 1))
        self.answers(["read", "model.bin", "a.itf"], 1, b"a.itf: refused, 1 file above 16,777,216 bytes\n")
        status, out, err = vendorfinch("read", "--json", "model.bin", "a.itf", cwd=self.folder)
        self.assertEqual((status, err), (1, b""))
        self.assertEqual(json.loads(out), {"file": "a.itf", "status": "refused", "number": 1,
                                           "words": "file above 16,777,216 bytes"})
        # 1 comes before 2
        self.made("bad.bin", b"")
        self.answers(["read", "bad.bin", "a.itf"], 1, b"a.itf: refused, 1 file above 16,777,216 bytes\n")


class OtherCommands(expected.Folder):
    """The refusals as the other commands say them: `list`, `unfold` and `write` on standard error, `verify` as `read`
    does."""

    def test_every_refusal(self):
        for what, model, file, said, line, marks, numbers in EVERY:
            with self.subTest(what):
                self.made("m.bin", model)
                self.made("a.itf", file)
                told = as_told(said, line, marks)
                number, place, field, _ = expected.answer_of(model, file)
                self.answers(["list", "m.bin", "a.itf"], 1, b"%d %d %d 0\n" % (number, place, field), told)
                self.answers(["write", "m.bin", "a.itf"], 1, b"", told)
                self.answers(["verify", "m.bin", "a.itf"], 1, told)
                if number in (2, 3, 4, 5):
                    self.answers(["unfold", "m.bin", "a.itf"], 1, b"", told)
                else:
                    self.answers(["unfold", "m.bin", "a.itf"], 0, expected.unfolded(model, file))
                status, out, err = vendorfinch("verify", "--json", "m.bin", "a.itf", cwd=self.folder)
                self.assertEqual((status, err), (1, b""))
                self.assertEqual(json.loads(out), as_json(said, line, marks, numbers))

    def test_widths(self):
        self.made("a.itf", parts.SAMPLE_FILE)
        told = b"a.itf: refused, 20 writing: width not 16 to 65,535\n"
        for width in ("0", "1", "15", "65536", "99999999999999999999", "18446744073709551632", "4294967376"):
            with self.subTest(width):
                self.answers(["write", "--width", width, "model.bin", "a.itf"], 1, b"", told)
                self.answers(["verify", "--width", width, "model.bin", "a.itf"], 1, told)
                status, out, err = vendorfinch("verify", "--json", "--width", width, "model.bin", "a.itf",
                                               cwd=self.folder)
                self.assertEqual((status, err), (1, b""))
                self.assertEqual(json.loads(out), {"file": "a.itf", "status": "refused", "number": 20,
                                                   "words": "writing: width not 16 to 65,535"})

    def test_a_fault_of_the_file_comes_before_the_width(self):
        self.made("a.itf", sample_file(7, b"OBJE k1 ABCDE 10.0 20.5"))
        told = expected.told(SAMPLE, (self.folder / "a.itf").read_bytes(), "a.itf")
        self.answers(["write", "--width", "15", "model.bin", "a.itf"], 1, b"", told)
        self.answers(["verify", "--width", "15", "model.bin", "a.itf"], 1, told)

    def test_a_table_too_long_to_be_written(self):
        """60 undefined fields for two bytes: what was read is above 16 MiB when it is written."""
        model = parts.one(*[oracle.date(b"D%d" % n, 1) for n in range(60)])
        self.made("m.bin", model)
        file = parts.frame(*[b"OBJE %07d @@" % n for n in range(80000)])
        self.made("a.itf", file)
        line = len(oracle.cut_line(0x5C, 16, b"OBJE 0000000" + b" @" * 60))
        self.assertGreater(80000 * line, LIMIT)
        self.made("out.itf", b"before")
        self.answers(["read", "m.bin", "a.itf"], 0, b"a.itf: read, 80000 objects, %d cells, 0 points\n" % (80000 * 123))
        told = b"a.itf: refused, 21 writing: output room or 16,777,216 bytes too small\n"
        self.answers(["write", "--width", "16", "-o", "out.itf", "m.bin", "a.itf"], 1, b"", told)
        self.assertEqual((self.folder / "out.itf").read_bytes(), b"before")
        self.assertEqual(sorted(p.name for p in self.folder.iterdir()), ["a.itf", "m.bin", "model.bin", "out.itf"])
        self.answers(["write", "--width", "16", "m.bin", "a.itf"], 1, b"", told)
        status, out, err = vendorfinch("verify", "--json", "--width", "16", "m.bin", "a.itf", cwd=self.folder)
        self.assertEqual((status, err), (1, b""))
        self.assertEqual(json.loads(out), {"file": "a.itf", "status": "refused", "number": 21,
                                           "words": "writing: output room or 16,777,216 bytes too small"})


def texts(number):
    """A model of one table of so many texts."""
    return parts.one(*[oracle.text(b"X%d" % n, 1000) for n in range(number)])


class LongLines(expected.Folder):
    """A line of 60,000 bytes is shown around its fault."""

    def shown(self, model, file):
        """The shown line, and column and length of its marks; JSON has the whole line."""
        self.made("m.bin", model)
        self.made("a.itf", file)
        refused = expected.refused(model, file)
        status, out, err = vendorfinch("read", "m.bin", "a.itf", cwd=self.folder)
        self.assertEqual((status, err), (1, b""))
        first, text, marks, end = out.decode().split("\n")
        self.assertEqual((first, end), (refused.first_line("a.itf"), ""))
        self.assertRegex(marks, r"\A {4,}\^+\Z")
        self.assertEqual(text[:4], "    ")
        column, length, text = marks.index("^") - 4, marks.count("^"), text[4:]
        expected.marked_rightly(self, text, column, length, refused)
        status, out, err = vendorfinch("read", "--json", "m.bin", "a.itf", cwd=self.folder)
        self.assertEqual((status, err), (1, b""))
        self.assertEqual(json.loads(out), refused.as_json("a.itf"))
        return text, column, length

    def test_in_the_middle(self):
        """The field can be told by its own bytes, and stands where the marks are."""
        values = [b"%06d" % (7 * n) + b"v" * 933 for n in range(64)]
        values[31] = b"%06d" % 217 + b"v" * 500 + b"\xd7" + b"v" * 432
        line = b"OBJE a " + b" ".join(values)
        self.assertGreater(len(line), 60000)
        text, column, length = self.shown(texts(64), parts.frame(line))
        self.assertTrue(text.startswith("...") and text.endswith("..."), text)
        self.assertIn("000217vvv", text)
        self.assertEqual(text[column:column + 9], "000217vvv")

    def test_a_short_field_in_the_middle(self):
        line = b"OBJE a " + b" ".join(b"n%04d" % n for n in range(10000))
        model = parts.one(parts.D)
        text, column, length = self.shown(model, parts.frame(line.replace(b"n0000", b"20260101")))
        self.assertEqual(text[column:column + length], "n0001")
        self.assertTrue(text.endswith("...") and not text.startswith("..."), text)
        model = texts(30)
        values = [b"%04d" % n + b"v" * 900 for n in range(30)]
        values[14] = b"a\xf7b"
        text, column, length = self.shown(model, parts.frame(b"OBJE a " + b" ".join(values)))
        self.assertEqual(text[column:column + length], "a\u00f7b")
        self.assertTrue(text.startswith("...") and text.endswith("..."), text)

    def test_at_the_end(self):
        values = [b"%06d" % n + b"v" * 990 for n in range(63)]
        line = b"OBJE a " + b" ".join(values) + b" a\xd7"
        self.assertGreater(len(line), 60000)
        text, column, length = self.shown(texts(64), parts.frame(line))
        self.assertEqual(text[column:], "a\u00d7")
        self.assertTrue(text.startswith("..."), text)

    def test_missing_at_the_end(self):
        values = [b"%06d" % n + b"v" * 990 for n in range(63)]
        text, column, length = self.shown(texts(64), parts.frame(b"OBJE a " + b" ".join(values)))
        self.assertEqual((column, length), (len(text) + 1, 1))
        self.assertTrue(text.startswith("...") and text.endswith("vvvvv"), text)

    def test_at_the_beginning(self):
        text, column, length = self.shown(SAMPLE, sample_file(1, b"SCNTX " + b"y" * 60000))
        self.assertEqual((text[:7], column, length), ("SCNTX y", 0, 5))
        self.assertTrue(text.endswith("..."), text)

    def test_cut_to_80_columns(self):
        values = [b"%06d" % n + b"v" * 990 for n in range(63)]
        line = b"OBJE a " + b" ".join(values) + b" a\xd7"
        file = parts.frame().replace(b"ETAB\n", cut_line(line, range(80, len(line), 75)) + b"ETAB\n", 1)
        refused = expected.refused(texts(64), file)
        self.assertGreater(refused.parts["physical"][1], 800)
        text, column, length = self.shown(texts(64), file)
        self.assertEqual(text[column:], "a\u00d7")

    def test_of_latin_letters(self):
        """Columns are of characters, not of the bytes of UTF-8."""
        line = b"OBJE \xe9 " + b"\xe4" * 30000 + b" 1O.0 " + b"\xfc" * 30000
        model = parts.one(oracle.text(b"X", 65535), oracle.number(b"Z", (1, 0, 999)), oracle.text(b"Y", 65535))
        text, column, length = self.shown(model, parts.frame(line))
        self.assertEqual(text[column:column + length], "1O.0")
        self.assertTrue(text.startswith("...") and text.endswith("..."), text)

    def test_a_field_longer_than_what_is_shown(self):
        line = b"OBJE a b" + b"z" * 60000
        text, column, length = self.shown(parts.one(oracle.text(b"X", 4)), parts.frame(line))
        self.assertEqual(text[column:column + 4], "bzzz")
        self.assertGreater(length, 20)

    def test_a_byte_not_permitted(self):
        line = b"OBJE a " + b"v" * 30000 + b"\x01" + b"w" * 30000
        text, column, length = self.shown(parts.one(parts.D), parts.frame(line))
        self.assertEqual(text[column:column + length], "\\x01")
        self.assertTrue(text.startswith("...v") and text.endswith("w..."), text)
        text, column, length = self.shown(parts.one(parts.D), parts.frame(b"OBJE a " + b"\x02" * 60000))
        self.assertEqual((column, text[column:column + length]), (7, "\\x02"))

    def test_no_end(self):
        text, column, length = self.shown(SAMPLE, sample_file() + b"abc" * 20000)
        self.assertTrue(text.startswith("...") and text.endswith("abcabc"), text)
        self.assertEqual((column, length), (len(text), 1))

    def test_no_continuation(self):
        text, column, length = self.shown(SAMPLE, sample_file(1, b"SCNT\\\n" + b"x" * 60000))
        self.assertTrue(text.startswith("xxxxx") and text.endswith("..."), text)
        self.assertEqual((column, length), (0, 5))

    def test_every_length(self):
        """From surely whole to surely not, the fault at the beginning, in the middle and at the end."""
        for length in [*range(50, 260, 7), 300, 1000]:
            for at in (0, length // 2, length - 5):
                with self.subTest([length, at]):
                    line = b"a" * at + b" b\xd7c " + b"d" * (length - at - 5)
                    model = parts.one(oracle.text(b"X", 2000), oracle.text(b"Y", 4), oracle.text(b"Z", 2000))
                    if at == 0:
                        model = parts.one(oracle.text(b"Y", 4), oracle.text(b"Z", 2000))
                    text, column, marks = self.shown(model, parts.frame(b"OBJE a " + line))
                    self.assertEqual(text[column:column + marks], "b\u00d7c")
                    if length + 7 <= expected.SHOWN_WHOLE:
                        self.assertEqual(text.split(), ("OBJE a " + line.decode("latin-1")).split())


class Property(expected.Folder):
    """Random files with faults, cut at random, many at a time."""

    def files(self, rng, model, number):
        """Files of the model's grammar, damaged and cut or cut and damaged."""
        m = oracle.decode(model)
        mark, special = bytes([m.mark]), bytes([m.blank, m.undefined, m.mark])
        out = []
        while len(out) < number:
            lines = parts.random_lines(rng, m)
            often, cr = rng.choice((0, 0.2, 0.5, 0.8)), rng.choice((0, 0.3, 1))
            if rng.random() < 0.7:
                damaged = parts.random_damage(rng, parts.file_of(lines), special)
                lines = damaged.split(b"\n")
                last = lines.pop()
                file = parts.cut(rng, mark, lines, often, cr) + last
            else:
                file = parts.random_damage(rng, parts.cut(rng, mark, lines, often, cr), special)
            out.append(file)
        return out

    def held(self, model, files):
        """Reads all of them at once and holds each answer to the rules, in JSON and in text."""
        self.made("m.bin", model)
        names = ["%d.itf" % n for n in range(len(files))]
        for name, file in zip(names, files):
            self.made(name, file)
        status, out, err = vendorfinch("read", "--json", "--jobs", "2", "m.bin", *names, cwd=self.folder)
        answers = [expected.as_json(model, file, name) for name, file in zip(names, files)]
        worst = max(answer["status"] == "refused" for answer in answers)
        self.assertEqual((status, err), (int(worst), b""))
        lines = out.decode().split("\n")
        self.assertEqual(len(lines), len(files) + 1)
        for answer, line, file in zip(answers, lines, files):
            self.assertEqual(json.loads(line), answer, "%r" % file)
        refused = sum(answer["status"] == "refused" for answer in answers)
        status, out, err = vendorfinch("read", "m.bin", *names, cwd=self.folder)
        self.assertEqual((status, err), (int(worst), b""))
        lines = out.decode().split("\n")
        for name, file in zip(names, files):
            told = expected.told(model, file, name).decode().split("\n")[:-1]
            self.shown(told, lines[:len(told)], model, file)
            del lines[:len(told)]
        self.assertEqual(lines, ["%d files: %d read, %d refused, 0 not read" % (len(files), len(files) - refused,
                                                                              refused), ""])
        return refused

    def shown(self, told, got, model, file):
        """Holds what is said of one file to what is expected; a long line may be left off at its ends."""
        if max(map(len, told[1:]), default=0) <= expected.SHOWN_WHOLE:
            self.assertEqual(got, told, "%r" % file)
            return
        self.assertEqual((len(got), got[0], got[1][:4]), (3, told[0], "    "))
        self.assertRegex(got[2], r"\A {4,}\^+\Z")
        expected.marked_rightly(self, got[1][4:], got[2].index("^") - 4, got[2].count("^"),
                                expected.refused(model, file))

    def test_random_models(self):
        rng = random.Random(1848)
        refused = 0
        for n in range(60):
            with self.subTest(n):
                model = parts.random_model(rng)
                refused += self.held(model, self.files(rng, model, 40))
        self.assertGreater(refused, 1000)

    def test_the_sample_and_a_rich_file(self):
        rng = random.Random(1874)
        for model, lines in ((SAMPLE, parts.SAMPLE_LINES), (parts.RICH_MODEL, parts.RICH_LINES)):
            files = []
            while len(files) < 600:
                damaged = parts.random_damage(rng, parts.file_of(lines), b"_@\\").split(b"\n")
                last = damaged.pop()
                files.append(parts.cut(rng, b"\\", damaged, rng.choice((0.1, 0.5, 0.9))) + last)
            self.assertGreater(self.held(model, files), 400)

    def test_every_case_of_the_documents(self):
        """Every reading of the rules, under its model."""
        by_model = {}
        for case in language.all_cases():
            if case.call == "read" and oracle.check(case.model)[0] == 0:
                by_model.setdefault(case.model, []).append(case.file)
        self.assertGreater(sum(map(len, by_model.values())), 300)
        for model, files in by_model.items():
            with self.subTest(model):
                self.held(model, files + files[:1])

    def test_every_byte_of_the_sample_changed(self):
        files = []
        for at in range(len(parts.SAMPLE_FILE)):
            for byte in b"\x01@\\\n \xe9":
                changed = bytearray(parts.SAMPLE_FILE)
                changed[at] = byte
                files.append(bytes(changed))
        self.assertGreater(self.held(SAMPLE, files), 600)
