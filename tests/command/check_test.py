"""`check`: a model in words, and models that are bad."""
import random

import expected
from expected import count, language, oracle, parts
from oracle import (coordinate, date, end, enumeration, line, model_record, number, reference, table, text, topic,
                    transfer)

SAMPLE = b"""\
transfer T, model M: 1 topic, 2 tables, 5 attributes
blank _, undefined @, continuation \\
topic Netz
  table Knoten
    Nr: text of at most 4 bytes
    Lage: coordinate, 0.0 to 99.9, 0.0 to 99.9
  table Leitung
    Von: reference to Knoten
    Tiefe: number, -5.00 to 9.99, optional
    Verlauf: line of straights and arcs, 0.0 to 99.9, 0.0 to 99.9
"""
PLAN = [(2, 48000000, 84000000), (2, -1, 0), (0, 0, 5000)]
EVERY_TYPE = (
    transfer(b"Kanton_1", b"!#$") + model_record(b"Leitungen") + topic(b"Wasser")
    + table(b"Schacht", 1) + enumeration(b"Art", 3) + date(b"Datum") + enumeration(b"Form", 65535, 1)
    + date(b"Ende", 1) + text(b"Name", 65535, 1)
    + table(b"Rohr") + line(b"Gerade", 1, PLAN[:2]) + line(b"Bogen", 2, PLAN[:2], 1) + line(b"Hoch", 3, PLAN, 1)
    + reference(b"Von", 0, 1) + reference(b"Nach", 1) + coordinate(b"Ort", PLAN) + coordinate(b"Ziel", PLAN[:2], 1)
    + number(b"Dicke", (9, -1, 1)) + number(b"Zahl", (0, 1 - 10 ** 18, 10 ** 18 - 1), 1)
    + topic(b"Gas") + table(b"Schacht") + reference(b"Selbst", 2) + end())
EVERY_TYPE_TOLD = b"""\
transfer Kanton_1, model Leitungen: 2 topics, 3 tables, 15 attributes
blank !, undefined #, continuation $
topic Wasser
  table Schacht, optional
    Art: enumeration of 3 leaves
    Datum: date
    Form: enumeration of 65535 leaves, optional
    Ende: date, optional
    Name: text of at most 65535 bytes, optional
  table Rohr
    Gerade: line of straights, 480000.00 to 840000.00, -0.01 to 0.00
    Bogen: line of arcs, 480000.00 to 840000.00, -0.01 to 0.00, optional
    Hoch: line of straights and arcs, 480000.00 to 840000.00, -0.01 to 0.00, 0 to 5000, optional
    Von: reference to Schacht, optional
    Nach: reference to Rohr
    Ort: coordinate, 480000.00 to 840000.00, -0.01 to 0.00, 0 to 5000
    Ziel: coordinate, 480000.00 to 840000.00, -0.01 to 0.00, optional
    Dicke: number, -0.000000001 to 0.000000001
    Zahl: number, -999999999999999999 to 999999999999999999, optional
topic Gas
  table Schacht
    Selbst: reference to Schacht
"""


def attribute_words(m, a):
    """An attribute's type in words."""
    ranges = ", ".join("%s to %s" % tuple(oracle.number_digits(c.decimals, v).decode() for v in (c.least, c.greatest))
                       for c in a.components)
    words = {oracle.REFERENCE: lambda: "reference to " + m.tables[a.table].name.decode(),
             oracle.COORDINATE2: lambda: "coordinate, " + ranges, oracle.COORDINATE3: lambda: "coordinate, " + ranges,
             oracle.NUMBER: lambda: "number, " + ranges,
             oracle.TEXT: lambda: "text of at most " + count(a.longest, "byte"), oracle.DATE: lambda: "date",
             oracle.ENUMERATION: lambda: "enumeration of %s" % ("1 leaf" if a.leaves == 1 else
                                                                 "%d leaves" % a.leaves),
             oracle.LINE: lambda: "line of %s, %s" % ({1: "straights", 2: "arcs", 3: "straights and arcs"}[a.forms],
                                                      ranges)}[a.kind]()
    return words + (", optional" if a.optional else "")


def in_words(model):
    """What `check` prints for a good model."""
    m = oracle.decode(model)
    out = ["transfer %s, model %s: %s, %s, %s" % (
        m.transfer.decode(), m.name.decode(), count(len(m.topics), "topic"), count(len(m.tables), "table"),
        count(sum(len(t.attributes) for t in m.tables), "attribute"))]
    out.append("blank %c, undefined %c, continuation %c" % (m.blank, m.undefined, m.mark))
    for number_, name in enumerate(m.topics):
        out.append("topic " + name.decode())
        for t in (m.tables[n] for n in m.tables_of(number_)):
            out.append("  table " + t.name.decode() + (", optional" if t.optional else ""))
            out += ["    %s: %s" % (a.name.decode(), attribute_words(m, a)) for a in t.attributes]
    return "".join(words + "\n" for words in out).encode()


class Good(expected.Folder):
    def told(self, model, out):
        self.made("a.bin", model)
        self.answers(["check", "a.bin"], 0, out)

    def test_sample(self):
        self.told(parts.SAMPLE_MODEL, SAMPLE)
        self.assertEqual(in_words(parts.SAMPLE_MODEL), SAMPLE)

    def test_every_type(self):
        self.told(EVERY_TYPE, EVERY_TYPE_TOLD)
        self.assertEqual(in_words(EVERY_TYPE), EVERY_TYPE_TOLD)

    def test_one_of_each(self):
        self.told(transfer() + model_record() + topic(b"N") + table(b"A") + date(b"D") + end(), b"""\
transfer T, model M: 1 topic, 1 table, 1 attribute
blank _, undefined @, continuation \\
topic N
  table A
    D: date
""")

    def test_one_byte_and_one_leaf(self):
        self.told(parts.one(text(b"X", 1), enumeration(b"E", 1)), b"""\
transfer T, model M: 1 topic, 1 table, 2 attributes
blank _, undefined @, continuation \\
topic N
  table A
    X: text of at most 1 byte
    E: enumeration of 1 leaf
""")

    def test_longest_names(self):
        model = (transfer(b"T" * 63) + model_record(b"M" * 63) + topic(b"N" * 24) + table(b"A" * 24) + date(b"D" * 24)
                 + end())
        self.told(model, in_words(model))

    def test_limits(self):
        """64 topics, 512 tables, 64 attributes, and a model of 65,536 bytes."""
        whole = parts.model_of_size(65536)
        self.assertEqual(len(whole), 65536)
        for model in (parts.many("topics", 64), parts.many("tables", 512), parts.many("attributes", 64), whole):
            self.told(model, in_words(model))

    def test_every_special_byte(self):
        bytes_ = [c for c in range(0x21, 0x7F) if oracle.special_byte_ok(c)]
        for n in range(len(bytes_)):
            special = bytes((bytes_ + bytes_)[n:n + 3])
            model = parts.head(b"T", special) + topic(b"N") + table(b"A") + date(b"D") + end()
            with self.subTest(special):
                self.told(model, in_words(model))

    def test_random_models(self):
        rng = random.Random(31)
        for n in range(150):
            model = parts.random_model(rng)
            with self.subTest(n):
                self.told(model, in_words(model))

    def test_a_name_with_spaces(self):
        self.made("a model.bin", parts.SAMPLE_MODEL)
        self.answers(["check", "a model.bin"], 0, SAMPLE)


class Bad(expected.Folder):
    def bad(self, model, byte):
        self.made("a.bin", model)
        self.answers(["check", "a.bin"], 1, b"a.bin: refused, 2 model bad: record at byte %d\n" % byte)

    def test_without_its_end(self):
        self.bad(parts.SAMPLE_MODEL[:-4], 186)

    def test_empty(self):
        self.bad(b"", 0)

    def test_too_long(self):
        self.bad(parts.SAMPLE_MODEL.ljust(65537, b"\0"), 0)
        self.bad(parts.SAMPLE_MODEL.ljust(65536, b"\0"), 190)
        self.bad(parts.SAMPLE_MODEL.ljust(2000000, b"\0"), 0)

    def test_without_end_of_input(self):
        """A model that never ends is too long."""
        self.answers(["check", "/dev/zero"], 1, b"/dev/zero: refused, 2 model bad: record at byte 0\n")

    def test_standard_input(self):
        self.answers(["check", "-"], 1, b"-: refused, 2 model bad: record at byte 186\n",
                     input=parts.SAMPLE_MODEL[:-4])

    def test_every_model_of_the_documents(self):
        """Every model whose answer is derived by hand."""
        checked = [case for case in language.all_cases() if case.call == "check"]
        self.assertGreater(len(checked), 100)
        for case in checked:
            with self.subTest(case.name):
                refusal, byte = case.expected.answer[:2]
                if refusal:
                    self.bad(case.model, byte)
                else:
                    self.made("a.bin", case.model)
                    self.answers(["check", "a.bin"], 0, in_words(case.model))

    def test_every_beginning_of_the_sample(self):
        for length in range(0, len(parts.SAMPLE_MODEL)):
            with self.subTest(length):
                number_, byte, _, _ = oracle.check(parts.SAMPLE_MODEL[:length])
                self.assertEqual(number_, 2)
                self.bad(parts.SAMPLE_MODEL[:length], byte)

    def test_not_there(self):
        err = self.fails(["check", "none.bin"])
        self.assertIn(b"none.bin", err)
        self.assertIn(b"No such file or directory", err)

    def test_a_directory(self):
        (self.folder / "d").mkdir()
        self.assertIn(b"directory", self.fails(["check", "d"]))
