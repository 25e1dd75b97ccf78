"""vendorfinch export: the CSV files byte for byte, how GDAL reads them, and that a failure changes none of them."""
import pathlib
import re
import resource
import shutil
import subprocess
import sys
import tempfile
import unittest

import support

sys.path[:0] = [str(support.ROOT / "tests/oracle"), str(support.ROOT / "tests/cases")]
import exports  # noqa: E402
import language  # noqa: E402
import oracle  # noqa: E402
import reads  # noqa: E402

PLANE = [(1, 0, 999), (2, -9999, 9999)]
SPACE = [(2, 0, 99999), (2, 0, 99999), (3, -9999, 9999)]
WIDEST = 10 ** 18 - 1

# Each type, all optional; a table left out; a table of the same name in another topic.
MODEL = (
    oracle.transfer() + oracle.model_record() + oracle.topic(b"Netz") + oracle.table(b"Knoten")
    + oracle.text(b"Nr", 30, 1) + oracle.coordinate(b"Lage", PLANE, 1) + oracle.coordinate(b"Hoch", SPACE, 1)
    + oracle.number(b"Tiefe", (2, -500, 999), 1) + oracle.number(b"Anzahl", (0, -5, 999999999), 1)
    + oracle.number(b"Gross", (0, -WIDEST, WIDEST), 1) + oracle.number(b"Genau", (1, 0, 10 ** 15), 1)
    + oracle.number(b"Fein", (9, 1 - 10 ** 15, 5), 1) + oracle.date(b"Datum", 1) + oracle.enumeration(b"Art", 12, 1)
    + oracle.reference(b"Nachbar", 0, 1) + oracle.line(b"Verlauf", 3, PLANE, 1) + oracle.line(b"Raum", 3, SPACE, 1)
    + oracle.table(b"Leer", 1) + oracle.number(b"Zahl", (0, 0, 10 ** 9), 0) + oracle.line(b"Weg", 1, PLANE, 0)
    + oracle.topic(b"Plan") + oracle.table(b"Knoten") + oracle.text(b"Wort", 30) + oracle.end())

FILE = """SCNT
Aus Gen\xe8ve
////
MTID T
MODL M
TOPI Netz
TABL Knoten
OBJE k\xe91 A_"1",;__\xe9 10.0 -0.05 1.00 2.00 -3.125 -0.05 -5 -999999999999999999 100000000000000.0 -0.000000001 \
00000229 11 k_2
STPT 10.0 20.50
LIPT 11.0 21.00
ELIN
STPT 1.00 2.00 0.000
ARCP 2.00 3.00 -0.500
LIPT 3.00 2.00 1.000
ELIN
OBJE k_2 @@
ELIN
ELIN
OBJE k"3 _ 0.0 0.00 @ @ @ 0.00 999999999 12345678901 0.1 -999999.999999999 19990228 0 k\xe91
STPT 0.0 0.00
LIPT 1.0 0.00
LIPT 2.0 -0.01
ARCP 3.0 1.00
LIPT 4.0 0.00
ARCP 5.0 -1.00
LIPT 6.0 0.00
LIPT 7.0 0.00
ARCP 8.0 1.00
LIPT 9.0 0.00
ELIN
STPT 1.00 2.00 3.000
ARCP 2.00 3.00 3.000
LIPT 3.00 2.00 3.000
LIPT 4.00 2.00 3.500
ELIN
ETAB
ETOP
TOPI Plan
TABL Knoten
OBJE p1 \xc0\xff,"
ETAB
ETOP
EMOD
ENDE
""".encode("latin-1")

# Components and their columns' types: as wide as the widest of the two bounds, and no wider than GDAL keeps each digit.
NUMBERS = [
    ((0, -999999999, 999999999), "Integer"), ((0, 1 - 10 ** 9, 10 ** 9), "Integer64"), ((0, -10 ** 9, 0), "Integer64"),
    ((0, -WIDEST, WIDEST), "Integer64"), ((2, -500, 999), "Real(5.2)"), ((2, 1, 5), "Real(4.2)"),
    ((2, -5, -1), "Real(5.2)"), ((1, -9, 1000), "Real(5.1)"), ((9, 0, 0), "Real(11.9)"),
    ((1, 1 - 10 ** 15, 10 ** 15 - 1), "Real(17.1)"), ((9, 1 - 10 ** 15, 10 ** 15 - 1), "Real(17.9)"),
    ((1, 0, 10 ** 15), "String"), ((9, -10 ** 15, 0), "String"), ((3, -WIDEST, WIDEST), "String"),
]

EXPECTED = {
    "Netz.Knoten.csv":
        '_tid,Nr,Lage,Hoch,Tiefe,Anzahl,Gross,Genau,Fein,Datum,Art,Nachbar,Verlauf,Raum\n'
        '"ké1","A ""1"",;  é","POINT (10.0 -0.05)","POINT Z (1.00 2.00 -3.125)",-0.05,-5,-999999999999999999,'
        '100000000000000.0,-0.000000001,0000-02-29,11,"k_2","LINESTRING (10.0 20.50,11.0 21.00)",'
        '"COMPOUNDCURVE Z (CIRCULARSTRING Z (1.00 2.00 0.000,2.00 3.00 -0.500,3.00 2.00 1.000))"\n'
        '"k_2",,,,,,,,,,,,,\n'
        '"k""3"," ","POINT (0.0 0.00)",,0.00,999999999,12345678901,0.1,-999999.999999999,1999-02-28,0,"ké1",'
        '"COMPOUNDCURVE ((0.0 0.00,1.0 0.00,2.0 -0.01),'
        'CIRCULARSTRING (2.0 -0.01,3.0 1.00,4.0 0.00,5.0 -1.00,6.0 0.00),(6.0 0.00,7.0 0.00),'
        'CIRCULARSTRING (7.0 0.00,8.0 1.00,9.0 0.00))",'
        '"COMPOUNDCURVE Z (CIRCULARSTRING Z (1.00 2.00 3.000,2.00 3.00 3.000,3.00 2.00 3.000),'
        '(3.00 2.00 3.000,4.00 2.00 3.500))"\n',
    "Netz.Knoten.csvt":
        '"String","String","WKT","WKT","Real(5.2)","Integer","Integer64","String","Real(17.9)","Date","Integer",'
        '"String","WKT","WKT"\n',
    "Netz.Leer.csv": '_tid,Zahl,Weg\n',
    "Netz.Leer.csvt": '"String","Integer64","WKT"\n',
    "Plan.Knoten.csv": '_tid,Wort\n"p1","Àÿ,"""\n',
    "Plan.Knoten.csvt": '"String","String"\n',
}

SAMPLE = {
    "Netz.Knoten.csv": '_tid,Nr,Lage\n"k1","A 1","POINT (10.0 20.5)"\n',
    "Netz.Knoten.csvt": '"String","String","WKT"\n',
    "Netz.Leitung.csv":
        '_tid,Von,Tiefe,Verlauf\n"p1","k1",,"COMPOUNDCURVE (CIRCULARSTRING (10.0 20.5,11.0 21.0,12.0 20.5))"\n',
    "Netz.Leitung.csvt": '"String","String","Real(5.2)","WKT"\n',
}


def transfer_of(*lines):
    """A file with these lines of its topics."""
    return b"".join(line + b"\n" for line in (b"SCNT", b"////", b"MTID T", b"MODL M", *lines, b"EMOD", b"ENDE"))


def contents(directory):
    """All that stands in a directory: the bytes of a file, None for a directory."""
    return {path.name: path.read_bytes() if path.is_file() else None for path in directory.iterdir()}


def encoded(expected):
    return {name: content.encode() for name, content in expected.items()}


class Export(unittest.TestCase):
    def setUp(self):
        self.place = pathlib.Path(tempfile.mkdtemp())
        self.addCleanup(shutil.rmtree, self.place)
        self.model, self.file, self.plans = self.place / "model.bin", self.place / "file.itf", self.place / "plans"
        self.model.write_bytes(MODEL)
        self.file.write_bytes(FILE)

    def export(self, model=None, file=None, directory=None, **more):
        """The status and the words on standard error; nothing is ever said on standard output."""
        status, output, error = support.vendorfinch(
            "export", model or self.model, file or self.file, "--csv", directory or self.plans, **more)
        self.assertEqual(output, b"")
        self.assertEqual(error == b"", status == 0, error)
        return status, error

    def done(self, *words, **more):
        self.assertEqual(self.export(*words, **more), (0, b""))
        return contents(self.plans)

    def numbers(self):
        """A model with each of the components, and a file with each one's least and greatest value."""
        self.model.write_bytes(
            oracle.transfer() + oracle.model_record() + oracle.topic(b"N") + oracle.table(b"T")
            + b"".join(oracle.number(b"a%d" % i, one) for i, (one, _) in enumerate(NUMBERS)) + oracle.end())
        least, greatest = [[oracle.number_digits(one[0], one[bound]) for one, _ in NUMBERS] for bound in (1, 2)]
        self.file.write_bytes(transfer_of(
            b"TOPI N", b"TABL T", b" ".join([b"OBJE", b"1", *least]), b" ".join([b"OBJE", b"2", *greatest]), b"ETAB",
            b"ETOP"))
        return least, greatest

    def yesterday(self):
        """Files of another day, two of them with the names of today's."""
        self.plans.mkdir()
        for name in ("Netz.Knoten.csv", "Plan.Knoten.csvt", "notes.txt"):
            (self.plans / name).write_text("yesterday " + name)
        return contents(self.plans)


class Files(Export):
    def test_sample(self):
        self.assertEqual(self.done(support.MODEL, support.FILE), encoded(SAMPLE))

    def test_all_types(self):
        found = self.done()
        for name, content in EXPECTED.items():
            self.assertEqual(found[name].decode(), content, name)
        self.assertEqual(set(found), set(EXPECTED))

    def test_generated(self):
        """The rows are those of a second way, which takes the lines' fields and knows nothing of cells."""
        for name, model, file in reads.good_files(language.read_cases(language.all_cases())):
            with self.subTest(name):
                self.model.write_bytes(model)
                self.file.write_bytes(file)
                found = {name: content for name, content in self.done().items() if name.endswith(".csv")}
                self.assertEqual(found, exports.rows(model, file))
                shutil.rmtree(self.plans)

    def test_types_of_numbers(self):
        self.numbers()
        self.assertEqual(self.done()["N.T.csvt"].decode(), '"String",%s\n' % ",".join('"%s"' % t for _, t in NUMBERS))

    def test_quotation_mark_as_blank_byte(self):
        """It is a space in a text, and doubled in an identification, where blank bytes stay."""
        self.model.write_bytes(
            oracle.transfer(special=b'"@\\') + oracle.model_record() + oracle.topic(b"N") + oracle.table(b"T")
            + oracle.text(b"a", 9) + oracle.end())
        self.file.write_bytes(transfer_of(b"TOPI N", b"TABL T", b'OBJE "1" a"_b', b"ETAB", b"ETOP"))
        self.assertEqual(self.done()["N.T.csv"], b'_tid,a\n"""1""","a _b"\n')

    def test_cut_and_with_either_line_end(self):
        cut = FILE.replace(b"20.50", b"20\\\nCONT .50").replace(b"k_2", b"k\\\nCONT _2").replace(b"\n", b"\r\n")
        self.file.write_bytes(cut)
        self.assertEqual(self.done(), encoded(EXPECTED))

    def test_standard_input(self):
        self.assertEqual(self.done(file="-", input=FILE), encoded(EXPECTED))

    def test_most_tables(self):
        """512 tables in 64 topics; only the last is delivered."""
        tables = b"".join(oracle.table(b"T%d" % i, 1) + oracle.date(b"d", 1) for i in range(8))
        topics = b"".join(oracle.topic(b"N%d" % i) + tables for i in range(64))
        self.model.write_bytes(oracle.transfer() + oracle.model_record() + topics + oracle.end())
        self.file.write_bytes(transfer_of(b"TOPI N63", b"TABL T7", b"OBJE a 20000229", b"ETAB", b"ETOP"))
        found = self.done()
        self.assertEqual(len(found), 1024)
        self.assertEqual(found.pop("N63.T7.csv"), b'_tid,d\n"a",2000-02-29\n')
        self.assertEqual(set(found.values()), {b"_tid,d\n", b'"String","Date"\n'})


class Directory(Export):
    def test_other_files_are_left_alone(self):
        self.yesterday()
        self.assertEqual(self.done(), {**encoded(EXPECTED), "notes.txt": b"yesterday notes.txt"})

    def test_again(self):
        self.assertEqual(self.done(), self.done())

    def test_table_not_delivered_loses_its_rows(self):
        """Yesterday's rows never stand beside today's."""
        self.done()
        self.file.write_bytes(transfer_of())
        found = self.done()
        for name, content in EXPECTED.items():
            self.assertEqual(found[name].decode(), content[:content.index("\n") + 1], name)

    def test_ending_in_a_slash(self):
        self.assertEqual(self.export(directory=f"{self.plans}/"), (0, b""))
        self.assertEqual(contents(self.plans), encoded(EXPECTED))

    def test_is_a_file(self):
        self.plans.write_text("a file")
        status, error = self.export()
        self.assertEqual(status, 2)
        self.assertIn(bytes(self.plans), error)
        self.assertEqual(self.plans.read_text(), "a file")

    def test_is_not_named(self):
        status, output, error = support.vendorfinch("export", self.model, self.file)
        self.assertEqual((status, output), (2, b""))
        self.assertIn(b"--csv", error)

    def test_stands_nowhere(self):
        self.assertEqual(self.export(directory=self.plans / "of" / "today")[0], 2)
        self.assertFalse(self.plans.exists())

    @unittest.skipUnless(pathlib.Path("/proc/self").exists(), "there is no /proc here, where nobody can write")
    def test_cannot_be_written(self):
        for directory in "/proc", "/proc/vendorfinch":
            self.assertEqual(self.export(directory=directory)[0], 2)


class Failure(Export):
    def test_refused_file(self):
        before = self.yesterday()
        self.file.write_bytes(FILE.replace(b"10.0", b"10"))
        self.assertEqual(self.export()[0], 1)
        self.assertEqual(contents(self.plans), before)

    def test_refused_file_makes_no_directory(self):
        self.file.write_bytes(FILE[:-1])
        self.assertEqual(self.export()[0], 1)
        self.assertFalse(self.plans.exists())

    def test_bad_model(self):
        before = self.yesterday()
        self.model.write_bytes(MODEL[:-1])
        self.assertEqual(self.export()[0], 1)
        self.assertEqual(contents(self.plans), before)

    def test_no_such_file(self):
        before = self.yesterday()
        self.assertEqual(self.export(file=self.place / "none.itf")[0], 2)
        self.assertEqual(contents(self.plans), before)

    def test_name_is_a_directory(self):
        """The last name of all: the others stay as they were, and nothing is left beside them."""
        self.yesterday()
        for name in "Plan.Knoten.csvt", "Plan.Knoten.csv", "Netz.Leer.csv":
            with self.subTest(name):
                path = self.plans / name
                path.unlink(missing_ok=True)
                path.mkdir()
                before = contents(self.plans)
                status, error = self.export()
                self.assertEqual(status, 2)
                self.assertIn(bytes(path), error)
                self.assertEqual(contents(self.plans), before)
                path.rmdir()

    def test_disk_full(self):
        """The second file of rows is longer than any file may be here."""
        before = self.yesterday()
        rows = b"".join(b"OBJE q%d wort\n" % i for i in range(1000))
        self.file.write_bytes(FILE.replace(b"OBJE p1", rows + b"OBJE p1"))
        status, error = self.export(
            preexec_fn=lambda: resource.setrlimit(resource.RLIMIT_FSIZE, (8192, 8192)), restore_signals=False)
        self.assertEqual(status, 2)
        self.assertIn(b"Plan.Knoten.csv", error)
        self.assertEqual(contents(self.plans), before)


@unittest.skipUnless(shutil.which("ogrinfo"), "ogrinfo is not installed: what GDAL reads is not compared")
class Gdal(Export):
    def layer(self, name, *options):
        """What GDAL says of a file, without a warning."""
        done = subprocess.run(["ogrinfo", "-al", *options, self.plans / name], stdout=subprocess.PIPE,
                              stderr=subprocess.PIPE, timeout=600, check=True)
        self.assertEqual(done.stderr, b"")
        return done.stdout.decode()

    def fields(self, said):
        return dict(re.findall(r"^(\w+): (\w+) \([\d.]+\)$", said, re.M))

    def shapes(self, said):
        """The geometries' numbers in one way: one GDAL says 10.0 where another says 10."""
        return re.sub(r"(?<=[ (,])-?\d+\.\d+(?=[ ),])", lambda number: "%g" % float(number[0]), said)

    def values(self, said):
        """Of each feature the values of its fields and of its geometries."""
        features = re.split(r"^OGRFeature\(.*\):\d+$", said, flags=re.M)[1:]
        return [dict(re.findall(r"^  (\w+)(?: \(\w+\))? = (.*)$", feature, re.M)) for feature in features]

    def test_sample(self):
        self.done(support.MODEL, support.FILE)
        said = self.layer("Netz.Knoten.csv")
        self.assertIn("Feature Count: 1\n", said)
        self.assertIn("Geometry Column = geom_Lage\n", said)
        self.assertIn("\n  POINT (10 20.5)\n", self.shapes(said))
        said = self.layer("Netz.Leitung.csv")
        self.assertIn("\n  COMPOUNDCURVE (CIRCULARSTRING (10 20.5,11 21,12 20.5))\n", self.shapes(said))
        self.assertEqual(self.fields(said), {"_tid": "String", "Von": "String", "Tiefe": "Real", "Verlauf": "String"})

    def test_fields(self):
        self.done()
        self.assertEqual(self.fields(self.layer("Netz.Knoten.csv", "-oo", "KEEP_GEOM_COLUMNS=NO")), {
            "_tid": "String", "Nr": "String", "Tiefe": "Real", "Anzahl": "Integer", "Gross": "Integer64",
            "Genau": "String", "Fein": "Real", "Datum": "Date", "Art": "Integer", "Nachbar": "String"})

    def test_values(self):
        self.done()
        said = self.layer("Netz.Knoten.csv", "-oo", "KEEP_GEOM_COLUMNS=NO")
        self.assertIn("Feature Count: 3\n", said)
        first, second, third = self.values(self.shapes(said))
        self.assertEqual(first, {
            "_tid": "ké1", "Nr": 'A "1",;  é', "Tiefe": "-0.05", "Anzahl": "-5", "Gross": "-999999999999999999",
            "Genau": "100000000000000.0", "Fein": "-0.000000001", "Datum": "0000/02/29", "Art": "11", "Nachbar": "k_2",
            "Lage": "POINT (10 -0.05)", "Hoch": "POINT Z (1 2 -3.125)", "Verlauf": "LINESTRING (10 20.5,11 21)",
            "Raum": "COMPOUNDCURVE Z (CIRCULARSTRING Z (1 2 0,2 3 -0.5,3 2 1))"})
        self.assertEqual(second, {"_tid": "k_2", "Nr": "", "Genau": "", "Nachbar": ""})
        self.assertEqual(third, {
            "_tid": 'k"3', "Nr": " ", "Tiefe": "0.00", "Anzahl": "999999999", "Gross": "12345678901", "Genau": "0.1",
            "Fein": "-999999.999999999", "Datum": "1999/02/28", "Art": "0", "Nachbar": "ké1", "Lage": "POINT (0 0)",
            "Verlauf": "COMPOUNDCURVE ((0 0,1 0,2 -0.01),CIRCULARSTRING (2 -0.01,3 1,4 0,5 -1,6 0),(6 0,7 0),"
                       "CIRCULARSTRING (7 0,8 1,9 0))",
            "Raum": "COMPOUNDCURVE Z (CIRCULARSTRING Z (1 2 3,2 3 3,3 2 3),(3 2 3,4 2 3.5))"})

    def test_numbers(self):
        """Each digit is kept, those behind the point too."""
        bounds = self.numbers()
        self.done()
        for feature, bound in zip(self.values(self.layer("N.T.csv")), bounds):
            self.assertEqual([feature["a%d" % i] for i in range(len(NUMBERS))], [digits.decode() for digits in bound])

    def test_table_without_rows(self):
        self.done()
        said = self.layer("Netz.Leer.csv")
        self.assertIn("Feature Count: 0\n", said)
        self.assertEqual(self.fields(said), {"_tid": "String", "Zahl": "Integer64", "Weg": "String"})

    def test_directory(self):
        self.done()
        said = subprocess.run(["ogrinfo", self.plans], stdout=subprocess.PIPE, timeout=600, check=True).stdout.decode()
        self.assertEqual(sorted(re.findall(r"^\d: (\S+)", said, re.M)), ["Netz.Knoten", "Netz.Leer", "Plan.Knoten"])

    def test_names_that_gdal_knows_otherwise(self):
        """Attributes that are called as a geometry column of GDAL's own, or as a number, keep their values."""
        names = [b"WKT", b"the_geom", b"NaN", b"Inf", b"E5", b"OGC_FID"]
        self.model.write_bytes(
            oracle.transfer() + oracle.model_record() + oracle.topic(b"N") + oracle.table(b"T")
            + b"".join(oracle.text(name, 9) for name in names) + oracle.end())
        self.file.write_bytes(transfer_of(b"TOPI N", b"TABL T", b"OBJE 1 a b c d e f", b"ETAB", b"ETOP"))
        self.done()
        self.assertEqual(self.values(self.layer("N.T.csv")), [
            {"_tid": "1", "WKT": "a", "the_geom": "b", "NaN": "c", "Inf": "d", "E5": "e", "OGC_FID": "f"}])


if __name__ == "__main__":
    unittest.main()
