"""When memory, a disk, a terminal or a word is not as one would wish: nothing that is wrong looks right."""
import json
import os
import resource

import expected
from expected import oracle, parts, sample_file
from support import vendorfinch

WIDE = [(0, 0, 9), (0, 0, 9), (0, 0, 9)]


class Memory(expected.Folder):
    def test_every_amount_of_a_refusal(self):
        """A refusal is told with its place, or not at all."""
        objects = [b"OBJE %06d @" % n for n in range(300000)] + [b"OBJE last nobody"]
        self.made("m.bin", parts.one(oracle.reference(b"X", 0, 1)))
        self.made("a.itf", parts.frame(*objects))
        whole = vendorfinch("read", "m.bin", "a.itf", cwd=self.folder)
        self.assertEqual(whole[0], 1)
        self.assertIn(b"object 300000, line 300007, field 3 (physical line 300007)\n", whole[1])
        seen = set()
        for size in range(16000000, 80000000, 2000000):
            got = vendorfinch("read", "m.bin", "a.itf", **self.limited(size))
            if got != whole:
                self.assertEqual(got[:2], (2, b""), size)
                self.assertIn(b"annot allocate memory", got[2])
            seen.add(got[0])
        self.assertEqual(seen, {1, 2})

    def test_json_is_whole(self):
        """A report for which there is no memory is an error object, and the next file's is whole."""
        self.made("a.itf", b"SCNT\n////\nMTID " + b"\x82" * 12000000 + b"\n")
        self.made("b.itf", parts.SAMPLE_FILE)
        seen = set()
        for size in range(40000000, 240000000, 20000000):
            status, out, _ = vendorfinch("read", "--json", "model.bin", "a.itf", "b.itf", **self.limited(size))
            answers = [json.loads(line) for line in out.splitlines()]
            self.assertEqual([(answer["file"], answer["status"]) for answer in answers],
                             [("a.itf", "refused" if status == 1 else "error"), ("b.itf", "read")])
            seen.add(status)
        self.assertEqual(seen, {1, 2})

    def test_a_refused_file_costs_little(self):
        """Objects without fields under a table of the longest row: refused at the first, in little memory."""
        table = b"".join(oracle.coordinate(b"X%d" % n, WIDE) for n in range(64))
        self.made("m.bin", parts.one(table))
        self.made("a.itf", parts.frame(*[b"OBJE "] * 1000000))
        status, out, _ = vendorfinch("read", "m.bin", "a.itf", **self.limited(150000000))
        self.assertEqual(status, 1)
        self.assertIn(b"refused, 11 field missing or extra: line 7, field 2 (physical line 7)", out)


class Signals(expected.Folder):
    def test_a_limit_for_files(self):
        """Its signal does not end the command: the call fails, and no part is left."""
        def limited():
            resource.setrlimit(resource.RLIMIT_FSIZE, (10, 10))
        self.made("a.itf", parts.SAMPLE_FILE)
        before = sorted(os.listdir(self.folder))
        self.assertIn(b"File too large", self.fails(["write", "-o", "out.itf", "model.bin", "a.itf"],
                                                    preexec_fn=limited))
        self.assertEqual(sorted(os.listdir(self.folder)), before)

    def test_nobody_reads_the_errors(self):
        """An export that fails with standard error closed at its other end leaves no part."""
        self.made("a.itf", parts.SAMPLE_FILE)
        (self.folder / "d").mkdir()
        (self.folder / "d/Netz.Leitung.csv").mkdir()
        reader, writer = os.pipe()
        os.close(reader)
        status, _, _ = vendorfinch("export", "--csv", "d", "model.bin", "a.itf", cwd=self.folder, stderr=writer)
        os.close(writer)
        self.assertEqual((status, os.listdir(self.folder / "d")), (2, ["Netz.Leitung.csv"]))


class Terminals(expected.Folder):
    def test_controls_in_a_name(self):
        """Also those above 7F, in UTF-8 and not, are never printed as they are."""
        for name, shown in ((b"a\x1b[1m", b"a\\x1B[1m"), (b"a\xc2\x9bm", b"a\\xC2\\x9Bm"), (b"a\x9bm", b"a\\x9Bm"),
                            ("aä€😀".encode(), "aä€😀".encode()), (b"a\xff\xc3", b"a\\xFF\\xC3")):
            with self.subTest(name):
                os.close(os.open(os.path.join(os.fsencode(self.folder), name), os.O_CREAT | os.O_WRONLY))
                status, out, _ = vendorfinch("read", "model.bin", name, cwd=self.folder)
                self.assertEqual((status, out.split(b": ")[0]), (1, shown))
                status, out, _ = vendorfinch("read", "--json", "model.bin", name, cwd=self.folder)
                self.assertEqual(os.fsencode(json.loads(out)["file"]), name)
                self.assertNotRegex(out.decode(), "[\x00-\x09\x0b-\x1f\x7f-\x9f]")

    def test_controls_in_a_line(self):
        self.made("a.itf", sample_file(7, b"OBJE k1 \x9b\x1b\x7f 10.0 20.5"))
        status, out, _ = vendorfinch("read", "--json", "model.bin", "a.itf", cwd=self.folder)
        self.assertEqual((status, json.loads(out)["text"]), (1, "OBJE k1 \x9b\x1b\x7f 10.0 20.5"))
        self.assertNotRegex(out.decode(), "[\x00-\x09\x0b-\x1f\x7f-\x9f]")

    def test_marks_behind_many_controls(self):
        """However wide the bytes before it are shown, the mark is seen."""
        for count in (1, 36, 37, 38, 149, 150, 200, 5000):
            self.made("a.itf", b"SCNT\n" + b"\x01" * count)
            status, out, _ = vendorfinch("read", "model.bin", "a.itf", cwd=self.folder)
            lines = out.split(b"\n")
            self.assertEqual((status, lines[2].strip()), (1, b"^"), count)
            self.assertEqual(len(lines[2]), len(lines[1]) + 1, count)


class Words(expected.Folder):
    def test_help_as_a_name(self):
        """A word that belongs to an option is no option."""
        self.made("a.itf", parts.SAMPLE_FILE)
        self.answers(["write", "model.bin", "a.itf", "-o", "-h"], 0, b"")
        self.assertEqual((self.folder / "-h").read_bytes(), parts.SAMPLE_FILE)
        status, out, _ = vendorfinch("write", "-h", cwd=self.folder)
        self.assertEqual((status, out[:12]), (0, b"vendorfinch:"))
