"""Words behind the command: help, version, options wherever they stand, and what is no use of it."""
import expected
from expected import parts
from support import vendorfinch

COMMANDS = ("check", "read", "list", "unfold", "write", "verify", "export")
READ = b"file.itf: read, 2 objects, 18 cells, 3 points\n"
SAME = b"file.itf: same, 2 objects, 18 cells, 3 points, 169 bytes written\n"


class Usage(expected.Folder):
    def setUp(self):
        super().setUp()
        self.made("file.itf", parts.SAMPLE_FILE)
        self.made("-x.itf", parts.SAMPLE_FILE)
        self.made("-m.bin", parts.SAMPLE_MODEL)


class Help(Usage):
    def test_help_names_every_command_and_option(self):
        status, out, err = vendorfinch("--help")
        self.assertEqual((status, err), (0, b""))
        for word in COMMANDS + ("--jobs", "--json", "--width", "-o", "--csv"):
            self.assertRegex(out.decode(), r"(?m)(^|[^\w-])%s\b" % word)

    def test_version(self):
        self.answers(["--version"], 0, b"vendorfinch 1.0.0\n")

    def test_help_of_a_command(self):
        for command in COMMANDS:
            for words in ([command, "--help"], [command, "model.bin", "--help"]):
                with self.subTest(words):
                    status, out, err = vendorfinch(*words, cwd=self.folder)
                    self.assertEqual((status, err), (0, b""))
                    self.assertIn(b"vendorfinch " + command.encode(), out)

    def test_help_behind_two_dashes_is_a_name(self):
        self.assertIn(b"--help", self.fails(["check", "--", "--help"]))


class BadUsage(Usage):
    def test_no_command(self):
        self.fails([])

    def test_unknown_commands(self):
        for command in ("reed", "READ", "", "-", "--", "model.bin", "readx", "rea"):
            with self.subTest(command):
                self.fails([command, "model.bin", "file.itf"])

    def test_an_unknown_command_is_named(self):
        self.assertIn(b"reed", self.fails(["reed", "model.bin", "file.itf"]))

    def test_options_in_place_of_a_command(self):
        for words in (["--jobs", "2", "read", "model.bin", "file.itf"], ["--json"], ["-x"], ["--nothing"]):
            with self.subTest(words):
                self.fails(words)

    def test_unknown_options_are_named(self):
        for command in COMMANDS:
            for option in ("--nothing", "-x", "--help-me", "--Json", "-jsonx"):
                with self.subTest([command, option]):
                    self.fails([command, option, "model.bin", "file.itf"])
        self.assertIn(b"--nothing", self.fails(["read", "--nothing", "model.bin", "file.itf"]))

    def test_options_of_other_commands(self):
        for words in (["check", "--jobs", "2", "model.bin"], ["check", "--json", "model.bin"],
                      ["read", "--width", "80", "model.bin", "file.itf"], ["read", "-o", "x", "model.bin", "file.itf"],
                      ["list", "--json", "model.bin", "file.itf"], ["list", "-o", "x", "model.bin", "file.itf"],
                      ["unfold", "--width", "80", "model.bin", "file.itf"], ["unfold", "-j2", "model.bin", "file.itf"],
                      ["write", "--json", "model.bin", "file.itf"], ["write", "-j2", "model.bin", "file.itf"],
                      ["write", "--csv", "d", "model.bin", "file.itf"], ["read", "--csv", "d", "model.bin", "file.itf"],
                      ["verify", "-o", "x", "model.bin", "file.itf"]):
            with self.subTest(words):
                self.fails(words)
                self.assertFalse((self.folder / "x").exists() or (self.folder / "d").exists())

    def test_missing_names(self):
        for command in COMMANDS:
            more = ["--csv", "d"] if command == "export" else []
            with self.subTest(command):
                self.fails([command, *more])
                self.fails([command, *more, "--"])
                if command != "check":
                    self.fails([command, *more, "model.bin"])
        self.assertFalse((self.folder / "d").exists())

    def test_names_too_many(self):
        for words in (["check", "model.bin", "model.bin"], ["list", "model.bin", "file.itf", "file.itf"],
                      ["unfold", "model.bin", "file.itf", "file.itf"],
                      ["write", "model.bin", "file.itf", "written.itf"],
                      ["export", "--csv", "d", "model.bin", "file.itf", "file.itf"]):
            with self.subTest(words):
                self.fails(words)
        self.assertFalse((self.folder / "written.itf").exists())

    def test_options_without_their_value(self):
        for words in (["read", "model.bin", "file.itf", "--jobs"], ["read", "model.bin", "file.itf", "-j"],
                      ["write", "model.bin", "file.itf", "--width"], ["write", "model.bin", "file.itf", "-o"],
                      ["write", "model.bin", "file.itf", "--output"], ["verify", "model.bin", "file.itf", "--width"],
                      ["export", "model.bin", "file.itf", "--csv"], ["export", "model.bin", "file.itf"]):
            with self.subTest(words):
                self.fails(words)

    def test_a_value_for_an_option_without_one(self):
        self.fails(["read", "--json=1", "model.bin", "file.itf"])
        self.fails(["read", "--help=1", "model.bin", "file.itf"])

    def test_jobs_that_are_no_number_of_files(self):
        for jobs in ("0", "x", "", "257", "-1", "2x", " 2", "1.5", "99999999999999999999", "4294967297"):
            with self.subTest(jobs):
                self.fails(["read", "--jobs", jobs, "model.bin", "file.itf"])
                self.fails(["verify", "--jobs=" + jobs, "model.bin", "file.itf"])

    def test_widths_that_are_no_number(self):
        for width in ("x", "", "80x", "x80", "8 0", "0x50", "80.0"):
            with self.subTest(width):
                self.fails(["write", "--width", width, "model.bin", "file.itf"])
                self.fails(["verify", "--width=" + width, "model.bin", "file.itf"])

    def test_standard_input_twice(self):
        for words in (["read", "-", "-"], ["list", "-", "-"], ["unfold", "-", "-"], ["write", "-", "-"],
                      ["verify", "-", "-"], ["export", "--csv", "d", "-", "-"], ["read", "model.bin", "-", "-"],
                      ["read", "-", "file.itf", "-"]):
            with self.subTest(words):
                self.fails(words, input=parts.SAMPLE_MODEL)

    def test_bad_usage_changes_no_output(self):
        self.made("out.itf", b"before")
        self.fails(["write", "--width", "x", "-o", "out.itf", "model.bin", "file.itf"])
        self.fails(["write", "-o", "out.itf", "model.bin", "file.itf", "file.itf"])
        self.assertEqual((self.folder / "out.itf").read_bytes(), b"before")


class Options(Usage):
    def test_jobs(self):
        for option in (["--jobs", "2"], ["--jobs=2"], ["-j2"], ["-j", "2"], ["--jobs", "1"], ["--jobs=256"]):
            for words in (["read", *option, "model.bin", "file.itf"], ["read", "model.bin", *option, "file.itf"],
                          ["read", "model.bin", "file.itf", *option]):
                with self.subTest(words):
                    self.answers(words, 0, READ)

    def test_width(self):
        narrow = expected.written(parts.SAMPLE_MODEL, parts.SAMPLE_FILE, 16)
        self.assertNotEqual(narrow, parts.SAMPLE_FILE)
        for option in (["--width", "16"], ["--width=16"], ["--width", "016"]):
            for words in (["write", *option, "model.bin", "file.itf"], ["write", "model.bin", *option, "file.itf"],
                          ["write", "model.bin", "file.itf", *option]):
                with self.subTest(words):
                    self.answers(words, 0, narrow)

    def test_output(self):
        for n, option in enumerate((["-oOUT"], ["-o", "OUT"], ["--output", "OUT"], ["--output=OUT"])):
            for words in (["write", *option, "model.bin", "file.itf"], ["write", "model.bin", *option, "file.itf"],
                          ["write", "model.bin", "file.itf", *option]):
                with self.subTest(words):
                    self.answers(words, 0, b"")
                    self.assertEqual((self.folder / "OUT").read_bytes(), parts.SAMPLE_FILE)
                    (self.folder / "OUT").unlink()

    def test_several_options(self):
        self.answers(["verify", "-j2", "model.bin", "--width=80", "file.itf", "--jobs", "1"], 0, SAME)
        self.answers(["write", "--width", "16", "-oOUT", "model.bin", "--width=80", "file.itf"], 0, b"")
        self.assertEqual((self.folder / "OUT").read_bytes(), parts.SAMPLE_FILE, "the last width is taken")

    def test_json_wherever_it_stands(self):
        line = b'{"file": "file.itf", "status": "read", "objects": 2, "cells": 18, "points": 3}\n'
        for words in (["--json", "model.bin", "file.itf"], ["model.bin", "--json", "file.itf"],
                      ["model.bin", "file.itf", "--json"]):
            with self.subTest(words):
                self.answers(["read", *words], 0, line)

    def test_two_dashes(self):
        self.answers(["read", "model.bin", "--", "-x.itf"], 0, READ.replace(b"file", b"-x"))
        self.answers(["read", "--", "-m.bin", "-x.itf"], 0, READ.replace(b"file", b"-x"))
        self.answers(["read", "--jobs", "2", "--", "model.bin", "-x.itf"], 0, READ.replace(b"file", b"-x"))
        self.answers(["list", "--", "-m.bin", "-x.itf"], 0, parts.SAMPLE_ANSWER.encode())
        self.assertIn(b"--json", self.fails(["list", "--", "model.bin", "--json"]))

    def test_a_value_that_begins_with_a_dash(self):
        self.answers(["write", "-o", "-out.itf", "model.bin", "file.itf"], 0, b"")
        self.assertEqual((self.folder / "-out.itf").read_bytes(), parts.SAMPLE_FILE)


class StandardInput(Usage):
    def test_the_file(self):
        for words, out in ((["list", "model.bin", "-"], parts.SAMPLE_ANSWER.encode()),
                           (["unfold", "model.bin", "-"], parts.SAMPLE_FILE),
                           (["write", "model.bin", "-"], parts.SAMPLE_FILE),
                           (["read", "model.bin", "-"], READ.replace(b"file.itf", b"-")),
                           (["read", "model.bin", "--", "-"], READ.replace(b"file.itf", b"-")),
                           (["verify", "model.bin", "-"], SAME.replace(b"file.itf", b"-"))):
            with self.subTest(words):
                self.answers(words, 0, out, input=parts.SAMPLE_FILE)

    def test_the_model(self):
        checked = vendorfinch("check", "model.bin", cwd=self.folder)[1]
        self.assertIn(b"topic Netz", checked)
        for words, out in ((["check", "-"], checked), (["list", "-", "file.itf"], parts.SAMPLE_ANSWER.encode()),
                           (["read", "-", "file.itf"], READ), (["write", "-", "file.itf"], parts.SAMPLE_FILE),
                           (["verify", "--", "-", "file.itf"], SAME), (["unfold", "-", "file.itf"], parts.SAMPLE_FILE)):
            with self.subTest(words):
                self.answers(words, 0, out, input=parts.SAMPLE_MODEL)

    def test_among_several_files(self):
        out = READ + READ.replace(b"file.itf", b"-") + b"2 files: 2 read, 0 refused, 0 not read\n"
        self.answers(["read", "model.bin", "file.itf", "-"], 0, out, input=parts.SAMPLE_FILE)
        self.answers(["read", "-j2", "model.bin", "file.itf", "-"], 0, out, input=parts.SAMPLE_FILE)

    def test_refused(self):
        file = parts.sample_with(7, b"OBJE k1 ABCDE 10.0 20.5")
        self.answers(["read", "model.bin", "-"], 1, expected.told(parts.SAMPLE_MODEL, file, "-"), input=file)

    def test_in_json(self):
        out = b'{"file": "-", "status": "read", "objects": 2, "cells": 18, "points": 3}\n'
        self.answers(["read", "--json", "model.bin", "-"], 0, out, input=parts.SAMPLE_FILE)

    def test_a_file_in_the_folder_named_dash(self):
        self.made("-", parts.SAMPLE_FILE)
        self.answers(["read", "model.bin", "./-"], 0, READ.replace(b"file.itf", b"./-"), input=b"")
