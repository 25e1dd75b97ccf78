"""Files as they come: every size and kind, odd names, many at a time, and a standard output that takes nothing."""
import errno
import json
import os
import pty
import random
import re
import resource
import signal
import subprocess
import threading

import expected
from expected import LIMIT, oracle, parts, sample_file
from support import COMMAND, vendorfinch

READ = b"a.itf: read, 2 objects, 18 cells, 3 points\n"
WRONG = sample_file(7, b"OBJE k1 ABCDE 10.0 20.5")


def many_objects(size):
    """A model, a file of exactly so many bytes that is nearly all objects, and how many these are."""
    model = parts.one(oracle.text(b"X", 60, 1))
    number = (size - len(parts.frame()) - 100) // len(b"OBJE 0000000 @\n")
    lines = [b"OBJE %07d @" % n for n in range(number)]
    rest = size - len(parts.frame(*lines)) - len(b"OBJE x \n")
    assert 0 < rest
    while rest > 60:
        lines.append(b"OBJE y%d @" % rest)
        rest -= len(lines[-1]) + 1
    lines.append(b"OBJE x " + b"z" * rest)
    return model, parts.frame(*lines), len(lines)


class Sizes(expected.Folder):
    def test_empty(self):
        self.made("a.itf", b"")
        told = (b"a.itf: refused, 7 another line code expected, or no line left: line 1, field 1 (the file is empty)\n")
        self.answers(["read", "model.bin", "a.itf"], 1, told)
        self.answers(["read", "model.bin", "/dev/null"], 1, told.replace(b"a.itf", b"/dev/null"))
        self.answers(["unfold", "model.bin", "a.itf"], 0, b"")

    def test_largest_by_its_description(self):
        file = expected.bordered(LIMIT)
        self.assertEqual(len(file), LIMIT)
        self.made("a.itf", file)
        self.answers(["read", "model.bin", "a.itf"], 0, READ)
        status, out, err = vendorfinch("unfold", "model.bin", "a.itf", cwd=self.folder)
        self.assertTrue((status, err, out == file) == (0, b"", True), "unfolded otherwise")
        self.made("b.itf", file + b"\n")
        self.answers(["read", "model.bin", "b.itf"], 1, b"b.itf: refused, 1 file above 16,777,216 bytes\n")
        self.answers(["list", "model.bin", "b.itf"], 1, b"1 0 0 0\n",
                     b"b.itf: refused, 1 file above 16,777,216 bytes\n")
        self.answers(["write", "model.bin", "b.itf"], 1, b"", b"b.itf: refused, 1 file above 16,777,216 bytes\n")

    def test_largest_by_its_objects(self):
        model, file, number = many_objects(LIMIT)
        self.assertEqual(len(file), LIMIT)
        self.made("m.bin", model)
        self.made("a.itf", file)
        told = b"a.itf: read, %d objects, %d cells, 0 points\n" % (number, 5 * number)
        self.answers(["read", "m.bin", "a.itf"], 0, told)
        same = told.replace(b": read", b": same").replace(b"\n", b", %d bytes written\n" % LIMIT)
        self.answers(["verify", "m.bin", "a.itf"], 0, same)

    def test_largest_on_standard_input(self):
        self.made("a.itf", expected.bordered(LIMIT))
        with open(self.folder / "a.itf", "rb") as file:
            self.answers(["read", "model.bin", "-"], 0, READ.replace(b"a.itf", b"-"), stdin=file)
        self.answers(["read", "model.bin", "-"], 1, b"-: refused, 1 file above 16,777,216 bytes\n",
                     input=expected.bordered(LIMIT + 1))

    def test_far_too_long(self):
        """A file that never ends, and one of a terabyte, are above 16 MiB; neither is read to its end."""
        with open(self.folder / "a.itf", "wb") as file:
            file.truncate(1 << 40)
        for name in ("/dev/zero", "a.itf"):
            self.answers(["read", "model.bin", name], 1, b"%s: refused, 1 file above 16,777,216 bytes\n"
                         % name.encode())

    def test_a_device_without_an_end_as_model(self):
        self.made("a.itf", parts.SAMPLE_FILE)
        self.answers(["read", "/dev/zero", "a.itf"], 1, b"a.itf: refused, 2 model bad: record at byte 0\n")


class Kinds(expected.Folder):
    def test_no_such_file(self):
        for words in (["read", "model.bin", "none.itf"], ["list", "model.bin", "none.itf"],
                      ["unfold", "model.bin", "none.itf"], ["write", "model.bin", "none.itf"],
                      ["verify", "model.bin", "none.itf"], ["read", "none.bin", "none.itf"]):
            with self.subTest(words):
                err = self.fails(words)
                self.assertRegex(err, rb"none\.(itf|bin).*No such file or directory")

    def test_no_such_model(self):
        self.made("a.itf", parts.SAMPLE_FILE)
        for command in ("read", "list", "unfold", "write", "verify"):
            with self.subTest(command):
                self.assertRegex(self.fails([command, "none.bin", "a.itf"]), rb"none\.bin.*No such file or directory")

    def test_an_empty_name(self):
        self.made("a.itf", parts.SAMPLE_FILE)
        self.assertIn(b"No such file", self.fails(["read", "model.bin", ""]))
        self.assertIn(b"No such file", self.fails(["read", "", "a.itf"]))

    def test_a_directory(self):
        (self.folder / "d").mkdir()
        self.made("a.itf", parts.SAMPLE_FILE)
        for command in ("read", "list", "unfold", "write", "verify"):
            with self.subTest(command):
                self.assertRegex(self.fails([command, "model.bin", "d"]), rb"\bd\b.*[Ii]s a directory")
                self.assertRegex(self.fails([command, "d", "a.itf"]), rb"\bd\b.*[Ii]s a directory")

    def test_below_a_file(self):
        self.made("a.itf", parts.SAMPLE_FILE)
        self.assertIn(b"Not a directory", self.fails(["read", "model.bin", "a.itf/b.itf"]))

    def test_a_name_too_long(self):
        self.assertIn(b"too long", self.fails(["read", "model.bin", "x" * 300]))

    def test_no_permission(self):
        self.made("a.itf", parts.SAMPLE_FILE).chmod(0)
        more = self.unprivileged()
        self.assertRegex(self.fails(["read", "model.bin", "a.itf"], **more), rb"a\.itf.*Permission denied")
        status, out, err = vendorfinch("read", "--json", "model.bin", "a.itf", cwd=self.folder, **more)
        self.assertEqual((status, json.loads(out)), (2, {"file": "a.itf", "status": "error",
                                                         "words": "Permission denied"}))

    def test_a_fifo(self):
        for what, content, words, out in (
                ("as file", parts.SAMPLE_FILE, ["list", "model.bin", "pipe"], parts.SAMPLE_ANSWER.encode()),
                ("as model", parts.SAMPLE_MODEL, ["read", "pipe", "a.itf"], READ)):
            with self.subTest(what):
                self.made("a.itf", parts.SAMPLE_FILE)
                os.mkfifo(self.folder / "pipe")
                # byte by byte and with a pause between: a read gives less than there will be
                writer = threading.Thread(target=self.trickle, args=(self.folder / "pipe", content))
                writer.start()
                self.answers(words, 0, out)
                writer.join()
                (self.folder / "pipe").unlink()

    def trickle(self, path, content):
        with open(path, "wb", buffering=0) as pipe:
            for n in range(0, len(content), 7):
                pipe.write(content[n:n + 7])
                threading.Event().wait(0.001)

    def test_process_substitution(self):
        reader, writer = os.pipe()
        thread = threading.Thread(target=self.trickle, args=(writer, expected.bordered(20000)))
        thread.start()
        name = "/dev/fd/%d" % reader
        self.answers(["read", "model.bin", name], 0, READ.replace(b"a.itf", name.encode()), pass_fds=[reader])
        thread.join()
        os.close(reader)

    def test_standard_input_closed(self):
        """`-` cannot be read then; other names are not disturbed."""
        self.made("a.itf", parts.SAMPLE_FILE)

        def closed():
            os.close(0)
        self.answers(["read", "model.bin", "a.itf"], 0, READ, preexec_fn=closed)
        self.assertIn(b"Bad file descriptor", self.fails(["read", "model.bin", "-"], preexec_fn=closed))

    def test_a_file_that_changes_nothing(self):
        """Reading leaves files as they were."""
        path = self.made("a.itf", parts.SAMPLE_FILE)
        path.chmod(0o444)
        self.answers(["verify", "model.bin", "a.itf"], 0,
                     b"a.itf: same, 2 objects, 18 cells, 3 points, 169 bytes written\n")
        self.assertEqual(path.read_bytes(), parts.SAMPLE_FILE)
        self.assertEqual(sorted(p.name for p in self.folder.iterdir()), ["a.itf", "model.bin"])


class Names(expected.Folder):
    def test_spaces_and_letters(self):
        for name in ("two words.itf", " .itf", "Gr\u00fc\u00dfe.itf", "a'b\"c.itf", "%s%n.itf", "\u6f22.itf"):
            with self.subTest(name):
                self.made(name, parts.SAMPLE_FILE)
                self.answers(["read", "model.bin", name], 0, READ.replace(b"a.itf", name.encode()))
                self.made(name, WRONG)
                self.answers(["read", "model.bin", name], 1, expected.told(parts.SAMPLE_MODEL, WRONG, name))

    def test_control_bytes(self):
        """A newline or an escape in a name: text tells it somehow, JSON exactly and in one line."""
        for name in (b"two\nlines.itf", b"\x1b[2J.itf", b"\t.itf", b"\x7f.itf", b"\xff.itf", b"a\xe9\x80.itf"):
            with self.subTest(name):
                path = os.fsencode(self.folder) + b"/" + name
                with open(path, "wb") as file:
                    file.write(parts.SAMPLE_FILE)
                status, out, err = vendorfinch("read", "model.bin", name, cwd=self.folder)
                self.assertEqual((status, err), (0, b""))
                self.assertTrue(out.endswith(b".itf: read, 2 objects, 18 cells, 3 points\n"), out)
                status, out, err = vendorfinch("read", "--json", "model.bin", name, cwd=self.folder)
                self.assertEqual((status, err, out.count(b"\n")), (0, b"", 1))
                self.assertEqual(json.loads(out)["file"], name.decode("utf-8", "surrogateescape"))
                self.assertNotRegex(out[:-1], rb"[\x00-\x1f]")
                status, out, err = vendorfinch("check", name, cwd=self.folder)
                self.assertEqual((status, err), (1, b""))
                self.assertIn(b".itf: refused, 2 model bad: record at byte ", out)
                os.unlink(path)

    def test_not_utf_8_in_json(self):
        self.answers(["read", "--json", "model.bin", b"\xff.itf"], 2,
                     b'{"file": "\\udcff.itf", "status": "error", "words": "No such file or directory"}\n')

    def test_every_kind_of_name_in_json(self):
        """Names that are there or not are told byte by byte: what is not UTF-8 as a lone surrogate."""
        rng = random.Random(1815)
        parts = [b"\xc3\xa9", b"\xe2\x82\xac", b"\xf0\x9f\x90\xa6", b"\xed\x9f\xbf", b"\xee\x80\x80",
                 b"\xf4\x8f\xbf\xbf", b"\xed\xa0\x80", b"\xed\xbf\xbf", b"\xc0\x80", b"\xc1\xbf", b"\xe0\x9f\xbf",
                 b"\xf0\x8f\xbf\xbf", b"\xf4\x90\x80\x80", b"\xf5\x80\x80\x80", b"\xff", b"\x80", b"\xc3",
                 b"\xe2\x82", b"\xf0\x9f\x90", b"\"", b"\\", b"\n", b"\x01", b"\x7f", b"\xc2\x80", b"\xef\xbf\xbf",
                 b"a", b" "]
        names = [b"n" + part for part in parts] + [b"n" + part + b"x" for part in parts]
        names += [b"n" + b"".join(rng.choice(parts) for _ in range(rng.randrange(1, 12))) for _ in range(400)]
        names += [b"n" + bytes(rng.choice((*range(1, 47), *range(48, 256))) for _ in range(20)) for _ in range(400)]
        status, out, err = vendorfinch("read", "--json", "model.bin", *names, cwd=self.folder)
        self.assertEqual(status, 2)
        lines = out.split(b"\n")
        self.assertEqual((len(lines), lines.pop()), (len(names) + 1, b""))
        for name, line in zip(names, lines):
            got = json.loads(line.decode("utf-8"))
            self.assertEqual(got, {"file": name.decode("utf-8", "surrogateescape"), "status": "error",
                                   "words": "No such file or directory"}, name)

    def test_the_longest_name(self):
        name = "n" * 251 + ".itf"
        self.made(name, WRONG)
        self.answers(["read", "model.bin", name], 1, expected.told(parts.SAMPLE_MODEL, WRONG, name))


class Many(expected.Folder):
    """Forty files, three of them refused."""

    def setUp(self):
        super().setUp()
        rng = random.Random(40)
        self.names, self.files = [], {}
        for n in range(40):
            name = "%02d.itf" % rng.randrange(100)
            while name in self.files:
                name = "%02d.itf" % rng.randrange(100)
            file = {7: WRONG, 20: b"", 39: parts.SAMPLE_FILE[:-1]}.get(n)
            # some large ones, so that files are not done in the order in which they were begun
            if file is None:
                file = expected.bordered(rng.choice((1000, 1000, 1000, 400000)))
            self.names.append(name)
            self.files[name] = file
            self.made(name, file)
        self.told = b"".join(expected.told(parts.SAMPLE_MODEL, self.files[name], name) for name in self.names)
        self.objects = [expected.as_json(parts.SAMPLE_MODEL, self.files[name], name) for name in self.names]

    def test_in_the_order_of_their_names(self):
        for jobs in ("1", "2", "7", "256"):
            with self.subTest(jobs):
                self.answers(["read", "--jobs", jobs, "model.bin", *self.names], 1,
                             self.told + b"40 files: 37 read, 3 refused, 0 not read\n")

    def test_one_missing(self):
        names = self.names[:10] + ["none.itf"] + self.names[10:]
        for jobs in ("1", "2", "7"):
            with self.subTest(jobs):
                status, out, err = vendorfinch("read", "-j", jobs, "model.bin", *names, cwd=self.folder)
                self.assertEqual((status, out), (2, self.told + b"41 files: 37 read, 3 refused, 1 not read\n"))
                self.assertRegex(err, rb"\A[^\n]*none\.itf[^\n]*No such file or directory\n\Z")

    def test_in_json(self):
        for jobs in ("1", "2", "7"):
            with self.subTest(jobs):
                status, out, err = vendorfinch("read", "--json", "-j" + jobs, "model.bin", *self.names,
                                               cwd=self.folder)
                self.assertEqual((status, err), (1, b""))
                self.assertEqual([json.loads(line) for line in out.splitlines()], self.objects)
        status, out, err = vendorfinch("read", "--json", "model.bin", "none.itf", *self.names, cwd=self.folder)
        self.assertEqual(status, 2)
        self.assertEqual([json.loads(line) for line in out.splitlines()],
                         [{"file": "none.itf", "status": "error", "words": "No such file or directory"},
                          *self.objects])

    def test_verify(self):
        lines = []
        for name in self.names:
            told = expected.told(parts.SAMPLE_MODEL, self.files[name], name)
            lines.append(told.replace(b": read", b": same").replace(b"points\n", b"points, 169 bytes written\n"))
        for jobs in ("1", "2", "7"):
            with self.subTest(jobs):
                status, out, err = vendorfinch("verify", "--jobs", jobs, "model.bin", *self.names, cwd=self.folder)
                self.assertEqual((status, err), (1, b""))
                self.assertTrue(out.startswith(b"".join(lines)))
                self.assertRegex(out[len(b"".join(lines)):], rb"\A40 files: 37 same, 3 refused,[^\n]* 0 not read\n\Z")

    def test_one_file_has_no_summary(self):
        self.answers(["read", "model.bin", self.names[0]], 0,
                     expected.told(parts.SAMPLE_MODEL, self.files[self.names[0]], self.names[0]))

    def test_two_files_have_one(self):
        name = self.names[0]
        told = expected.told(parts.SAMPLE_MODEL, self.files[name], name)
        self.answers(["read", "model.bin", name, name], 0, 2 * told + b"2 files: 2 read, 0 refused, 0 not read\n")

    def test_none_read(self):
        status, out, err = vendorfinch("read", "-j2", "model.bin", "x", "y", cwd=self.folder)
        self.assertEqual((status, out), (2, b"2 files: 0 read, 0 refused, 2 not read\n"))
        self.assertEqual(len(err.splitlines()), 2)

    def test_no_model(self):
        """Every file is refused with 2, the wrong ones too."""
        self.made("bad.bin", parts.SAMPLE_MODEL[:-4])
        told = b"".join(b"%s: refused, 2 model bad: record at byte 186\n" % name.encode() for name in self.names)
        self.answers(["read", "bad.bin", *self.names], 1, told + b"40 files: 0 read, 40 refused, 0 not read\n")
        status, out, err = vendorfinch("read", "--json", "bad.bin", *self.names, cwd=self.folder)
        self.assertEqual((status, err), (1, b""))
        self.assertEqual([json.loads(line) for line in out.splitlines()],
                         [{"file": name, "status": "refused", "number": 2, "words": "model bad", "byte": 186}
                          for name in self.names])

    def test_more_jobs_than_files(self):
        told = b"".join(expected.told(parts.SAMPLE_MODEL, self.files[name], name) for name in self.names[:3])
        self.answers(["read", "--jobs", "200", "model.bin", *self.names[:3]], 0,
                     told + b"3 files: 3 read, 0 refused, 0 not read\n")

    def test_few_files_may_be_open(self):
        """As many jobs as there may be, and fewer files than that may be open."""
        def few():
            resource.setrlimit(resource.RLIMIT_NOFILE, (12, 12))
        names = 10 * self.names
        self.answers(["read", "--jobs", "4", "model.bin", *names], 1,
                     10 * self.told + b"400 files: 370 read, 30 refused, 0 not read\n", preexec_fn=few)

    def test_progress_on_a_terminal(self):
        """It goes to standard error if that is a terminal; standard output is as without one."""
        for jobs in ("1", "2"):
            with self.subTest(jobs):
                status, out, shown = self.on_terminal("read", "--jobs", jobs, "model.bin", *self.names)
                self.assertEqual((status, out), (1, self.told + b"40 files: 37 read, 3 refused, 0 not read\n"))
                self.assertRegex(shown, rb"\b40\b")
                status, out, shown = self.on_terminal("read", "--json", "--jobs", jobs, "model.bin", *self.names)
                self.assertEqual(status, 1)
                self.assertEqual([json.loads(line) for line in out.splitlines()], self.objects)

    def test_a_message_on_a_terminal(self):
        """A missing file is told there whole, whatever progress shows around it."""
        status, out, shown = self.on_terminal("read", "model.bin", *self.names, "none.itf")
        self.assertEqual((status, out), (2, self.told + b"41 files: 37 read, 3 refused, 1 not read\n"))
        self.assertRegex(shown, rb"none\.itf: No such file or directory\r?\n")

    def on_terminal(self, *words):
        """Runs it with a terminal as standard error: status, standard output, and what the terminal got."""
        master, slave = pty.openpty()
        got = []

        def watch():
            try:
                while data := os.read(master, 65536):
                    got.append(data)
            except OSError as error:
                # how Linux says that nobody has the terminal open any more
                assert error.errno == errno.EIO, error
        thread = threading.Thread(target=watch)
        thread.start()
        try:
            status, out, _ = vendorfinch(*words, stderr=slave, cwd=self.folder)
        finally:
            os.close(slave)
            thread.join()
            os.close(master)
        return status, out, b"".join(got)


class StandardOutput(expected.Folder):
    """It is full, closed, or nobody reads it."""

    def setUp(self):
        super().setUp()
        self.made("a.itf", parts.SAMPLE_FILE)
        self.made("wrong.itf", WRONG)
        # a listing far longer than any pipe or buffer
        model, file, self.number = many_objects(3000000)
        self.made("m.bin", model)
        self.made("large.itf", file)
        self.printing = [
            ["--help"], ["--version"], ["read", "--help"], ["check", "model.bin"], ["check", "a.itf"],
            ["read", "model.bin", "a.itf"], ["read", "model.bin", "wrong.itf"],
            ["read", "--json", "model.bin", "a.itf"],
            ["read", "--jobs", "2", "model.bin", "a.itf", "wrong.itf"], ["list", "model.bin", "a.itf"],
            ["list", "model.bin", "wrong.itf"], ["list", "m.bin", "large.itf"], ["unfold", "model.bin", "a.itf"],
            ["unfold", "m.bin", "large.itf"], ["write", "model.bin", "a.itf"], ["write", "m.bin", "large.itf"],
            ["write", "-o", "-", "model.bin", "a.itf"], ["verify", "model.bin", "a.itf"],
            ["verify", "--json", "model.bin", "a.itf"]]

    def test_full(self):
        with open("/dev/full", "wb") as full:
            for words in self.printing:
                with self.subTest(words):
                    status, _, err = vendorfinch(*words, cwd=self.folder, stdout=full)
                    self.assertEqual(status, 2)
                    self.assertIn(b"No space left on device", err)

    def test_closed(self):
        def closed():
            os.close(1)
        for words in self.printing:
            with self.subTest(words):
                status, _, err = vendorfinch(*words, cwd=self.folder, stdout=None, preexec_fn=closed)
                self.assertEqual(status, 2)
                self.assertIn(b"Bad file descriptor", err)
        self.assertEqual((self.folder / "a.itf").read_bytes(), parts.SAMPLE_FILE)
        self.assertEqual((self.folder / "model.bin").read_bytes(), parts.SAMPLE_MODEL)

    def test_closed_and_not_needed(self):
        """What is written to OUT does not get what was meant for standard output or standard error."""
        def closed():
            os.close(1)
            os.close(2)
        for file, status, out in (("a.itf", 0, parts.SAMPLE_FILE), ("wrong.itf", 1, b"before")):
            self.made("out.itf", b"before")
            got, _, _ = vendorfinch("write", "-o", "out.itf", "model.bin", file, cwd=self.folder, stdout=None,
                                    stderr=None, preexec_fn=closed)
            self.assertEqual((got, (self.folder / "out.itf").read_bytes()), (status, out))

    def broken(self, words, **more):
        """Its status where the reader of its standard output ends after one line."""
        with subprocess.Popen([*COMMAND, *words], cwd=self.folder, stdin=subprocess.DEVNULL, stdout=subprocess.PIPE,
                              stderr=subprocess.PIPE, **more) as running:
            try:
                self.assertTrue(running.stdout.readline())
                running.stdout.close()
                err = running.stderr.read()
                return running.wait(60), err
            finally:
                running.kill()

    def test_a_broken_pipe(self):
        for words in (["list", "m.bin", "large.itf"], ["unfold", "m.bin", "large.itf"], ["write", "m.bin", "large.itf"],
                      ["read", "m.bin", *["wrong.itf"] * 5000],
                      ["verify", "-j2", "--json", "m.bin", *["wrong.itf"] * 5000]):
            with self.subTest(words[:4]):
                status, _ = self.broken(words)
                self.assertIn(status, (-signal.SIGPIPE, 2))

    def test_a_broken_pipe_without_its_signal(self):
        for words in (["list", "m.bin", "large.itf"], ["unfold", "m.bin", "large.itf"], ["write", "m.bin", "large.itf"],
                      ["read", "m.bin", *["wrong.itf"] * 5000], ["read", "-j2", "m.bin", *["wrong.itf"] * 5000]):
            with self.subTest(words[:4]):
                # Python ignores the signal, and so does what it starts
                status, err = self.broken(words, restore_signals=False)
                self.assertEqual(status, 2)
                self.assertIn(b"Broken pipe", err)

    def test_standard_error_full(self):
        """The status says it all the same."""
        with open("/dev/full", "wb") as full:
            for words, status in ((["list", "model.bin", "wrong.itf"], (1, 2)), (["read", "model.bin", "none"], (2,)),
                                  (["nothing"], (2,))):
                with self.subTest(words):
                    got, _, _ = vendorfinch(*words, cwd=self.folder, stderr=full)
                    self.assertIn(got, status)

    def test_a_slow_reader(self):
        """A pipe that takes little at a time gets everything."""
        reader, writer = os.pipe()
        with subprocess.Popen([*COMMAND, "list", "m.bin", "large.itf"], cwd=self.folder, stdout=writer) as running:
            os.close(writer)
            out = b""
            while data := os.read(reader, 40000):
                out += data
            os.close(reader)
            self.assertEqual(running.wait(60), 0)
        lines = out.splitlines()
        self.assertEqual(lines[0], b"0 %d %d 0" % (self.number, 5 * self.number))
        self.assertEqual(len(lines), 1 + self.number)
        self.assertTrue(all(re.fullmatch(rb"0 \d+ \d+ \d+ \d+", line) for line in lines[1:]))


class Memory(expected.Folder):
    """There is little of it: a file is answered, or it is told that there is no memory; never anything else."""

    def test_too_little(self):
        model, file, number = many_objects(12000000)
        self.made("m.bin", model)
        self.made("a.itf", file)
        more = self.limited(40000000)
        for words in (["read", "m.bin", "a.itf"], ["list", "m.bin", "a.itf"], ["unfold", "m.bin", "a.itf"],
                      ["write", "m.bin", "a.itf"], ["verify", "m.bin", "a.itf"]):
            with self.subTest(words):
                status, out, err = vendorfinch(*words, **more)
                if status == 0:
                    # unfolding needs less than the others
                    self.assertTrue(words[0] == "unfold" and out == file)
                else:
                    self.assertEqual((status, out), (2, b""))
                    self.assertRegex(err, rb"(?i)no memory|cannot allocate memory")
        status, out, _ = vendorfinch("read", "--json", "m.bin", "a.itf", **more)
        self.assertEqual(status, 2)
        answer = json.loads(out)
        self.assertEqual((answer["file"], answer["status"]), ("a.itf", "error"))
        self.assertRegex(answer["words"], "(?i)no memory|cannot allocate memory")
        self.made("out.itf", b"before")
        self.fails(["write", "-o", "out.itf", "m.bin", "a.itf"], preexec_fn=more["preexec_fn"])
        self.assertEqual((self.folder / "out.itf").read_bytes(), b"before")
        # a small file among large ones has room enough
        self.made("small.itf", parts.frame(b"OBJE a @"))
        status, out, err = vendorfinch("read", "m.bin", "a.itf", "small.itf", "a.itf", **more)
        self.assertEqual((status, out), (2, b"small.itf: read, 1 object, 5 cells, 0 points\n"
                                            b"3 files: 1 read, 0 refused, 2 not read\n"))
        self.assertEqual(len(err.splitlines()), 2)

    def test_every_amount(self):
        """From too little up to enough, in small steps."""
        model, file, number = many_objects(2000000)
        self.made("m.bin", model)
        self.made("a.itf", file)
        read = b"a.itf: read, %d objects, %d cells, 0 points\n" % (number, 5 * number)
        same = read.replace(b": read", b": same").replace(b"\n", b", %d bytes written\n" % len(file))
        seen = set()
        for size in range(8000000, 60000000, 1300000):
            try:
                more = self.limited(size)
            except expected.unittest.SkipTest:
                continue
            for command, told in (("read", read), ("verify", same)):
                with self.subTest([command, size]):
                    status, out, err = vendorfinch(command, "m.bin", "a.itf", **more)
                    self.assertIn((status, out, bool(err)), ((0, told, False), (2, b"", True)))
                    seen.add(status)
        if not seen:
            self.skipTest("the command does not start with little memory")
        self.assertEqual(seen, {0, 2})

    def test_threads_that_cannot_be_started(self):
        """Each wants a stack: as many as asked for do not fit, and the files are answered all the same."""
        self.made("a.itf", parts.SAMPLE_FILE)
        more = self.limited(150000000)
        status, out, err = vendorfinch("read", "--jobs", "256", "model.bin", *["a.itf"] * 300, **more)
        self.assertEqual((status, out, err), (0, 300 * READ + b"300 files: 300 read, 0 refused, 0 not read\n", b""))
