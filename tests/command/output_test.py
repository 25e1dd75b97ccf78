"""What is written, and where to: `write`, `verify`, `list` and `unfold`.

Devices as OUT are tried by a user who may not change /dev: a command that put a file in a device's place would spoil
the machine."""
import json
import os
import pathlib
import random
import resource
import signal
import stat
import subprocess
import tempfile
import threading

import expected
from expected import oracle, parts, sample_file
from support import vendorfinch

WRONG = sample_file(7, b"OBJE k1 ABCDE 10.0 20.5")
NARROW = expected.written(parts.SAMPLE_MODEL, parts.SAMPLE_FILE, 16)


class Out(expected.Folder):
    def setUp(self):
        super().setUp()
        self.made("a.itf", parts.SAMPLE_FILE)
        self.made("wrong.itf", WRONG)
        self.before = self.names()

    def names(self):
        return sorted(p.name for p in self.folder.iterdir())

    def content(self, name):
        return (self.folder / name).read_bytes()

    def writes(self, out, **more):
        """Writes the sample at width 16 to OUT: status 0, nothing printed."""
        self.answers(["write", "--width", "16", "-o", out, "model.bin", "a.itf"], 0, b"", **more)


class WriteToFile(Out):
    def test_a_new_file(self):
        self.writes("out.itf")
        self.assertEqual(self.content("out.itf"), NARROW)
        self.assertEqual(self.names(), sorted(self.before + ["out.itf"]))

    def test_the_mode_of_a_new_file(self):
        for mask in (0o022, 0o077, 0o002, 0):
            with self.subTest(oct(mask)):
                self.writes("out.itf", umask=mask)
                self.assertEqual(stat.S_IMODE((self.folder / "out.itf").stat().st_mode), 0o666 & ~mask)
                (self.folder / "out.itf").unlink()

    def test_over_an_existing_file(self):
        for mode in (0o644, 0o640, 0o600, 0o666, 0o755):
            for before in (b"", b"before", b"much longer than what is written\n" * 1000):
                with self.subTest([oct(mode), len(before)]):
                    self.made("out.itf", before).chmod(mode)
                    self.writes("out.itf")
                    self.assertEqual(self.content("out.itf"), NARROW)
                    self.assertEqual(stat.S_IMODE((self.folder / "out.itf").stat().st_mode), mode)
                    self.assertEqual(self.names(), sorted(self.before + ["out.itf"]))

    def test_in_another_folder(self):
        (self.folder / "d").mkdir()
        self.writes("d/out.itf")
        self.writes(str(self.folder / "d/absolute.itf"))
        self.writes("d/../d/./dots.itf")
        self.assertEqual(sorted(os.listdir(self.folder / "d")), ["absolute.itf", "dots.itf", "out.itf"])
        for name in ("d/out.itf", "d/absolute.itf", "d/dots.itf"):
            self.assertEqual(self.content(name), NARROW)

    def test_odd_names(self):
        for name in ("two words", "-x", "--", "\u00fc", b"\xff", b"two\nlines", "%s"):
            with self.subTest(name):
                self.answers(["write", "--width", "16", "--output", name, "model.bin", "a.itf"], 0, b"")
                path = os.fsencode(self.folder) + b"/" + os.fsencode(name)
                with open(path, "rb") as file:
                    self.assertEqual(file.read(), NARROW)
                os.unlink(path)
                self.assertEqual(self.names(), self.before)

    def test_the_longest_name(self):
        """What the file system takes as a name is one, whatever is written beside it meanwhile."""
        self.writes("n" * 255)
        self.assertEqual(self.content("n" * 255), NARROW)

    def test_the_same_as_file(self):
        self.writes("a.itf")
        self.assertEqual(self.content("a.itf"), NARROW)
        self.writes("a.itf")
        self.assertEqual(self.content("a.itf"), NARROW)
        self.assertEqual(self.names(), self.before)

    def test_what_was_read_is_not_changed_otherwise(self):
        self.writes("out.itf")
        self.assertEqual((self.content("a.itf"), self.content("model.bin")), (parts.SAMPLE_FILE, parts.SAMPLE_MODEL))

    def test_two_at_a_time(self):
        """Both write the same OUT; it is one of theirs, whole."""
        wide = expected.written(parts.SAMPLE_MODEL, parts.SAMPLE_FILE, 80)

        def run(width):
            for _ in range(20):
                status, _, err = vendorfinch("write", "--width", width, "-o", "out.itf", "model.bin", "a.itf",
                                             cwd=self.folder)
                failed.extend([] if status == 0 else [err])
        failed = []
        threads = [threading.Thread(target=run, args=(width,)) for width in ("16", "80")]
        for thread in threads:
            thread.start()
        for thread in threads:
            thread.join()
        self.assertEqual(failed, [])
        self.assertIn(self.content("out.itf"), (NARROW, wide))
        self.assertEqual(self.names(), sorted(self.before + ["out.itf"]))


class WriteRefused(Out):
    def test_nothing_is_made(self):
        told = expected.told(parts.SAMPLE_MODEL, WRONG, "wrong.itf")
        self.answers(["write", "-o", "out.itf", "model.bin", "wrong.itf"], 1, b"", told)
        self.assertEqual(self.names(), self.before)

    def test_what_was_there_is_kept(self):
        path = self.made("out.itf", b"before")
        path.chmod(0o640)
        seen = path.stat()
        for words, status in ((["model.bin", "wrong.itf"], 1), (["--width", "15", "model.bin", "a.itf"], 1),
                              (["--width", "65536", "model.bin", "a.itf"], 1),
                              (["--width", "99999999999999999999", "model.bin", "a.itf"], 1),
                              (["a.itf", "a.itf"], 1), (["model.bin", "none.itf"], 2), (["none.bin", "a.itf"], 2),
                              (["model.bin", str(self.folder)], 2)):
            with self.subTest(words):
                got, out, err = vendorfinch("write", "-o", "out.itf", *words, cwd=self.folder)
                self.assertEqual((got, out), (status, b""))
                self.assertNotEqual(err, b"")
                self.assertEqual(path.read_bytes(), b"before")
                now = path.stat()
                self.assertEqual((now.st_ino, now.st_mtime_ns, now.st_mode),
                                 (seen.st_ino, seen.st_mtime_ns, seen.st_mode))
        self.assertEqual(self.names(), sorted(self.before + ["out.itf"]))

    def test_itself(self):
        """A refused file as its own OUT stays."""
        vendorfinch("write", "-o", "wrong.itf", "model.bin", "wrong.itf", cwd=self.folder)
        self.assertEqual(self.content("wrong.itf"), WRONG)

    def test_no_such_folder(self):
        self.assertIn(b"No such file or directory",
                      self.fails(["write", "-o", "none/out.itf", "model.bin", "a.itf"]))
        self.fails(["write", "-o", "none/", "model.bin", "a.itf"])
        self.fails(["write", "-o", "", "model.bin", "a.itf"])
        self.fails(["write", "-o", "a.itf/out.itf", "model.bin", "a.itf"])
        self.assertEqual(self.names(), self.before)

    def test_a_directory(self):
        (self.folder / "d").mkdir()
        for name in ("d", "d/", ".", "d/.."):
            with self.subTest(name):
                self.assertRegex(self.fails(["write", "-o", name, "model.bin", "a.itf"]), rb"[Ii]s a directory")
        self.assertEqual(os.listdir(self.folder / "d"), [])
        self.assertEqual(self.names(), sorted(self.before + ["d"]))

    def test_a_folder_that_may_not_be_written(self):
        """OUT is there whole or as it was."""
        more = self.unprivileged()
        folder = self.folder / "d"
        folder.mkdir()
        (folder / "out.itf").write_bytes(b"before")
        (folder / "out.itf").chmod(0o666)
        folder.chmod(0o555)
        try:
            self.assertIn(b"Permission denied", self.fails(["write", "-o", "d/new.itf", "model.bin", "a.itf"], **more))
            status, out, _ = vendorfinch("write", "-o", "d/out.itf", "model.bin", "a.itf", cwd=self.folder, **more)
            self.assertIn((status, out, self.content("d/out.itf")),
                          ((2, b"", b"before"), (0, b"", parts.SAMPLE_FILE)))
            self.assertEqual(os.listdir(folder), ["out.itf"])
        finally:
            folder.chmod(0o755)


class DiskFull(Out):
    """There is no room for what is written: what was there stays, and nothing lies beside it."""

    def setUp(self):
        super().setUp()
        model = parts.one(oracle.text(b"X", 60, 1))
        self.made("m.bin", model)
        self.made("large.itf", parts.frame(*[b"OBJE %06d @" % n for n in range(200000)]))

    def test_a_limit_for_files(self):
        """A limit stands in for a full disk where none can be made."""
        def limited():
            # the signal would end the command; ignored, the call fails
            signal.signal(signal.SIGXFSZ, signal.SIG_IGN)
            resource.setrlimit(resource.RLIMIT_FSIZE, (100000, 100000))
        self.before = self.names()
        self.assertIn(b"File too large", self.fails(["write", "-o", "out.itf", "m.bin", "large.itf"],
                                                    preexec_fn=limited))
        self.assertEqual(self.names(), self.before)
        self.made("out.itf", b"before")
        self.assertIn(b"File too large", self.fails(["write", "-o", "out.itf", "m.bin", "large.itf"],
                                                    preexec_fn=limited))
        self.assertEqual(self.content("out.itf"), b"before")
        self.assertEqual(self.names(), sorted(self.before + ["out.itf"]))

    def test_a_small_disk(self):
        disk = self.folder / "disk"
        disk.mkdir()
        mounted = subprocess.run(["mount", "-t", "tmpfs", "-o", "size=1m", "none", str(disk)], capture_output=True,
                                 check=False)
        if mounted.returncode:
            self.skipTest("no file system may be mounted here")
        try:
            (disk / "out.itf").write_bytes(b"before")
            self.assertIn(b"No space left on device",
                          self.fails(["write", "-o", "disk/out.itf", "m.bin", "large.itf"]))
            self.assertEqual((disk / "out.itf").read_bytes(), b"before")
            self.assertIn(b"No space left on device",
                          self.fails(["write", "-o", "disk/new.itf", "m.bin", "large.itf"]))
            self.assertEqual(os.listdir(disk), ["out.itf"])
            # what fits is written
            self.answers(["write", "-o", "disk/out.itf", "model.bin", "a.itf"], 0, b"")
            self.assertEqual((disk / "out.itf").read_bytes(), parts.SAMPLE_FILE)
        finally:
            subprocess.run(["umount", str(disk)], check=True)


class Links(Out):
    def test_its_target_is_replaced(self):
        (self.folder / "d").mkdir()
        for target, link in (("target.itf", "target.itf"), ("d/target.itf", "d/target.itf"),
                             ("target.itf", str(self.folder / "target.itf"))):
            with self.subTest(link):
                self.made(target, b"before").chmod(0o640)
                os.symlink(link, self.folder / "link.itf")
                names = self.names()
                self.writes("link.itf")
                self.assertEqual(os.readlink(self.folder / "link.itf"), link)
                self.assertEqual(self.content(target), NARROW)
                self.assertEqual(stat.S_IMODE((self.folder / target).stat().st_mode), 0o640)
                self.assertEqual(self.names(), names)
                (self.folder / "link.itf").unlink()
        self.assertEqual(os.listdir(self.folder / "d"), ["target.itf"])

    def test_a_link_to_a_link(self):
        (self.folder / "d").mkdir()
        self.made("d/target.itf", b"before")
        os.symlink("target.itf", self.folder / "d/inner")
        os.symlink("d/inner", self.folder / "outer")
        self.writes("outer")
        self.assertEqual(self.content("d/target.itf"), NARROW)
        self.assertEqual((os.readlink(self.folder / "outer"), os.readlink(self.folder / "d/inner")),
                         ("d/inner", "target.itf"))

    def test_a_link_in_the_way(self):
        """The folder is reached by a link."""
        (self.folder / "d").mkdir()
        os.symlink("d", self.folder / "e")
        self.writes("e/out.itf")
        self.assertEqual(self.content("d/out.itf"), NARROW)
        self.assertTrue((self.folder / "e").is_symlink())

    def test_a_link_to_nothing(self):
        """As a shell's > does: the target is made, the link stays."""
        os.symlink("new.itf", self.folder / "link.itf")
        self.writes("link.itf")
        self.assertTrue((self.folder / "link.itf").is_symlink())
        self.assertEqual(self.content("new.itf"), NARROW)

    def test_a_link_to_nothing_in_no_folder(self):
        os.symlink("none/new.itf", self.folder / "link.itf")
        self.fails(["write", "-o", "link.itf", "model.bin", "a.itf"])
        self.assertTrue((self.folder / "link.itf").is_symlink())

    def test_a_link_to_a_descriptor_that_is_closed(self):
        """As /dev/stdout is where standard output is closed: it stays a link."""
        os.symlink("/proc/self/fd/1", self.folder / "stdout")

        def closed():
            os.close(1)
        status, _, err = vendorfinch("write", "-o", "stdout", "model.bin", "a.itf", cwd=self.folder, stdout=None,
                                     preexec_fn=closed)
        self.assertTrue((self.folder / "stdout").is_symlink())
        self.assertEqual(status, 2)
        self.assertNotEqual(err, b"")
        self.assertEqual((self.content("a.itf"), self.content("model.bin")), (parts.SAMPLE_FILE, parts.SAMPLE_MODEL))

    def test_a_link_to_standard_input_that_is_closed(self):
        """It names nothing, least of all the model or the file that was opened meanwhile."""
        os.symlink("/proc/self/fd/0", self.folder / "stdin")

        def closed():
            os.close(0)
        status, _, _ = vendorfinch("write", "--width", "16", "-o", "stdin", "model.bin", "a.itf", cwd=self.folder,
                                   preexec_fn=closed)
        self.assertEqual((self.content("a.itf"), self.content("model.bin")), (parts.SAMPLE_FILE, parts.SAMPLE_MODEL))
        self.assertTrue((self.folder / "stdin").is_symlink())
        self.assertEqual(status, 2)

    def test_a_link_to_itself(self):
        os.symlink("link.itf", self.folder / "link.itf")
        self.assertIn(b"Too many levels of symbolic links",
                      self.fails(["write", "-o", "link.itf", "model.bin", "a.itf"]))
        self.assertEqual(os.readlink(self.folder / "link.itf"), "link.itf")

    def test_a_link_to_the_file(self):
        os.symlink("a.itf", self.folder / "link.itf")
        self.writes("link.itf")
        self.assertEqual(self.content("a.itf"), NARROW)
        self.assertTrue((self.folder / "link.itf").is_symlink())

    def test_a_link_to_a_directory(self):
        (self.folder / "d").mkdir()
        os.symlink("d", self.folder / "link.itf")
        self.assertRegex(self.fails(["write", "-o", "link.itf", "model.bin", "a.itf"]), rb"[Ii]s a directory")
        self.assertTrue((self.folder / "link.itf").is_symlink())

    def test_a_target_on_another_file_system(self):
        try:
            other = tempfile.TemporaryDirectory(dir="/dev/shm")
        except OSError:
            self.skipTest("no /dev/shm")
        self.addCleanup(other.cleanup)
        if os.stat(other.name).st_dev == self.folder.stat().st_dev:
            self.skipTest("/dev/shm is no other file system")
        target = pathlib.Path(other.name) / "target.itf"
        target.write_bytes(b"before")
        os.symlink(target, self.folder / "link.itf")
        self.writes("link.itf")
        self.assertEqual(target.read_bytes(), NARROW)
        self.assertTrue((self.folder / "link.itf").is_symlink())
        self.assertEqual(os.listdir(other.name), ["target.itf"])

    def test_a_refused_file(self):
        self.made("target.itf", b"before")
        os.symlink("target.itf", self.folder / "link.itf")
        status, out, _ = vendorfinch("write", "-o", "link.itf", "model.bin", "wrong.itf", cwd=self.folder)
        self.assertEqual((status, out, self.content("target.itf")), (1, b"", b"before"))
        self.assertTrue((self.folder / "link.itf").is_symlink())


class Streams(Out):
    """A device or a pipe is written to as it is."""

    def test_standard_output(self):
        for words in ([], ["-o", "-"], ["-o-"], ["--output", "-"], ["--output=-"]):
            with self.subTest(words):
                self.answers(["write", "--width", "16", *words, "model.bin", "a.itf"], 0, NARROW)
        self.assertEqual(self.names(), self.before)

    def test_the_default_width(self):
        self.made("long.itf", parts.frame(b"OBJE a " + b"x" * 200))
        model = parts.one(oracle.text(b"X", 300))
        self.made("m.bin", model)
        out = expected.written(model, self.content("long.itf"), 80)
        self.assertEqual(max(map(len, out.split(b"\n"))), 80)
        self.answers(["write", "m.bin", "long.itf"], 0, out)

    def piped(self, out, **more):
        """Writes the sample at width 16 to OUT, with a pipe as standard output that the command's user may open; gives
        status, what came through it, and standard error. % in OUT is the pipe's descriptor."""
        reader, writer = os.pipe()
        if "preexec_fn" in more:
            os.fchown(writer, 65534, 65534)
        out = out.replace("%", str(writer))
        status, _, err = vendorfinch("write", "--width", "16", "-o", out, "model.bin", "a.itf", cwd=self.folder,
                                     stdout=writer, pass_fds=[writer], **more)
        os.close(writer)
        with open(reader, "rb") as pipe:
            return status, pipe.read(), err

    def test_dev_stdout(self):
        self.assertEqual(self.piped("/dev/stdout", **self.unprivileged()), (0, NARROW, b""))
        self.assertFalse(os.path.isfile("/dev/stdout") and not os.path.islink("/dev/stdout"))

    def test_a_link_to_standard_output(self):
        """As /dev/stdout is one; this one a wrong command may spoil."""
        os.symlink("/proc/self/fd/1", self.folder / "stdout")
        self.assertEqual(self.piped("stdout"), (0, NARROW, b""))
        self.assertEqual(os.readlink(self.folder / "stdout"), "/proc/self/fd/1")
        self.assertEqual(self.names(), sorted(self.before + ["stdout"]))

    def test_dev_stdout_into_a_file(self):
        more = self.unprivileged()
        path = self.folder / "out.itf"
        path.touch()
        path.chmod(0o666)
        with open(path, "wb") as out:
            status, _, err = vendorfinch("write", "--width", "16", "-o", "/dev/stdout", "model.bin", "a.itf",
                                         cwd=self.folder, stdout=out, **more)
        self.assertEqual((status, err), (0, b""))
        self.assertEqual(path.read_bytes(), NARROW)

    def test_dev_full(self):
        more = self.unprivileged()
        was = os.stat("/dev/full")
        err = self.fails(["write", "-o", "/dev/full", "model.bin", "a.itf"], **more)
        self.assertIn(b"No space left on device", err)
        now = os.stat("/dev/full")
        self.assertTrue(stat.S_ISCHR(now.st_mode))
        self.assertEqual((now.st_rdev, now.st_ino), (was.st_rdev, was.st_ino))

    def test_a_link_to_a_device(self):
        more = self.unprivileged()
        os.symlink("/dev/full", self.folder / "full")
        self.assertIn(b"No space left on device",
                      self.fails(["write", "-o", "full", "model.bin", "a.itf"], **more))
        self.assertEqual(os.readlink(self.folder / "full"), "/dev/full")
        os.symlink("/dev/null", self.folder / "null")
        self.answers(["write", "-o", "null", "model.bin", "a.itf"], 0, b"", **more)
        self.assertEqual(os.readlink(self.folder / "null"), "/dev/null")
        self.assertTrue(stat.S_ISCHR(os.stat("/dev/null").st_mode))

    def test_a_fifo(self):
        os.mkfifo(self.folder / "pipe")
        got = []

        def take():
            with open(self.folder / "pipe", "rb") as pipe:
                got.append(pipe.read())
        thread = threading.Thread(target=take)
        thread.start()
        self.writes("pipe")
        thread.join()
        self.assertEqual(got, [NARROW])
        self.assertTrue((self.folder / "pipe").is_fifo())
        self.assertEqual(self.names(), sorted(self.before + ["pipe"]))

    def test_a_pipe_by_its_descriptor(self):
        self.assertEqual(self.piped("/dev/fd/%", **self.unprivileged()), (0, NARROW, b""))

    def test_standard_input_and_output(self):
        """As a filter."""
        self.answers(["write", "--width=16", "model.bin", "-", "-o", "-"], 0, NARROW, input=parts.SAMPLE_FILE)


def large_file(seed, number):
    """A model with attributes of every type, and a file of its grammar with so many objects."""
    rng = random.Random(seed)
    plan = [(3, 0, 10 ** 9), (3, -5, 10 ** 9), (1, -9000, 9000)]
    model = (parts.head() + oracle.topic(b"N") + oracle.table(b"A") + oracle.text(b"X", 40)
             + oracle.reference(b"R", 1, 1) + oracle.coordinate(b"P", plan) + oracle.line(b"L", 3, plan[:2], 1)
             + oracle.table(b"B", 1) + oracle.date(b"D", 1) + oracle.enumeration(b"E", 12) + oracle.reference(b"S", 0)
             + oracle.coordinate(b"Q", plan[:2], 1) + oracle.number(b"Z", (9, -10 ** 18 + 1, 10 ** 18 - 1), 1)
             + oracle.line(b"K", 2, plan, 1) + oracle.line(b"J", 1, plan[:2]) + oracle.end())
    m = oracle.decode(model)
    names = [b"%x\xe9" % n for n in range(number)]
    rng.shuffle(names)
    identifications = {0: names[::2], 1: names[1::2]}
    lines = [b"SCNT", b"Beschreibung", b"////", b"MTID T", b"MODL M", b"TOPI N"]
    for n, table in enumerate(m.tables):
        lines.append(b"TABL " + table.name)
        for name in identifications[n]:
            lines += parts.random_object(rng, m, table, name, identifications)
        lines.append(b"ETAB")
    return model, parts.cut(rng, b"\\", lines + [b"ETOP", b"EMOD", b"ENDE"], 0.05)


class Tables(expected.Folder):
    """`list`, `unfold`, `write` and `verify` against the independent implementation."""

    def held(self, model, file, width):
        self.made("m.bin", model)
        self.made("a.itf", file)
        self.answers(["list", "m.bin", "a.itf"], 0, expected.listing(model, file))
        self.answers(["unfold", "m.bin", "a.itf"], 0, expected.unfolded(model, file))
        out = expected.written(model, file, width)
        self.answers(["write", "--width", str(width), "m.bin", "a.itf"], 0, out)
        same = "a.itf: same, %s, %d bytes written\n" % (expected.counts(expected.answer_of(model, file)), len(out))
        self.answers(["verify", "--width", str(width), "m.bin", "a.itf"], 0, same.encode())

    def test_the_sample(self):
        self.held(parts.SAMPLE_MODEL, parts.SAMPLE_FILE, 80)
        self.answers(["list", "m.bin", "a.itf"], 0, b"""\
0 2 18 3
0 51 2 4 54 1 100 1 205
1 91 2 1 0 0 0 4 0
0 100 205 0
2 110 210 0
1 120 205 0
""")
        self.answers(["verify", "m.bin", "a.itf"], 0,
                     b"a.itf: same, 2 objects, 18 cells, 3 points, 169 bytes written\n")
        self.answers(["verify", "--json", "m.bin", "a.itf"], 0,
                     b'{"file": "a.itf", "status": "same", "objects": 2, "cells": 18, "points": 3, "written": 169}\n')
        self.answers(["unfold", "m.bin", "a.itf"], 0, parts.SAMPLE_FILE)

    def test_widths(self):
        for width in (16, 17, 20, 21, 22, 79, 81, 65535):
            with self.subTest(width):
                self.held(parts.SAMPLE_MODEL, parts.SAMPLE_FILE, width)

    def test_one_object(self):
        self.made("m.bin", parts.one(parts.L_))
        self.made("a.itf", parts.frame(b"OBJE a", b"ELIN"))
        self.answers(["read", "m.bin", "a.itf"], 0, b"a.itf: read, 1 object, 5 cells, 0 points\n")
        self.made("a.itf", parts.NO_TOPICS_FILE)
        self.answers(["read", "m.bin", "a.itf"], 0, b"a.itf: read, 0 objects, 0 cells, 0 points\n")
        self.held(parts.one(parts.L_), parts.NO_TOPICS_FILE, 80)

    def test_random_models(self):
        rng = random.Random(1798)
        for n in range(80):
            model = parts.random_model(rng)
            m = oracle.decode(model)
            file = parts.cut(rng, bytes([m.mark]), parts.random_lines(rng, m), rng.choice((0, 0.2, 0.6)))
            with self.subTest(n):
                self.held(model, file, rng.choice((16, 17, 33, 80, 1000)))

    def test_larger_files(self):
        for seed, number in ((1, 300), (2, 2500)):
            with self.subTest(number):
                model, file = large_file(seed, number)
                self.held(model, file, (16, 80)[seed - 1])

    def test_many_files_at_a_time(self):
        """Random files of one model, right and wrong, verified together."""
        rng = random.Random(1291)
        for n in range(12):
            model = parts.random_model(rng)
            m = oracle.decode(model)
            special = bytes([m.blank, m.undefined, m.mark])
            self.made("m.bin", model)
            names, answers = [], []
            for k in range(30):
                file = parts.file_of(parts.random_lines(rng, m))
                if rng.random() < 0.5:
                    file = parts.random_damage(rng, file, special)
                names.append("%d.itf" % k)
                self.made(names[-1], file)
                answer = expected.as_json(model, file, names[-1])
                if answer["status"] == "read":
                    answer.update({"status": "same", "written": len(expected.written(model, file, 20))})
                answers.append(answer)
            with self.subTest(n):
                status, out, err = vendorfinch("verify", "--json", "--width=20", "-j3", "m.bin", *names,
                                               cwd=self.folder)
                self.assertEqual(err, b"")
                self.assertEqual([json.loads(line) for line in out.splitlines()], answers)
                self.assertEqual(status, int(any(answer["status"] == "refused" for answer in answers)))

    def test_unfold_does_not_read(self):
        """Whatever stands in its lines, a file that unfolds is unfolded."""
        for file in (b"", b"\n", b"\r\n", b"a\\\nCONT b\r\n\n \t\xa0\xff\n", b"\\\nCONT \\\nCONT \n", b"CONT x\n"):
            with self.subTest(file):
                self.made("a.itf", file)
                self.answers(["unfold", "model.bin", "a.itf"], 0, expected.unfolded(parts.SAMPLE_MODEL, file))
        self.made("a.itf", b"a\\\nCONT b\r\n")
        self.answers(["unfold", "model.bin", "a.itf"], 0, b"ab\n")

    def test_what_was_written_is_written_the_same_again(self):
        model, file = large_file(3, 200)
        self.made("m.bin", model)
        self.made("a.itf", file)
        self.answers(["write", "--width", "30", "-o", "b.itf", "m.bin", "a.itf"], 0, b"")
        self.answers(["write", "--width", "30", "-o", "c.itf", "m.bin", "b.itf"], 0, b"")
        self.assertEqual((self.folder / "b.itf").read_bytes(), (self.folder / "c.itf").read_bytes())
        self.assertEqual(expected.written(model, file, 30), (self.folder / "c.itf").read_bytes())
