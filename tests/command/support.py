"""Runs the command as people do, and makes the files that they have."""
import os
import pathlib
import shlex
import subprocess

ROOT = pathlib.Path(__file__).resolve().parents[2]
# the words that start the command
COMMAND = shlex.split(os.environ.get("VENDORFINCH", str(ROOT / "bin/vendorfinch")))
MODEL = ROOT / "sample/model.bin"
FILE = ROOT / "sample/file.itf"


def vendorfinch(*words, **more):
    """Runs it; the status, and what it wrote to standard output and standard error, as bytes."""
    more.setdefault("stdin", subprocess.DEVNULL) if "input" not in more else None
    more.setdefault("stdout", subprocess.PIPE)
    more.setdefault("stderr", subprocess.PIPE)
    done = subprocess.run([*COMMAND, *words], timeout=600, **more)
    return done.returncode, done.stdout, done.stderr
