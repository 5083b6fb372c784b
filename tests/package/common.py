"""Functions that the tests of the Python package share. Each test is a function `test_..` of a file of this folder without parameters, which
tests/python_package calls in its own process, so that a test that hangs stops no other."""
import glob
import os
import shutil
import signal
import subprocess
import sys
import time
from contextlib import contextmanager

TOP = os.path.abspath(os.path.join(os.path.dirname(os.path.abspath(__file__)), "../.."))
PROGRAM = os.environ["YORQANISH_CALC"]
LIBRARY = os.environ.get("YORQANISH_LIBRARY", "")
# Whether times are held to their goals, as in tests/transcripts.py; what takes longer than this hangs, on however busy a machine.
CLOCKS, HANGS = os.environ.get("YORQANISH_CLOCKS") == "1", 120


class Skipped(Exception):
    """Something that the test needs is missing."""


def need(module):
    """The module of another package, or this test is skipped."""
    try:
        return __import__(module)
    except ImportError:
        raise Skipped(f"there is no {module}") from None


def printed(lines):
    """The blocks that the program itself prints for these lines, without the package."""
    done = subprocess.run([PROGRAM, "batch"], input="\n".join(lines) + "\n", capture_output=True, encoding="ascii", timeout=60)
    return done.stdout.split("--\n")


def terms(block):
    """The terms of a block of partitions, read without the package."""
    read = (line.split("  ") for line in block.splitlines() if line != "0")
    return {tuple(int(n) for n in label.strip("()").split(",") if n): int(c) for c, label in read}


def same(got, wanted):
    assert got == wanted, f"{got!r} is not {wanted!r}"


@contextmanager
def raises(kind, *words):
    """The body raises this kind of error, with these words in its message."""
    try:
        yield
    except kind as error:
        missing = [it for it in words if it not in str(error)]
        assert not missing, f"{error} does not say {missing}"
    else:
        raise AssertionError(f"no {kind} was raised")


@contextmanager
def within(seconds):
    """The body does not hang; if clocks are asked for, it takes at most `seconds`."""
    began, allowed = time.perf_counter(), seconds if CLOCKS else HANGS
    yield
    took = time.perf_counter() - began
    assert took <= allowed, f"it took {took:.2f} s, and {allowed} s were allowed"


def pythons(least):
    """Each Python from this version on that runs, the first of each version, among them those of pyenv."""
    found, pyenv = {}, os.environ.get("PYENV_ROOT") or os.path.expanduser("~/.pyenv")
    for name in (sys.executable, "python3", *(f"python3.{it}" for it in range(8, 20)), *sorted(glob.glob(f"{pyenv}/versions/*/bin/python3"))):
        if shutil.which(name):
            done = subprocess.run([name, "-c", "import sys; print(*sys.version_info[:2])"], capture_output=True, text=True)
            version = tuple(map(int, done.stdout.split()))
            if done.returncode == 0 and version >= least:
                found.setdefault(version, name)
    return dict(sorted(found.items()))


def comes(is_so):
    """Waits until something is so."""
    until = time.monotonic() + HANGS
    while not is_so():
        assert time.monotonic() < until, "it did not come"
        time.sleep(0.02)


def main(tests):
    """Runs the test that the command line names."""
    # (what a shell starts in the background ignores Ctrl-C)
    signal.signal(signal.SIGINT, signal.default_int_handler)
    try:
        tests[sys.argv[1]]()
    except Skipped as why:
        print(why)
        sys.exit(77)
