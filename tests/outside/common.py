"""Shared by the scripts of this folder: runs of the program, its lines as Python's values, partitions.

Each script is called with the path of the program, prints a line for each mismatch, and ends with status 0 where there is none,
1 where there is one, and 77 where what it compares with can't be had."""
import os
import re
import subprocess
import tempfile
from collections import Counter
from fractions import Fraction

SECONDS = 600


def printed(*words, given=""):
    """The output of a program for these words and this standard input; it must end with status 0."""
    return run(*words, given=given, check=True).stdout


def run(*words, given="", check=False):
    """A run of a program that has ended: its status and its texts."""
    words = [str(word) for word in words]
    return subprocess.run(words, input=given, capture_output=True, text=True, check=check, timeout=SECONDS)


def symmetrica(requests):
    """Symmetrica's answers, by the driver beside this file; none if that can't be built."""
    source = os.path.join(os.path.dirname(os.path.abspath(__file__)), "symmetrica.c")
    with tempfile.TemporaryDirectory() as folder:
        driver = os.path.join(folder, "symmetrica")
        if run("cc", "-O1", "-w", "-o", driver, source, "-lsymmetrica").returncode:
            return None
        return printed(driver, given="".join(request + "\n" for request in requests)).split("--\n")


def numbers(label):
    """The numbers of a label, without zeros."""
    return tuple(int(a) for a in re.findall(r"\d+", label) if a != "0")


def terms(text, label=numbers):
    """Coefficients by label, from lines such as `2  (2,1)` of any of the programs."""
    found = Counter()
    for line in text.splitlines():
        if line.strip() not in ("", "0"):
            coefficient, rest = line.split("  ", 1)
            found[label(rest)] += Fraction(coefficient)
    return found


def partitions(size, greatest=None):
    """The partitions of a number, the greater ones first."""
    greatest = size if greatest is None else greatest
    if size == 0:
        return [()]
    return [(a, *rest) for a in range(min(size, greatest), 0, -1) for rest in partitions(size - a, a)]


def random_partition(rng, size):
    parts = []
    while size:
        parts.append(rng.randint(1, min(size, *parts[-1:], size)))
        size -= parts[-1]
    return tuple(parts)


def random_permutation(rng, greatest):
    """A random permutation of 1 to n, for a random n of at most `greatest`."""
    letters = rng.randint(1, greatest)
    return rng.sample(range(1, letters + 1), letters)


def atom(letter, parts):
    """An atom of an expression."""
    return f"{letter}[{','.join(map(str, parts))}]"


def tableau(rows):
    """A tableau as the program writes it."""
    return " / ".join(" ".join(map(str, row)) or "." for row in rows) or "."


class Differences:
    """Counts what is compared, and prints what differs."""

    def __init__(self):
        self.compared = self.different = 0

    def compare(self, what, ours, theirs):
        self.compared += 1
        if ours != theirs:
            self.different += 1
            print(f"{what}: {ours!r}, and not {theirs!r}"[:2000], flush=True)

    def status(self, what):
        """Prints the number of comparisons; returns the status to end with."""
        print(f"{what}: {self.compared} compared, {self.different} differ")
        return int(self.different > 0)
