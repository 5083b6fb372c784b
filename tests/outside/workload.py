#!/usr/bin/env python3
"""Compares `work` with a generator of its own: `workload.py PROGRAM`.

It makes the lines of the generator by itself, runs them as one `batch`, adds up lines, terms and bytes of the blocks, and
compares these with what `work` prints. `work` is run twice, and must write the same. Where there is a compiler of C, it counts the
allocations of both: a line of `work` takes none that a line of a batch does not take."""
import os
import shutil
import subprocess
import sys
import tempfile

from common import SECONDS, Differences, printed, run

# A library that is loaded into the program, and counts its allocations.
COUNTING = os.path.join(os.path.dirname(os.path.abspath(__file__)), "../../bench/refuse.c")


class Generator:
    def __init__(self, seed):
        self.state = seed

    def draw(self, modulus):
        self.state = (75 * self.state + 74) % 65537
        return self.state % modulus

    def partition(self, modulus):
        a, b, c = (self.draw(modulus) for _ in range(3))
        return [part for part in (a + b + c, b + c, c) if part > 0]

    def permutation(self):
        left = [1, 2, 3, 4]
        code = [self.draw(4), self.draw(3), self.draw(2), 0]
        return [left.pop(place) for place in code]

    def line(self):
        kind = self.draw(5)
        if kind == 0:
            words = ["mult", *self.partition(3), "-", *self.partition(3)]
        elif kind == 1:
            words = ["skew", *self.partition(4), "/", *self.partition(2)]
        elif kind == 2:
            words = ["coprod", *self.partition(3)]
        elif kind == 3:
            words = ["schubmult", *self.permutation(), "-", *self.permutation()]
        else:
            words = ["expand", "p", "m[" + ",".join(map(str, self.partition(3))) + "]"]
        return " ".join(map(str, words))


def lines_of(count, seed):
    """The lines of the generator."""
    generator = Generator(seed)
    return "".join(generator.line() + "\n" for _ in range(count))


def summed(program, count, seed):
    """The sums over the blocks of the same lines as a batch."""
    blocks = printed(program, "batch", given=lines_of(count, seed)).split("--\n")
    terms = sum(0 if block == "0\n" else block.count("\n") for block in blocks)
    return f"lines {len(blocks)}\nterms {terms}\nbytes {sum(map(len, blocks))}\n"


def allocations(library, counts, *words, given=""):
    """The number of allocations of a run in which none is refused."""
    with open(counts, "wb") as file:
        file.write(bytes(8))
    told = {"LD_PRELOAD": library, "REFUSE": "0", "REFUSE_COUNT": counts}
    subprocess.run(words, input=given.encode(), capture_output=True, check=True, timeout=SECONDS, env=told)
    with open(counts, "rb") as file:
        return int.from_bytes(file.read(), sys.byteorder)


def more_than_a_batch(program, count, seed):
    """The number of allocations of `work` beyond those of a batch of the same lines; None if they can't be counted."""
    with tempfile.TemporaryDirectory() as folder:
        library, counts = os.path.join(folder, "counting.so"), os.path.join(folder, "counts")
        if not shutil.which("cc") or run("cc", "-O1", "-shared", "-fPIC", "-o", library, COUNTING, "-ldl").returncode:
            return 0
        ours = allocations(library, counts, program, "work", str(count), str(seed))
        return ours - allocations(library, counts, program, "batch", given=lines_of(count, seed))


def main():
    program, differences = sys.argv[1], Differences()
    for count, seed in [(1, 0), (2, 0), (2, 65536), (200, 1), (2000, 7)]:
        wanted = summed(program, count, seed)
        for _ in range(2):
            differences.compare(f"work {count} {seed}", printed(program, "work", count, seed), wanted)
    # Values that serve all lines, as the store of Schubert polynomials, are made once.
    more = more_than_a_batch(program, 500, 7)
    differences.compare("allocations of work beyond those of a batch", max(more, 100), 100)
    return differences.status("the sums of work against a batch")


if __name__ == "__main__":
    sys.exit(main())
