"""The drop-in for the Python module lrcalc, against Debian's program of this name."""
import itertools
import re
import shutil
import subprocess

from common import PROGRAM, Skipped, main, raises, same

from yorqanish import Tableau, lrcalc

assert PROGRAM


def printed(*words):
    """The terms that a program of lrcalc prints."""
    if not shutil.which(words[0]):
        raise Skipped(f"there is no {words[0]}")
    lines = subprocess.run(list(map(str, words)), capture_output=True, text=True, check=True).stdout.splitlines()
    read = ((int(line.split()[0]), [tuple(map(int, re.findall(r"\d+", it))) for it in re.findall(r"\(.*?\)", line)]) for line in lines)
    return {(labels[0] if len(labels) == 1 else tuple(labels)): c for c, labels in read}


def partitions(n, most=None):
    return [()] if n == 0 else [(k, *rest) for k in range(min(n, most or n), 0, -1) for rest in partitions(n - k, k)]


SMALL = [it for n in range(6) for it in partitions(n)]


def test_products():
    for a, b in itertools.product(SMALL[3:], repeat=2):
        if (sum(a) + sum(b)) % 3 == 0:
            there = [*(a or (0,)), "-", *(b or (0,))]
            same(lrcalc.mult(a, b), printed("lrcalc", "mult", *there))
            if max(len(a), len(b)) < 4:
                same((lrcalc.mult(a, b, 3), lrcalc.mult(a, b, maxrows=3)), (printed("lrcalc", "mult", "-r", 3, *there),) * 2)
            if max(len(a), len(b)) < 3 and max(a[0], b[0]) < 4:
                same(lrcalc.mult_quantum(a, b, 2, 3), printed("lrcalc", "mult", "-q", "2,3", *there))
                same({label: c for (label, d), c in lrcalc.mult_quantum(a, b, 2, 3, degrees=True).items()}, lrcalc.mult_quantum(a, b, 2, 3))
            if max(len(a), len(b)) < 3 and max(a[0] - sum(a[1:2]), b[0] - sum(b[1:2])) < 3:
                wanted = printed("lrcalc", "mult", "-f", "2,2", *there)
                same((lrcalc.mult_fusion(a, b, 2, 2), lrcalc.mult(a, b, 2, 2)), (wanted, wanted))
    same(lrcalc.mult([2, 1], [2, 1], 2, 2, quantum=10), {(2,): 10, (1, 1): 10})


def test_skew_functions_and_coefficients():
    for outer in SMALL[5:] + [(4, 3, 2, 1), (4, 4, 2)]:
        # (of a pair of one size lrcalc prints one order, which one is left open)
        ours, theirs = ({tuple(sorted(pair)): c for pair, c in it.items()} for it in (lrcalc.coprod(outer), printed("lrcalc", "coprod", *outer)))
        same((ours, len(ours), all(sum(a) >= sum(b) for a, b in lrcalc.coprod(outer))), (theirs, len(lrcalc.coprod(outer)), True))
        same(lrcalc.coprod(outer, all=True), printed("lrcalc", "coprod", "-a", *outer))
        for inner in SMALL[1:6]:
            if len(inner) <= len(outer) and all(a <= b for a, b in zip(inner, outer)):
                same(lrcalc.skew(outer, inner), printed("lrcalc", "skew", *outer, "/", *inner))
                same(sum(1 for _ in lrcalc.lrskew(outer, inner)), sum(lrcalc.skew(outer, inner).values()))
    same((lrcalc.lrcoef([3, 2, 1], [2, 1], [2, 1]), lrcalc.skew([3, 2, 1], [2, 1], 2)), (2, {(3,): 1, (2, 1): 2}))
    same(list(lrcalc.lrskew([3, 2, 1], [2, 1], weight=[2, 1])), [Tableau([[None, None, 1], [None, 1], [2]]), Tableau([[None, None, 1], [None, 2], [1]])])
    same(sum(1 for _ in lrcalc.lrskew([3, 2, 1], [2, 1], maxrows=2)), 3)


def test_schubert_polynomials():
    for a, b in itertools.product(list(itertools.permutations(range(1, 4))), repeat=2):
        there = [*a, "-", *b]
        ours = {lrcalc.calculator().X(label).support() and next(iter(lrcalc.calculator().X(label).support())): c for label, c in printed("schubmult", *there).items()}
        same((lrcalc.schubmult(a, b), lrcalc.mult_schubert(a, b)), (ours, ours))
        same(len(lrcalc.schubmult(a, b, 3)), len(printed("schubmult", "-r", 3, *there)))


def test_what_has_two_readings():
    for wrong in (lambda: lrcalc.mult([1], [1], 0), lambda: lrcalc.skew([1], [1], maxrows=0), lambda: lrcalc.mult([1], [1], level=2), lambda: lrcalc.mult([1], [1], 2, quantum=1)):
        with raises(ValueError):
            wrong()


if __name__ == "__main__":
    main(globals())
