"""No false answer and none lost: fork and pools, numbers and shapes, labels, refusals, batches, foreign programs and libraries."""
import multiprocessing
import operator
import os
import pickle
import subprocess
import sys
import tempfile
import threading
from concurrent.futures import ProcessPoolExecutor, ThreadPoolExecutor
from fractions import Fraction

from common import LIBRARY, PROGRAM, Skipped, main, printed, raises, same, terms, within

import yorqanish
from yorqanish import Calculator, NoCalculator, Refusal, _ways

SHAPES = [((1 + i % 5, 1 + i % 2), (1 + i % 7,)) for i in range(2000)]
# (a Calculator that processes made by `fork` find as it was left)
USED = Calculator(program=PROGRAM)


def wanted_products():
    return [terms(it) for it in printed([f"mult {a} {b} - {c}" if a >= b else "mult" for (a, b), (c,) in SHAPES])]


def product(pair):
    return dict(USED.mult(*pair))


def product_by(job):
    calc, pair = job
    return dict(calc.mult(*pair))


def in_pool(method):
    """Every answer of a pool of four processes is that of its own line."""
    USED.mult((1,), (1,))
    shapes = [it for it in SHAPES if it[0][0] >= it[0][1]]
    wanted = [terms(it) for it in printed([f"mult {a} {b} - {c}" for (a, b), (c,) in shapes])]
    with multiprocessing.get_context(method).Pool(4) as pool:
        got = pool.map(product, shapes, 10)
    wrong = sum(a != b for a, b in zip(got, wanted))
    assert not wrong, f"{wrong} of {len(wanted)} answers are those of other lines"


def test_a_pool_of_forked_processes():
    in_pool("fork")


def test_a_pool_of_spawned_processes():
    in_pool("spawn")


def test_a_pool_of_a_server():
    in_pool("forkserver")


def test_a_forked_process_beside_its_parent():
    """Parent and child ask by turns, and each has its own answers; the parent's goes on when the child is gone."""
    USED.mult((1,), (1,))
    wanted = [terms(it) for it in printed(["mult 2 1 - 2 1", "mult 3 - 1"])]
    child = os.fork()
    own, shapes = (0, ((2, 1), (2, 1))) if child else (1, ((3,), (1,)))
    wrong = sum(dict(USED.mult(*shapes)) != wanted[own] for _ in range(500))
    if not child:
        os._exit(min(wrong, 100))
    _, status = os.waitpid(child, 0)
    same((wrong, os.WEXITSTATUS(status)), (0, 0))
    same(dict(USED.mult((3,), (1,))), wanted[1])


def test_a_fork_while_other_threads_ask():
    """A process that is made while threads of its parent are in the middle of commands has answers of its own."""
    stop, wrong = threading.Event(), []

    def ask():
        while not stop.is_set():
            if USED.coef((3, 2, 1), (2, 1), (2, 1)) != 2:
                wrong.append(1)

    threads = [threading.Thread(target=ask) for _ in range(3)]
    for it in threads:
        it.start()
    for _ in range(10):
        child = os.fork()
        if not child:
            os._exit(0 if USED.coef((2,), (1,), (1,)) == 1 else 1)
        same(os.waitpid(child, 0)[1], 0)
    stop.set()
    for it in threads:
        it.join()
    assert not wrong


def test_a_calculator_is_pickled():
    """A Calculator is opened anew when it is unpickled."""
    again = pickle.loads(pickle.dumps(USED))
    same(dict(again.mult((1,), (1,))), {(2,): 1, (1, 1): 1})
    with multiprocessing.get_context("spawn").Pool(2) as pool:
        same(pool.map(product_by, [(USED, ((1,), (1,)))] * 4), [{(2,): 1, (1, 1): 1}] * 4)


def test_threads_share_a_calculator():
    wanted = [terms(it) for it in printed([f"mult {n} - 2 1" for n in range(1, 9)])]
    with ThreadPoolExecutor(8) as pool:
        got = list(pool.map(lambda n: dict(USED.mult([1 + n % 8], [2, 1])), range(800)))
    same(got, [wanted[n % 8] for n in range(800)])


# ---- arguments

def test_a_text_is_no_shape():
    with raises(TypeError, "factor 1"):
        USED.mult("21", "21")
    with raises(TypeError, "factor 1"):
        USED.mult("1 - 1", [1])
    with raises(TypeError, "letters"):
        USED.rsk("312")
    with raises(TypeError, "outer"):
        USED.skew(b"21", [1])


def test_what_is_no_number():
    with raises(TypeError, "factor 1"):
        USED.mult([2.0, 1], [1])
    with raises(TypeError, "factor 2"):
        USED.mult([2, 1], [Fraction(1)])
    with raises(TypeError, "rows"):
        USED.mult([2, 1], [1], rows="2")
    with raises(TypeError, "factor 1"):
        USED.mult([(2, 1)], [1])
    with raises(TypeError, "factor 1"):
        USED.mult({3, 1}, [1])
    with raises(TypeError, "factor 2"):
        USED.mult([1], None)
    with raises(TypeError, "cols"):
        USED.quantum(2, 2.0, [1], [1])


def test_what_has_no_order():
    """Numbers that come in no order of their own are no shape, whatever class has them."""

    class Own:
        def __iter__(self):
            return iter((2, 1))

        def issubset(self, other):
            return all(it in other for it in self)

    for wrong in ({3, 1}, frozenset((2, 1)), {2: 1}, {2: 1}.keys(), Own()):
        with raises(TypeError, "factor 1"):
            USED.mult(wrong, [1])
        with raises(TypeError, "letters"):
            USED.rsk(wrong)


def test_an_expression_is_one_word():
    """No part of the command is made of two words of one expression and none of another."""
    for outer, inner in (("h[2] h[3]", ""), ("", "h[2] h[3]"), ("h[2]\th[3]", " "), ("h[2] h[3]", "\r"), ("h[2] h[3]", "\n"), ("h[2]", "")):
        with raises((ValueError, Refusal)):
            USED.plethysm("s", outer, inner)
    for expression in ("", " ", "\n", "s[1] s[2]"):
        with raises((ValueError, Refusal)):
            USED.expand("s", expression)


def test_what_is_negative():
    with raises(ValueError, "factor 1", "-1"):
        USED.mult([2, -1], [1])
    with raises(ValueError, "rows", "-2"):
        USED.mult([2, 1], [1], rows=-2)
    with raises(ValueError, "perm", "-1"):
        USED.schubert([-1])
    with raises(ValueError, "tableau"):
        USED.rect([2, 2], [1], ((1,), (-1, 2)))


def test_numbers_of_other_types():
    """A number is what is registered as integral. Of a type that is derived from `int` only the number is sent, however it shows itself."""

    class Three(int):
        def __str__(self):
            return "1 - 1 1 1"

        __repr__ = __format__ = __str__

        def __index__(self):
            return self

    class Index:
        def __index__(self):
            return 3

    same(dict(USED.mult([Three(3)], [Three(1)])), {(4,): 1, (3, 1): 1})
    same(dict(USED.mult([1, 1], [1, 1], rows=Three(3))), {(2, 2): 1, (2, 1, 1): 1})
    same((USED.mult([3], [1])[[Three(4)]], USED.text("coef", [Three(4)], "-", Three(3), "-", [1])), (1, "1\n"))
    for wrong in (Index(), True, 3.0, Fraction(3), "3", None):
        with raises(TypeError, "factor 1"):
            USED.mult([wrong], [1])


def test_zeros_at_the_end():
    same(dict(USED.mult([2, 1] + [0] * 100, [1, 0])), terms(printed(["mult 2 1 - 1"])[0]))
    same(dict(USED.mult([0, 0], [1])), {(1,): 1})
    same(USED.coef([3, 2, 1, 0], (2, 1, 0), [2, 1]), 2)
    with raises(Refusal):
        USED.mult([0, 1], [1])


# ---- labels

def test_labels_find_theirs():
    product = USED.mult([2, 1], [2, 1])
    same([product[3, 2, 1], product[[3, 2, 1]], product[3, 2, 1, 0], product[range(3, 0, -1)]], [2, 2, 2, 2])
    same(USED.mult([1], [1])[[2]], 1)
    same(product[7, 1], 0)
    same((USED.coprod([1])[[1], []], USED.coprod([1])[[1, 0], [0]], USED.coprod([1])[[2], []]), (1, 1, 0))
    same((USED.quantum(2, 2, [1], [2, 1])[1, []], USED.quantum(2, 2, [1], [2, 1])[0, [2, 2, 0]]), (1, 1))
    same((USED.schubert([1, 3, 2])[0, 1, 0], USED.schubert([1, 3, 2])[[1]]), (1, 1))
    same((USED.schubmult([2, 1], [2, 1])[3, 1, 2, 4, 5], USED.schubmult([1], [1])[1, 2, 3]), (1, 1))
    same(USED.dschubmult([1], [2, 1])[[2, 1, 3], [0]], 1)
    assert (3, 2, 1, 0) in product and (7, 1) not in product


def test_what_is_no_label():
    product = USED.mult([1], [1])
    for label in ("spam", "(2)", (1, 2), (-1,), 2.0, None, ((2,),), (1, 0, 1), 2):
        with raises((TypeError, ValueError, KeyError)):
            product[label]
    with raises((TypeError, ValueError, KeyError)):
        USED.coprod([1])[1]
    with raises((TypeError, ValueError, KeyError)):
        USED.coprod([1])[(1,), (), ()]
    with raises((TypeError, ValueError, KeyError)):
        USED.schubmult([2, 1], [2, 1])[1, 1]
    with raises((TypeError, ValueError, KeyError)):
        USED.quantum(2, 2, [1], [1])[-1, (2,)]


# ---- refusals and batches

def refused(pair):
    return dict(Calculator(program=PROGRAM).mult(*pair))


def test_a_refusal_is_pickled():
    try:
        USED.mult([1, 2], [1])
    except Refusal as refusal:
        again = pickle.loads(pickle.dumps(refusal))
        same((type(again), str(again), again.word, again.byte), (type(refusal), str(refusal), 2, 0))
    for name in ("multiprocessing", "concurrent.futures"):
        with raises(Refusal):
            if name == "multiprocessing":
                with multiprocessing.get_context("fork").Pool(2) as pool:
                    pool.map(refused, [((1,), (1,)), ((1, 2), (1,))])
            else:
                with ProcessPoolExecutor(2) as executor:
                    list(executor.map(refused, [((1,), (1,)), ((1, 2), (1,))]))


ODD_LINES = ["batch", "mult 1 - 1", "work 2 0", "mult 1 - 1", "mult 1 - \u00e9", "mult 1 - 1\nmult 1 - 1", "mult 2 - 1",
             "# a comment\nmult 1 - 1", "\ud800", "mult 1\x0c- 1", "mult\u20001 - 1", "batch mult", "mult 1 - 1 \x00", "mult - 1\r",
             "mult 1 2 - 1", "x" * 5000, "# a comment", "", " \t", "\r", "mult 3 - 1\n", "mult 3 - 1\r\n"]


def outcomes(calc, lines):
    return [it.text if it.refusal is None else type(it.refusal).__name__ for it in calc.batch(lines)]


def test_a_batch_goes_on_after_each_refused_line():
    ones, right = "1  (2)\n1  (1,1)\n", "1  (4)\n1  (3,1)\n"
    wanted = ["SyntaxRefusal", ones, "SyntaxRefusal", ones, "SyntaxRefusal", "SyntaxRefusal", "1  (3)\n1  (2,1)\n",
              "SyntaxRefusal", "SyntaxRefusal", "SyntaxRefusal", "SyntaxRefusal", "SyntaxRefusal", "SyntaxRefusal", "1  (1)\n",
              "ShapeRefusal", "RangeRefusal", right, right]
    with Calculator(program=PROGRAM) as calc:
        same(outcomes(calc, ODD_LINES), wanted)
        for line in ODD_LINES:
            outcomes(calc, [line])
        same(outcomes(calc, ["mult 2 - 1"]), ["1  (3)\n1  (2,1)\n"])
    if LIBRARY:
        with Calculator(library=LIBRARY) as calc:
            same(outcomes(calc, ODD_LINES), wanted)


def test_a_batch_takes_no_text_for_its_lines():
    with raises(TypeError, "lines"):
        list(USED.batch("mult 1 - 1"))
    with raises(TypeError, "line"):
        list(USED.batch([b"mult 1 - 1"]))


# ---- foreign programs and libraries

def foreign_program(room, body):
    path = os.path.join(room, "calc")
    with open(path, "w", encoding="ascii") as script:
        script.write(f"#!/bin/sh\n{body}\n")
    os.chmod(path, 0o755)
    return path


FOREIGN = {
    "one that ends": "exit 1",
    "one that hangs": "sleep 1000",
    "one that echoes": "cat",
    "one that chatters": "yes 2",
    "one that answers everything by a number": "while read line; do echo 0; done",
    "one that writes what calc does for a product": "printf '1  (2)\\n1  (1,1)\\n--\\nP .\\nQ .\\n'",
}


def test_a_foreign_program_that_is_named():
    with tempfile.TemporaryDirectory() as room:
        for kind, body in FOREIGN.items():
            path = foreign_program(room, body)
            with within(30), raises(NoCalculator, path):
                Calculator(program=path).mult([1], [1])


def test_a_foreign_program_on_the_path():
    """It is detected, and a later one on the PATH is used."""
    del os.environ["YORQANISH_CALC"]
    _ways.GENUINE = ""
    with tempfile.TemporaryDirectory() as room:
        path = foreign_program(room, "while read line; do echo 0; done")
        os.environ["PATH"] = f"{room}:/usr/bin:/bin"
        with within(30), raises(NoCalculator, path):
            Calculator().mult([1], [1])
        os.mkdir(f"{room}/own")
        os.symlink(PROGRAM, f"{room}/own/calc")
        os.environ["PATH"] = f"{room}:{room}/own:/usr/bin:/bin"
        same(dict(Calculator().mult([1], [1])), {(2,): 1, (1, 1): 1})


def library_of(room, name, body):
    source = os.path.join(room, "foreign.c")
    with open(source, "w", encoding="ascii") as file:
        file.write(f"#include <stddef.h>\n#include <string.h>\n#include <unistd.h>\n{body}\n")
    path = os.path.join(room, name)
    if subprocess.run(["cc", "-shared", "-fPIC", "-o", path, source], capture_output=True).returncode:
        raise Skipped("there is no cc")
    return path


CALL = "unsigned char calc_run(const void *l, size_t n, const void *i, size_t m, unsigned char *out, size_t room, size_t *needed)"


def test_a_foreign_library():
    with tempfile.TemporaryDirectory() as room:
        for number, body in enumerate(["int other(void) { return 0; }",
                                       CALL + " { *needed = 0; return 0; }",
                                       CALL + " { memcpy(out, \"0\\n\", 2); *needed = 2; return 0; }",
                                       CALL + " { for (;;) sleep(1); }"]):
            path = library_of(room, f"libyorqanish{number}.so", body)
            with within(30), raises(NoCalculator, path):
                Calculator(library=path).mult([1], [1])
        with raises(NoCalculator, "no.so"):
            Calculator(library=f"{room}/no.so").mult([1], [1])


def test_a_wrong_path_in_the_environment():
    os.environ["YORQANISH_CALC"] = "/nowhere/calc"
    with raises(NoCalculator, "YORQANISH_CALC", "/nowhere/calc"):
        Calculator().mult([1], [1])
    os.environ["YORQANISH_LIBRARY"] = "/nowhere/libyorqanish.so"
    with raises(NoCalculator, "YORQANISH_LIBRARY", "/nowhere/libyorqanish.so"):
        Calculator(library=True).mult([1], [1])
    with raises(NoCalculator, "/nowhere/calc"):
        Calculator(program="/nowhere/calc").mult([1], [1])


def test_the_package_says_its_version():
    with open(os.path.join(os.path.dirname(__file__), "../../VERSION"), encoding="ascii") as file:
        same(yorqanish.__version__, file.read().strip())


if __name__ == "__main__":
    main(globals())
    sys.stdout.flush()
