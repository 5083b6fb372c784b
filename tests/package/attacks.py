"""Ways in which the package could give a false answer without an error, or lose one: things that are no lists, calls inside of calls, answers
that change, forks, and files that are replaced."""
import copy
import enum
import gc
import multiprocessing
import os
import pickle
import shutil
import signal
import subprocess
import sys
import tempfile
import threading
import time
from collections import UserString, deque
from fractions import Fraction

from common import LIBRARY, PROGRAM, Skipped, main, need, printed, pythons, raises, same, terms, within

from yorqanish import Calculator, Expansion, NoCalculator, Tableau
from yorqanish._program import end_all

CALC = Calculator(program=PROGRAM)


def of_library():
    if not LIBRARY:
        raise Skipped("there is no library")
    return Calculator(library=LIBRARY)


# ---- state that a call shares with another one

def asked_inside(calc, begin, end, count=10000):
    """Of many calls, in the midst of which others are made, none has the answer of another one."""
    inner = []

    def ask(*_):
        inner.append(calc.coef([2], [1], [1]))

    begin(ask)
    try:
        got = [calc.coef([3, 2, 1], [2, 1], [2, 1]) for _ in range(count)]
    finally:
        end()
    same((got.count(2), set(inner) <= {1}), (len(got), True))
    return len(inner)


def test_a_signal_handler_asks():
    for calc in (of_library(), CALC):
        def begin(ask):
            def handle(*_):
                ask()
                signal.setitimer(signal.ITIMER_REAL, 0.0005)

            signal.signal(signal.SIGALRM, handle)
            signal.setitimer(signal.ITIMER_REAL, 0.0005)

        def end():
            signal.signal(signal.SIGALRM, signal.SIG_IGN)

        assert asked_inside(calc, begin, end) > 100


def test_a_trace_function_asks():
    for calc in (of_library(), CALC):
        is_inside = [False]

        def begin(ask):
            def trace(frame, event, argument):
                if not is_inside[0] and "yorqanish" in frame.f_code.co_filename:
                    is_inside[0] = True
                    ask()
                    is_inside[0] = False
                return trace

            sys.settrace(trace)

        inner = []
        begin(lambda: inner.append(calc.coef([2], [1], [1])))
        try:
            got = [calc.coef([3, 2, 1], [2, 1], [2, 1]) for _ in range(100)]
        finally:
            sys.settrace(None)
        same((set(got), set(inner)), ({2}, {1}))


def test_a_finalizer_asks():
    """The collector runs it wherever it likes."""
    for calc in (of_library(), CALC):
        def begin(ask):
            class Asking:
                def __init__(self):
                    self.itself = self

                def __del__(self):
                    if is_asking[0]:
                        gc.disable()
                        ask()
                        gc.enable()
                        Asking()

            is_asking[0] = True
            gc.set_threshold(next(counts))
            Asking()

        def end():
            is_asking[0] = False
            gc.set_threshold(700)

        is_asking, counts = [False], iter((1, 2, 3, 4, 5))
        assert sum(asked_inside(calc, begin, end, 1500) for _ in range(5)) > 100


# ---- values that are not lists of numbers

def test_what_can_be_read_once_is_no_shape():
    for make in (lambda: map(int, "2 1".split()), lambda: (it for it in (2, 1)), lambda: iter([2, 1]), lambda: zip([2, 1])):
        for ask in (lambda it: CALC.mult(it, it), lambda it: CALC.coef([3, 2, 1], it, it), lambda it: CALC.rsk(it),
                    lambda it: CALC.text("mult", it, "-", it), lambda it: Tableau(it), lambda it: CALC.rect([2, 2], [1], it)):
            with raises(TypeError, "is not a list of"):
                ask(make())


def test_what_is_a_shape():
    import array

    for shape in ((2, 1), [2, 1], range(2, 0, -1), array.array("i", [2, 1]), deque([2, 1])):
        same(dict(CALC.mult(shape, shape))[3, 2, 1], 2)


def test_a_sequence_that_says_another_length():
    class Once(list):
        def __iter__(self):
            return iter((2,))

    with raises(TypeError, "factor 1"):
        CALC.mult(Once([2, 1]), [1])


def test_texts_are_no_shapes():
    for wrong in ("", "21", b"\x02\x01", bytearray(b"\x02"), memoryview(b"\x02"), UserString(""), UserString("21")):
        with raises(TypeError, "factor 1"):
            CALC.mult(wrong, [1])


def test_shapes_of_sympy():
    sympy = need("sympy")
    for right in (sympy.Tuple(2, 1), sympy.Array([2, 1]), [sympy.Integer(2), sympy.Integer(1)]):
        same(dict(CALC.mult(right, [1])), terms(printed(["mult 2 1 - 1"])[0]))
    from sympy.combinatorics import Permutation
    from sympy.combinatorics.partitions import IntegerPartition

    wrong = [sympy.Array(2), sympy.Array([[2], [1]]), sympy.Dict({2: 1}), sympy.Matrix(0, 3, []), sympy.Matrix([[2, 1]]), Permutation([2, 1, 0]), sympy.FiniteSet(2, 1),
             IntegerPartition([2, 1]), sympy.Range(2), sympy.Interval(1, 2), [sympy.Rational(1, 2)], [sympy.true]]
    for it in wrong:
        with raises(TypeError, "factor 1"):
            CALC.mult(it, [1])
        with raises(TypeError):
            CALC.rect([2, 2], [1], it)
        with raises(TypeError):
            CALC.coprod([1])[it, []]


def test_shapes_of_pandas():
    pandas = need("pandas")
    for right in (pandas.Series([2, 1]), pandas.Index([2, 1]), pandas.Series([2, 1], index=["a", "b"])):
        same(CALC.mult(right, right)[3, 2, 1], 2)
    table = pandas.DataFrame([[9, 9]], columns=pandas.MultiIndex.from_tuples([(1, 1), (2, 3)]))
    for wrong in (table, table.T, pandas.DataFrame(columns=[2, 1]), pandas.Series([2, None]), pandas.Series([True]), pandas.Series(["2"])):
        with raises(TypeError, "factor 1"):
            CALC.mult(wrong, [1])
        with raises(TypeError):
            CALC.rect([2, 2], [1], wrong)


def test_numbers_of_numpy():
    numpy = need("numpy")
    with raises(TypeError, "factor 1"):
        CALC.mult(numpy.ma.array([2, 1], mask=[0, 1]), [1])
    for wrong in (numpy.bool_(True), numpy.timedelta64(2), numpy.datetime64("2000-01-01"), numpy.float64(2), numpy.array(2), numpy.array([2])):
        with raises(TypeError, "factor 1"):
            CALC.mult([wrong], [1])
        with raises(TypeError, "rows"):
            CALC.mult([1], [1], rows=wrong)
        with raises(TypeError, "exact"):
            CALC.s({(2,): wrong})
    with raises(TypeError):
        CALC.rect([2, 2], [1], numpy.zeros((0, 3), dtype=int))
    same(CALC.rect([2, 2], [], numpy.array([[1, 1], [2, 2]])), ((1, 1), (2, 2)))


def test_numpy_takes_an_expansion_for_one_object():
    """It took the coefficients of the labels 0, 1, .., which are mostly 0."""
    numpy, product = need("numpy"), CALC.mult([1], [1])
    for got, shape in ((numpy.array([product, product]), (2,)), (numpy.array(product), ()), (numpy.asarray([[product]]), (1, 1))):
        same((got.dtype, got.shape, got.flat[0]), (numpy.dtype(object), shape, product))


def test_parts_of_a_pair_are_lists():
    pairs = CALC.coprod([2, 1])
    for wrong in ({(2, 1): 0, (1,): 1}, {(2, 1), (1,)}, frozenset([(2,), (1,)]), iter([(2,), (1,)]), "21", ({2}, {1}), ({2: 0}, {1: 0})):
        with raises(TypeError, "label"):
            pairs[wrong]
    same(pairs[[2], [1]], 1)


def test_a_label_is_of_whole_numbers():
    """Also if it equals one that is in the list."""
    product = CALC.mult([1], [1])
    for wrong in ((2.0,), (True, True), (Fraction(2),), 2.0, True):
        with raises(TypeError, "label"):
            product[wrong]


def test_a_text_is_sent_as_it_is():
    """Of a type that is derived from `str` the characters, and not what it shows itself as."""

    class Basis(str, enum.Enum):
        P = "p"

    class Shown(str):
        def __str__(self):
            return "s[5]"

        __format__ = __repr__ = lambda self, *_: "s[5]"

    same(CALC.expand(Basis.P, Shown("s[2,1]")), CALC.expand("p", "s[2,1]"))
    same(CALC.text(Shown("coef"), (2,), Shown("-"), (1,), "-", [1]), "1\n")
    same([it.text for it in CALC.batch([Shown("coef 2 - 1 - 1")])], ["1\n"])
    same((CALC.expand(Basis.P, "s[1]").parent, CALC.s[1].to(Basis.P).parent), (CALC.p, CALC.p))


# ---- answers that do not change

def test_an_expansion_does_not_change():
    p = CALC.expand("p", "s[2,1]")
    before = hash(p), str(p)
    for it, name, value in ((p, "parent", CALC.s), (p, "_terms", {}), (p, "other", 1), (CALC.p, "name", "s"), (CALC.p, "numbers", (2,))):
        with raises(AttributeError):
            setattr(it, name, value)
    with raises(AttributeError):
        del p.parent
    with raises(AttributeError):
        CALC.p.__init__(CALC.p.home, "s")
    with raises(TypeError):
        p[2, 1] = 5
    same((hash(p), str(p)), before)


def test_a_basis_is_one_of_five():
    for wrong in ("s[1]*s", "q", "", "S", 1, None, ("s",), "X", "in_variables"):
        for ask in (lambda: CALC.s[2].to(wrong), lambda: CALC.expand(wrong, "s[1]"), lambda: CALC.plethysm(wrong, "s[1]", "s[1]")):
            with raises(ValueError, "target"):
                ask()
    for wrong in (("q",), ("s", 2), ("in_variables",), ("quantum_ring", 2), ("X", 1), ("",)):
        with raises(ValueError, "parent"):
            CALC.s.home.parent(*wrong)
    for wrong in (lambda: CALC.p.in_variables(2), lambda: CALC.X.tensor_square(), lambda: CALC.X[2, 1].to("s"), lambda: CALC.X[2, 1].omega()):
        with raises(TypeError):
            wrong()
    for wrong in (lambda: CALC.cohomology(2, 2), lambda: CALC.quantum_ring(-1, 2), lambda: CALC.s.in_variables(-1)):
        with raises(ValueError):
            wrong()


def test_a_tableau_does_not_change():
    made = Tableau([[1, 2], [3]], inner=[1, 0])
    same((made.inner, made[0], made), ((1,), (None, 1, 2), Tableau(((1, 2), (3,)), inner=(1,))))
    for change in (lambda: setattr(made, "inner", ()), lambda: setattr(made, "x", 1), lambda: delattr(made, "inner")):
        with raises(AttributeError):
            change()


def test_a_tableau_of_another_inner_shape():
    """Its rows could be those of a tableau of the shape that is asked for."""
    skew = Tableau([[1], [2]], inner=[1])
    same((CALC.rect([2, 1], [1], skew), list(CALC.tab([2, 1], [1], after=Tableau([[1], [1]], inner=[1, 0])))), (((1,), (2,)), [Tableau([[1], [2]], inner=[1])]))
    for wrong in (lambda: CALC.unrsk(skew, ((1,), (2,))), lambda: CALC.rect([2, 2], [1, 1], skew), lambda: CALC.rect([3, 1], [1], Tableau([[1, 1], [2]])),
                  lambda: CALC.tab([2, 1], [1], after=Tableau([[1], [1]]))):
        with raises(ValueError, "inner partition"):
            wrong()
    for line, inner in (("tab 2 1 / 0", ()), ("tab 2 1 / 1 0", (1,))):
        same({it.inner for it in next(CALC.batch([line])).answer}, {inner})


# ---- equality

def test_what_equals_an_expansion():
    product = CALC.mult([1], [1])
    zero = product - product
    same((zero == 0, 0 == zero, zero == {}, zero == CALC.s.zero(), hash(zero) == hash(0), product == 0), (True,) * 5 + (False,))
    for mapping in ({(2,): 1, (1, 1): 1}, {(2, 0): 1, (1, 1): 1}, {(2,): 1, (1, 1): 1, (3,): 0}, {(1, 1): 1, (2,): Fraction(1)}):
        same((product == mapping, mapping == product, product != mapping), (True, True, False))
    for other in ({(2,): 1}, {2: 1, (1, 1): 1}, {(2,): 1, "spam": 0}, {(2,): 1, (1, 2): 1}, 1.5, "s[2]", None, True, [((2,), 1), ((1, 1), 1)], zero):
        same((product == other, product != other), (False, True))
    same((CALC.s.one() == 1, CALC.s.one() == True, CALC.s.one() == 1.0), (True, False, False))


def test_a_skew_tableau_is_its_inner_shape_too():
    rows = ((1,), (1,))
    made = [Tableau(rows, inner=inner) for inner in ((), (1,), (2, 1))]
    same((len(set(made)), len({*made, rows}), made[0] == rows, made[1] == rows, made[1] == made[2]), (3, 3, True, False, False))
    same(made[1] == Tableau(rows, inner=(1, 0)) and hash(made[1]) == hash(Tableau(rows, inner=[1])), True)


def test_one_function_in_two_bases():
    s, p, m = (CALC.expand(it, "s[2,1]+1/2*s[1]") for it in "spm")
    same((CALC.same_function(s, p), CALC.same_function(p, m), CALC.same_function(s, "h[2,1]-h[3]+1/2*e[1]"), s == p.to("s"), s - p == 0), (True,) * 5)
    for x, y in ((s, p), (p, m), (s, s.parent.in_variables(3)(s))):
        with raises(TypeError, repr(x.parent), repr(y.parent)):
            x == y
    same((CALC.same_function(s, 2 * p), CALC.same_function(s - s, p - p), CALC.same_function(s, "0")), (False, True, False))
    for wrong in (CALC.coprod([1]), 3, None):
        with raises(TypeError):
            CALC.same_function(s, wrong)


def test_nothing_is_divided_by_0():
    for it in (CALC.s.zero(), CALC.mult([1], [1])):
        with raises(ZeroDivisionError):
            it / 0


def test_a_permutation_with_large_letters_in_latex():
    same(CALC.X[2, 1].latex(), "\\mathfrak{S}_{21}")
    long = tuple(range(2, 11)) + (1,)
    same(CALC.X[long].latex(), "\\mathfrak{S}_{2,3,4,5,6,7,8,9,10,1}")


def test_a_table_of_pandas():
    pandas = need("pandas")
    big = 2**100
    table = CALC.p({(2, 1): big, (3,): Fraction(1, 3)}).to_pandas()
    same([list(table.columns), list(table["label"]), list(table["coefficient"])], [["label", "coefficient"], [(3,), (2, 1)], [Fraction(1, 3), big]])
    same((len(CALC.s.zero().to_pandas()), len(CALC.coprod([2, 1]).to_pandas()["label"][0])), (0, 2))
    same(isinstance(table, pandas.DataFrame), True)


# ---- forks

STAIRS = tuple(range(30, 0, -1)), tuple(range(29, 0, -1))


def in_child(action):
    """The result of an action in a forked child: the name of its error, or that there was none. It must not hang."""
    reading, writing = os.pipe()
    child = os.fork()
    if not child:
        signal.alarm(20)
        try:
            # (files that get the numbers of those that were closed)
            files = [open(__file__, "rb") for _ in range(20)]
            said = repr(action())
            del files
        except BaseException as error:
            said = type(error).__name__
        os.write(writing, said.encode())
        os._exit(0)
    os.close(writing)
    with open(reading, "rb") as said:
        got = said.read().decode()
    same(os.waitpid(child, 0)[1], 0)
    return got


def test_an_iterator_in_a_forked_child():
    for calc in (CALC, of_library()) if LIBRARY else (CALC,):
        listed = calc.tab(*STAIRS)
        first = next(listed)
        for _ in range(3):
            same(in_child(lambda: [next(listed) for _ in range(20000)]), "NoCalculator")
        same(next(listed) != first, True)
    for how in ({}, {"workers": 2}):
        lines = [f"mult {n} - 1" for n in range(1, 400)]
        blocks = CALC.batch(iter(lines), **how)
        next(blocks)
        same(in_child(lambda: list(blocks)), "NoCalculator")
        same([it.answer[[n + 1]] for n, it in enumerate(blocks, 2)], [1] * 398)


def test_a_fork_in_the_midst_of_a_call():
    """In the child the call that was interrupted is refused or answered, and the next one is answered."""
    children = []

    def fork(*_):
        child = os.fork()
        if child:
            children.append(child)
        else:
            is_child.append(True)
            signal.alarm(20)

    is_child, asked = [], ([8, 7, 6, 5, 4, 3, 2, 1], [6, 5, 4, 3, 2, 1], [5, 4, 3, 2, 1])
    wanted = int(printed(["coef 8 7 6 5 4 3 2 1 - 6 5 4 3 2 1 - 5 4 3 2 1"])[0])
    signal.signal(signal.SIGUSR1, fork)
    threading.Timer(0.3, lambda: os.kill(os.getpid(), signal.SIGUSR1)).start()
    wrong, until = 0, time.monotonic() + 1
    try:
        while time.monotonic() < until:
            wrong += CALC.coef(*asked) != wanted
    except NoCalculator:
        wrong += not is_child
    wrong += CALC.coef([2], [1], [1]) != 1
    if is_child:
        os._exit(wrong)
    same((wrong, [os.waitpid(it, 0)[1] for it in children]), (0, [0]))


# ---- files that are replaced

FALSE = "#!/bin/sh\necho '9 9 / 8'\n"


def copied(room):
    path = os.path.join(room, "calc")
    shutil.copy(PROGRAM, path)
    return path


def replaced(path, text=FALSE):
    """Another file gets the name."""
    with open(f"{path}.new", "w", encoding="ascii") as file:
        file.write(text)
    os.chmod(f"{path}.new", 0o755)
    os.replace(f"{path}.new", path)


def test_a_program_that_is_replaced():
    with tempfile.TemporaryDirectory() as room:
        path = copied(room)
        calc = Calculator(program=path)
        before = list(calc.tab([2, 1], [1])), calc.mult([1], [1])
        replaced(path)
        same((list(calc.tab([2, 1], [1])), calc.mult([1], [1])), before)
        # (and processes that are started anew)
        with raises(TimeoutError):
            calc.mult(range(13, 0, -1), range(13, 0, -1), timeout=0.1)
        same(calc.coef([2], [1], [1]), 1)
        os.remove(path)
        calc._way._idle.clear()
        same((list(calc.tab([2, 1], [1])), calc.mult([1], [1])), before)


def test_a_program_that_is_written_over():
    """In its place, which can be done if no process of it runs."""
    with tempfile.TemporaryDirectory() as room:
        path = copied(room)
        calc = Calculator(program=path)
        end_all()
        os.utime(path)
        calc._way._idle.clear()
        same(calc.coef([2], [1], [1]), 1)
        calc._way._idle.clear()
        end_all()
        with open(path, "r+b") as file:
            file.seek(5000)
            file.write(b"other")
        with raises(NoCalculator, "changed"):
            list(calc.tab([2, 1], [1]))
        with raises(NoCalculator, "changed"):
            calc.mult([1], [1])


def test_a_script_that_runs_the_program():
    """The Calculator records the program, which has replaced the script."""
    with tempfile.TemporaryDirectory() as room:
        path, script = copied(room), os.path.join(room, "script")
        replaced(script, f'#!/bin/sh\nexec {path} "$@"\n')
        calc = Calculator(program=script)
        replaced(path)
        replaced(script)
        same(list(calc.tab([2], [1])), [Tableau([[None, 1]])])
        calc._way._idle.clear()
        same(calc.coef([2], [1], [1]), 1)
        os.remove(path)
        shutil.copy(PROGRAM, path)
        replaced(script, f'#!/bin/sh\n{path} "$@"\n')
        calc = Calculator(program=script)
        same((list(calc.tab([2], [1])), calc.coef([2], [1], [1])), ([Tableau([[None, 1]])], 1))
        replaced(script)
        calc._way._idle.clear()
        with raises(NoCalculator, script):
            list(calc.tab([2], [1]))


VERSION = """#!{python}
import subprocess, sys
for number, line in enumerate(sys.stdin):
    print("--\\n" if number else "", end="")
    if line.startswith({word!r}):
        print({said!r}, end="", flush=True)
    else:
        print(subprocess.run([{program!r}, *line.split()], capture_output=True, text=True).stdout, end="", flush=True)
"""


def test_another_version():
    """A program that refuses a command, or has other conventions, is not the program of this package."""
    with tempfile.TemporaryDirectory() as room:
        path = os.path.join(room, "calc")
        for word, said in (("growth", "! Syntax 0:0\n"), ("stanley", "1  (1,1)\n"), ("mult 2 1", "1  (2,1,1)\n1  (2,2)\n1  (3,1)\n"), ("never", "")):
            replaced(path, VERSION.format(python=sys.executable, program=PROGRAM, word=word, said=said))
            if word == "never":
                same(Calculator(program=path).coef([2], [1], [1]), 1)
            else:
                with raises(NoCalculator, "version"):
                    Calculator(program=path)


def test_a_copy_has_the_same_program():
    """A Calculator that is unpickled, or opened by an executor, is that of the file that was tried first."""
    with tempfile.TemporaryDirectory() as room:
        path = copied(room)
        calc = Calculator(program=path)
        stored = pickle.dumps(calc)
        kept = pickle.loads(stored)
        same(kept.coef([2], [1], [1]), 1)
        with open(PROGRAM, "rb") as file, open(f"{path}.new", "wb") as other:
            other.write(file.read() + b"\0")
        os.chmod(f"{path}.new", 0o755)
        os.replace(f"{path}.new", path)
        # (the copy that this process keeps, and what works beside calc, are of the file that was tried)
        same((pickle.loads(stored) is kept, [it.text for it in calc.batch(["coef 2 - 1 - 1"] * 4, workers=2)]), (True, ["1\n"] * 4))
        kept.close()
        with raises(NoCalculator, path):
            pickle.loads(stored)


def test_a_path_in_another_folder():
    """A relative path is that of the folder in which the Calculator was made."""
    with tempfile.TemporaryDirectory() as room, tempfile.TemporaryDirectory() as other:
        copied(room)
        os.chdir(room)
        calc = Calculator(program="calc")
        os.chdir(other)
        with multiprocessing.get_context("spawn").Pool(1) as pool:
            same(pool.apply(calc.coef, ([2], [1], [1])), 1)
        same(pickle.loads(pickle.dumps(calc)).coef([2], [1], [1]), 1)


def test_the_oldest_python_sends_numbers():
    """`operator.index` of 3.8 and 3.9 keeps a type that is derived from `int`."""
    old = pythons((3, 8)).get((3, 8))
    if not old:
        raise Skipped("there is no Python 3.8")
    script = (
        "import enum\nfrom yorqanish import Calculator\nclass N(enum.IntEnum):\n    TWO = 2\n    ONE = 1\n"
        "calc = Calculator()\nprint(calc.coef([3, 2, 1], [N.TWO, N.ONE], [N.TWO, 1]), calc.mult([N.TWO], [1])[N.TWO, N.ONE])"
    )
    with within(60):
        done = subprocess.run([old, "-c", script], capture_output=True, text=True)
    same((done.stdout, done.stderr), ("2 1\n", ""))


if __name__ == "__main__":
    main(globals())
