"""Families: the lines of their rows are those that are made here, and the answers those of the program; what has two readings is refused."""
from itertools import permutations

from common import LIBRARY, PROGRAM, main, need, printed, raises, same

from yorqanish import Calculator, Refusal, ShapeRefusal

CALC = Calculator(program=PROGRAM)
THREE = list(permutations((1, 2, 3)))

# The template, the values of its names, and the lines.
FAMILIES = [
    ("coef 3n 2n n - 2n n - 2n n", {"n": range(1, 11)}, [f"coef {3 * n} {2 * n} {n} - {2 * n} {n} - {2 * n} {n}" for n in range(1, 11)]),
    ("expand m s[λ]", {"λ": [[2], (1, 1), []]}, ["expand m s[2]", "expand m s[1,1]", "expand m s[]"]),
    ("schubmult u - v", {"u": THREE, "v": THREE}, [f"schubmult {' '.join(map(str, u))} - {' '.join(map(str, v))}" for u in THREE for v in THREE]),
    ("mult lam - lam 1", {"lam": [[2, 1], []]}, ["mult 2 1 - 2 1 1", "mult - 1"]),
    ("mult (n-1)  -\t2*n*k+1", {"n": (1, 2), "k": (3,)}, ["mult 0 - 7", "mult 1 - 13"]),
    ("expand s n*h[lam,1]-h[2n]", {"n": [2], "lam": [[], [3]]}, ["expand s 2*h[1]-h[4]", "expand s 2*h[3,1]-h[4]"]),
    ("mult -r 2 -m n - 1", {"n": iter([1])}, ["mult -r 2 -m 1 - 1"]),
]

HOSTILE = [
    ("coef 3k - n - n", {"n": [1]}), ("coef 3nk - n - k", {"n": [1], "k": [1]}), ("coef n^2 - n - n", {"n": [1]}), ("coef n² - n - n", {"n": [1]}),
    ("mult n-1 - n", {"n": [1]}), ("coef n n-1 - n - 1", {"n": [2]}), ("mult -m 2 - m", {"m": [1]}), ("expand m s[m]", {"m": [1]}),
    ("expand m s[λ", {"λ": [[1]]}), ("expand m 1/2n*s[1]", {"n": [1]}), ("expand s λ", {"λ": [[1]]}), ("mult 3λ - 1", {"λ": [[1]]}),
    ("expand s 2s[n]", {"n": [1]}), ("coef 1 - 1 - 0", {"n": [1]}), ("coef 1 - 1 - 0", {}), ("", {"n": [1]}), ("n 1 - 1", {"n": [1]}),
    ("mult 1 - n\nmult 1 - n", {"n": [1]}), ("mult 1 - n\r", {"n": [1]}), ("# mult n - n", {"n": [1]}), ("mult n - 1", {"n": [-1]}),
    ("mult n_1 - 1", {"n_1": [1]}), ("mult n, 1 - 1", {"n": [1]}), ("skew n/1", {"n": [1]}), ("coef n n - n - n for n = 1..3", {"n": [1]}),
    ("coef n... - n - n", {"n": [1]}), ("mult 1 - n**2", {"n": [1]}), ("mult 1 - +n", {"n": [1]}), ("mult 1 - 2 n", {"N": [1]}), ("batch n", {"n": [1]}),
]


def test_rows():
    for template, names, lines in FAMILIES:
        table = CALC.family(template, **names)
        same([it.line for it in table], lines)
        same([it.block.text for it in table], printed(lines))
        same(table.names, tuple(names))


def test_numbers():
    table = CALC.family("coef 3n 2n n - 2n n - 2n n", n=range(1, 11))
    same(table.answers, [n + 1 for n in range(1, 11)])
    same((len(table), table[3].values, table[-1].answer), (10, {"n": 4}, 11))


def test_answers_are_those_of_the_methods():
    table = CALC.family("mult a - b", a=[[2, 1], [1]], b=[[1]])
    same(table.answers, [CALC.mult([2, 1], [1]), CALC.mult([1], [1])])


def test_refusals():
    table = CALC.family("mult 2 n - 1", n=range(1, 5))
    same([it is None for it in table.answers], [False, False, True, True])
    assert all(isinstance(it.block.refusal, ShapeRefusal) for it in table[2:]), table[2:]
    with raises(Refusal, "mult 2 [3] - 1"):
        table[2].answer


def test_hostile():
    for template, names in HOSTILE:
        try:
            table = CALC.family(template, **names)
        except (ValueError, TypeError):
            continue
        raise AssertionError(f"{template!r} runs as {[it.line for it in table]}")
    for names in ({"n": 5}, {"n": "12"}, {"n": [True]}, {"n": [1.0]}, {"n": [None]}, {"n": [1, [1]]}, {"n": [[1], 1]}, {"n": [[1.5]]}, {"n": ["1"]}):
        with raises((TypeError, ValueError)):
            CALC.family("mult n - 1", **names)


def test_workers():
    lines = {"n": range(60), "k": range(40)}
    same([it.block.text for it in CALC.family("mult n+k n - k", workers=3, **lines)], printed([f"mult {n + k} {n} - {k}" for n in range(60) for k in range(40)]))
    seen = []
    CALC.family("mult n - 1", n=range(50), progress=seen.append, timeout=60)
    same(seen[-1], 50)
    with raises(ValueError, "workers"):
        CALC.family("mult n - 1", n=[1], workers=0)


def test_frame():
    pandas = need("pandas")
    frame = CALC.family("mult 2 n - lam", n=[1, 3], lam=[[1], [2, 1]]).frame()
    same(list(frame.columns), ["n", "lam", "line", "answer", "refusal"])
    same((list(frame["n"]), list(frame["lam"])), ([1, 1, 3, 3], [(1,), (2, 1)] * 2))
    same(list(frame["answer"].isna()), [False, False, True, True])
    same(frame["answer"][0], CALC.mult([2, 1], [1]))
    large = CALC.family("coef 3n 2n n - 2n n - 2n n", n=range(1, 4)).frame()
    same((str(large["answer"].dtype), int(large["answer"].sum())), ("int64", 9))
    assert isinstance(large, pandas.DataFrame)


def test_over_the_library():
    if LIBRARY:
        with Calculator(library=LIBRARY) as calc:
            same(calc.family("coef 3n 2n n - 2n n - 2n n", n=range(1, 4)).answers, [2, 3, 4])


if __name__ == "__main__":
    main(globals())
