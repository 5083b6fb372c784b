"""numpy's integers and arrays as numbers and shapes."""
import os

from common import PROGRAM, main, need, printed, raises, same, terms

np = need("numpy") if os.environ.get("YORQANISH_CALC") else None
from yorqanish import Calculator

CALC = Calculator(program=PROGRAM)


def test_arrays_are_shapes():
    same(dict(CALC.mult(np.array([2]), np.array([2, 1]))), terms(printed(["mult 2 - 2 1"])[0]))
    same(dict(CALC.mult(np.array([2, 1, 0, 0]), np.array([], dtype=int))), {(2, 1): 1})
    same(dict(CALC.schubert(np.array([1, 3, 2]))), {(1,): 1, (0, 1): 1})
    same(CALC.rsk(np.array([3, 1, 2])).insertion, ((1, 2), (3,)))
    same(CALC.rect(np.array([2, 2]), np.array([1]), [np.array([1]), np.array([1, 2])]), ((1, 1), (2,)))


def test_integers_are_numbers():
    same(dict(CALC.mult([2, 1], [2, 1], rows=np.int64(2))), {(4, 2): 1, (3, 3): 1})
    same(dict(CALC.quantum(np.int64(3), np.int8(3), [2, 1], [2, 1])), dict(CALC.quantum(3, 3, [2, 1], [2, 1])))
    same(dict(CALC.fusion(np.uint8(2), np.int32(1), [1], [1])), {(1, 1): 1})
    same(dict(CALC.stanley([2, 1, 4, 3], rows=np.int64(2))), {(2,): 1, (1, 1): 1})


def test_what_is_no_shape():
    for wrong in (np.array([[2], [1]]), np.array([2.0, 1.0]), np.array(2), np.float64(2), np.array([True]), np.array(["2"])):
        with raises(TypeError, "factor 1"):
            CALC.mult(wrong, [1])
    with raises(ValueError, "factor 1"):
        CALC.mult(np.array([2, -1]), [1])
    with raises(TypeError, "rows"):
        CALC.mult([1], [1], rows=np.float64(2))


def test_an_array_of_two_dimensions_is_no_list():
    for wrong in (np.zeros((0, 3), dtype=int), np.zeros((1, 0), dtype=int), np.array([[2, 1]])):
        with raises(TypeError, "factor 1"):
            CALC.mult(wrong, [1])


def test_a_scalar_that_is_no_number_equals_no_element():
    """(a scalar of numpy has `flat`, as an array has, and it was compared with itself without end)"""
    for scalar in (np.float64(1), np.bool_(True), np.complex128(1), np.datetime64("2000-01-01"), np.timedelta64(1, "s"), np.str_("1"), np.bytes_(b"1")):
        for x in (CALC.s[1], CALC.s(1), CALC.s(0)):
            same((bool(x == scalar), bool(x != scalar), x in [scalar]), (False, True, False))
    same((CALC.s(1) == np.int8(1), (CALC.s(1) == np.array([1, 2.5], dtype=object)).tolist()), (True, [True, False]))


def test_a_column_of_pandas_is_a_list_and_a_table_is_none():
    """(a table is gone through by the names of its columns, which can be numbers)"""
    pandas = need("pandas")
    same(dict(CALC.mult(pandas.Series([2, 1]), [1])), dict(CALC.mult([2, 1], [1])))
    for wrong in (pandas.DataFrame({0: [3, 2, 1]}), pandas.DataFrame([[2, 1]], columns=[3, 2]), pandas.Series([2, None])):
        with raises(TypeError, "factor 1"):
            CALC.mult(wrong, [1])


def test_a_matrix_of_sympy_is_no_list():
    """(it is gone through entry by entry, all rows in one)"""
    sympy = need("sympy")
    same(dict(CALC.mult(sympy.Tuple(2, 1), [sympy.Integer(1)])), dict(CALC.mult([2, 1], [1])))
    for wrong in (sympy.Matrix([[4, 3], [2, 1]]), sympy.Array([[4, 3], [2, 1]]), sympy.FiniteSet(2, 1)):
        with raises(TypeError, "factor 1"):
            CALC.mult(wrong, [1])


def test_labels_and_scalars():
    product = CALC.mult([2, 1], [2, 1])
    same(product[np.array([3, 2, 1])], 2)
    same(product[tuple(np.array([3, 2, 1, 0]))], 2)
    same(np.int64(2) * product, 2 * product)
    same((product * np.int64(2))[3, 2, 1], 4)
    same(type((product * np.int64(2))[3, 2, 1]), int)


if __name__ == "__main__":
    main(globals())
