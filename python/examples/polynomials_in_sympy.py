"""Schubert polynomials as polynomials of sympy: their products there, and a divided difference."""
import itertools

import sympy

from yorqanish import Calculator

calc = Calculator()
x = sympy.symbols("x1:5")


def polynomial(w):
    return sympy.expand(sympy.sympify(calc.schubert(w)))


assert polynomial([1, 3, 2]) == x[0] + x[1]
for u, v in itertools.product(itertools.permutations(range(1, 4)), repeat=2):
    product = calc.X[u] * calc.X[v]
    total = sum(c * polynomial(w) for w, c in product)
    assert sympy.expand(polynomial(u) * polynomial(v) - total) == 0
# A divided difference takes the polynomial of w to that of w s_1, if w has a descent at 1.
longest = polynomial([4, 3, 2, 1])
difference = sympy.cancel((longest - longest.subs({x[0]: x[1], x[1]: x[0]}, simultaneous=True)) / (x[0] - x[1]))
assert sympy.expand(difference - polynomial([3, 4, 2, 1])) == 0
print(sympy.factor(polynomial([3, 4, 2, 1])), "and", polynomial([2, 1, 4, 3]))
