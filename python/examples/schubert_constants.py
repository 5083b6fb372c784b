"""All structure constants of Schubert polynomials of S_5, and what their table is checked by."""
import itertools
from collections import Counter

from yorqanish import Calculator

calc = Calculator()
permutations = list(itertools.permutations(range(1, 6)))
pairs = [(u, v) for u, v in itertools.product(permutations, repeat=2) if u <= v]
lines = [f"schubmult {' '.join(map(str, u))} - {' '.join(map(str, v))}" for u, v in pairs]
table = {pair: block.answer for pair, block in zip(pairs, calc.batch(lines, workers=4))}

# In the cohomology of the flag variety the terms of more letters are 0, and the product with the dual class has the top class once.
top = (5, 4, 3, 2, 1)
constants = Counter(c for product in table.values() for w, c in product if len(w) <= 5)
for u, v in pairs:
    dual = tuple(6 - letter for letter in u)
    if calc.X[u].degree() + calc.X[v].degree() == 10:
        assert table[u, v][top] == (v == dual), (u, v)
print(f"{len(pairs)} products; constants in S_5: {dict(sorted(constants.items()))}")
assert all(c > 0 for c in constants) and len(pairs) == 7260
