"""The quantum cohomology of Gr(2, 5): its table of products, checked by being associative, by degrees, and by the cohomology at q = 0."""
import itertools

from yorqanish import Calculator

calc = Calculator()
ring, classical = calc.quantum_ring(2, 3), calc.cohomology(2, 5)
labels = [(a, b) for a in range(4) for b in range(a + 1)]
classes = [ring[label] for label in labels]
for x, y in itertools.combinations_with_replacement(classes, 2):
    product = x * y
    print(f"({x})*({y}) = {product}")
    assert all(5 * power + sum(label) == x.degree() + y.degree() for power, label in product.support())
    assert classical(product) == classical(x) * classical(y)
for x, y, z in itertools.product(classes[1:5], repeat=3):
    assert (x * y) * z == x * (y * z)
# The degree of Gr(2, 5) is 5: so many lines in projective 4-space meet six general planes.
assert classical[1] ** 6 == 5 * classical[3, 3] and ring[1] ** 5 == 5 * ring[3, 2] + 3 * ring.q
