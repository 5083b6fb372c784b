"""Matrices of numpy: multiplication by a class in the quantum cohomology of Gr(2, 4) at q = 1, whose eigenvalues are sums of two eighth roots of unity."""
import numpy

from yorqanish import Calculator

calc = Calculator()
ring = calc.quantum_ring(2, 2)
labels = [(), (1,), (2,), (1, 1), (2, 1), (2, 2)]


def matrix(x):
    """Multiplication by x, with q = 1, in the basis of the labels."""
    columns = [[sum(c for (_, it), c in x * ring[label] if it == row) for row in labels] for label in labels]
    return numpy.array(columns, dtype=int).T


one, two = matrix(ring[1]), matrix(ring[2, 1])
assert (one @ two == two @ one).all() and (one @ one == matrix(ring[2] + ring[1, 1])).all()
roots = [numpy.exp(1j * numpy.pi * k / 4) for k in (1, 3, 5, 7)]
sums = [a + b for i, a in enumerate(roots) for b in roots[i + 1 :]]
assert numpy.allclose(numpy.sort_complex(numpy.linalg.eigvals(one.astype(float)).round(6) + 0), numpy.sort_complex(numpy.array(sums).round(6) + 0))
# Elements in an array are added, multiplied and compared one by one.
elements = numpy.array([ring[label] for label in labels])
assert (elements * ring[2, 2] == ring[2, 2] * elements).all() and numpy.where(elements == ring[2, 1])[0].tolist() == [4]
print(one, (elements * ring[1]).tolist()[-1], sep="\n")
