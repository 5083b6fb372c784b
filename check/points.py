"""Both sides of a claim at a random point, or at each tuple of roots of unity, modulo primes: the values of symmetric functions by their power
sums, Newton's identities and Jacobi–Trudi determinants, and those of Schubert polynomials by products of nilCoxeter elements."""
import functools
import itertools
import math
import operator
import random
from collections import Counter, defaultdict

from claims import Undecided, Wrong, fold, shown

RANDOM = random.SystemRandom()
MOST_TUPLES, MOST_STATES = 20000, 500000
# Power sums, Newton's identities and the powers of roots are found up to the degree; a label of a Schubert polynomial has at most this size.
MOST_DEGREE, MOST_SIZE = 4000, 2 * 256 ** 2
WITNESSES = (2, 3, 5, 7, 11, 13, 17, 19, 23, 29, 31, 37)


def is_prime(n):
    """Whether a number of 61 bits is a prime, by the test of Miller and Rabin."""
    odd = (n - 1) // ((n - 1) & (1 - n))
    powers = [[pow(base, odd << i, n) for i in range(((n - 1) // odd).bit_length() - 1)] for base in WITNESSES]
    return n % 2 == 1 and all(it[0] == 1 or n - 1 in it for it in powers)


def two_primes(step):
    """Two random primes of 61 bits that are 1 modulo `step`."""
    found = set()
    while len(found) < 2:
        n = RANDOM.randrange(2 ** 60 // step + 1, 2 ** 61 // step) * step + 1
        found.update([n] if is_prime(n) else [])
    return sorted(found)


def modulo(value, modulus):
    return value.numerator % modulus if value.denominator == 1 else value.numerator * pow(value.denominator, -1, modulus) % modulus


class Point:
    """A point at which symmetric functions are evaluated: the values of its power sums p_1, p_2, .. . If these are random, what holds there holds
    in every number of variables."""

    def __init__(self, modulus, power):
        self.modulus = modulus
        self.h, self.e = functools.partial(self.newton, [1], 1), functools.partial(self.newton, [1], -1)
        self.p = functools.lru_cache(None)(lambda k: power(k) % modulus)
        self.row = functools.lru_cache(None)(lambda l, columns: [self.h(l + c) for c in columns])
        self.reduced, self.s = functools.lru_cache(500)(self.reduce), functools.lru_cache(None)(self.schur)
        self.augmented = functools.lru_cache(None)(self.sum_of_monomials)

    def newton(self, found, sign, k):
        """The value of h_k or e_k by Newton's identities; those before it are found."""
        while len(found) <= k:
            n = len(found)
            total = sum(sign ** (i + 1) * self.p(i) * found[n - i] for i in range(1, n + 1))
            found.append(total * pow(n, -1, self.modulus) % self.modulus)
        return found[k] if k >= 0 else 0

    def reduce(self, rows, columns):
        """A minor of the matrix of the h_(l + c) for the rows l and as many of the columns c, with its sign, and combinations of the columns, one
        for each other column, that are 0 in these rows: Gauss's elimination, row by row. Labels share the first rows."""
        if not rows:
            return 1, [[i == j for j in range(len(columns))] for i in range(len(columns))]
        (value, vectors), row, modulus = self.reduced(rows[:-1], columns), self.row(rows[-1], columns), self.modulus
        found = [sum(map(operator.mul, row, it)) % modulus for it in vectors]
        at = next((i for i, it in enumerate(found) if it), None)
        if at is None:
            return 0, []
        pivot, inverse, others = vectors[at], pow(found[at], -1, modulus), []
        for c, it in zip(found[:at] + found[at + 1:], vectors[:at] + vectors[at + 1:]):
            c = c * inverse % modulus
            others.append([(a - c * b) % modulus if b else a for a, b in zip(it, pivot)])
        return value * (-1) ** at * found[at] % modulus, others

    def schur(self, outer, inner=()):
        """The Schur function or skew Schur function: the determinant of Jacobi and Trudi."""
        if len(inner) > len(outer) or any(a < b for a, b in zip(outer, inner)):
            return 0
        rows, columns = tuple(a - i for i, a in enumerate(outer)), tuple(j - b for j, b in enumerate(inner + (0,) * (len(outer) - len(inner))))
        value, vectors = self.reduced(rows[:-2], columns)
        if not vectors:
            return value
        last = [[sum(map(operator.mul, self.row(l, columns), it)) for it in vectors] for l in rows[-2:]]
        return value * (last[0][0] * last[1][1] - last[0][1] * last[1][0] if last[1:] else last[0][0]) % self.modulus

    def sum_of_monomials(self, parts):
        """The sum over different variables of x_1^a·x_2^b·.. for the parts a, b, .. ."""
        *front, last = parts or (0,)
        others = (self.augmented(tuple(sorted([*front[:i], *front[i + 1:], a + last], reverse=True))) for i, a in enumerate(front))
        return (self.p(last) * self.augmented(tuple(front)) - sum(others)) % self.modulus if parts else 1

    def m(self, parts):
        repeated = math.prod(map(math.factorial, Counter(parts).values()))
        return self.augmented(parts) * pow(repeated, -1, self.modulus)

    def of(self, basis, parts):
        value = getattr(self, basis)
        return value(parts) if basis in "sm" else functools.reduce(lambda a, k: a * value(k) % self.modulus, parts, 1)

    def sum(self, basis, terms):
        """The sum of the terms. In this order the determinants have most rows in common."""
        terms = sorted(terms, key=lambda it: (len(it[1]), it[1]))
        return sum(c * self.of(basis, label) for c, label in terms) % self.modulus

    def value(self, tree):
        """The value of an expression."""
        return fold(tree, lambda it: modulo(it, self.modulus), self.of, operator.add, operator.sub)

    def inside(self, tree):
        """The point at which a function f has the value of f[g] here, for an expression g."""
        return Point(self.modulus, lambda k: Point(self.modulus, lambda j: self.p(j * k)).value(tree))


def schuberts(terms, weight, modulus, rows=None):
    """The sum of c·S_w over the terms (c, w): the coefficient of w in the product of the 1 + weight·u_g of nilCoxeter elements. Row i has the
    factors for g from n - 1 down to i, or to 1 for Stanley functions of this number of rows; a factor takes the letters g + 1, g of a
    permutation to g, g + 1 if they stand in this order."""
    n, states = max([len(w) for _, w in terms] + [1]), Counter()
    if n > 255:
        raise Undecided("a permutation has more than 255 letters")
    for c, w in terms:
        states[bytes([*w, *range(len(w) + 1, n + 1)])] += c
    for i in range(1, rows + 1 if rows else n):
        for g in range(n - 1, 0 if rows else i - 1, -1):
            value, exchange, found = weight(i, g), bytes.maketrans(bytes((g, g + 1)), bytes((g + 1, g))), defaultdict(int)
            for w, c in states.items():
                falls = w.index(g + 1) < w.index(g)
                if rows or not (falls and w[i - 1] == g + 1):  # (otherwise letter i cannot come to its place)
                    found[w] = (found[w] + c) % modulus
                if falls:
                    other = w.translate(exchange)
                    found[other] = (found[other] + c * value) % modulus
            states = found
            if len(states) > MOST_STATES:
                raise Undecided("a Schubert polynomial has too many partial products")
    return states[bytes(range(1, n + 1))]


def sides(claim, terms, modulus):
    """Both sides of a claim at a random point."""
    k, data, basis = claim.variables, claim.data, claim.basis
    x, y = (defaultdict(lambda: RANDOM.randrange(modulus)) for _ in "xy")  # (random numbers by their indices)
    at = Point(modulus, (lambda power: sum(pow(x[i], power, modulus) for i in range(1, k + 1))) if k else x.__getitem__)
    other, single, double = Point(modulus, y.__getitem__), lambda i, g: x[i], lambda i, g: x[i] - y[g - i + 1]
    power = lambda numbers, exponents: math.prod(pow(numbers[i], a, modulus) for i, a in enumerate(exponents, 1))
    schubert = lambda w, weight=single, rows=None: schuberts([(1, w)], weight, modulus, rows)
    terms = [(modulo(c, modulus), label) for c, label in terms]
    return {
        "mult": lambda: (math.prod(map(at.s, data)), at.sum("s", terms)),
        "skew": lambda: (at.s(*data), at.sum("s", terms)),
        "coprod": lambda: (Point(modulus, lambda k: at.p(k) + other.p(k)).s(data[0]), sum(c * at.s(mu) * other.s(nu) for c, (mu, nu) in terms)),
        "expand": lambda: (at.value(data[0]), at.sum(basis, terms)),
        "plethysm": lambda: (at.inside(data[1]).value(data[0]), at.sum(basis, terms)),
        "schubert": lambda: (schubert(data[0]), sum(c * power(x, it) for c, it in terms)),
        "schubmult": lambda: (schubert(data[0]) * schubert(data[1]), schuberts(terms, single, modulus)),
        "dschubmult": lambda: (schubert(data[0], double) * schubert(data[1], double),
                               schuberts([(c * power(y, it), w) for c, (w, it) in terms], double, modulus)),
        "stanley": lambda: (schubert(data[0], single, k), at.sum("s", terms)),
    }[claim.name]()


def check_roots(claim, terms, modulus):
    """Compares both sides of a quantum or fusion product at each set of K different n-th roots of 1 or -1, one of each orbit of rotations, and says
    how many there were."""
    k, n = claim.sizes[0], sum(claim.sizes)
    if math.comb(n, k) > MOST_TUPLES:
        raise Undecided(f"there are {math.comb(n, k)} tuples of roots of unity, and at most {MOST_TUPLES} are tried")
    table = [(modulo(c, modulus), label[1] if claim.kind == "power" else label) for c, label in terms]
    roots = (pow(RANDOM.randrange(2, modulus), (modulus - 1) // (2 * n), modulus) for _ in itertools.count())
    root = next(it for it in roots if all(pow(it, 2 * n // q, modulus) != 1 for q in range(2, 2 * n + 1) if 2 * n % q == 0))
    rotations = lambda places: (tuple(sorted((it - first) % n for it in places)) for first in places)
    tuples = [it for it in itertools.combinations(range(n), k) if it == min(rotations(it))]
    for count, places in enumerate(tuples, 1):
        xs = [pow(root, 2 * it + (claim.kind == "power" and k % 2 == 0), modulus) for it in places]
        at = Point(modulus, lambda power, xs=xs: sum(pow(x, power, modulus) for x in xs))
        if (math.prod(map(at.s, claim.data)) - at.sum("s", table)) % modulus:
            raise Wrong(f"the two sides differ at the tuple of roots of unity number {count}")
    return f"each of {len(tuples)} tuples of roots of unity"


# ---- any claim

def size_of(label):
    """The sum of all numbers in a label; for a permutation it bounds the degree."""
    return sum(size_of(it) if isinstance(it, tuple) else it for it in label)


def must_occur(claim, label, degree):
    """The label has the size, and fits the rows, the rectangle or the alcove, that all labels of the command have."""
    shape, rows = label[1] if claim.kind == "power" else label, claim.variables or sum(claim.sizes[:1])
    size = label[0] * sum(claim.sizes) + sum(shape) if claim.kind == "power" else size_of(label)
    if rows and len(shape) > rows:
        raise Wrong(f"the label {shown(label)} has more than {rows} rows")
    if claim.kind in ("partition", "pair", "power") and (size > degree or size < degree and claim.name not in ("expand", "plethysm")):
        raise Wrong(f"the label {shown(label)} has the size {size}, not {degree}")
    if claim.sizes and shape and shape[0] - (shape + (0,) * rows)[rows - 1] * (claim.name == "fusion") > claim.sizes[1]:
        raise Wrong(f"the label {shown(label)} cannot occur in this product")


def compare(claim, terms):
    """Ends if both sides are equal: what was tried, and a bound for the probability that a wrong table passes."""
    degree, step = claim.degree(), 2 * sum(claim.sizes) or 1
    for label, count in Counter(label for _, label in terms).items():
        if count > 1:
            raise Wrong(f"the label {shown(label)} stands {count} times in the table")
    for c, label in terms:
        if c:
            must_occur(claim, label, degree)
    size = max([degree, claim.variables or 0] + [size_of(label) for _, label in terms])
    if size > (MOST_DEGREE if claim.kind in ("partition", "pair", "power") else MOST_SIZE):
        raise Undecided(f"a degree or a number of variables of {size} is too large")
    primes = two_primes(step)
    if claim.sizes:
        tried = [check_roots(claim, terms, it) for it in primes][0]
    else:
        tried, modulus = "a random point", math.prod(primes)
        left, right = sides(claim, terms, modulus)
        if (left - right) % modulus:
            raise Wrong("the two sides differ at " + tried)
    bits = max([0] + [c.numerator.bit_length() + c.denominator.bit_length() for c, _ in terms])
    bits += 20 * (size + 8) * (size + 8).bit_length() + 8 * len(" ".join(claim.words))
    # (more than 2^54/step primes of 61 bits are 1 modulo `step`)
    chance = math.ceil(2 * math.log2(bits / 60 * step / 2.0 ** 54 + (0 if claim.sizes else size / 2.0 ** 60)))
    return f"{sum(c != 0 for c, _ in terms)} terms, at {tried}; a wrong table passes with a probability of at most 2^{chance}"
