"""A user's script, which mypy finds no fault with."""
from fractions import Fraction
from typing import Optional, Union

from yorqanish import Calculator, Expansion, Partition, Refusal


def largest(product: "Expansion[Partition, int]") -> int:
    return max(product.values(), default=0)


def main() -> None:
    with Calculator(timeout=10) as calc:
        product = calc.mult([2, 1], (2, 1), rows=3)
        total: int = sum(product.values())
        third: Union[int, Fraction] = (product / 3)[3, 2, 1]
        twice: "Expansion[Partition, int]" = 2 * product - product + product
        in_p = calc.expand("p", twice) + calc.expand("p", "s[2]")
        print(largest(twice), total, third, in_p, calc.coprod([1])[[1], []], calc.quantum(2, 2, [1], [1])[0, (2,)])
        for block in calc.batch(["mult 1 - 1"], workers=2):
            problem: Optional[Exception] = block.refusal
            print(block.line, block.text, problem)
        try:
            calc.schubert(range(1, 4))
        except Refusal as refusal:
            print(refusal.kind, refusal.word, refusal.line)
        for tableau in calc.tab([2, 1], [1]):
            print(len(tableau), tableau.latex(), tableau.inner)
        pair = calc.rsk([3, 1, 2])
        print(sum(calc.unrsk(pair.insertion, pair.recording)))
        ring = calc.quantum_ring(2, 3)
        print(ring[1] * ring([2, 1]) + 1, ring.q, sum([twice, twice], calc.s.zero()), +twice, twice + 0)
        print(twice**2, calc.X[2, 1] * calc.schubmult([2, 1], [1]), calc.p(twice), twice.to("h").coefficient([2, 1]))
        print([sum(label) * c for label, c in twice], Expansion(calc.s, {(2, 1): 1}), calc.submit(calc.coef, [2], [1], [1]).result())
        # (texts, iterators, sets and dictionaries are no lists, and a place is no time)
        print(calc.mult("21", [1]))  # type: ignore[arg-type]
        print(calc.mult(map(int, ["2"]), [1]))  # type: ignore[arg-type]
        print(calc.mult({2, 1}, [1]))  # type: ignore[arg-type]
        print(calc.mult([1], {2: 1}))  # type: ignore[arg-type]
        print(calc.coef([2], [1], [1], 5))  # type: ignore[misc]


if __name__ == "__main__":
    main()
