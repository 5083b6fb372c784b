"""A conjecture of Fomin, Fulton, Li and Poon (proved by Lam, Postnikov and Pylyavskyy), over all partitions of 12: if the parts of a partition are split
into two partitions, no product of Schur functions has a greater coefficient than that for the parts at odd and at even places."""
import itertools

from yorqanish import Calculator


def partitions(n, most=None):
    return [()] if n == 0 else [(k, *rest) for k in range(min(n, most or n), 0, -1) for rest in partitions(n - k, k)]


def line(left, right):
    return f"mult {' '.join(map(str, left))} - {' '.join(map(str, right))}"


def splits(shape):
    for chosen in itertools.product((True, False), repeat=len(shape)):
        yield tuple(itertools.compress(shape, chosen)), tuple(it for it, is_left in zip(shape, chosen) if not is_left)


shapes = partitions(12)
cases = sorted({(shape, *split) for shape in shapes for split in splits(shape)})
best = {shape: f"mult {' '.join(map(str, shape[::2]))} - {' '.join(map(str, shape[1::2]))}" for shape in shapes}
calc = Calculator()
lines = sorted({line(*case[1:]) for case in cases} | set(best.values()))
answers = {block.line: block.answer for block in calc.batch(lines, workers=4, progress=True)}
for shape, left, right in cases:
    greatest = answers[best[shape]]
    assert all(c <= greatest[label] for label, c in answers[line(left, right)]), (shape, left, right)
print(f"{len(shapes)} partitions, {len(cases)} ways to split them, {len(lines)} products: no counterexample")
