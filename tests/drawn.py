"""Commands that are drawn: for tests/doors and tests/machines."""
import random


def generated(count):
    """Lines of many kinds, some of them refused, from a fixed seed."""
    draw = random.Random(1)

    def parts(most):
        return " ".join(map(str, sorted((draw.randint(0, 4) for _ in range(draw.randint(0, most))), reverse=draw.random() < 0.95)))

    def letters(n):
        return " ".join(map(str, draw.sample(range(1, n + 1), n)))

    makes = [
        lambda: f"mult {parts(4)} - {parts(4)}",
        lambda: f"mult -r {draw.randint(0, 4)} -m {parts(3)} - {parts(3)} - {parts(2)}",
        lambda: f"skew {parts(5)} / {parts(3)}",
        lambda: f"coprod {parts(4)}",
        lambda: f"quantum {draw.randint(1, 4)} {draw.randint(1, 4)} {parts(3)} - {parts(3)}",
        lambda: f"fusion {draw.randint(1, 4)} {draw.randint(1, 4)} {parts(3)} - {parts(3)}",
        lambda: f"tab {parts(4)} / {parts(3)}",
        lambda: f"schubert {letters(draw.randint(1, 6))}",
        lambda: f"schubmult {letters(draw.randint(1, 5))} - {letters(draw.randint(1, 5))}",
        lambda: f"expand {draw.choice('mehps')} {draw.choice('mehps')}[{draw.randint(1, 4)},{draw.randint(1, 3)}]*{draw.choice('ehp')}[2]",
        lambda: f"rsk {letters(draw.randint(0, 8))}",
        lambda: f"coef {parts(5)} - {parts(3)} - {parts(3)} {draw.choice(['', 'x'])}",
    ]
    return [" ".join(draw.choice(makes)().split()) for _ in range(count)]
