"""Foulkes' inequality up to degree 10: for a <= b no coefficient of h_a[h_b] is greater than that of h_b[h_a]."""
from yorqanish import Calculator

calc = Calculator()
for a in range(1, 11):
    for b in range(a, 10 // a + 1):
        less, more = (calc.plethysm("s", calc.h[i], calc.h[j]) for i, j in ((a, b), (b, a)))
        difference = more - less
        assert all(c > 0 for c in difference.values()), (a, b)
        print(f"h{b}[h{a}] - h{a}[h{b}] = {difference}")
