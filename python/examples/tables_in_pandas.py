"""A table of Littlewood-Richardson coefficients in pandas: s_(2,1) times each s of degree 3, one column for each product."""
import pandas

from yorqanish import Calculator

calc = Calculator()
s = calc.s
factors = [(3,), (2, 1), (1, 1, 1)]
products = {factor: s[2, 1] * s[factor] for factor in factors}
labels = pandas.Series(sorted({label for it in products.values() for label in it.support()}, reverse=True))
table = pandas.DataFrame({str(s[factor]): labels.map(it.coefficient) for factor, it in products.items()})
table.insert(0, "label", labels)
print(table.to_string(index=False))

# The row of (3,2,1), and as a check the dimensions: both sides count the standard tableaux of the product.
assert table[table["label"] == (3, 2, 1)].iloc[0].tolist()[1:] == [1, 2, 1]
dimensions = labels.map(calc.dimension)
for factor, name in zip(factors, table.columns[1:]):
    assert (table[name] * dimensions).sum() == 20 * calc.dimension([2, 1]) * calc.dimension(factor)
# One element as a table by itself, sorted by its coefficients.
print(products[2, 1].to_pandas().sort_values("coefficient", ascending=False).head(3).to_string(index=False))
