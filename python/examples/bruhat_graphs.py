"""The Bruhat order of S_4 as a graph of networkx, by Monk's rule: w covers u if it is a term of X_u times a simple transposition."""
import itertools

import networkx

from yorqanish import Calculator

calc = Calculator()
X = calc.X
simple = [X[2, 1], X[1, 3, 2], X[1, 2, 4, 3]]


def in_four(label):
    """The permutation with its four letters, fixed ones too."""
    return (*label, *range(len(label) + 1, 5))


graph = networkx.DiGraph()
for u in itertools.permutations(range(1, 5)):
    for x in simple:
        graph.add_edges_from((u, in_four(w)) for w, _ in X[u] * x if len(w) <= 4)
assert graph.number_of_nodes() == 24 and networkx.is_directed_acyclic_graph(graph)
assert networkx.dag_longest_path_length(graph) == 6
assert all(X[v].degree() == X[u].degree() + 1 for u, v in graph.edges)
# Two permutations are comparable if there is a path; the order is that of the ranks of their corners.
below = sum(len(networkx.descendants(graph, u)) for u in graph)


def ranks(w):
    return [sum(letter >= j for letter in w[:i]) for i in range(1, 5) for j in range(1, 5)]


assert below == sum(u != v and all(a <= b for a, b in zip(ranks(u), ranks(v))) for u, v in itertools.product(graph, repeat=2))
print(f"{graph.number_of_edges()} covers, {below} pairs u < v")
