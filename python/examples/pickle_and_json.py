"""Answers that are kept: pickled, and as JSON. What is read again is of the same parent, and goes on to be multiplied."""
import json
import os
import pickle
import tempfile

from yorqanish import Calculator, Expansion

calc = Calculator()
answers = {
    "a product": calc.s[2, 1] ** 2,
    "a quantum product": calc.quantum_ring(2, 3)[2, 1] ** 2,
    "in power sums": calc.p(calc.s[3, 1]) / 2,
    "a double Schubert polynomial": calc.dschubmult([2, 1], [2, 1]),
}
with tempfile.TemporaryDirectory() as room:
    with open(os.path.join(room, "answers.pickle"), "wb") as file:
        pickle.dump(answers, file)
    with open(os.path.join(room, "answers.json"), "w", encoding="ascii") as file:
        json.dump({name: it.to_json() for name, it in answers.items()}, file)
    with open(os.path.join(room, "answers.pickle"), "rb") as file:
        pickled = pickle.load(file)
    with open(os.path.join(room, "answers.json"), encoding="ascii") as file:
        read = {name: Expansion.from_json(text) for name, text in json.load(file).items()}
for name, it in answers.items():
    assert pickled[name] == read[name] == it and pickled[name].parent == read[name].parent == it.parent
    assert read[name] * pickled[name] == it * it
    print(f"{name}: {it}")
