"""The programs of python/examples: each is run, and asserts what it says. (The notebook is run by notebook.py.)"""
import os
import subprocess
import sys

from common import TOP, main, need, same

FOLDER = f"{TOP}/python/examples"


def runs(name, *modules):
    for it in modules:
        need(it)
    done = subprocess.run([sys.executable, f"{FOLDER}/{name}"], capture_output=True, text=True)
    assert done.returncode == 0 and done.stdout, done.stdout[-500:] + done.stderr[-1500:]


def test_tables_in_pandas():
    runs("tables_in_pandas.py", "pandas")


def test_schubert_constants():
    runs("schubert_constants.py")


def test_quantum_cohomology():
    runs("quantum_cohomology.py")


def test_foulkes():
    runs("foulkes.py")


def test_conjecture():
    runs("conjecture.py")


def test_bruhat_graphs():
    runs("bruhat_graphs.py", "networkx")


def test_pickle_and_json():
    runs("pickle_and_json.py")


def test_polynomials_in_sympy():
    runs("polynomials_in_sympy.py", "sympy")


def test_arrays_of_numpy():
    runs("arrays_of_numpy.py", "numpy")


def test_each_is_run():
    """No program of the folder is left out."""
    with open(__file__, encoding="utf-8") as file:
        text = file.read()
    same([it for it in sorted(os.listdir(FOLDER)) if it.endswith(".py") and f'"{it}"' not in text], [])


if __name__ == "__main__":
    main(globals())
