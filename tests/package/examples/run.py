"""Runs the examples of the package's modules and of the documents: `run.py program` or `run.py library`."""
import doctest
import importlib
import os
import pkgutil
import sys
from functools import partial

import yorqanish

TOP = os.path.join(os.path.dirname(os.path.abspath(__file__)), "../../..")
DOCUMENTS = ["python/README.md", "docs/FROM_OTHER_PROGRAMS.md"]


def tests_of(name):
    """The examples of a module: of its functions, and of the classes that are written in it, whatever module they name as theirs."""
    module, find = importlib.import_module(name), doctest.DocTestFinder().find
    tests = find(module)
    for it in vars(yorqanish).values():
        if isinstance(it, type) and module is yorqanish:
            tests += find(it, it.__name__, module=False, globs=dict(vars(yorqanish)))
    return {it.name: it for it in tests if it.examples}.values()


def main():
    is_library = sys.argv[1] == "library"
    given = {"Calculator": partial(yorqanish.Calculator, library=True)} if is_library else {}
    failed = tried = 0
    for name in ["yorqanish", *(f"yorqanish.{it.name}" for it in pkgutil.iter_modules(yorqanish.__path__) if it.name != "__main__")]:
        runner = doctest.DocTestRunner()
        for test in tests_of(name):
            test.globs.update(given)
            runner.run(test)
        failed, tried = failed + runner.failures, tried + runner.tries
    for name in [] if is_library else DOCUMENTS:
        result = doctest.testfile(os.path.join(TOP, name), module_relative=False, encoding="utf-8")
        failed, tried = failed + result.failed, tried + result.attempted
        if not result.attempted:
            failed += 1
            print(f"{name} has no example")
    print(f"{failed} of {tried} examples failed")
    return int(failed > 0 or tried < 40)


if __name__ == "__main__":
    sys.exit(main())
