"""The package as Windows has it, where there is neither `fcntl` nor the program: the library answers every call. It is tried here by a Python that is told
so."""
import subprocess
import sys

from common import LIBRARY, Skipped, main, same

HEAD = """
import subprocess, ctypes, concurrent.futures, asyncio, json, sys
sys.platform = "win32"
for it in ("fcntl", "pwd", "grp", "resource"):
    sys.modules[it] = None
from yorqanish import Calculator
"""


def said(script):
    if not LIBRARY:
        raise Skipped("there is no library")
    done = subprocess.run([sys.executable, "-c", HEAD + script, LIBRARY], capture_output=True, text=True)
    same((done.stderr, done.returncode), ("", 0))
    return done.stdout.split("\n")[:-1]


def test_it_is_imported_and_answers():
    """(it could not be imported: what starts threads was beside what starts processes)"""
    script = (
        "for calc in (Calculator(library=sys.argv[1]), Calculator(library=True)):\n    print(calc.s[2, 1] * calc.s[1], calc.coef([3, 2, 1], [2, 1], [2, 1]))\n"
        "print([it.answer for it in calc.batch(['coef 2 - 1 - 1'] * 5, workers=2)], calc.submit(calc.coef, [2], [1], [1]).result())\n"
    )
    same(said(script), ["s[3,1]+s[2,2]+s[2,1,1] 2"] * 2 + ["[1, 1, 1, 1, 1] 1"])


def test_tableaux_are_listed_by_the_library():
    same(said("print(*Calculator(library=sys.argv[1]).tab([2, 1], [1]), sep='\\n')"), ["1 / 1", "1 / 2"])


if __name__ == "__main__":
    main(globals())
