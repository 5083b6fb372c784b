"""`python -m yorqanish.check COMMAND [FILE]` is check/table of the repository: it holds a table to the command that it answers."""
import os
import runpy
import sys

if __name__ == "__main__":
    here = os.path.dirname(os.path.abspath(__file__))
    folders = [os.path.join(here, "checks"), os.path.join(here, "..", "..", "check")]
    folder = next((it for it in folders if os.path.exists(os.path.join(it, "table"))), None)
    if folder is None:
        raise SystemExit("yorqanish.check: this package has no check/table: install a wheel, or use a checkout")
    sys.dont_write_bytecode = True
    runpy.run_path(os.path.join(folder, "table"), run_name="__main__")
