"""`python -m yorqanish WORDS` runs the program that a Calculator would take, with these words."""
import os
import subprocess
import sys

from ._ways import IS_WINDOWS, PROGRAM, NoCalculator, near, program

if __name__ == "__main__":
    try:
        if IS_WINDOWS:
            sys.exit(subprocess.run([near(PROGRAM) or PROGRAM, *sys.argv[1:]]).returncode)
        found = program(None)
    except NoCalculator as error:
        sys.exit(f"yorqanish: {error}")
    found.close()
    os.execv(found.path, [found.path, *sys.argv[1:]])
