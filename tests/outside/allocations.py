#!/usr/bin/env python3
"""Refuses each allocation of a small command in turn: `allocations.py PROGRAM`.

Each of these runs must end as one for which memory does not suffice, or with its own text and status; a batch may have put its first
blocks. bench/allocations does this for every command."""
import os
import shutil
import subprocess
import sys

from common import SECONDS

TOP = os.path.join(os.path.dirname(os.path.abspath(__file__)), "../..")


def main():
    if not shutil.which("cc"):
        return 77
    told = {**os.environ, "CALC": os.path.abspath(sys.argv[1])}
    done = subprocess.run(
        [sys.executable, "bench/allocations", "mult", "1", "-", "1", "1"],
        cwd=TOP, env=told, capture_output=True, text=True, timeout=SECONDS,
    )
    if done.returncode:
        print(done.stdout + done.stderr)
    return done.returncode


if __name__ == "__main__":
    sys.exit(main())
