#!/usr/bin/env python3
"""Runs the Python and the shell of docs/FROM_OTHER_PROGRAMS.md, and the commands of its tables, with the built program: `documents.py
PROGRAM`. (Its examples of the package are run by tests/python_package, and those of the C library by tests/release.)

The lines that share a file of commands out over processors are run over light and over heavy lines, and write what one batch of the file
writes, with its status."""
import os
import re
import shlex
import subprocess
import sys
import tempfile

LIGHT = "".join(f"mult {a + b} {b} - {b} 1\n\n  # a comment\nschubmult 3 1 2 - 2 1\n" for a in range(40) for b in range(1, 30))
HEAVY = "".join(f"expand s h[{a}]*m[4,3,2,1]\n" for a in range(2, 9)) + "mult 1 2 - 1\n"


def pieces_of(text, kind):
    return re.findall(rf"^```{kind}\n(.*?)^```$", text, re.DOTALL | re.MULTILINE)


def is_shared(program, pieces, text, wanted):
    """Whether the shell's lines write what one batch of the text writes, and end as it ends."""
    with tempfile.TemporaryDirectory() as room:
        os.symlink(program, f"{room}/calc")
        with open(f"{room}/commands.txt", "w", encoding="ascii") as file:
            file.write(text)
        one = subprocess.run(["./calc", "batch"], cwd=room, input=text.encode(), capture_output=True)
        done = subprocess.run(["sh", "-c", "".join(pieces)], cwd=room, capture_output=True)
        with open(f"{room}/answers.txt", "rb") as file:
            written = file.read()
    right = written == one.stdout and done.returncode == one.returncode == wanted and not done.stderr
    if not right:
        print(f"{pieces[-1]}: status {done.returncode}, {len(written)} bytes, wanted {len(one.stdout)}; {done.stderr}")
    return right


def is_answered(program, typed):
    """Whether a command of the tables has an answer."""
    done = subprocess.run([program, *shlex.split(typed)], capture_output=True, text=True)
    right = done.returncode == 0 and done.stdout and not done.stderr
    if not right:
        print(f"calc {typed}: status {done.returncode}, {done.stdout}{done.stderr}")
    return right


def main():
    program = os.path.abspath(sys.argv[1])
    path = os.path.join(os.path.dirname(os.path.abspath(__file__)), "..", "..", "docs", "FROM_OTHER_PROGRAMS.md")
    with open(path, encoding="utf-8") as document:
        text = document.read()
    python = pieces_of(text, "python")
    for piece in python:
        exec(compile(piece.replace('"./calc"', repr(program)), "FROM_OTHER_PROGRAMS.md", "exec"), {})
    shared, *runs = [it for it in pieces_of(text, "sh") if "in_pieces" in it]
    tried = [is_shared(program, [shared, run], lines, status) for run, lines, status in zip(runs, (LIGHT, HEAVY), (0, 1))]
    answered = [is_answered(program, typed) for typed in re.findall(r"^\| `calc (.*?)` \|", text, re.MULTILINE)]
    return not (python and len(runs) == 2 and all(tried) and len(answered) > 20 and all(answered))


if __name__ == "__main__":
    sys.exit(main())
