"""Attacks on the package by somebody who did not write it: the failures of the first round."""
import enum
import gc
import os
import re
import resource
import signal
import stat
import subprocess
import sys
import tempfile
import threading
import time

from common import HANGS, LIBRARY, PROGRAM, main, raises, same
from yorqanish import Calculator, SyntaxRefusal, _program, _tableaux

CALC = Calculator()
WAYS = [CALC, *([Calculator(library=True)] if LIBRARY else [])]


def partitions(size, most):
    if size == 0:
        yield ()
    for part in range(min(size, most), 0, -1):
        yield from ((part, *rest) for rest in partitions(size - part, part))


def test_a_line_feed_beside_a_long_expression():
    """The parts of a long expression are treated as single lines are: a comment after a line feed does not end the inner expression."""
    long = CALC.s({label: 10**18 + i for size in range(11) for i, label in enumerate(partitions(size, size))})
    assert len(str(long)) > 4096
    for calc in WAYS:
        same(calc.plethysm("s", long, "h[1]"), long)
        for wrong in ("h[1]\n#", "h[1]\nrsk", "\nh[1]", "\udc80"):
            for outer in (long, CALC.s[2]):
                with raises(SyntaxRefusal):
                    calc.plethysm("s", outer, wrong)


def test_bytes_of_a_line():
    """Words that are no UTF-8 are refused at their place, whatever the locale."""
    for calc in WAYS:
        for word in ("\udcff", "\xe9", "\u2028"):
            for line, place in ((f"mult {word} - 1", (1, 0)), (f"mult 2 {word} - 1", (2, 0))):
                try:
                    calc.text(line)
                except SyntaxRefusal as error:
                    same((error.word, error.byte), place)
                else:
                    raise AssertionError(line)
    script = "from yorqanish import *\ntry: Calculator().text('mult 1 \\xe9')\nexcept SyntaxRefusal as error: print(error.word, error.byte)"
    said = {**os.environ, "LC_ALL": "C", "PYTHONCOERCECLOCALE": "0", "PYTHONUTF8": "0"}
    done = subprocess.run([sys.executable, "-c", script], capture_output=True, text=True, env=said)
    same((done.stdout, done.stderr), ("2 0\n", ""))


def test_an_element_that_equals_a_number_has_its_hash():
    for ring in (CALC.quantum_ring(2, 2), CALC.fusion_ring(2, 1), CALC.X, CALC.s, CALC.p):
        for number in (0, 1, -3):
            same((ring(number) == number, hash(ring(number)) == hash(number), {number: "found"}.get(ring(number))), (True, True, "found"))
    a = CALC.quantum_ring(2, 2)([1])
    same(({a * a - a * a: "found"}.get(0), len({a, a + 0, a * 1})), ("found", 1))


def test_a_shape_that_is_too_large_for_its_tableaux():
    """Its size is refused before a list of it is made."""
    held = resource.getrlimit(resource.RLIMIT_AS)
    CALC.mult([1], [1])
    resource.setrlimit(resource.RLIMIT_AS, (4 << 30, held[1]))
    for size in (5000, 10**9, 10**12, 2**70):
        with raises(ValueError, "20 cells"):
            CALC.dimension([size])
    resource.setrlimit(resource.RLIMIT_AS, held)


def test_a_fork_without_a_free_descriptor():
    """The child has nothing in place of its parent's pipes, so that what a fork interrupted takes no answer of the parent's."""
    calc = Calculator()
    calc.mult([1], [1])
    own = calc._way._idle[0].process
    held = resource.getrlimit(resource.RLIMIT_NOFILE)
    resource.setrlimit(resource.RLIMIT_NOFILE, (64, held[1]))
    full = []
    try:
        while True:
            full.append(os.open(os.devnull, os.O_RDONLY))
    except OSError:
        pass
    child = os.fork()
    if not child:
        os._exit(0 if all(stat.S_ISCHR(os.fstat(it.fileno()).st_mode) for it in (own.stdin, own.stdout)) else 1)
    same((os.waitpid(child, 0)[1], calc.coef([2], [1], [1]), calc._way._idle[0].process), (0, 1, own))


def test_a_fork_before_a_process_is_ended():
    """Whose reader is gone: in the child its pipes are let go of once. (A second time was an error, after which the child kept those of all others.)"""
    script = (
        "import os, time\nfrom yorqanish import Calculator, _program\ncalc, other = Calculator(), Calculator()\n_program.ASKED.put(None)\n"
        "while _program.SERVING: time.sleep(0.001)\n_program.serve = lambda: None\ncalc._way._idle.clear()\nassert len(_program.STARTED) == 2\n"
        "child = os.fork()\nassert child or all(os.fstat(it.fileno()).st_rdev for it in _program.pipes_of(other._way._idle[0].process))\n"
        "os._exit(0 if not child else os.waitpid(child, 0)[1] >> 8)"
    )
    done = subprocess.run([sys.executable, "-c", script], capture_output=True, text=True)
    same((done.stderr, done.returncode), ("", 0))


def test_a_script_that_runs_the_program():
    """The processes that a script started end with it: at a timeout, and when Python is killed."""
    with tempfile.TemporaryDirectory() as room:
        path = os.path.join(room, "script")
        with open(path, "w", encoding="ascii") as file:
            file.write(f'#!/bin/sh\necho $$ >> {room}/groups\n{PROGRAM} "$@"\n:\n')
        os.chmod(path, 0o755)
        script = (
            "import os, signal, sys\nfrom yorqanish import Calculator\ncalc = Calculator(program=sys.argv[1])\n"
            "try: calc.mult(*[[8, 7, 6, 5, 4, 3, 2, 1]] * 6, timeout=1)\nexcept TimeoutError: print('late', flush=True)\n"
            "calc.mult([1], [1])\nos.kill(os.getpid(), signal.SIGKILL)"
        )
        same(subprocess.run([sys.executable, "-c", script, path], capture_output=True, text=True).stdout, "late\n")
        with open(f"{room}/groups", encoding="ascii") as file:
            groups = [int(it) for it in file.read().split()]
        until = time.monotonic() + HANGS
        while any(map(is_running, groups)) and time.monotonic() < until:
            time.sleep(0.1)
        left = [it for it in groups if is_running(it)]
        for it in left:
            os.killpg(it, signal.SIGKILL)
        same((len(groups), left), (2, []))


def is_running(group):
    """Whether a process of this group is more than a zombie."""
    listed = subprocess.run(["ps", "-eo", "pgid=,stat="], capture_output=True, text=True).stdout
    return re.search(rf"^ *{group} [^Z]", listed, re.MULTILINE) is not None


def test_lines_that_come_in_pieces():
    """A list is the same however what is read is cut."""
    calc, read = Calculator(), os.read
    wanted = list(calc.tab([3, 2, 1], [2, 1]))
    try:
        os.read = lambda number, _: read(number, 1)
        same((list(calc.tab([3, 2, 1], [2, 1])), calc.coef([3, 2, 1], [2, 1], [2, 1])), (wanted, 2))
    finally:
        os.read = read


def test_a_fork_beside_threads_that_ask():
    """It does not wait until they have asked for the last time."""
    calc, done = Calculator(), threading.Event()

    def ask():
        while not done.is_set():
            next(calc.tab([3, 2, 1], [2, 1]))

    threads = [threading.Thread(target=ask) for _ in range(4)]
    for it in threads:
        it.start()
    began, took, statuses = time.monotonic(), 0.0, []
    while len(statuses) < 4 and took < 10:
        child = os.fork()
        if not child:
            os._exit(0 if calc.coef([2], [1], [1]) == 1 else 1)
        statuses.append(os.waitpid(child, 0)[1])
        took = time.monotonic() - began
    done.set()
    for it in threads:
        it.join()
    same((statuses, took < 10), ([0] * 4, True))


def test_a_call_where_no_thread_begins():
    """At the end of Python 3.12, after a fork; and where the collector calls a `__del__` in a thread that starts processes."""
    head = "import atexit, gc, os, threading\nfrom yorqanish import Calculator\ncalc = Calculator()\n"
    late = "atexit.register(lambda: print(calc.coef([2], [1], [1])))\npid = os.fork()\nif pid: os.waitpid(pid, 0)\nelse: os._exit(0)"
    same(subprocess.run([sys.executable, "-c", head + late], capture_output=True, text=True, timeout=HANGS).stdout, "1\n")
    inside = (
        "class Left:\n    def __del__(self): print(Calculator().coef([2], [1], [1]), flush=True)\n"
        "pipe, first, main = os.pipe, [1], threading.current_thread()\n"
        "def collecting():\n    if first and threading.current_thread() is not main: first.pop(); Left()\n    return pipe()\n"
        "os.pipe = collecting\nlisted = calc.tab([2, 1], [1])\nnext(listed)\nprint(calc.coef([2], [1], [1]))"
    )
    same(subprocess.run([sys.executable, "-c", head + inside], capture_output=True, text=True, timeout=HANGS).stdout, "1\n1\n")


def test_what_is_kept_and_what_is_not():
    """Answers do not keep processes; a basis that is a member of an `Enum` is its letter; a skew tableau stays one."""
    before = len(_program.STARTED)
    kept = [Calculator().mult([1], [1]) for _ in range(3)]
    gc.collect()
    until = time.monotonic() + HANGS
    while len(_program.STARTED) > before and time.monotonic() < until:
        time.sleep(0.05)
    same((len(_program.STARTED) - before, kept[0] * kept[1] == Calculator().mult([1], [1], [1], [1])), (0, True))
    letter = enum.Enum("Letter", {"P": "p"}, type=str).P
    calc = Calculator(library=1) if LIBRARY else Calculator()
    same(str(calc.expand(letter, "p[2,1]")) + str(CALC.s[1].to(letter)), "p[2,1]p[1]")
    skew = _tableaux.Tableau(((1,), (2,)), inner=(1,))
    same((_tableaux.Tableau(skew), _tableaux.Tableau(skew, inner=[1, 0])), (skew, skew))
    with raises(ValueError, "inner"):
        _tableaux.Tableau(skew, inner=())


if __name__ == "__main__":
    main(globals())
