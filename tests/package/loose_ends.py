"""Calls that hang, leak, or leave a state that is unclear."""
import asyncio
import gc
import math
import os
import signal
import subprocess
import sys
import threading
import time
from decimal import Decimal
from fractions import Fraction

from common import CLOCKS, HANGS, LIBRARY, PROGRAM, Skipped, comes, main, need, printed, raises, same, within

from yorqanish import Calculator, Expansion, NoCalculator, Refusal, _program

CALC = Calculator(program=PROGRAM)
LONG = tuple(range(13, 0, -1))
LONG_LINE = f"mult {' '.join(map(str, LONG))} - {' '.join(map(str, LONG))}"


def ways():
    return [CALC, Calculator(library=LIBRARY)] if LIBRARY else [CALC]


def descriptors():
    return len(os.listdir("/proc/self/fd"))


def children():
    """The processes that this one has started and not waited for."""
    found = []
    for pid in filter(str.isdecimal, os.listdir("/proc")):
        try:
            with open(f"/proc/{pid}/stat", encoding="ascii", errors="replace") as file:
                words = file.read().rsplit(") ", 1)[1].split()
        except OSError:
            continue
        if int(words[1]) == os.getpid():
            found.append((int(pid), words[0]))
    return found


def test_a_batch_that_is_abandoned():
    """Python ends although it has a batch of heavy lines that nobody reads to its end."""
    script = (
        "from yorqanish import Calculator\ncalc = Calculator()\n"
        f"blocks = calc.batch(['mult 1 - 1'] + [{LONG_LINE!r}] * 40, workers=3)\nprint(next(blocks).text, end='')\nblocks.itself = None\n"
    ).replace("blocks.itself = None\n", "keep = [blocks]; keep.append(keep)\n")
    with within(20):
        done = subprocess.run([sys.executable, "-c", script], capture_output=True, text=True, timeout=20)
    same((done.stdout, done.stderr, done.returncode), ("1  (2)\n1  (1,1)\n", "", 0))


def test_calls_while_python_ends():
    """They are answered, or refused, and Python ends."""
    for when in ("import atexit\natexit.register(ask)", "class Cycle:\n    def __init__(self):\n        self.itself = self\n"
                 "    def __del__(self):\n        ask()\ncycle = Cycle()", "import threading\nthreading.Thread(target=lambda: [ask() for _ in range(50)]).start()"):
        for first in ("", "calc.coef([2], [1], [1])\n"):
            script = f"def ask():\n    said.add(calc.coef([2], [1], [1]))\nsaid = set()\n{when}\nfrom yorqanish import Calculator\ncalc = Calculator()\n{first}"
            with within(60):
                done = subprocess.run([sys.executable, "-c", script], capture_output=True, text=True, timeout=60)
            same((done.returncode, done.stdout), (0, ""))


def test_a_del_at_the_end_of_python():
    """It is answered: the program's file was closed before it."""
    script = (
        "import os\nfrom yorqanish import Calculator\nclass Late:\n    def __init__(self): self.itself, self.calc = self, Calculator()\n"
        "    def __del__(self): self.calc._way._idle.clear(); os.write(1, b'%d' % self.calc.coef([2], [1], [1]))\nlate = Late()\nlate.calc.coef([2], [1], [1])\n"
    )
    done = subprocess.run([sys.executable, "-c", script], capture_output=True, text=True, timeout=HANGS)
    same((done.stdout, done.stderr, done.returncode), ("1", "", 0))


def test_a_call_after_the_processes_have_ended():
    """At the end of Python the numbers of their pipes may be those of other files, to which nothing is written."""
    script = (
        "import atexit, os, select\ndef late():\n    pipes = [os.pipe() for _ in range(8)]\n    print(calc.coef([2], [1], [1]))\n"
        "    print(select.select([it for it, _ in pipes], [], [], 0)[0])\natexit.register(late)\n"
        "from yorqanish import Calculator\ncalc = Calculator()\ncalc.coef([2], [1], [1])\n"
    )
    done = subprocess.run([sys.executable, "-c", script], capture_output=True, text=True, timeout=HANGS)
    same((done.stdout, done.stderr, done.returncode), ("1\n[]\n", "", 0))


def test_descriptors_that_somebody_closed():
    """What asks is refused or answered, and does not wait."""
    script = (
        "import os\nfrom yorqanish import Calculator, NoCalculator\ncalc = Calculator()\ncalc.coef([2], [1], [1])\nos.closerange(3, 200)\n"
        "got = []\nfor _ in range(4):\n    try: got.append(calc.coef([3, 2, 1], [2, 1], [2, 1]))\n    except (OSError, NoCalculator): got.append(2)\n"
        "print(got, flush=True)\nos._exit(0)\n"
    )
    done = subprocess.run([sys.executable, "-c", script], capture_output=True, text=True, timeout=HANGS)
    same((done.stdout, done.returncode), ("[2, 2, 2, 2]\n", 0))


def test_times_of_any_type():
    numbers = [2, 2.5, Fraction(5, 2), Decimal("2.5"), math.inf, 1e300, 40 * 86400, None]
    try:
        import numpy
        numbers += [numpy.float64(2), numpy.int8(2), numpy.float32(2)]
    except ImportError:
        pass
    for number in numbers:
        same(CALC.coef([2], [1], [1], timeout=number), 1)
        same(len(list(CALC.tab([2, 1], [1], timeout=number))), 2)
        same([it.answer for it in CALC.batch(["coef 2 - 1 - 1"], timeout=number)], [1])
        same(Calculator(program=PROGRAM, timeout=number).coef([2], [1], [1]), 1)
    for wrong, kind in ((math.nan, ValueError), (-1, ValueError), (-math.inf, ValueError), ("5", TypeError), (b"5", TypeError), (True, TypeError),
                        ([1], TypeError), (1j, TypeError)):
        for ask in (lambda: CALC.coef([2], [1], [1], timeout=wrong), lambda: CALC.batch(["mult 1 - 1"], timeout=wrong),
                    lambda: Calculator(program=PROGRAM, timeout=wrong), lambda: CALC.tab([2, 1], [1], timeout=wrong)):
            with raises(kind, "timeout"):
                ask()
    with raises(TimeoutError):
        CALC.mult(LONG, LONG, timeout=Fraction(1, 5))
    with raises(TimeoutError):
        CALC.coef([2], [1], [1], timeout=0)
        CALC.mult(LONG, LONG, timeout=0)


def test_what_is_a_command_outside_of_lines_only():
    """`batch` would read an input that nobody ends."""
    for calc in ways():
        for words in (("batch",), ("batch", "x" * 5000), (" batch\t", "1 " * 3000), ("work", "2", "0" * 5000), ("work", "2", "0")):
            with within(20), raises(Refusal, "command" if len(" ".join(words)) <= 4096 else "4,096"):
                calc.text(*words)


def test_a_zero_byte_in_a_long_line():
    before = descriptors()
    for _ in range(20):
        for calc in ways():
            for line in ("expand m 1+\0" + "1" * 5000, "mult 1 - \0" + " 1" * 3000, "\0" * 5000):
                with raises(Refusal):
                    calc.text(line)
    assert descriptors() <= before + 4, (before, descriptors())


ODD_ENDS = ["mult 1 - 1\r", "mult 1 - 1\r\r", "mult 1 - 1\r\n", "mult 1 - 1\n\n", "mult 1 - 1\x0c", "\x0c", "\x0cmult 1 - 1", "\r", "\r\r", "\x0b", "\n",
            "mult 1 - 1 ", "\tmult 1\t-\t1\t", "mult 1 - 1\x00", "\x85", "\u2028", "mult 1 - 1\x1c", "# x\r", "\ufeffmult 1 - 1", "mult 1 - \uff11"]


def test_program_and_library_agree():
    def said(calc, line):
        try:
            return calc.text(line)
        except Refusal as refusal:
            return type(refusal).__name__, refusal.word, refusal.byte

    found = [[said(calc, line) for line in ODD_ENDS] for calc in ways()]
    same(found[0], found[-1])
    same(found[0][:3], ["1  (2)\n1  (1,1)\n", ("SyntaxRefusal", 3, 0), "1  (2)\n1  (1,1)\n"])
    blocks = [[(it.line, it.text, str(it.refusal)) for it in calc.batch(ODD_ENDS)] for calc in ways()]
    same(blocks[0], blocks[-1])
    long = ["expand m " + "+".join(["1"] * count) + end for end in ("", "\r", "\r\n", "\n", " ", "\x0c") for count in (2043, 2044, 2048)]
    found = [[said(calc, line) for line in long] for calc in ways()]
    same(found[0], found[-1])
    same([it for it in found[0] if it[0] == "RangeRefusal"], [("RangeRefusal", 0, 4096)] * 8)


def test_no_call_after_the_end():
    for open_one in ({"program": PROGRAM}, {"library": LIBRARY}) if LIBRARY else ({"program": PROGRAM},):
        calc = Calculator(**open_one)
        listed, blocks, spread = calc.tab([4, 3, 2, 1], [3, 2, 1]), calc.batch(["mult 1 - 1"] * 3), calc.batch(["mult 1 - 1"] * 99, workers=2)
        for it in (listed, blocks, spread):
            next(it)
        calc.close()
        for ask in (lambda: calc.mult([1], [1]), lambda: calc.text("mult 1 - 1"), lambda: list(calc.tab([2, 1], [1])), lambda: list(calc.batch(["#"])),
                    lambda: list(calc.batch(["mult 1 - 1"], workers=2)), lambda: next(listed), lambda: next(blocks), lambda: next(spread),
                    lambda: calc.expand("m", "1"), lambda: calc.text("")):
            with raises(NoCalculator, "closed"):
                ask()
        calc.close()


def test_what_is_raised_where_lines_come_from():
    """Those before it have their blocks."""

    def broken(count):
        for n in range(1, count + 1):
            yield f"mult {n} - 1"
        raise KeyError("broken")

    for count in (0, 1, 5, 400):
        for how in ({}, {"workers": 3}):
            got = []
            with raises(KeyError, "broken"):
                for it in CALC.batch(broken(count), **how):
                    got.append(it.answer[[len(got) + 2]])
            same(got, [1] * count)
    got = []
    with raises(TypeError, "line"):
        for it in CALC.batch(["mult 1 - 1"] * 5 + [b"mult 1 - 1"]):
            got.append(it.text)
    same(len(got), 5)


def test_a_slow_source():
    """A block comes when its line has, and does not wait for those of many others."""

    def slow():
        for n in range(1, 31):
            time.sleep(0.1)
            came.append(time.monotonic())
            yield f"mult {n} - 1"

    for how in ({}, {"workers": 3}):
        came, waited = [], []
        for n, it in enumerate(CALC.batch(slow(), **how)):
            same(it.answer[[n + 2]], 1)
            waited.append(time.monotonic() - came[n])
        behind = [int(it // 0.1) for it in waited]
        assert max(behind) <= 6 or not CLOCKS and max(behind) < 15, behind


def test_a_long_answer_goes_on():
    """An expansion that is too long for a line is sent in parts, whose answers are added."""
    long = CALC.expand("m", "h[1]*" * 17 + "h[1]")
    assert len(str(long)) > 4096, len(str(long))
    for calc in ways():
        same(calc.expand("h", CALC.expand("m", "h[5]*h[4]*h[3]")), {(5, 4, 3): 1})
        same(calc.expand("s", long), calc.expand("s", "h[1]*" * 17 + "h[1]"))
        same(calc.expand("s", long / 7 - long / 7), 0)
        fractions = CALC.expand("p", "h[15]+h[14]")
        assert len(str(fractions)) > 4096
        same(calc.expand("h", fractions), {(15,): 1, (14,): 1})
        small = CALC.expand("p", "h[10]+e[9]+h[8]+h[7]+h[6]") / 10**25
        assert len(str(small)) > 4096
        inner = "p[1]" + "+0" * 900
        same((calc.plethysm("s", small, "p[1]"), calc.plethysm("s", small, inner)), (calc.expand("s", small),) * 2)


def test_no_lock_is_taken_where_an_interrupt_comes():
    """`subprocess` and `threading` take a lock in one step and say that they have it in the next: an interrupt in between left it held for ever, and
    the end of that process was waited for in vain. So nothing of theirs runs in the thread in which signals are handled."""
    entered = set()

    def profile(frame, event, argument):
        name = os.path.basename(frame.f_code.co_filename)
        if event == "call" and name in ("subprocess.py", "threading.py", "queue.py"):
            entered.add((name, frame.f_code.co_name))

    gc.collect()
    sys.setprofile(profile)
    try:
        with Calculator(program=PROGRAM) as calc:
            listed = calc.tab((9, 8, 7, 6), (8, 7, 6))
            next(listed)
            listed.close()
            try:
                calc.mult(LONG, LONG, timeout=0.05)
            except TimeoutError:
                pass
            calc._way._idle.clear()
            same(calc.coef([2], [1], [1]), 1)
            same([it.answer for it in calc.batch(["coef 2 - 1 - 1"] * 40, workers=3)], [1] * 40)
    finally:
        sys.setprofile(None)
    same(entered, set())


def test_ctrl_c_while_processes_are_ended():
    """Neither processes nor descriptors are left, whenever it comes."""
    gc.collect()
    before, mine, hits = descriptors(), len(children()), 0
    is_armed, calc, listed = [False], None, None

    def interrupt(*_):
        if is_armed[0]:
            is_armed[0] = False
            raise KeyboardInterrupt

    signal.signal(signal.SIGALRM, interrupt)
    until = time.monotonic() + 8
    # (not more than a hundred: between a call of the system and the assignment of what it gave, an interrupt leaves a descriptor, once in some thirty)
    while hits <= 50 or hits < 100 and time.monotonic() < until:
        try:
            is_armed[0] = True
            signal.setitimer(signal.ITIMER_REAL, 0.0001 + hits % 97 * 0.0005)
            while is_armed[0]:
                with Calculator(program=PROGRAM) as calc:
                    listed = calc.tab((9, 8, 7, 6), (8, 7, 6))
                    next(listed)
                    listed.close()
        except KeyboardInterrupt:
            hits += 1
    calc = listed = None
    gc.collect()
    with Calculator(program=PROGRAM) as last:
        same(last.coef([2], [1], [1]), 1)
    # (a process that was ended in the middle gives its descriptors back a moment later)
    comes(lambda: len(children()) <= mine + 1 and descriptors() <= before + 8)


def test_a_thousand_tasks():
    """As README says it."""
    if sys.version_info < (3, 9):
        raise Skipped("asyncio.to_thread is of Python 3.9")

    async def all_of_them():
        return await asyncio.gather(*(asyncio.to_thread(CALC.mult, [n % 30 + 1], [1]) for n in range(1000)))

    with within(60):
        got = asyncio.run(all_of_them())
    same([it[[n % 30 + 2]] for n, it in enumerate(got)], [1] * 1000)
    same([len(it) for it in got], [2] * 1000)


if __name__ == "__main__":
    main(globals())
