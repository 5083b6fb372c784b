"""A command ends within a second of Ctrl-C or its time, and the next call works."""
import multiprocessing
import os
import signal
import subprocess
import sys
import threading
import time
from contextlib import contextmanager
from itertools import islice

from common import HANGS, LIBRARY, PROGRAM, Skipped, comes, pythons, main, raises, same, within

from yorqanish import Calculator, NoCalculator, RangeRefusal, Tableau

# A product that takes more than half a minute.
LONG = tuple(range(13, 0, -1))
LONG_LINE = f"mult {' '.join(map(str, LONG))} - {' '.join(map(str, LONG))}"
CALC = Calculator(program=PROGRAM)


def seen(pid):
    """The first word of a process, its state, its parent, and its time on a processor in hundredths of a second; nothing if it is gone."""
    try:
        with open(f"/proc/{pid}/stat", encoding="ascii", errors="replace") as file:
            words = file.read().rsplit(") ", 1)[1].split()
        with open(f"/proc/{pid}/cmdline", encoding="utf-8", errors="replace") as file:
            name = file.read().split("\0")[0]
    except OSError:
        return None
    return name, words[0], int(words[1]), (int(words[11]) + int(words[12])) * 100 // os.sysconf("SC_CLK_TCK")


def running():
    """The processes of the program that this one has started, and how long each was on a processor."""
    found = {int(pid): seen(pid) for pid in os.listdir("/proc") if pid.isdecimal()}
    mine = ("calc", os.getpid())
    return {pid: it[3] for pid, it in found.items() if it and (it[0], it[2]) == mine}


@contextmanager
def ended(seconds):
    """The processes that run are ended in the body, and not by themselves at the end of their commands."""
    before = set(running())
    assert before
    with within(seconds):
        yield
        comes(lambda: not before & set(running()))


def once_busy(action):
    """Does something in a thread of its own as soon as a process of the program has computed for 0.3 s from now on."""
    before = running()

    def wait():
        comes(lambda: any(spent - before.get(pid, 0) >= 30 for pid, spent in running().items()))
        action()

    threading.Thread(target=wait, daemon=True).start()


def interrupt():
    os.kill(os.getpid(), signal.SIGINT)


def kill():
    for pid in running():
        os.kill(pid, signal.SIGKILL)


def works_on(calc=CALC):
    same(dict(calc.mult([1], [1])), {(2,): 1, (1, 1): 1})


def test_a_time_limit_ends_a_command():
    for _ in range(3):
        with ended(1.5), raises(TimeoutError, "0.5 s", "mult 13"):
            CALC.mult(LONG, LONG, timeout=0.5)
        works_on()
    comes(lambda: len(running()) == 1)
    limited = Calculator(program=PROGRAM, timeout=5)
    with within(6), raises(TimeoutError):
        limited.mult(LONG, LONG)
    works_on(limited)


def test_ctrl_c_ends_a_command():
    for _ in range(3):
        once_busy(interrupt)
        with ended(1.5), raises(KeyboardInterrupt):
            CALC.mult(LONG, LONG)
        works_on()
    comes(lambda: len(running()) == 1)


def test_ctrl_c_of_a_terminal():
    """It reaches all processes of a group at once: what runs beside is not disturbed, and no answer is lost."""
    script = (
        "import os, signal, threading\nfrom yorqanish import Calculator\ncalc = Calculator()\ntry:\n"
        "    threading.Timer(0.5, lambda: os.killpg(0, signal.SIGINT)).start()\n"
        f"    calc.mult({LONG}, {LONG})\n"
        "except KeyboardInterrupt: print(calc.coef((2,), (1,), (1,)))\n"
    )
    with within(4):
        done = subprocess.run([sys.executable, "-c", script], capture_output=True, text=True, start_new_session=True)
    same((done.stdout, done.stderr), ("1\n", ""))


def test_ctrl_c_ends_a_batch():
    for how in ({}, {"workers": 3}):
        done = []
        with within(2), raises(KeyboardInterrupt):
            for it in CALC.batch(["mult 1 - 1"] * 100 + [LONG_LINE] * 50, **how):
                done.append(it.text)
                if len(done) == 1:
                    once_busy(interrupt)
        assert 1 <= len(done) <= 100 and set(done) == {"1  (2)\n1  (1,1)\n"}, len(done)
        works_on()
        comes(lambda: len(running()) <= 1)


def test_a_time_limit_for_each_line_of_a_batch():
    for how in ({}, {"workers": 2}):
        with within(6.5):
            got = list(CALC.batch(["mult 1 - 1", LONG_LINE, "mult 1 2 - 1", "mult 2 - 1"], timeout=5, **how))
        same([type(it.refusal).__name__ for it in got], ["NoneType", "TimeoutError", "ShapeRefusal", "NoneType"])
        same(got[3].answer[[3]], 1)


def test_a_program_that_is_killed():
    """The command says so, and the next call has a program."""
    once_busy(kill)
    with within(1.5), raises(NoCalculator, "-9"):
        CALC.mult(LONG, LONG)
    works_on()
    once_busy(kill)
    with within(2.5):
        got = list(CALC.batch(["mult 1 - 1", LONG_LINE, "mult 2 - 1"], timeout=100))
    same([type(it.refusal).__name__ for it in got], ["NoneType", "Ended", "NoneType"])


def test_a_program_that_is_killed_when_it_is_idle():
    works_on()
    kill()
    comes(lambda: not running())
    for _ in range(3):
        works_on()


def test_closing_ends_what_other_threads_run():
    calc = Calculator(program=PROGRAM)
    once_busy(calc.close)
    with within(1.5), raises(NoCalculator, "closed"):
        calc.mult(LONG, LONG)
    with raises(NoCalculator, "closed"):
        calc.mult([1], [1])
    comes(lambda: len(running()) == 1)


def test_threads_work_at_the_same_time():
    """A command that takes long holds up no other thread."""
    calc, done, is_busy = Calculator(program=PROGRAM), [], threading.Event()

    def long():
        with raises(NoCalculator, "closed"):
            calc.mult(LONG, LONG)
        done.append(True)

    thread = threading.Thread(target=long)
    once_busy(is_busy.set)
    thread.start()
    is_busy.wait()
    with within(1):
        works_on(calc)
    same(done, [])
    calc.close()
    thread.join()
    same(done, [True])


STAIRS = tuple(range(30, 0, -1)), tuple(range(29, 0, -1))


def test_tableaux_come_as_they_are_listed():
    """The first of more than 10^12."""
    ways = [CALC] + ([Calculator(library=LIBRARY)] if LIBRARY else [])
    for calc in ways:
        with within(2):
            first = list(islice(calc.tab(*STAIRS), 5))
            same([[row[-1] for row in t[28:]] for t in first], [[1, 1], [1, 2], [2, 1], [2, 2], [2, 3]])
        same(next(calc.tab((3, 2, 1), (2, 1), after=((1,), (1,), (2,)))), Tableau(((1,), (2,), (1,)), inner=(2, 1)))
        same(list(calc.tab([2], [3])), [])
    # (over the library, too, a program lists them)
    comes(lambda: len(running()) == len(ways))


def test_a_list_of_tableaux_that_breaks_off_is_no_whole_list():
    listed = CALC.tab(*STAIRS)
    next(listed)
    kill()
    with raises(NoCalculator, "-9"):
        for _ in listed:
            pass


def test_a_line_that_is_too_long():
    """`calc batch` has lines of at most 4,096 bytes."""
    same(dict(CALC.expand("m", "+".join(["1"] * 2043))), {(): 2043})
    for wrong in (lambda: CALC.expand("m", "+".join(["1"] * 2048)), lambda: CALC.plethysm("s", "h[2]", "+".join(["p[1]"] * 1000)), lambda: CALC.mult([10**4100], [1])):
        with raises(RangeRefusal, "4,096 bytes"):
            wrong()


def has_ended(pid):
    it = seen(pid)
    return it is None or it[1] == "Z"


def test_nothing_is_left_behind():
    """The program ends with the Calculator, and with Python, also after a fork."""
    calc = Calculator(program=PROGRAM)
    works_on(calc)
    same(len(running()), 2)
    del calc
    comes(lambda: len(running()) == 1)
    script = (
        "import os\nfrom yorqanish import Calculator\ncalc = Calculator()\nchild = os.fork()\n"
        "calc.coef((2,), (1,), (1,))\n"
        "if child: os.waitpid(child, 0)\n"
        "print(*[it.process.pid for it in calc._way._idle], flush=True)\n"
    )
    done = subprocess.run([sys.executable, "-c", script], capture_output=True, text=True)
    pids = done.stdout.split()
    same((len(pids), done.stderr), (2, ""))
    comes(lambda: all(map(has_ended, pids)))


def test_no_thread_is_there_at_a_fork():
    """On each Python: from 3.12 on it warns of threads. What a fork interrupts goes on, and what is let go of later is ended."""
    script = (
        # A thread that has ended may be in the system's list for a moment yet, and Python would warn of it.
        "import os, threading, time\n"
        "def before():\n    print(threading.active_count(), flush=True)\n    end = time.monotonic() + 10\n"
        "    while len(os.listdir('/proc/self/task')) > 1 and time.monotonic() < end: pass\n"
        "os.register_at_fork(before=before)\n"
        "from yorqanish import Calculator\ncalc, other = Calculator(), Calculator()\n"
        "for _ in range(3):\n    child = os.fork()\n    got = calc.coef((2,), (1,), (1,))\n"
        "    if not child: os._exit(got)\n    assert os.waitpid(child, 0)[1] == got << 8 == 256\n"
        "pid = other._way._idle[0].process.pid\nos.waitpid(os.fork() or os._exit(0), 0)\nother.close()\n"
        "while os.path.exists(f'/proc/{pid}'): pass\n"
    )
    # (3.8 and 3.9 break off at their end where such a hook is registered)
    for version, name in pythons((3, 10)).items():
        done = subprocess.run([name, "-W", "always::DeprecationWarning", "-c", script], capture_output=True, text=True, timeout=HANGS)
        same((version, done.stdout, done.stderr, done.returncode), (version, "1\n" * 4, "", 0))


def test_a_python_that_is_killed():
    """The program dies with it in the middle of commands, also if the thread that started it has ended, and a fork does not keep it alive."""
    script = (
        "import os, threading, time\nfrom yorqanish import Calculator, _program\ncalc = Calculator()\nlong = (40, 30, 20, 10)\n"
        "def busy(): return [it().process.pid for it in list(_program.STARTED.values()) if it().user]\n"
        "def of_a_thread(*call):\n"
        "    thread = threading.Thread(target=lambda: call[0](*call[1:]), daemon=True)\n    thread.start()\n    return thread\n"
        "of_a_thread(calc.coef, (2,), (1,), (1,)).join()\n"
        "for _ in range(2): of_a_thread(calc.mult, long, long)\n"
        f"listed = calc.tab(*{STAIRS})\nnext(listed)\n"
        "while len(busy()) < 3: time.sleep(0.01)\nchild = os.fork()\nif not child: time.sleep(1000)\n"
        "print(child, *busy(), flush=True)\ntime.sleep(1000)\n"
    )
    parent = subprocess.Popen([sys.executable, "-c", script], stdout=subprocess.PIPE, text=True)
    fork, *pids = map(int, parent.stdout.readline().split())
    try:
        assert len(pids) == 3 and all(os.path.exists(f"/proc/{it}") for it in pids), pids
        parent.kill()
        with within(1):
            comes(lambda: all(map(has_ended, pids)))
    finally:
        parent.kill()
        for it in (fork, *pids):
            if not has_ended(it):
                os.kill(it, signal.SIGKILL)


def test_a_library_cannot_be_stopped():
    if not LIBRARY:
        raise Skipped("there is no library")
    with raises(ValueError, "timeout"):
        Calculator(library=LIBRARY, timeout=1)
    with raises(ValueError, "timeout"):
        Calculator(library=LIBRARY).mult([1], [1], timeout=1)


def test_a_pool_that_is_terminated():
    """If a pool is terminated while its processes run commands, the parent's Calculator still works."""
    works_on()
    pool = multiprocessing.get_context("fork").Pool(2)
    pool.map_async(long_product, [LONG] * 4)
    time.sleep(0.5)
    pool.terminate()
    pool.join()
    works_on()


def long_product(shape):
    return CALC.mult(shape, shape, timeout=20)


if __name__ == "__main__":
    main(globals())
