"""How processes begin and end: in subinterpreters, without a standard input, for pickled methods, when a task is cancelled; and what is kept
in memory meanwhile."""
import asyncio
import os
import pickle
import re
import resource
import signal
import subprocess
import sys
import threading
import time
from concurrent.futures import CancelledError, ProcessPoolExecutor, wait

from common import CLOCKS, HANGS, LIBRARY, PROGRAM, Skipped, comes, main, need, pythons, raises, same, within

from yorqanish import Calculator, Ended, Refusal, _lines, _program

CALC = Calculator(program=PROGRAM)
LONG = tuple(range(13, 0, -1))
LONG_LINE = f"mult {' '.join(map(str, LONG))} - {' '.join(map(str, LONG))}"


def state(pid):
    """The first word of a process and its state, nothing if it is gone."""
    try:
        with open(f"/proc/{pid}/stat", encoding="ascii", errors="replace") as file:
            return file.read().rsplit(") ", 1)[1].split()[0]
    except OSError:
        return ""


def test_a_subinterpreter():
    """It answers, or refuses, and Python does not abort at its end."""
    body = "from yorqanish import Calculator, NoCalculator\ntry:\n    calc = Calculator()\n    print(calc.coef([3, 2, 1], [2, 1], [2, 1]), flush=True)\nexcept NoCalculator: print('no', flush=True)"
    script = (
        "import sys\ntry:\n    import _interpreters as them\nexcept ImportError:\n    import _xxsubinterpreters as them\n"
        f"body = {body!r}\nfor how in ({{}}, {{'isolated': False}}):\n"
        "    try: it = them.create(**how) if sys.version_info < (3, 13) else them.create('isolated' if not how else 'legacy')\n    except TypeError: continue\n"
        "    them.run_string(it, body) if sys.version_info < (3, 13) else them.exec(it, body)\n    them.destroy(it)\nprint('end')\n"
    )
    for version, name in pythons((3, 8)).items():
        # (3.12 itself breaks off when it imports `fractions` in two of them)
        if subprocess.run([name, "-c", script.replace(repr(body), "'import fractions'")], capture_output=True).returncode:
            continue
        done = subprocess.run([name, "-c", script], capture_output=True, text=True, timeout=HANGS)
        same((version, done.returncode, set(done.stdout.split()) <= {"2", "no", "end"}, done.stdout.split()[-1:]), (version, 0, True, ["end"]))


def test_a_python_without_standard_input():
    """Killed in the middle of a command, it left the program running: the pipe that ties both had the number 0."""
    script = (
        "import os, threading, time\nfrom yorqanish import Calculator, _program\ncalc = Calculator()\n"
        "def busy(): return [it().process.pid for it in list(_program.STARTED.values()) if it().user]\n"
        f"thread = threading.Thread(target=lambda: calc.mult({LONG}, {LONG}), daemon=True)\nthread.start()\n"
        "while not busy(): time.sleep(0.01)\ntime.sleep(0.3)\nos.write(1, (str(busy()[0]) + '\\n').encode())\ntime.sleep(1000)\n"
    )
    for closed in ("<&-", "2>&-", "<&- 2>&-"):
        parent = subprocess.Popen(["sh", "-c", f'exec "$0" -c "$1" {closed}', sys.executable, script], stdout=subprocess.PIPE, text=True)
        pid = int(parent.stdout.readline())
        try:
            assert state(pid) in "RS" and state(pid), state(pid)
            parent.kill()
            with within(2):
                comes(lambda: state(pid) in ("", "Z"))
        finally:
            parent.kill()
            parent.wait()
            if state(pid) not in ("", "Z"):
                os.kill(pid, signal.SIGKILL)


def test_no_warning_of_resources():
    """Each Calculator left warnings of open files and running processes."""
    script = (
        "import gc\nfrom yorqanish import Calculator\nfor _ in range(3):\n    calc = Calculator()\n    calc.coef([2], [1], [1])\n    next(calc.tab([3, 2, 1], [2, 1]))\n"
        "    next(calc.batch(['mult 1 - 1'] * 9, workers=2))\n    del calc\n    gc.collect()\n"
        "with Calculator() as calc: calc.mult([1], [1])\ncalc = Calculator()\n"
    )
    for version, name in pythons((3, 8)).items():
        done = subprocess.run([name, "-X", "dev", "-W", "always::ResourceWarning", "-c", script], capture_output=True, text=True, timeout=HANGS)
        same((version, done.stdout, done.stderr, done.returncode), (version, "", "", 0))


def test_no_descriptor_is_left():
    def count():
        return len(os.listdir("/proc/self/fd"))

    CALC.coef([2], [1], [1])
    before = count()
    for _ in range(20):
        with Calculator(program=PROGRAM) as calc:
            calc.coef([2], [1], [1])
        del calc
    comes(lambda: count() <= before)


def test_the_name_of_a_process():
    """It is `calc` whatever the path, which may tell much."""
    with open(f"/proc/{CALC._way._idle[0].process.pid}/cmdline", "rb") as file:
        same(file.read(), b"calc\0batch\0")


def test_what_is_shown_of_a_calculator():
    same(repr(CALC), f"Calculator(program={PROGRAM!r})")
    same(repr(Calculator(program=PROGRAM, timeout=5)), f"Calculator(program={PROGRAM!r}, timeout=5.0)")
    same(eval(repr(CALC)).coef([2], [1], [1]), 1)


def test_help_is_quoted_once():
    import pydoc

    told = pydoc.render_doc(Calculator, renderer=pydoc.plaintext)
    # (from Python 3.13 on a long list of parameters is shown on several lines)
    assert "'\"" not in told and re.search(r"mult\([\s|]*self,[\s|]*\*shapes", told), [it for it in told.splitlines() if "'\"" in it][:3]


# ---- pickled methods

def asked(call):
    method, shapes = call
    return method(*shapes)


def opened(method):
    """How many programs the process of an executor has started."""
    method([2], [1], [1])
    return os.getpid(), len(_program.STARTED)


def test_a_pickled_method_keeps_its_program():
    """Each task started a program."""
    again = [pickle.loads(pickle.dumps(CALC.coef)) for _ in range(50)]
    before = len(_program.STARTED)
    same([it([3, 2, 1], [2, 1], [2, 1]) for it in again], [2] * 50)
    same(len(_program.STARTED) - before, 0)
    with ProcessPoolExecutor(2) as executor:
        same(list(executor.map(CALC.coef, [[3, 2, 1]] * 50, [[2, 1]] * 50, [[2, 1]] * 50)), [2] * 50)
        assert max(count for _, count in executor.map(opened, [CALC.coef] * 20)) <= 1
        same([str(it) for it in executor.map(CALC.mult, [[n] for n in range(1, 4)], [[1]] * 3)], ["s[2]+s[1,1]", "s[3]+s[2,1]", "s[4]+s[3,1]"])
        same([it.refusal and it.refusal.kind for it in executor.map(CALC.block, ["mult 1 - 1", "mult 1 2 - 1"])], [None, "Shape"])
    data = pickle.dumps(CALC.coef)
    began, spent = time.perf_counter(), time.process_time()
    for _ in range(1000):
        pickle.loads(data)([3, 2, 1], [2, 1], [2, 1])
    took, spent = time.perf_counter() - began, time.process_time() - spent
    print(f"a pickled method: {took:.2f} ms a task, {spent:.2f} ms of processor time")
    assert not CLOCKS or took < 0.5, took


def test_a_kept_program_that_was_closed():
    with pickle.loads(pickle.dumps(CALC)) as calc:
        same(calc.coef([2], [1], [1]), 1)
    same(pickle.loads(pickle.dumps(CALC)).coef([2], [1], [1]), 1)


def test_joblib():
    joblib = need("joblib")
    same(joblib.Parallel(n_jobs=2)(joblib.delayed(CALC.coef)([3, 2, 1], [2, 1], [2, 1]) for _ in range(20)), [2] * 20)


def test_dask():
    """Methods over the workers of a cluster of Dask on this machine."""
    distributed, dask = need("distributed"), need("dask")
    # (on a busy machine the workers start slowly)
    dask.config.set({"distributed.comm.timeouts.connect": "300s", "distributed.comm.timeouts.tcp": "300s"})
    with distributed.LocalCluster(n_workers=2, threads_per_worker=1, dashboard_address=None) as cluster, distributed.Client(cluster) as client:
        same([str(it) for it in client.gather(client.map(CALC.mult, [[2, 1]] * 10, [[n] for n in range(1, 11)], pure=False))], [str(CALC.mult([2, 1], [n])) for n in range(1, 11)])


def test_mpi():
    """Over mpi4py's executor, whose processes this one starts."""
    futures = need("mpi4py.futures").futures
    os.environ.update(OMPI_ALLOW_RUN_AS_ROOT="1", OMPI_ALLOW_RUN_AS_ROOT_CONFIRM="1", OMPI_MCA_rmaps_base_oversubscribe="1")
    with futures.MPIPoolExecutor(2, env={"YORQANISH_CALC": PROGRAM}, path=sys.path) as executor:
        same([str(it) for it in executor.map(CALC.mult, [[2, 1]] * 10, [[n] for n in range(1, 11)])], [str(CALC.mult([2, 1], [n])) for n in range(1, 11)])


# ---- what is cancelled

def programs():
    return [it for it in list(_program.STARTED) if it.poll() is None]


def test_a_future_that_is_cancelled():
    """Its command stops at once."""
    calc = Calculator(program=PROGRAM)
    future = calc.submit(calc.mult, LONG, LONG)
    comes(lambda: any(state(it.pid) == "R" for it in programs()))
    with within(1):
        same((future.cancel(), future.cancelled(), future.done()), (True, True, True))
        comes(lambda: not any(state(it.pid) == "R" for it in programs()))
    with raises(CancelledError):
        future.result()
    same((calc.coef([2], [1], [1]), calc.submit(calc.coef, [2], [1], [1]).result(), calc.submit(calc.coef, [2], [1], right=[1]).result()), (1, 1, 1))
    with raises(Refusal):
        calc.submit(calc.mult, [1, 2], [1]).result()
    with raises(TypeError):
        calc.submit(CALC.mult, [1], [1])
    many = [calc.submit(calc.coef, [n + 1], [n], [1]) for n in range(200)]
    wait(many)
    same([it.result() for it in many], [1] * 200)
    same((many[0].cancel(), many[0].result()), (False, 1))


def test_a_process_that_is_killed_while_it_starts():
    """It was taken for another program, and the batch ended."""
    calc, start = Calculator(program=PROGRAM), _program.start
    calc._way._idle.clear()

    def killed(*how):
        process = start(*how)
        os.kill(process.pid, signal.SIGKILL)
        return process

    try:
        _program.start = killed
        lost = list(calc.batch(["mult 1 - 1", "coef 2 - 1 - 1"]))
    finally:
        _program.start = start
    same([(it.text, type(it.refusal)) for it in lost], [("", Ended)] * 2)
    same([it.text for it in calc.batch(["mult 1 - 1", "coef 2 - 1 - 1"])], ["1  (2)\n1  (1,1)\n", "1\n"])


def test_a_call_that_is_cancelled_while_its_program_starts():
    """Its process ends."""
    calc = Calculator(program=PROGRAM)
    for n in range(20):
        calc._way._idle.clear()
        future = calc.submit(calc.mult, LONG, LONG)
        time.sleep(n * 0.001)
        future.cancel()
    comes(lambda: len(programs()) <= 2)
    same(calc.coef([2], [1], [1]), 1)


def test_a_task_of_asyncio_that_is_cancelled():
    async def cancelled():
        task = asyncio.ensure_future(products())
        while not any(state(it.pid) == "R" for it in programs()):
            await asyncio.sleep(0.02)
        task.cancel()
        try:
            await task
        except asyncio.CancelledError:
            return "cancelled"

    async def products():
        return await asyncio.gather(*(CALC.submit(CALC.mult, LONG, LONG) for _ in range(3)))

    async def late():
        try:
            await asyncio.wait_for(CALC.submit(CALC.mult, LONG, LONG), 0.3)
        except asyncio.TimeoutError:
            return "late"

    async def answered():
        return await asyncio.gather(*(CALC.submit(CALC.coef, [n + 1], [n], [1]) for n in range(100)))

    for ask, wanted in ((cancelled, "cancelled"), (late, "late")):
        same(asyncio.run(ask()), wanted)
        with within(1):
            comes(lambda: not any(state(it.pid) == "R" for it in programs()))
    same(asyncio.run(answered()), [1] * 100)


def test_what_is_cancelled_over_the_library():
    """It cannot be stopped, but nobody waits for it."""
    if not LIBRARY:
        raise Skipped("there is no library")
    calc = Calculator(library=LIBRARY)
    future = calc.submit(calc.mult, [8, 7, 6, 5, 4, 3, 2, 1], [7, 6, 5, 4, 3, 2, 1])
    with within(1):
        same((future.cancel(), future.cancelled()), (True, True))
    same((calc.coef([2], [1], [1]), calc.submit(calc.coef, [2], [1], [1]).result()), (1, 1))


# ---- lines in flight

def test_memory_behind_a_heavy_line():
    """Of what comes after a line that takes long only so much is read and kept."""
    read = []

    def lines():
        yield LONG_LINE
        for n in range(10**7):
            read.append(1)
            yield "mult 8 7 6 5 4 3 2 1 - 6 5 4 3 2 1" if n > 2000 and n % 100 == 50 else "mult 1 - 1"

    before = resource.getrusage(resource.RUSAGE_SELF).ru_maxrss
    blocks = Calculator(program=PROGRAM).batch(lines(), workers=4)
    threading.Timer(5, lambda: os.kill(os.getpid(), signal.SIGINT)).start()
    with raises(KeyboardInterrupt):
        next(blocks)
    blocks.close()
    assert len(read) <= _lines.MOST_AHEAD + 1000, len(read)
    assert resource.getrusage(resource.RUSAGE_SELF).ru_maxrss - before < 400_000, "it took more than 400 MB"


def test_a_bar_of_progress():
    """On a terminal; elsewhere nothing is disturbed."""
    import pty

    script = "from yorqanish import Calculator\nfor _ in Calculator().batch(['mult 1 - 1'] * 500, progress=True, workers=2): pass\nprint('end')"
    for head in ("", "import sys\nsys.modules['tqdm'] = None\n"):
        main_end, other = pty.openpty()
        done = subprocess.run([sys.executable, "-c", head + script], stdout=subprocess.PIPE, stderr=other, text=True)
        os.close(other)
        same(done.stdout, "end\n")
        assert "500" in os.read(main_end, 100000).decode()
        os.close(main_end)
    done = subprocess.run([sys.executable, "-c", "import sys\nsys.modules['tqdm'] = None\n" + script], capture_output=True, text=True)
    same((done.stdout, done.stderr), ("end\n", ""))


if __name__ == "__main__":
    main(globals())
