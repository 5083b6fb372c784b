"""Batches over several processes: the same blocks in the same order as those of one batch."""
import inspect
import os
import random
import subprocess
import sys
import threading
import time

from common import CLOCKS, LIBRARY, PROGRAM, Skipped, main, printed, raises, same, within

from yorqanish import Calculator, Refusal, _commands, _lines

CALC = Calculator(program=PROGRAM)
STAIRS = " ".join(map(str, range(6, 0, -1)))


def lines_of(count):
    """Lines of many kinds, some of them refused, comments and empty ones among them."""
    draw = random.Random(2)

    def parts(most):
        return " ".join(map(str, sorted((draw.randint(0, 4) for _ in range(draw.randint(0, most))), reverse=draw.random() < 0.95)))

    makes = [
        lambda: f"mult {parts(4)} - {parts(4)}", lambda: f"skew {parts(5)} / {parts(3)}", lambda: f"coprod {parts(4)}", lambda: "# note", lambda: "",
        lambda: f"tab {parts(4)} / {parts(3)}", lambda: f"expand p h[{draw.randint(1, 6)}]", lambda: f"schubert {draw.randint(1, 2)} 2 1",
    ]
    return [" ".join(draw.choice(makes)().split()) for _ in range(count)]


LINES = lines_of(3000)
WANTED = printed(LINES)


def same_blocks(blocks):
    got = [f"{it.text}" if it.refusal is None else f"! {it.refusal.kind} {it.refusal.word}:{it.refusal.byte}\n" for it in blocks]
    wrong = [(a, b) for a, b in zip(got, WANTED) if a != b]
    assert len(got) == len(WANTED) and not wrong, (len(got), len(WANTED), wrong[:2])


def test_one_batch():
    same_blocks(CALC.batch(LINES))
    same_blocks(CALC.batch(iter(LINES), workers=1))


def test_workers():
    for workers in (2, 4, 16):
        same_blocks(CALC.batch(LINES, workers=workers))
    same_blocks(CALC.batch((it + "\n" for it in LINES), workers=3))
    same(list(CALC.batch([], workers=3)), [])
    with raises(ValueError, "workers"):
        CALC.batch(LINES, workers=0)


def test_workers_over_the_library():
    if LIBRARY:
        with Calculator(library=LIBRARY) as calc:
            same_blocks(calc.batch(LINES))
            same_blocks(calc.batch(LINES, workers=4))


def test_progress():
    for how in ({}, {"workers": 3}):
        told = []
        for _ in CALC.batch(LINES, progress=told.append, **how):
            pass
        same(told, list(range(1, len(LINES) + 1)))


# Heavy lines among thousands of light ones: together, and each third, fourth and fifth of the lines.
HEAVY, LIGHT = f"mult {STAIRS} - {STAIRS}", "mult 1 - 1"
MIXED = [LIGHT] * 3000 + [HEAVY] * 16 + [LIGHT] * 3000
PATTERNS = [[LIGHT] * 3000 + [HEAVY, *[LIGHT] * between] * 128 + [LIGHT] * 3000 for between in (2, 3, 4)]


class Slept:
    """A way on which a heavy line takes this time, and a light one next to none: without a processor, so that it is so on each machine."""

    can_be_stopped = True

    def __init__(self, heavy):
        self.heavy, self.spent, self.ended = heavy, [], False

    def blocks(self, lines, seconds):
        wanted = 0.0001 + sum(self.heavy if it == HEAVY.encode() else 0.00002 for it in lines)
        time.sleep(wanted if seconds is None else min(wanted, seconds))
        self.spent.append(min(wanted, wanted if seconds is None else seconds))
        if seconds is not None and wanted > seconds:
            raise TimeoutError
        return [it.decode() for it in lines]

    def close(self):
        self.ended = True


def test_heavy_and_light_lines_are_balanced():
    """Four processes need little more than a quarter of the time of one, whether heavy lines are neighbours, or each third, fourth or fifth line."""
    for lines in (MIXED, *PATTERNS):
        four = Slept(0.08 if lines is MIXED else 0.02)
        began = time.monotonic()
        lanes = _lines.Lanes(_lines.Desk(four, (None,) * 4, None), 4, iter(lines))
        same([it.text for it in lanes.outcomes()], lines)
        took, alone = time.monotonic() - began, lines.count(LIGHT) * 0.00002 + lines.count(HEAVY) * four.heavy
        assert four.ended and sum(four.spent) < 1.7 * alone, (sum(four.spent), alone)
        assert took < (0.5 if CLOCKS else 0.8) * alone, (took, alone)


def test_heavy_lines_come_as_they_are_done():
    """One line is not kept back for another one."""
    four = Slept(0.1)
    began, came = time.monotonic(), []
    for _ in _lines.Lanes(_lines.Desk(four, (None,) * 4, None), 4, [HEAVY] * 12).outcomes():
        came.append(time.monotonic() - began)
    assert came[3] < 0.25 and came[-1] < 0.5 or not CLOCKS and came[-1] < 1.1, came


def test_lines_are_in_order_whatever_is_given_up():
    """Also if windows end too late at random, and single lines fail."""
    draw = random.Random(5)

    class Odd(Slept):
        def blocks(self, lines, seconds):
            if seconds is not None and draw.random() < 0.3:
                raise TimeoutError
            if draw.random() < 0.05:
                raise MemoryError
            return [it.decode() for it in lines]

    for count in (2, 3, 7):
        lines = [f"line{n}" if n % 7 else ("" if n % 2 else "# x") for n in range(5000)]
        got = list(_lines.Lanes(_lines.Desk(Odd(0), (None,) * 4, None), count, iter(lines)).outcomes())
        same(len(got), len(lines))
        same([it.line if it else None for it in got], [it if it.startswith("line") else None for it in lines])
        same({it.text == it.line or isinstance(it.refusal, MemoryError) for it in got if it}, {True})


def test_four_workers_are_three_times_as_fast():
    """On four free processors, for 32 heavy lines. What four programs without Python need is printed beside it."""
    if not CLOCKS or os.cpu_count() < 4:
        raise Skipped("needs YORQANISH_CLOCKS=1 and four free processors")
    lines = [f"mult 7 {STAIRS} - {STAIRS}"] * 32

    def seconds(do):
        began = time.perf_counter()
        do()
        return time.perf_counter() - began

    def programs():
        given = "\n".join(lines[:8]) + "\n"
        for it in [threading.Thread(target=lambda: subprocess.run([PROGRAM, "batch"], input=given.encode(), stdout=subprocess.PIPE)) for _ in range(4)]:
            it.start()
            threads.append(it)
        while threads:
            threads.pop().join()

    threads = []
    alone, shared = (min(seconds(lambda: same(sum(it.refusal is None for it in CALC.batch(lines, workers=count)), 32)) for _ in range(3)) for count in (1, 4))
    bound = min(seconds(programs) for _ in range(3))
    print(f"32 heavy lines: one worker {alone:.2f} s, four {shared:.2f} s ({alone / shared:.2f} times as fast), four programs by themselves {bound:.2f} s")
    assert 3 * shared <= alone, (alone, shared, bound)


def test_four_processes_need_less_time_than_one():
    def seconds(workers):
        began = time.perf_counter()
        same(sum(1 for it in CALC.batch(MIXED, workers=workers) if it.refusal is None), len(MIXED))
        return time.perf_counter() - began

    alone, shared = seconds(1), seconds(4)
    if not CLOCKS or os.cpu_count() < 4:
        raise Skipped(f"one process {alone:.2f} s, four {shared:.2f} s")
    assert shared < 0.5 * alone, (alone, shared)


def test_a_batch_is_lazy():
    """The first outcomes of an endless list of lines come, and what was started ends with the list."""
    def endless():
        while True:
            yield "mult 1 - 1"

    for how in ({}, {"workers": 2}):
        with within(5):
            blocks = CALC.batch(endless(), **how)
            for _ in range(5000):
                same(next(blocks).answer[[2]], 1)
            blocks.close()


def test_each_command_has_a_method():
    """A command of the table has a method with its arguments and an example, and its examples have the texts that the table says."""
    for name, row in _commands.TABLE["commands"].items():
        if row["answer"]:
            method = getattr(Calculator, name)
            wanted = {"shapes" if sort == "partition" and argument[-1].isdigit() else argument for argument, sort, _ in _commands.COMMANDS[name]}
            assert wanted <= set(inspect.signature(method).parameters) and ">>> " in method.__doc__, name
            same({line: CALC.text(line) for line in row["examples"]}, row["examples"])


def test_answers():
    """The answer of a block equals the value that the method of its command returns."""
    lines = ["mult 2 1 - 2 1", "skew 2 1 / 1", "coef 3 2 1 - 2 1 - 2 1", "coprod 1", "quantum 2 2 1 - 2 1", "fusion 2 1 1 - 1", "schubert 1 3 2",
             "schubmult 2 1 - 2 1", "dschubmult 1 - 2 1", "stanley -r 2 2 1 4 3", "expand p s[2,1]", "plethysm s h[2] h[2]", "tab 2 1 / 1",
             "rsk 3 1 2", "unrsk 1 2 / 3 - 1 3 / 2", "rect 2 2 / 1 - 1 / 1 2", "growth 2 1", "expand -m p s[2,1]"]
    c = CALC
    wanted = [c.mult([2, 1], [2, 1]), c.skew([2, 1], [1]), 2, c.coprod([1]), c.quantum(2, 2, [1], [2, 1]), c.fusion(2, 1, [1], [1]),
              c.schubert([1, 3, 2]), c.schubmult([2, 1], [2, 1]), c.dschubmult([1], [2, 1]), c.stanley([2, 1, 4, 3], 2), c.expand("p", "s[2,1]"),
              c.plethysm("s", "h[2]", "h[2]"), list(c.tab([2, 1], [1])), c.rsk([3, 1, 2]), (3, 1, 2), ((1, 1), (2,)), c.growth([2, 1]),
              "-1/3*p[3]+1/3*p[1,1,1]"]
    same([it.answer for it in c.batch(lines)], wanted)
    same([it.answer for it in c.batch(lines, workers=2)], wanted)
    with raises(Refusal, "part 2"):
        next(c.batch(["mult 1 2 - 1"])).answer


if __name__ == "__main__":
    main(globals())
