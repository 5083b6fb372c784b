"""Lines: what is printed for them, and the value that it is; many of them, over one process or several; and calls in threads."""
from __future__ import annotations

import os
import sys
import threading
import time
from collections import deque
from concurrent.futures import Future
from contextlib import suppress
from functools import partial
from importlib import import_module
from itertools import islice
from queue import SimpleQueue
from typing import Any, Callable, Deque, Dict, Generator, Generic, Iterable, Iterator, List, NamedTuple, Optional, Tuple, TypeVar, Union

from ._arguments import text_of
from ._commands import TABLE, Refusal, inner_of, words_of
from ._elements import Expansion, Home, home_of, parent_of
from ._kinds import listed
from ._tableaux import Grid, pair_of, tableau_of
from ._ways import NO_COMMAND, Ended, NoCalculator, Way, sent, spawn

# A window of lines is to take about this long, in seconds. One that takes longer than LATE is given up, and its lines are done one by one: there are
# heavy ones among them, which other processes can do. (On a busy machine all take longer, so that the next one has more time.)
WINDOW, LATE, MOST_IN_WINDOW = 0.02, 0.12, 1024
# So many lines are read ahead of one that is not done, and as long as the answers that are kept are no longer than this.
MOST_AHEAD, MOST_KEPT = 4096, 1 << 26
# For so long, in seconds, lines are read before those that are there are sent.
READING = 0.05
# The answers that are no lists of terms, by what they are, and by their commands.
KINDS: Dict[str, Callable[[str, List[str]], Any]] = {
    "number": lambda text, words: int(text),
    "tableaux": lambda text, words: [tableau_of(line, inner_of(words)) for line in text.splitlines() if line != "0"],
    "pair": lambda text, words: pair_of(text),
    "word": lambda text, words: tuple(map(int, text.split())),
    "tableau": lambda text, words: tableau_of(text.rstrip("\n")),
    "grid": lambda text, words: Grid(tuple(map(listed, line.split(" "))) for line in text.splitlines()),
}
OTHERS = {name: KINDS[row["answer"]] for name, row in TABLE["commands"].items() if row["answer"] in KINDS}


def answer_of(words: List[Any], text: str, home: Home) -> Any:
    """The answer to the words of a line: what the command's method answers, a list for `tab`, and the printed text for `-m`."""
    if words[0] in OTHERS:
        return OTHERS[words[0]](text, words)
    return text.rstrip("\n") if "-m" in words[1:4] else Expansion._read(text, parent_of(home, words))


class Block(NamedTuple):
    """The outcome of a line of a batch. `text` is what was printed for it. If there is no answer, `refusal` says why: a `Refusal`, a
    `TimeoutError`, a `MemoryError`, or a `NoCalculator` if the system ended the program."""

    line: str
    text: str
    refusal: Optional[Exception]
    arguments: Tuple[Any, ...] = (None,) * 4

    @property
    def answer(self) -> Any:
        """The value that the method of the line's command returns. If there is none, `refusal` is raised."""
        if self.refusal:
            raise self.refusal
        return answer_of(words_of(self.line), self.text, home_of(self.arguments))

    def __repr__(self) -> str:
        return f"Block(line={self.line!r}, text={self.text!r}, refusal={self.refusal!r})"


class Desk(NamedTuple):
    """How lines are asked: over which way, what opens a Calculator for the answers, and how long they may take."""

    way: Way
    arguments: Tuple[Any, ...]
    seconds: Optional[float]

    def late(self, line: str) -> TimeoutError:
        return TimeoutError(f"no answer within {self.seconds} s, to {line if len(line) <= 160 else line[:160] + ' ..'}")

    def texts(self, lines: List[str]) -> List[str]:
        """What is printed for lines, all of them within the time; what is refused is raised. (What a batch passes over is no command.)"""
        try:
            texts = self.way.blocks([sent(it) or NO_COMMAND for it in lines], self.seconds) if lines else []
        except TimeoutError:
            raise self.late(lines[0]) from None
        for line, text in zip(lines, texts):
            if text[:1] == "!":
                raise Refusal.of(text, line)
        return texts

    def listed(self, line: str) -> Iterator[str]:
        """The lines of a list, each as soon as it is there and within the time."""
        try:
            for text in self.way.listed(line.encode(), self.seconds):
                if text[:1] == "!":
                    raise Refusal.of(f"{text}\n", line)
                if text != "0":
                    yield text
        except TimeoutError:
            raise self.late(line) from None

    def one(self, line: str) -> Block:
        """The outcome of a line."""
        try:
            return Block(line, self.texts([line])[0], None, self.arguments)
        except (Refusal, TimeoutError, MemoryError, Ended) as error:
            return Block(line, "", error, self.arguments)

    def all(self, lines: List[str], most: Optional[float]) -> List[Block]:
        """The outcomes of lines. If they take longer than `most`, it is a TimeoutError."""
        if self.seconds is None and len(lines) > 1:
            # (or each line by itself, to see whose it is)
            with suppress(MemoryError, Ended):
                texts = self.way.blocks([sent(it) or NO_COMMAND for it in lines], most)
                return [Block(it, *(("", Refusal.of(text, it)) if text[:1] == "!" else (text, None)), self.arguments) for it, text in zip(lines, texts)]
        return list(map(self.one, lines))


# A line by its number, and its outcome: none, if a batch passes over it.
Line = Tuple[int, str]
Outcome = Optional[Block]


class Lanes:
    """Lines in flight. Each of some threads, with a process to itself, takes the first lines that wait, as many at a time as it did in the time of a
    window. They read nothing that is the user's: that does who asks for the outcomes, who is also the only one to work if there is one process."""

    # What is raised where the lines come from, which is kept until those before it are answered.
    _error: Optional[Exception] = None
    _is_at_end = _is_ended = False

    def __init__(self, desk: Desk, count: int, lines: Iterable[str]) -> None:
        self._lines, self._desk, self._sizes, self._is_only, self._late = iter(lines), desk, [1] * count, count == 1, LATE
        # (the lines of windows that were given up, and all others; what a thread that finds none waits for)
        self._alone: Deque[Line] = deque()
        self._waiting: Deque[Line] = deque()
        self._calls: SimpleQueue[None] = SimpleQueue()
        self._done: SimpleQueue[Any] = SimpleQueue()

    def _read(self, count: int) -> Iterator[str]:
        """The next lines: at most so many, and fewer if they come slowly; none at the end."""
        began, left = time.monotonic(), count
        try:
            for line in islice(self._lines, count):
                if not isinstance(line, str):
                    raise TypeError(f"a line is a string, and {line!r} is not")
                yield text_of(line)
                left -= 1
                if time.monotonic() - began > READING:
                    return
        except Exception as error:
            self._error = error
        self._is_at_end = left > 0

    def _call(self) -> None:
        """Wakes the threads that wait."""
        for _ in range(len(self._sizes) - self._calls.qsize()):
            self._calls.put(None)

    def _taken(self, count: int) -> List[Line]:
        """Lines to be done together; none if there are none."""
        taken: List[Line] = []
        for lines, most in ((self._alone, 1), (self._waiting, count)):
            with suppress(IndexError):
                while len(taken) < most:
                    taken.append(lines.popleft())
            if taken:
                break
        return taken

    def _work(self, lane: int) -> None:
        try:
            while not self._is_ended:
                window = self._taken(self._sizes[lane])
                if window:
                    self._sizes[lane] = self._tried(window)
                else:
                    self._calls.get()
        except BaseException as error:
            self._done.put(error)

    def _tried(self, window: List[Line]) -> int:
        """Does lines, or gives them up; how many are to be done next."""
        began = time.monotonic()
        try:
            blocks = self._desk.all([line for _, line in window], None if self._is_only or len(window) == 1 else self._late)
        except TimeoutError:
            self._late *= 2
            self._alone.extend(window)
            self._call()
            return 1
        self._done.put([(number, block) for (number, _), block in zip(window, blocks)])
        self._late = max(LATE, 0.9 * self._late)
        count = 2 * len(window) if self._desk.seconds is None and (self._is_only or self._desk.way.can_be_stopped) else 1
        return max(1, min(count, int(len(window) * WINDOW / max(time.monotonic() - began, 1e-9)), MOST_IN_WINDOW))

    def outcomes(self) -> Iterator[Outcome]:
        """The outcomes in the order of the lines."""
        kept: Dict[int, Outcome] = {}
        read = given = at = size = 0
        try:
            for lane in range(0 if self._is_only else len(self._sizes)):
                spawn(self._work, lane)
            while True:
                while at in kept:
                    block = kept.pop(at)
                    size, at = size - (len(block.text) if block else 0), at + 1
                    yield block
                wanted = min(MOST_AHEAD - (read - at), (1 if self._is_only else 2) * sum(self._sizes) - given) if size < MOST_KEPT else 0
                is_reading = wanted > 0 and not self._is_at_end and not (self._is_only and given)
                if is_reading:
                    for line in self._read(wanted):
                        if sent(line) is None:
                            kept[read] = None
                        else:
                            self._waiting.append((read, line))
                            given += 1
                        read += 1
                    self._call()
                elif not given:
                    break
                elif self._is_only:
                    self._sizes[0] = self._tried(self._taken(given))
                while not is_reading or not self._done.empty():
                    done, is_reading = self._done.get(), True
                    if isinstance(done, BaseException):
                        raise done
                    kept.update(done)
                    given, size = given - len(done), size + sum(len(it.text) for _, it in done)
            if self._error:
                raise self._error
        finally:
            self._is_ended = True
            if not self._is_only:
                self._desk.way.close()
            self._call()


def own(answers: Iterable[Any], check: Callable[[], None]) -> Iterator[Any]:
    """A process goes on with its own iterators alone: what they read from is not copied by a fork. `check` raises if there is no going on."""
    owner = os.getpid()
    check()
    for it in answers:
        yield it
        check()
        if owner != os.getpid():
            raise NoCalculator("this iterator belongs to the process that was forked, and not to its copy")


def blocks(outcomes: Iterable[Outcome], progress: Union[bool, Callable[[int], None]], total: Optional[int]) -> Iterator[Block]:
    """The blocks among the outcomes. `progress` is told how many lines are done; True is a bar: tqdm's, or else a line on a terminal."""
    tell, is_line, said = None if isinstance(progress, bool) else progress, progress is True, 0.0
    if is_line:
        with suppress(ImportError):
            # (by a call: of an import, mypy says one thing if tqdm is installed, and another if not)
            outcomes, is_line = import_module("tqdm").tqdm(outcomes, total=total, unit=" lines"), False
    for done, outcome in enumerate(outcomes, 1):
        if is_line and sys.stderr.isatty() and (done == total or time.monotonic() - said > 0.1):
            said = time.monotonic()
            print(f"\r{done} lines{'' if total is None else f' of {total}'}", end="\n" if done == total else "", file=sys.stderr, flush=True)
        if outcome:
            yield outcome
        if tell:
            tell(done)


Result = TypeVar("Result")
# So many of them run at a time in a process. (A fork may copy what is taken, which is another process's then.)
FREE: Dict[int, threading.Semaphore] = {}


class Task(Future, Generic[Result]):  # type: ignore[type-arg]
    """A call that runs in a thread of its own: a Future of `concurrent.futures`, which `asyncio` can await. Who cancels it stops its command."""

    def __init__(self, call: Callable[[], Result], stop: Callable[[], None]) -> None:
        super().__init__()
        self._stop = stop
        spawn(self._work, call)

    def _work(self, call: Callable[[], Result]) -> None:
        with FREE.setdefault(os.getpid(), threading.Semaphore(os.cpu_count() or 1)):
            try:
                tell = partial(self.set_result, None if self.cancelled() else call())
            except BaseException as error:
                tell = partial(self.set_exception, error)
        # (it is not said before that it runs: such a Future is not cancelled)
        if self.set_running_or_notify_cancel():
            tell()

    def cancel(self) -> bool:
        """Stops the command, unless it is done."""
        is_cancelled = super().cancel()
        if is_cancelled:
            self._stop()
        return is_cancelled

    def __await__(self) -> Generator[Any, None, Result]:
        import asyncio

        return asyncio.wrap_future(self).__await__()
