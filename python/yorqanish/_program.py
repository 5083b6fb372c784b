"""The program: `calc batch` in processes of its own, one for each call that runs at a time."""
from __future__ import annotations

import _thread
import atexit
import fcntl
import hashlib
import os
import select
import signal
import subprocess
import sys
import threading
import time
import weakref
from contextlib import ExitStack, contextmanager, suppress
from functools import partial
from io import FileIO
from queue import Empty, SimpleQueue
from typing import Any, Callable, ContextManager, Dict, Iterable, Iterator, List, Optional, Sequence, Tuple, cast

from ._ways import BREAK, END, ENDED, LAST, NO_MEMORY, PATIENCE, QUESTIONS, Ended, NoCalculator, Way, not_calc, spawn

# The processes that this one has started, each with whoever reads from it. (Their standard error is the writing end of the pipe that ties them to this one.)
STARTED: Dict[subprocess.Popen[bytes], weakref.ref[Batch]] = {}
# What a thread does that no signal disturbs. To ask for it is one step, wherever the collector does that: a reader that is gone leaves its reference.
ASKED: SimpleQueue[Any] = SimpleQueue()
# The threads that do it: at most one, but for moments.
SERVING: List[int] = []
# Held while a process is started, and at a fork, whose copies of that process's pipes would else not be known, and keep its start waiting.
STARTS = threading.RLock()
IS_ENDING = False
# A group of its own; before Python 3.11 that takes a session of its own.
GROUP: Dict[str, Any] = {"process_group": 0} if sys.version_info >= (3, 11) else {"start_new_session": True}
# The longest wait at a time, since the system counts milliseconds in a machine word, and how often it is asked whether a process has gone: in seconds.
LONGEST_WAIT, GOING = 86400.0, 0.005


@contextmanager
def over_two() -> Iterator[None]:
    """What is opened meanwhile has no number of a standard file, also if this process has none there."""
    with ExitStack() as taken:
        for _ in range(3):
            taken.callback(os.close, os.open(os.devnull, os.O_RDONLY))
        yield


class File:
    """A file that is kept open: what is started of it later was tried first, whatever has its name. That it was written over is seen by its content."""

    def __init__(self, path: str, place: str) -> None:
        with over_two():
            self.path, self.number = path, os.open(place, os.O_RDONLY)
        # (at the end of Python it stays open, since a `__del__` may still ask)
        weakref.finalize(self, os.close, self.number).atexit = False
        self._times: Tuple[int, ...] = ()
        self.digest = ""
        self.place()

    def place(self) -> str:
        """Its name for a process that this one starts. It has the content that was tried, which is looked at again if it was written."""
        it = os.fstat(self.number)
        times = it.st_mtime_ns, it.st_ctime_ns, it.st_size
        if times != self._times:
            digest = hashlib.sha256(os.pread(self.number, it.st_size, 0)).hexdigest()
            if self.digest not in ("", digest):
                raise NoCalculator(f"{self.path} was changed while it was in use")
            self._times, self.digest = times, digest
        return f"/proc/{os.getpid()}/fd/{self.number}"


def tie(process: subprocess.Popen[bytes], watched: int) -> None:
    """Makes the system kill the group of the process as soon as the writing end of this pipe is closed, which only this process has: when this process
    ends, even by SIGKILL. (The signal of Linux at a parent's death comes at the death of the thread that started the process.)"""
    # (without it the process ends when it next reads or writes)
    with suppress(OSError):
        if sys.platform == "linux":
            fcntl.fcntl(watched, fcntl.F_SETOWN, -process.pid)
            fcntl.fcntl(watched, fcntl.F_SETSIG, signal.SIGKILL)
            fcntl.fcntl(watched, fcntl.F_SETFL, fcntl.fcntl(watched, fcntl.F_GETFL) | os.O_ASYNC)


def start(path: str, file: Optional[File], reader: weakref.ref[Batch]) -> subprocess.Popen[bytes]:
    """Starts the program, out of reach of the terminal's Ctrl-C: who is interrupted ends it."""
    try:
        with STARTS, over_two():
            watched, kept = map(FileIO, os.pipe(), "rw")
            with watched, ExitStack() as on_error:
                on_error.callback(kept.close)
                # (the reading end stays open in the program, and in it alone)
                how: Dict[str, Any] = {"executable": file.place() if file else path, "stderr": subprocess.DEVNULL, "pass_fds": [watched.fileno()], **GROUP}
                process = subprocess.Popen(["calc", "batch"], bufsize=0, stdin=subprocess.PIPE, stdout=subprocess.PIPE, **how)
                tie(process, watched.fileno())
                on_error.pop_all()
            process.stderr, STARTED[process] = kept, reader
            return process
    except (OSError, RuntimeError) as error:
        # (a subinterpreter may be forbidden to start processes)
        raise NoCalculator(f"{path} cannot be started: {error.strerror if isinstance(error, OSError) else error}") from None


def kill(process: subprocess.Popen[bytes]) -> None:
    """Ends a process, with those that it has started if it is a script."""
    try:
        if process.poll() is None:
            os.killpg(process.pid, signal.SIGKILL)
    except OSError:
        process.kill()


def pipes_of(process: subprocess.Popen[bytes]) -> List[FileIO]:
    """This process's ends of its pipes."""
    return [it for it in (process.stdin, process.stdout, process.stderr) if isinstance(it, FileIO) and not it.closed]


def end(process: subprocess.Popen[bytes]) -> bool:
    """Ends a process; whether it has gone. Then this process's ends of the pipes are closed."""
    kill(process)
    if process.poll() is None:
        return False
    STARTED.pop(process, None)
    for pipe in pipes_of(process):
        # (somebody may have closed all numbers)
        with suppress(OSError):
            pipe.close()
    return True


def end_all(is_ending: bool = False) -> None:
    """Ends all processes. At the end of Python a `__del__` may still ask after it, but no thread answers."""
    global IS_ENDING
    IS_ENDING = is_ending
    for process in list(STARTED):
        kill(process)
        process.wait()
        end(process)


def serve() -> None:
    """Has the thread that does what is asked for. (It is asked before, so that one that is about to end is not waited for in vain.)"""
    if not SERVING and not IS_ENDING:
        try:
            spawn(work)
        except RuntimeError:
            # (there is no thread any more at the end of Python 3.12, or no further one)
            ASKED.put(None)
            work()


def work() -> None:
    """Does what is asked for, one after the other, until that is nothing. Meanwhile the processes are ended whose readers are gone or done."""
    SERVING.append(_thread.get_ident())
    is_wanted = True
    try:
        while not all(gone := [end(it) for it, reader in list(STARTED.items()) if getattr(reader(), "is_done", True)]) or is_wanted:
            with suppress(Empty):
                asked = ASKED.get(timeout=None if all(gone) else GOING)
                is_wanted = is_wanted and asked is not None
                if asked:
                    asked()
    finally:
        SERVING.remove(_thread.get_ident())
        if not ASKED.empty():
            serve()


def done(task: Callable[..., Any], *arguments: Any) -> Any:
    """What a task answers in the thread that no signal disturbs; also if the collector calls a `__del__` in that."""
    if IS_ENDING or _thread.get_ident() in SERVING:
        return task(*arguments)
    answer: SimpleQueue[Any] = SimpleQueue()

    def do() -> None:
        try:
            answer.put((task(*arguments), None))
        except BaseException as error:
            answer.put((None, error))

    ASKED.put(do)
    serve()
    found, error = answer.get()
    if error:
        raise error
    return found


def pause() -> None:
    """Before a fork the thread ends if there are no others, since a copy of a process with threads may hang, of which Python warns; the next call
    has it again. It is waited for, but not for ever: the collector may run anything in it. No process is being started meanwhile."""
    if threading.active_count() == 1 and not IS_ENDING:
        for _ in list(SERVING):
            ASKED.put(None)
        until = time.monotonic() + 1
        while SERVING and time.monotonic() < until:
            time.sleep(0.0002)
    STARTS.acquire()


def forget_all() -> None:
    """Lets go of what a fork has copied. The processes are their parent's: they are neither ended nor waited for. A call that was interrupted by
    the fork goes on to read: in place of its pipes there is nothing, and no other file gets their numbers before it has ended."""
    global ASKED, STARTS
    ASKED, STARTS = SimpleQueue(), threading.RLock()
    SERVING.clear()
    pipes = [it for process in STARTED for it in pipes_of(process)]
    for process in STARTED:
        process.returncode = 0
    STARTED.clear()
    for pipe in pipes:
        # (one after the other, since there may be no other free number)
        os.close(pipe.fileno())
        nothing = os.open(os.devnull, os.O_RDWR)
        if nothing != pipe.fileno():
            os.dup2(nothing, pipe.fileno(), inheritable=False)
            os.close(nothing)


atexit.register(end_all, True)
os.register_at_fork(before=pause, after_in_parent=lambda: STARTS.release(), after_in_child=forget_all)


def input_of(lines: Iterable[bytes]) -> memoryview:
    """Lines, and one of a known answer after them: where that answer is, theirs have ended."""
    return memoryview(b"\n".join((*lines, LAST, b"")))


class Batch(ContextManager["Batch"]):
    """A running `calc batch`, which is read by who has started it. It ends with the last reference to this, and at the end of Python."""

    # Whether it is to end, and the way that has it run a command.
    is_done = False
    user: Optional[Program] = None

    def __init__(self, path: str, file: Optional[File]) -> None:
        self.path, self._owner = path, os.getpid()
        self.process: subprocess.Popen[bytes] = done(start, path, file, weakref.ref(self, ASKED.put))
        assert self.process.stdin and self.process.stdout
        self.into, self.out = self.process.stdin.fileno(), self.process.stdout.fileno()
        os.set_blocking(self.into, False)
        # (what can be read, without and with what can be written)
        self._coming, self._both = select.poll(), select.poll()
        for it in (self._coming, self._both):
            it.register(self.out, select.POLLIN)
        self._both.register(self.into, select.POLLOUT)
        # (by the first exchange another program of this name is found out, or another version)
        try:
            self.exchange(list(QUESTIONS), PATIENCE, BREAK + BREAK.join((*QUESTIONS.values(), END)))
        except BaseException as error:
            self.end()
            # (if somebody has killed it, that says nothing of the program)
            is_other = isinstance(error, TimeoutError) or isinstance(error, Ended) and (self.process.returncode or 0) >= 0
            raise not_calc(self.path) if is_other else error from None

    def __exit__(self, kind: Any, *error: Any) -> None:
        """After a command it waits for another one, or ends, if the command was given up."""
        user, self.user = self.user, None
        if user and kind is None and not user.is_over():
            user._idle.append(self)
        else:
            self.end()

    def end(self) -> None:
        """Asks for the end of the process, for which nobody waits."""
        self.is_done = True
        ASKED.put(int)
        serve()

    def is_idle(self) -> bool:
        """Whether it waits for a line: nothing comes from it, not even its end. (Once it has ended, the numbers of its pipes may be those of others.)"""
        return self.process.returncode is None and not self._coming.poll(0)

    def _read(self, data: memoryview, until: Optional[float]) -> Tuple[bytes, memoryview]:
        """What has come, and what is left to be written. It waits until something comes, and until this time at most."""
        data = self._written(data) if data else data
        while data or until is not None:
            left = LONGEST_WAIT if until is None else min(max(0.0, until - time.monotonic()), LONGEST_WAIT)
            ready = dict((self._both if data else self._coming).poll(left * 1000))
            if self.out in ready:
                break
            if ready:
                data = self._written(data)
            elif until is not None and time.monotonic() >= until:
                raise TimeoutError
        came = os.read(self.out, 1 << 18)
        if self._owner != os.getpid():
            raise NoCalculator("this answer is read by the process that was forked, and not by its copy")
        if not came:
            if self.user:
                self.user.check()
            try:
                status = done(self.process.wait, 1)
            except subprocess.TimeoutExpired:
                raise Ended(f"{self.path} has closed its output") from None
            raise MemoryError("calc was refused memory") if status == NO_MEMORY else Ended(f"{self.path} ended with status {status}")
        return came, data

    def _written(self, data: memoryview) -> memoryview:
        """Writes what the pipe takes; what is left. Of a process that has gone nothing is left: its output says so."""
        try:
            return data[os.write(self.into, data) :]
        except BlockingIOError:
            return data
        except BrokenPipeError:
            return data[:0]

    def exchange(self, lines: Sequence[bytes], seconds: Optional[float], known: bytes = b"") -> List[str]:
        """The blocks of lines. What is known comes first of all, without a break before it; if something else comes, it is not waited for."""
        until = None if seconds is None else time.monotonic() + seconds
        came, data = self._read(input_of(lines), until)
        got = bytearray(BREAK + came if known else came)
        while not (got.endswith(ENDED) and got.count(BREAK) > len(lines)):
            if known and not known.startswith(got):
                raise not_calc(self.path)
            came, data = self._read(data, until)
            got += came
        first, *texts, _ = got.decode("ascii", "replace").split("--\n")
        if first or len(texts) != len(lines) or known and got != known:
            raise not_calc(self.path)
        return texts

    def listing(self, line: bytes, seconds: Optional[float]) -> Iterator[str]:
        """The lines of the answer to a line, each as soon as it is there and within so many seconds."""
        # (one break is before the answer, and one after it)
        breaks, rest, last, data = 0, b"", b"", input_of([line])
        while breaks < 2 or len(last + rest) < len(END):
            came, data = self._read(data, None if seconds is None else time.monotonic() + seconds)
            *lines, rest = (rest + came).split(b"\n")
            for it in lines:
                if it + b"\n" == BREAK:
                    breaks += 1
                elif breaks < 2:
                    yield it.decode("ascii")
                else:
                    last += it + b"\n"
        if last + rest != END or breaks != 2:
            raise not_calc(self.path)


class Program(Way):
    """The program. Each call has a process to itself, of the file that was tried first; one that is interrupted, or out of time, is ended."""

    can_be_stopped = True

    def __init__(self, path: str) -> None:
        self.path = os.path.abspath(path)
        self._idle, self._file = [Batch(self.path, None)], cast("Optional[File]", None)
        # (a script may have given its place to the program; if the process is a shell, or something else that runs it, there is no file)
        with suppress(OSError), open(f"/proc/{self._idle[0].process.pid}/cmdline", "rb") as words:
            if words.read().split(b"\0")[1:] == [b"batch", b""]:
                self._file = File(self.path, f"/proc/{self._idle[0].process.pid}/exe")
        self.digest = self._file.digest if self._file else None

    def _taken(self) -> Batch:
        """A process that is not in use."""
        while True:
            self.check()
            try:
                batch: Batch = self._idle.pop()
            except IndexError:
                batch = Batch(self.path, self._file)
            batch.user = self
            # (who closes the way ends the processes that it uses; one that somebody has killed while nobody needed it is missed by nobody)
            if batch.is_idle() and not self.is_over():
                return batch
            batch.end()

    def blocks(self, lines: Sequence[bytes], seconds: Optional[float]) -> List[str]:
        with self._taken() as batch:
            return batch.exchange(lines, seconds)

    def listed(self, line: bytes, seconds: Optional[float]) -> Iterator[str]:
        with self._taken() as batch:
            yield from batch.listing(line, seconds)

    def close(self) -> None:
        self._is_closed = True
        while self._idle and self._idle is not getattr(self._whole, "_idle", None):
            self._idle.pop().end()
        # (their pipes are closed by the threads that read from them)
        for it in filter(None, [reader() for reader in list(STARTED.values())]):
            user = it.user
            if user and self in (user, user._whole):
                ASKED.put(partial(kill, it.process))
                serve()
