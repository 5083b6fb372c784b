"""The ways to the calculator: what each is asked first, the C library, and where it and the program are looked for, as python/README.md says."""
from __future__ import annotations

import _thread
import copy
import importlib.util
import os
import re
import shutil
import subprocess
import sys
from contextlib import suppress
from itertools import product
from queue import Empty, SimpleQueue
from typing import Any, Callable, Iterator, List, Optional, Sequence, Tuple, Union

from ._arguments import text_of
from ._commands import TABLE

# The statuses by which a command says that memory was refused: for the text, which only the library does, or for the answer.
NO_TEXT, NO_MEMORY = 5, 7

# What each program and library is asked before anything that it says is taken for an answer of `calc`: the examples of each command, a line that is refused,
# and the answers of this version, with its conventions and its order of terms.
QUESTIONS = {line.encode(): text.encode() for row in TABLE["commands"].values() if row["answer"] for line, text in row["examples"].items()}
QUESTIONS[b"mult 1 2 - 1"] = b"! Shape 2:0\n"
# The line that is asked after others: where its known answer begins, theirs have ended. What is between two answers.
LAST, END, BREAK, ENDED = b"rsk", b"P .\nQ .\n", b"--\n", b"--\nP .\nQ .\n"

# What is sent for a line that a batch passes over, where it is to be refused: it is refused at its beginning.
NO_COMMAND = b"!"
# A line of a batch has at most this many bytes; the first answers may take so many seconds.
LONGEST, PATIENCE = 4096, 20.0
# The room for a first text of the library; a buffer that had to be longer is kept for later calls up to this length.
ROOM, MOST_KEPT = 1 << 16, 1 << 24

# (Windows has no such pipes and processes as the program needs: there the library answers)
IS_WINDOWS = sys.platform == "win32"
BESIDE = os.path.dirname(os.path.abspath(__file__))
# In a checkout or an archive, if the package is used there and not installed: the script that says which files are those of its sources.
GENUINE = os.path.join(BESIDE, "../../release/genuine") if os.path.isfile(os.path.join(BESIDE, "../pyproject.toml")) else ""
LIBRARY = {"darwin": "libyorqanish.dylib", "win32": "yorqanish.dll"}.get(sys.platform, "libyorqanish.so")
PROGRAM = "calc.exe" if IS_WINDOWS else "calc"


class NoCalculator(RuntimeError):
    """There is no program or library that answers as `calc` does, or it has ended."""


class Ended(NoCalculator):
    """The program has ended in the middle of a command."""


class Way:
    """How lines of words become the texts of their answers: `blocks` gives those of lines of a batch, none of which it passes over, within so many seconds,
    and `listed` the lines of an answer as they are listed. `close` lets go of what is held, and ends what still runs; whoever asks later is refused.
    `apart` is the same for some of its calls, which can be closed by themselves, and may share what waits for a call."""

    path: str
    can_be_stopped: bool
    blocks: Callable[[Sequence[bytes], Optional[float]], List[str]]
    listed: Callable[[bytes, Optional[float]], Iterator[str]]
    # What the program's file is known by.
    digest: Optional[str] = None
    # What no call has: processes, or buffers (a list's `append` and `pop` are not interrupted).
    _idle: List[Any]
    _is_closed = False
    # The way of which this one is a part.
    _whole: Optional[Way] = None

    def apart(self, shares: bool) -> Way:
        other = copy.copy(self)
        other._whole, other._idle = self, self._idle if shares else []
        return other

    def is_over(self) -> bool:
        return self._is_closed or self._whole is not None and self._whole._is_closed

    def check(self) -> None:
        if (self._is_closed or self._whole) and self.is_over():
            raise NoCalculator("the calculator is closed")

    def close(self) -> None:
        self._is_closed = True


INTERPRETERS = [__import__(it) for it in ("_interpreters", "_xxsubinterpreters") if importlib.util.find_spec(it)][:1]
IS_SUBINTERPRETER = any(it.get_current() != it.get_main() for it in INTERPRETERS)


def spawn(task: Callable[..., object], *arguments: Any) -> None:
    """A thread of this package, without which Python ends. A subinterpreter has none, since it could not be ended. (To start it is one step:
    `threading` would wait for its begin with a lock that an interrupt can leave held.)"""
    if IS_SUBINTERPRETER:
        raise RuntimeError("this package starts no thread in a subinterpreter")
    _thread.start_new_thread(task, arguments)


def sent(line: str) -> Optional[bytes]:
    """The line of a batch that is sent for a line, or nothing if a batch passes over it, since it has no word or is a comment. A line feed at its
    end is dropped, with or without a carriage return before it. One within it, and a zero byte, are sent as a byte that is refused at its place.
    >>> sent("mult 1 - 1\\n"), sent("# a comment"), sent(" "), sent("mult 1\\n- 1")
    (b'mult 1 - 1', None, None, b'mult 1\\x01- 1')"""
    if type(line) is str and line[:1].isalpha() and line.isascii() and line.isprintable():
        return line.encode()
    if not isinstance(line, str):
        raise TypeError(f"a line is a string, and {line!r} is not")
    data = re.sub(rb"\r?\n?\Z", b"", text_of(line).encode("utf-8", "surrogatepass"), count=1)
    clean = re.sub(rb"[\0\n]|\r\Z", b"\x01", data)
    if len(clean) > LONGEST or clean.strip(b" \t")[:1] not in (b"", b"#"):
        return clean
    return b"\x01" + clean if b"\n" in data else None


def not_calc(path: str) -> NoCalculator:
    return NoCalculator(f"{path} does not answer as calc does; is it another program or library of this name, or another version?")


class Buffer:
    """Where the library leaves a text. The addresses are numbers, which ctypes passes on the fastest."""

    def __init__(self, room: int) -> None:
        import ctypes

        self.room, held, self.length = room, ctypes.create_string_buffer(room), ctypes.c_size_t()
        self.bytes, self.place = memoryview(held).cast("B"), (ctypes.addressof(held), room, ctypes.addressof(self.length))


class Library(Way):
    """The C library. A call has its buffer to itself until its text is read: calls of several threads, and calls that a signal handler or a
    `__del__` makes in the middle of another one, do not disturb each other."""

    can_be_stopped = False
    # The program, which lists tableaux.
    beside: Optional[Way] = None

    def __init__(self, given: Union[str, bool, None]) -> None:
        """That at the path that is given; else that of YORQANISH_LIBRARY; else in this package; else where the system looks."""
        # (it takes time, and is not to be had in each subinterpreter)
        import ctypes

        path = self.path = chosen(given if isinstance(given, str) else None, "YORQANISH_LIBRARY", LIBRARY) or LIBRARY
        try:
            self._run = ctypes.CDLL(path).calc_run
        except OSError as error:
            raise NoCalculator(f"{path} cannot be loaded as a library: {error}") from None
        except AttributeError:
            raise NoCalculator(f"{path} is not the library of calc: it has no calc_run") from None
        size = ctypes.c_size_t
        self._run.argtypes = [ctypes.c_char_p, size, ctypes.c_char_p, size, ctypes.c_void_p, size, ctypes.c_void_p]
        self._run.restype = ctypes.c_uint8
        self._idle = []
        # (another library of this name, which may hang, or another version, is found out in a thread of its own)
        got: SimpleQueue[Tuple[int, bytes]] = SimpleQueue()
        _thread.start_new_thread(lambda: got.put(self.run(b"\n".join(QUESTIONS) + b"\n")), ())
        with suppress(Empty):
            if got.get(timeout=PATIENCE) == (1, BREAK.join(QUESTIONS.values())):
                return
        raise not_calc(path)

    def run(self, given: bytes) -> Tuple[int, bytes]:
        """The status of a batch of these lines, and its text. The text is asked for once more if it is longer than the buffer."""
        self.check()
        try:
            buffer: Buffer = self._idle.pop()
        except IndexError:
            buffer = Buffer(ROOM)
        while True:
            status, length = self._run(b"batch", 5, given, len(given), *buffer.place), buffer.length.value
            if length <= buffer.room:
                break
            buffer = Buffer(length)
        text = buffer.bytes[:length].tobytes()
        if buffer.room <= MOST_KEPT:
            self._idle.append(buffer)
        return status, text

    def blocks(self, lines: Sequence[bytes], seconds: Optional[float]) -> List[str]:
        status, text = self.run(b"\n".join(lines) + b"\n")
        if status in (NO_TEXT, NO_MEMORY):
            raise MemoryError("calc was refused memory")
        texts = text.decode("ascii").split("--\n")
        if len(texts) != len(lines):
            raise not_calc(self.path)
        return texts

    def listed(self, line: bytes, seconds: Optional[float]) -> Iterator[str]:
        """The program lists one line after another; the library lists them all first, which is all there is on Windows."""
        self.check()
        if IS_WINDOWS:
            return iter(self.blocks([line], seconds)[0].splitlines())
        Library.beside = Library.beside or program(None)
        return Library.beside.listed(line, seconds)


def near(name: str) -> Optional[str]:
    """The file of this name in the checkout or the archive that this package is used in, and else in this package."""
    if not os.path.isfile(GENUINE):
        beside = os.path.join(BESIDE, name)
        return beside if os.path.exists(beside) else None
    # (which has one name for the program and for the library of each machine)
    asked = {PROGRAM: "calc", LIBRARY: "libyorqanish.so"}.get(name, name)
    done = subprocess.run(["sh", GENUINE, asked], stdout=subprocess.PIPE, stderr=subprocess.DEVNULL, universal_newlines=True)
    if done.returncode not in (0, 4):
        raise NoCalculator(done.stdout.strip())
    return done.stdout.strip() if done.returncode == 0 else None


def chosen(given: Optional[str], variable: str, name: str) -> Optional[str]:
    """The path that is given, or that of the environment, which must be there; else that of the file in this package."""
    path = given or os.environ.get(variable)
    if path and not os.path.isfile(path):
        raise NoCalculator(f"there is no file {path}" + ("" if given else f", which {variable} names"))
    return os.path.abspath(path) if path else near(name)


def program(given: Optional[str]) -> Way:
    """The program at the path that is given; else that of YORQANISH_CALC; else in this package; else the first on the PATH that answers."""
    from ._program import Program

    path = chosen(given, "YORQANISH_CALC", PROGRAM)
    if path:
        return Program(path)
    refused: List[str] = []
    # (Debian has another program `calc`, so that a package of ours calls the program `yorqanish`)
    for name, folder in product(("calc", "yorqanish"), os.environ.get("PATH", os.defpath).split(os.pathsep)):
        path = shutil.which(name, path=folder or os.curdir)
        try:
            if path:
                return Program(path)
        except NoCalculator as error:
            refused.append(str(error))
    raise NoCalculator("; ".join([*refused, "the program calc is not found: give its path as program=, or in YORQANISH_CALC"]))
