"""Transcripts of the program, and runs of it. The head of tests/run says how a transcript is written."""
import atexit
import base64
import collections
import functools
import gzip
import os
import re
import shlex
import subprocess
import sys
from dataclasses import dataclass

TOP = os.path.join(os.path.dirname(os.path.abspath(__file__)), "..")
CASES = os.path.join(TOP, "tests/cases")
# Longer than this no run takes, on however busy a machine: it hangs.
SECONDS = 300
# So many odd answers of a tool of others are taken for the tool's own; more are a failure.
MOST_ODD = 3
# Whether the goals of times are checked. Times depend on the machine as much as on the program, so they are only printed unless this is asked
# for.
CLOCKS = os.environ.get("YORQANISH_CLOCKS") == "1"


@dataclass
class Case:
    """A command of a transcript, and the output and status that it must have."""

    name: str
    words: list  # of bytes
    given: bytes = b""
    written: bytes = b""
    status: int = 0
    output: str = "file"


class Tally:
    """Counts what is tried and what is skipped, and prints what failed, and for want of what something is skipped."""

    def __init__(self):
        self.passed = self.failed = 0
        self.wanted, self.odd, self.again = collections.Counter(), collections.Counter(), []
        self.is_ended = False
        # (the counts are not lost if a script breaks off)
        atexit.register(self.break_off)

    def count(self, name, wrong):
        if wrong:
            self.failed += 1
            print(f"FAILED {name}: {wrong}", flush=True)
        else:
            self.passed += 1

    def count_twice(self, name, tool, attempt, again):
        """Counts an attempt by a tool of others, as a browser: what is wrong is tried `again` in a fresh start of the tool. If that is right, what was
        wrong is the tool's, which is said, and no failure unless it comes often. Each attempt gives what is wrong."""
        wrong = attempt()
        if wrong:
            print(f"{name}: wrong by {tool}, which is started afresh: {wrong}", flush=True)
            wrong = again()
            self.odd[tool] += not wrong
            if not wrong and self.odd[tool] > MOST_ODD:
                wrong = f"right afresh, but this was odd answer {self.odd[tool]} by {tool}"
            elif not wrong:
                print(f"{name}: right afresh: what was wrong is taken for {tool}'s own", flush=True)
        self.count(name, wrong)

    def clock(self, name, seconds, goal):
        """Checks a time against its goal if clocks are asked for, and else prints it."""
        if CLOCKS:
            self.count(name, "" if seconds <= goal else f"{seconds:.2f} s, and the goal is {goal} s")
        else:
            print(f"{name}: {seconds:.3f} s (with YORQANISH_CLOCKS=1 it is held to {goal} s)", flush=True)

    def skip(self, what, want):
        """Says that something is not tried, and what is missing for it."""
        self.wanted[want] += 1
        print(f"skipped: {what}, for want of {want}", flush=True)

    def break_off(self):
        if not self.is_ended:
            self.count(os.path.basename(sys.argv[0]), "it broke off")
            self.end()

    def end(self):
        """Prints the sums; the status to end with."""
        self.is_ended = True
        if self.wanted:
            each = "; ".join(f"{count} for want of {want}" for want, count in self.wanted.most_common())
            print(f"{sum(self.wanted.values())} skipped: {each}")
        if self.again:
            print(f"failed once, and passed when it was run again: {', '.join(self.again)}")
        print(f"{self.passed} passed, {self.failed} failed", flush=True)
        return int(self.failed > 0)


@functools.lru_cache(maxsize=None)
def genuine(name, *flags):
    """The file of this name that is of the sources that are here, or nothing, and why there is none (release/genuine)."""
    done = subprocess.run(["sh", f"{TOP}/release/genuine", *flags, name], capture_output=True, text=True)
    said = done.stdout.strip()
    return (os.path.abspath(said), "") if done.returncode == 0 else (None, said or done.stderr.strip())


def program():
    """The program that is tried: that of the environment's CALC, or the one of the sources that are here, which was built here or is that of
    prebuilt/."""
    if os.environ.get("CALC"):
        return os.path.abspath(os.environ["CALC"])
    found, why = genuine("calc")
    if not found:
        raise SystemExit(f"there is no program of these sources: {why}")
    return found


def is_prebuilt_of_sources():
    """Whether prebuilt/ is there, whole, and made of the sources that are here."""
    return (genuine("calc", "--prebuilt")[0] or "").startswith(os.path.join(os.path.abspath(TOP), "prebuilt/"))


def made(name):
    """The file that library/build or web/build made here of these sources, or else the one in prebuilt/. If there is neither, the path of a file
    that does not exist."""
    return genuine(name)[0] or os.path.join(TOP, "build/none", name)


def module_in(room):
    """The module of the page: the file in build/, or else the module of the page in prebuilt/, which is written into the room; None if there is
    neither."""
    path, page = made("calc.wasm"), made("calc.html")
    if not os.path.exists(path) and os.path.exists(page):
        with open(page, encoding="utf-8") as file:
            packed = re.search(r"H4sI[A-Za-z0-9+/]+=*", file.read())
        path = f"{room}/calc.wasm"
        with open(path, "wb") as file:
            file.write(gzip.decompress(base64.b64decode(packed[0])))
    return path if os.path.exists(path) else None


def commands():
    """The commands that have a transcript."""
    names = {name.removesuffix(".txt") for name in os.listdir(CASES) if name.endswith(".txt")}
    return names - {"words"}


def expanded(line):
    """A line with `{3:ab}` written as `ababab`, and `{4..1}` as `4 3 2 1`."""
    def repeated(found):
        return found[2] * int(found[1])

    def counted(found):
        first, last = int(found[1]), int(found[2])
        step = 1 if first <= last else -1
        return " ".join(map(str, range(first, last + step, step)))

    before = None
    while before != line:
        before = line
        line = re.sub(r"\{(\d+):([^{}]*)\}", repeated, line)
        line = re.sub(r"\{(\d+)\.\.(\d+)\}", counted, line)
    return line


def words_of(line):
    """The words after `$ calc`, split as a shell splits them."""
    return [word.encode() for word in shlex.split(expanded(line))]


def given_line(line):
    """The bytes of a line of standard input: `\\` at its end takes the line feed away."""
    line, feed = expanded(line), b"\n"
    if re.search(r"(?<!\\)(\\\\)*\\$", line):
        line, feed = line[:-1], b""
    marks = {"t": "\t", "r": "\r", "s": " ", "\\": "\\"}
    return re.sub(r"\\(.)", lambda found: marks[found[1]], line).encode() + feed


def cases_of(path):
    """The cases of a transcript."""
    cases, case = [], None
    with open(path, encoding="utf-8") as transcript:
        for number, line in enumerate(transcript, 1):
            line, place = line.rstrip("\n"), f"{os.path.relpath(path, TOP)}:{number}"
            if case is None:
                if line == "$ calc" or line.startswith("$ calc "):
                    case = Case(place, words_of(line[len("$ calc"):]))
                elif line and not line.startswith("#"):
                    raise SystemExit(f"{place}: neither a case nor a comment: {line}")
            elif line.startswith("=> "):
                case.status = int(line[3:])
                cases.append(case)
                case = None
            elif line == "<" or line.startswith("< "):
                case.given += given_line(line[2:])
            else:
                case.written += expanded(line).encode() + b"\n"
    if case is not None:
        raise SystemExit(f"{case.name}: no line with its status")
    return cases


def case_in(folder):
    """The case of a folder."""
    def read(name, default=b""):
        path = os.path.join(folder, name)
        if not os.path.exists(path):
            return default
        with open(path, "rb") as file:
            return file.read()

    return Case(
        os.path.relpath(folder, TOP),
        read("args").split(b"\n")[:-1],
        read("stdin"),
        read("stdout"),
        int(read("status", b"0")),
        read("output", b"file").decode().strip(),
    )


def as_batch(path, cases):
    """The cases of a transcript that can be a line of a batch, as one batch."""
    def is_line(words):
        line = b" ".join(words)
        return line.split() == words and words and len(line) <= 4096 and words[0] not in (b"batch", b"work")

    lines = [case for case in cases if is_line(case.words)]
    return Case(
        f"{os.path.relpath(path, TOP)}, its cases as the lines of one batch",
        [b"batch"],
        b"".join(b" ".join(case.words) + b"\n" for case in lines),
        b"--\n".join(case.written for case in lines),
        int(any(case.status for case in lines)),
    )


def fronts(case):
    """The texts that a command may have written when memory is refused: nothing, or for a batch the text of its first lines."""
    if case.words != [b"batch"]:
        return [b""]
    blocks = case.written.split(b"--\n")
    return [b""] + [b"--\n".join(blocks[:count]) + end for count in range(1, len(blocks)) for end in (b"", b"--\n")]


def outcome(case, begin=()):
    """The faults of a run of the case, "" if there are none; by the program, or by what begins with these words."""
    command = [*(begin or [program()]), *case.words]
    try:
        status, written, told = run(command, case)
    except subprocess.TimeoutExpired:
        return f"no end after {SECONDS} seconds"
    wrong = []
    if status != case.status:
        wrong.append(f"status {status}, wanted {case.status}")
    if written != case.written:
        wrong.append(f"wrong text from byte {len(os.path.commonprefix([written, case.written]))} on: {short(written)}")
    if told:
        wrong.append(f"standard error: {short(told)}")
    return "; ".join(wrong)


def short(text):
    return repr(text if len(text) <= 300 else text[:150] + b" .. " + text[-150:])[1:]


def run(command, case):
    """Status, standard output and standard error of the command, with standard output as the case asks for it."""
    if case.output == "file":
        done = subprocess.run(command, input=case.given, capture_output=True, timeout=SECONDS)
        return done.returncode, done.stdout, done.stderr
    # The signal for a reader that is gone is left out: the write fails.
    if case.output == "closed":
        done = subprocess.run(
            command, input=case.given, stderr=subprocess.PIPE, timeout=SECONDS, preexec_fn=lambda: os.close(1)
        )
        return done.returncode, b"", done.stderr
    if case.output == "full":
        with open("/dev/full", "wb") as full:
            done = subprocess.run(command, input=case.given, stdout=full, stderr=subprocess.PIPE, timeout=SECONDS)
        return done.returncode, b"", done.stderr
    count = 0 if case.output == "pipe" else int(case.output.removesuffix(" bytes"))
    reader, writer = os.pipe()
    if not count:
        os.close(reader)
    with subprocess.Popen(
        command, stdin=subprocess.DEVNULL, stdout=writer, stderr=subprocess.PIPE, restore_signals=False
    ) as started:
        os.close(writer)
        written = b""
        if count:
            with open(reader, "rb") as front:
                written = front.read(count)
        try:
            _, told = started.communicate(timeout=SECONDS)
        except subprocess.TimeoutExpired:
            started.kill()
            raise
        return started.returncode, written, told
