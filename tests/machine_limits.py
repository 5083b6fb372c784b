"""Little memory, a small stack, and Ctrl-C, on each of the machines of tests/machines: each function gives what is wrong, "" if nothing is."""
import base64
import gzip
import hashlib
import os
import re
import signal
import struct
import subprocess
import time

from transcripts import SECONDS, expanded, module_in, program

DONE, NO_MEMORY = 0, 7
# A line that needs some 64 MB, and a text that any memory holds.
HEAVY, LIGHT, BLOCK = b"coprod 10 7 5 4 3 2 1", b"mult 1 - 1", b"1  (2)\n1  (1,1)\n"
# A line that takes long.
LONG = "mult 9 8 7 6 5 4 3 2 1 - 9 8 7 6 5 4 3 2 1 - 9 8 7 6 5 4 3 2 1"
MEGABYTES = (16, 64, 256)
STACK = 256 << 10


def run(words, given=None):
    how = {"input": given} if given else {"stdin": subprocess.DEVNULL}
    done = subprocess.run(words, stdout=subprocess.PIPE, stderr=subprocess.PIPE, timeout=SECONDS, **how)
    return done.returncode, done.stdout


def of_system(begin, megabytes):
    """The words in front of a command that has so much memory of the system."""
    return ["sh", "-c", 'ulimit -d "$0" && exec "$@"', str(megabytes << 10), *begin]


def of_qemu(begin, megabytes):
    """The words in front of a command that has so much room for addresses in qemu."""
    return [begin[0], "-R", f"{megabytes}M", *begin[1:]]


def number_at(bytes_, at):
    """A number in bytes of seven bits, and where it ends."""
    value = shift = 0
    while True:
        byte = bytes_[at]
        at, value, shift = at + 1, value | (byte & 127) << shift, shift + 7
        if byte < 128:
            return value, at


def as_bytes(value):
    return bytes([value]) if value < 128 else bytes([value & 127 | 128]) + as_bytes(value >> 7)


def limited(module, pages):
    """The module with a memory of at most so many pages of 64 kB: its fifth section says that."""
    at = 8
    while at < len(module):
        size, begin = number_at(module, at + 1)
        if module[at] == 5:
            least, _ = number_at(module, begin + 2)
            body = b"\1\1" + as_bytes(least) + as_bytes(max(least, pages))
            return module[: at + 1] + as_bytes(len(body)) + body + module[begin + size :]
        at = begin + size
    raise ValueError("the module has no memory")


def of_module(file, megabytes, room):
    """The words in front of a command of calc.mjs whose module has so much memory."""
    there = f"{room}/memory-{megabytes}"
    with open(module_in(room), "rb") as module, open(file, encoding="utf-8") as script:
        whole, text = module.read(), script.read()
    small = limited(whole, megabytes * 16)
    os.makedirs(there, exist_ok=True)
    with open(f"{there}/calc.mjs", "w", encoding="utf-8") as other:
        other.write(text.replace(hashlib.sha256(whole).hexdigest(), hashlib.sha256(small).hexdigest()))
    with open(f"{there}/calc.html", "wb") as page:
        page.write(base64.b64encode(gzip.compress(small)))
    return ["node", f"{there}/calc.mjs"]


def with_small_stack(path, to):
    """Writes a program of Windows that has a small stack."""
    with open(path, "rb") as file:
        content = bytearray(file.read())
    at = struct.unpack_from("<I", content, 0x3C)[0] + 24 + 72
    if struct.unpack_from("<Q", content, at)[0] != 8 << 20:
        return False
    struct.pack_into("<Q", content, at, STACK)
    with open(to, "wb") as file:
        file.write(content)
    return True


def memory(begin_with):
    """With too little memory a command writes nothing and ends with the status that says so, and a batch has written the texts before it."""
    text, found = run([program(), *HEAVY.decode().split()])[1], set()
    whole = b"--\n".join((BLOCK, text, BLOCK))
    for megabytes in MEGABYTES:
        begin = begin_with(megabytes)
        if run([*begin, *LIGHT.decode().split()]) != (DONE, BLOCK):
            # (too little for the tool to start)
            continue
        alone = run([*begin, *HEAVY.decode().split()])
        if alone not in ((DONE, text), (NO_MEMORY, b"")):
            return f"{megabytes} MB: status {alone[0]} and {len(alone[1])} bytes"
        status, written = run([*begin, "batch"], b"\n".join((LIGHT, HEAVY, LIGHT, b"")))
        if (status, written) != (DONE, whole) and (status != NO_MEMORY or written not in (b"", BLOCK, BLOCK + b"--\n")):
            return f"{megabytes} MB: a batch ends with status {status} and {len(written)} bytes"
        found |= {alone[0], status}
    return "" if found == {DONE, NO_MEMORY} else f"the statuses {found}"


def stack(begin, is_slow):
    """The deepest words have their answers with a small stack."""
    deep = [("{2047:1+}1", 2048), ("{2047:1*}1", 1), ("{64:(}1{64:)}", 1), ("{64:(-}1{64:)}", 1)]
    for basis in "s" if is_slow else "ms":
        for word, answer in deep:
            ours = run([*begin, "expand", basis, expanded(word)])
            if ours != (DONE, f"{answer}  ()\n".encode()):
                return f"expand {basis} {word}: {ours}"
    return ""


def interrupted(begin, says_status):
    """Ctrl-C ends a program that waits for a line, and one that computes; with the signal's own status, where the tool passes it on."""
    for words, given in ((["batch"], LIGHT + b"\n"), (LONG.split(), b"")):
        with subprocess.Popen([*begin, *words], stdin=subprocess.PIPE, stdout=subprocess.PIPE, stderr=subprocess.DEVNULL) as started:
            started.stdin.write(given)
            started.stdin.flush()
            front = started.stdout.read(len(BLOCK)) if given else time.sleep(1)
            is_running = started.poll() is None
            started.send_signal(signal.SIGINT)
            try:
                status = started.wait(timeout=60)
            except subprocess.TimeoutExpired:
                started.kill()
                return f"{words[0]} goes on"
            rest = started.stdout.read()
        if not is_running or rest or front not in (None, BLOCK) or (says_status and status != -signal.SIGINT):
            return f"{words[0]}: status {status}, {front}, {rest[:100]}, {is_running}"
    return ""
