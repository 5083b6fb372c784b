"""Roots that contain only a shell and a few small tools: for tests/prebuilt and tests/release."""
import contextlib
import os
import shutil
import subprocess
import tempfile

# The tools that ./calc uses.
TOOLS = ("sh", "find", "sort", "xargs", "sha256sum", "chmod")


class Skipped(Exception):
    """The reason why something cannot be tested here."""


def path_of(tool):
    return shutil.which(tool, path="/usr/bin:/bin:/usr/sbin:/sbin")


def put(tool, root):
    """Copies a tool into a root, with the libraries that it loads."""
    path = os.path.realpath(path_of(tool))
    needed = subprocess.run([path_of("ldd"), path], capture_output=True, text=True).stdout.split()
    for file in [path, *(it for it in needed if it.startswith("/"))]:
        to = f"{root}/bin/{tool}" if file == path else root + file
        os.makedirs(os.path.dirname(to), exist_ok=True)
        shutil.copy(file, to)


@contextlib.contextmanager
def bare_root(of_busybox):
    """A root with the tools that ./calc needs, or with busybox and all its tools, and the words that run a command in it."""
    is_user = os.geteuid() != 0
    missing = [tool for tool in ("ldd", "chroot", *["unshare"] * is_user, *(["busybox"] if of_busybox else TOOLS)) if not path_of(tool)]
    if missing:
        raise Skipped(", ".join(missing))
    with tempfile.TemporaryDirectory() as root:
        alone = [*([path_of("unshare"), "--user", "--map-root-user"] if is_user else []), path_of("chroot"), root]
        if of_busybox:
            put("busybox", root)
            for tool in subprocess.run([f"{root}/bin/busybox", "--list"], capture_output=True, text=True).stdout.split():
                if tool != "busybox":
                    os.symlink("busybox", f"{root}/bin/{tool}")
        else:
            for tool in TOOLS:
                put(tool, root)
        try:
            done = subprocess.run([*alone, "/bin/sh", "-c", ":"], capture_output=True, text=True)
        except OSError as error:
            raise Skipped(f"a root that can be entered ({error})") from None
        if done.returncode:
            raise Skipped(f"a root that can be entered ({done.stderr.strip()})")
        yield root, alone


def linked(one, other):
    """Makes a hard link to a file if that is possible, and else a copy."""
    try:
        os.link(one, other)
    except OSError:
        shutil.copy2(one, other)


def put_checkout(top, to):
    """Has the files of a checkout, without what was built in it, in another folder too. They are not to be changed there."""
    shutil.copytree(top, to, ignore=shutil.ignore_patterns(".*", "out", "__pycache__"), symlinks=True, copy_function=linked)
    shutil.rmtree(f"{to}/build", ignore_errors=True)
