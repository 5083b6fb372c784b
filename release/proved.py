"""Compiles the proved crates as release/prove left them: for library/build and release/prebuilt, and for tests/prebuilt."""
import base64
import functools
import gzip
import hashlib
import os
import re
import shutil
import signal
import subprocess
import sys
import tempfile

TOP = os.path.abspath(os.path.join(os.path.dirname(os.path.abspath(__file__)), ".."))
# The folders of a crate with its sources.
KINDS = ("src", "specs", "proofs", "c")
# The objects of the kit with which each program and each library for C is linked, beside its C library.
PROGRAM, LIBRARY = ("c/libos_c.a", "c/liblibc_c.a"), ("c/liblibc_c.a",)

# (a script that is ended by a signal takes its folders away, as one that fails does)
for ending in (signal.SIGTERM, signal.SIGHUP):
    signal.signal(ending, lambda number, frame: sys.exit(128 + number))

# The name by which a program that is linked with the library asks for it. Its number changes when the calls change (library/yorqanish.h).
SONAME = "libyorqanish.so.0"

# The kit's clang, in front of which the LLVM module is kept.
KEEPING = """#!/bin/sh
for it in "$@"; do case "$it" in *.bc | *.ll) cp "$it" "{kept}" ;; esac; done
exec "{clang}" "$@"
"""


def run(*words, **how):
    subprocess.run([str(word) for word in words], check=True, **how)


def said_by(*words):
    return subprocess.run(words, capture_output=True, text=True, check=True, stdin=subprocess.DEVNULL).stdout.strip()


@functools.cache
def kit():
    """The folder of the kit."""
    return os.path.dirname(said_by("rt", "doc"))


def kit_name():
    """The kit's name, which is the last line that it says of itself."""
    return said_by("rt", "version").splitlines()[-1]


def crate(name):
    """The crate, as the kit's own commands see it."""
    if f"{kit()}/bin" not in sys.path:
        sys.path.insert(0, f"{kit()}/bin")
    import rtlib

    return rtlib.Crate(f"{TOP}/crates/{name}", TOP, {})


def below(name):
    """The crate and those that it depends on, each with its line of crates.txt."""
    with open(f"{TOP}/crates.txt", encoding="utf-8") as file:
        lines = {re.match(r"\w+", line)[0]: line for line in file if re.match(r"\w+.*:", line)}
    found, todo = {}, [name]
    while todo:
        name = todo.pop()
        if name in lines and name not in found:
            found[name] = lines[name]
            todo += lines[name].partition(":")[2].split()
    return dict(sorted(found.items()))


def contents(top):
    """A sum of all that the program and the libraries below it are made of: the kit, and the files of their crates, but for what editors leave."""
    names, found = below("calc"), []
    for name in names:
        for kind in KINDS:
            for place, _, files in os.walk(f"{top}/crates/{name}/{kind}"):
                paths = [os.path.join(place, it) for it in files if not re.fullmatch(r".*~|\.#.*|#.*#|\..*\.sw.", it)]
                found += [(os.path.relpath(path, top), sum_of(path)) for path in paths]
    return hashlib.sha256(repr((kit_name(), names, sorted(found))).encode()).hexdigest()


def note_beside(name, made_of):
    """The file that release/prove makes beside a library of these `contents`, in the folder that the kit's commands replace with the library."""
    return f"{TOP}/crates/{name}/out/rlib/of-{made_of}"


def lacks(name):
    """The libraries below the crate that release/prove has not left here, made of what is here."""
    now = contents(TOP)
    return [it.name for it in crate(name).below() if not os.path.exists(it.rlib) or not os.path.exists(note_beside(it.name, now))]


def toolchain(room, kept):
    """The kit's toolchain, but for a clang that keeps the module."""
    tools = f"{room}/toolchain/bin"
    os.makedirs(tools)
    os.symlink(f"{kit()}/toolchain/lib", f"{room}/toolchain/lib")
    for name in os.listdir(f"{kit()}/toolchain/bin"):
        os.symlink(os.path.realpath(f"{kit()}/toolchain/bin/{name}"), f"{tools}/{name}")
    os.remove(f"{tools}/clang")
    with open(f"{tools}/clang", "w", encoding="utf-8") as script:
        script.write(KEEPING.format(kept=kept, clang=f"{kit()}/toolchain/bin/clang"))
    os.chmod(f"{tools}/clang", 0o755)
    return f"{room}/toolchain"


def compile_crate(name, to, module=None, target=None):
    """Proves a program, or a static library, over the proved libraries below it, and compiles it to an object, or to an archive of
    one, for this target of the kit, or else for Linux on x86-64. The LLVM module that the kit hands to clang on the way is kept, where a path for it is given."""
    with tempfile.TemporaryDirectory() as room:
        tools = toolchain(room, module) if module else f"{kit()}/toolchain"
        words = [*crate(name).words([], keeps=False), *(["--target", target] if target else []), "--toolchain", tools, "--backend", "llvm", "-o", to]
        run(f"{kit()}/bin/rattle", "build", *words, cwd=f"{TOP}/crates/{name}", stdout=sys.stderr, stdin=subprocess.DEVNULL)


def link_program(made, program):
    """Links the object of a program as `rt ci` does, with the kit's own C library."""
    words = ["--target", "x86_64-unknown-linux-gnu", "--toolchain", f"{kit()}/toolchain", "-o", program, made]
    run(f"{kit()}/bin/rattle-link", *words, *(f"{kit()}/{it}" for it in PROGRAM), stdout=sys.stderr)


def join_program(made, whole):
    """Joins the object of a program and what it takes of the kit to one object, by the kit's own linker: only a C library is missing."""
    run(f"{kit()}/toolchain/bin/ld.lld", "-r", "--strip-debug", "-o", whole, made, *(f"{kit()}/{it}" for it in PROGRAM))


def link_static(whole, program):
    """Links such an object with the system's static C library. (The build-id is a sum of the contents.)"""
    run("gcc", "-static-pie", "-s", "-Wl,-z,relro,-z,now,--build-id=sha1", "-o", program, whole)


def link_library(made, folder):
    """Makes the C library of the archive of a static one, what it takes of the kit, and the call that names its version: libyorqanish.a and
    libyorqanish.so. By the kit's own linker and C library, so that the same sources and the same kit make the same bytes on any machine."""
    tools = f"{kit()}/toolchain/bin"
    with open(f"{TOP}/VERSION", encoding="ascii") as file:
        version = f'-DYORQANISH_VERSION="{file.read().strip()}"'
    compiled = "--target=x86_64-unknown-linux-gnu -march=x86-64-v2 -O2 -fPIC -ffreestanding -fno-ident -c".split()
    linked = f"-shared -soname {SONAME} --hash-style=gnu --build-id=sha1 --gc-sections --strip-all -z defs -z relro -z now -z separate-code".split()
    system = [f"{kit()}/toolchain/lib/{it}" for it in ("libc.so.6", "libgcc.a")]
    with tempfile.TemporaryDirectory() as room:
        own, whole = f"{room}/version.o", f"{room}/yorqanish.o"
        run(f"{tools}/clang", *compiled, version, f"{TOP}/library/version.c", "-o", own)
        run(f"{tools}/ld.lld", "-r", "--strip-debug", "-o", whole, own, "--whole-archive", made, "--no-whole-archive", *(f"{kit()}/{it}" for it in LIBRARY))
        run(f"{tools}/llvm-ar", "rcsD", f"{folder}/libyorqanish.a", whole)
        run(f"{tools}/ld.lld", *linked, f"--version-script={TOP}/library/exports.map", "-o", f"{folder}/libyorqanish.so", whole, *system)


def sum_of(*paths):
    """The SHA-256 of files, one after the other."""
    sum = hashlib.sha256()
    for path in paths:
        with open(path, "rb") as file:
            sum.update(file.read())
    return sum.hexdigest()


def genuine(name):
    """The file of this name that was made of these sources, and first of all here; None if there is none (release/genuine)."""
    done = subprocess.run(["sh", f"{TOP}/release/genuine", name], capture_output=True, text=True, stdin=subprocess.DEVNULL)
    return done.stdout.strip() if done.returncode == 0 else None


def digest():
    """The digest of the sources that decide the program."""
    return said_by("sh", f"{TOP}/release/genuine", "--digest")


def note(sources, *made):
    """Writes beside what was made here that it is of the sources with this digest, if they are still here."""
    run("sh", f"{TOP}/release/genuine", "--note", sources, *made)


def recorded(path):
    """The entries of MADE_OF, or of the note beside a file that was built here, by their words."""
    with open(path, encoding="ascii") as file:
        return dict(line.rstrip("\n").split(" ", 1) for line in file)


def tools():
    """A sum of the kit's tools that the bytes of a program or a library depend on, beside its name."""
    folders = ("toolchain/bin", "toolchain/lib", "c")
    files = [f"{kit()}/{folder}/{name}" for folder in folders for name in sorted(os.listdir(f"{kit()}/{folder}"))]
    return sum_of(f"{kit()}/bin/rattle", f"{kit()}/bin/rattle-link", *dict.fromkeys(map(os.path.realpath, files)))


def versions():
    """The versions of the tools of the system that make a static program and the page."""
    def said(tool):
        return said_by(tool, "--version").partition("\n")[0] if shutil.which(tool) else "none"

    return {name: said(tool) for name, tool in {"gcc": "gcc", "linker": "ld", "libc": "ldd", "binaryen": "wasm-opt"}.items()}


def scripts():
    """A sum of what else goes into the files of prebuilt/: the way in which they are linked, and the texts of the page."""
    page = sorted(set(os.listdir(f"{TOP}/web")) - {"browse.py", "cases.mjs", "readings.mjs", "__pycache__"})
    texts = ("calc.1", "python/yorqanish/commands.json", "docs/DEFINITIONS.md", "VERSION", "CITATION.cff")
    others = ("release/proved.py", "library/exports.map", "library/version.c", *texts)
    return sum_of(*(f"{TOP}/web/{name}" for name in page), *(f"{TOP}/{name}" for name in others))


def parts_of_page(path):
    """The text of a page without its module and the commit that it names, and the module. (How the module is packed depends on Python.)"""
    with open(path, encoding="utf-8") as file:
        text = file.read()
    packed = re.search(r"H4sI[A-Za-z0-9+/]+=*", text)[0]
    commits = r"(?i)(commit (?:<code>)?)(?:[0-9a-f]{40}|unknown)(?:, with changes)?"
    return re.sub(commits, r"\1", text.replace(packed, "")), gzip.decompress(base64.b64decode(packed))
