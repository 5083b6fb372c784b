#!/usr/bin/env python3
"""Makes the wheel of the Python package: `python/make_wheel.py [FOLDER] [--program FILE] [--library FILE] [--musl]`, into build/ without a folder.

It is also the backend that pip calls for `pip install ./python`, of a checkout or of a released archive. The program and the library go
into the wheel: those that are given, or else those that release/genuine finds to be of the sources that are here, or in the sums of the archive.
If the sources changed, or a file was altered, no wheel is made; if there is none, the wheel has none, and that is said. A wheel for musl, the C
library of Alpine Linux, has the program alone: that has its own C library in it, and the library asks for glibc. Nothing but
Python 3.8 and a shell is needed: a wheel of a package without dependencies is an archive with some small files about itself."""
import argparse
import base64
import hashlib
import os
import re
import struct
import subprocess
import sys
import sysconfig
import tarfile
import zipfile

HERE = os.path.dirname(os.path.abspath(__file__))
TOP = os.path.dirname(HERE)
BUILD = os.path.join(TOP, "build")
LICENCES = ("LICENSE", "NOTICE", "LGPL-2.1")
# The names of the program and the library in the package, on macOS, on Windows, and elsewhere.
PROGRAMS = {"win": "calc.exe", "": "calc"}
LIBRARIES = {"mac": "libyorqanish.dylib", "win": "yorqanish.dll", "": "libyorqanish.so"}
# The oldest glibc that a tag of pip names, and the tag's older name.
OLDEST, OLDEST_TAG = 17, "manylinux_2_17_{0}.manylinux2014_{0}"
# A program that asks for no C library runs beside any musl: this is the oldest that a tag of pip names in use.
MUSL_TAG = "musllinux_1_1_{0}"
# Kinds of segments of an ELF file, and of entries of the second kind.
LOADER, DYNAMIC, NEEDED = 3, 2, 1
# The first bytes of programs and libraries, with the processor where it is among them, and the tags of their machines: of Linux the processor alone.
ELF, PE, MACH_O = b"\x7fELF", b"MZ", b"\xcf\xfa\xed\xfe"
MACHINES = {(ELF, 18, 0x3E): "x86_64", (ELF, 18, 0xB7): "aarch64", (MACH_O, 4, 7): "macosx_11_0_x86_64", (MACH_O, 4, 12): "macosx_11_0_arm64", (PE, 0, 77): "win_amd64"}


def text_of(path):
    with open(path, encoding="utf-8") as file:
        return file.read()


def content_of(path):
    with open(path, "rb") as file:
        return file.read()


def version():
    """The version of the checkout or of the archive, or of what a source archive has of it."""
    return text_of(next(it for it in (f"{TOP}/VERSION", f"{HERE}/yorqanish/VERSION") if os.path.exists(it))).strip()


def machine_of(path):
    """The tag of the machine of a program or a library, by its first bytes; None of another file, as a script."""
    begin = content_of(path)[:20] if os.path.isfile(path) else b""
    return next((tag for (sign, at, kind), tag in MACHINES.items() if begin.startswith(sign) and begin[at : at + 1] == bytes([kind])), None)


def is_static(path):
    """Whether a program of Linux (an ELF file of 64 bits) asks for no other file: it names neither a loader nor a library."""
    content = content_of(path)
    begin, size, count = *struct.unpack_from("<Q", content, 32), *struct.unpack_from("<2H", content, 54)
    for at in range(begin, begin + size * count, size):
        kind, place, length = *struct.unpack_from("<I", content, at), *struct.unpack_from("<Q16xQ", content, at + 8)
        if kind == LOADER or kind == DYNAMIC and any(tag == NEEDED for tag, _ in struct.iter_unpack("<2Q", content[place : place + length])):
            return False
    return True


def genuine(name):
    """The file of this name that is of the sources that are here, or none where there is no file. Of a source archive what lies above is of others."""
    if os.path.exists(f"{HERE}/PKG-INFO") or not os.path.exists(f"{TOP}/release/genuine"):
        return None
    done = subprocess.run(["sh", f"{TOP}/release/genuine", "--prebuilt", name], stdout=subprocess.PIPE, universal_newlines=True, check=False)
    said = done.stdout.strip()
    if done.returncode not in (0, 4, 5):
        raise SystemExit(f"make_wheel: {said}")
    return said if done.returncode == 0 else None


def tag_of(binaries, is_musl=False):
    """Where the wheel runs: on the machine of its binaries, on Linux by the newest glibc that they ask for, or beside musl."""
    if not binaries:
        return "py3-none-any"
    machine, *others = sorted({machine_of(it) for it in binaries})
    if others:
        raise SystemExit(f"make_wheel: {' and '.join(binaries)} are of different machines")
    if machine.startswith(("macosx", "win")):
        return f"py3-none-{machine}"
    if is_musl:
        return f"py3-none-{MUSL_TAG.format(machine)}"
    minors = [int(it) for path in binaries for it in re.findall(rb"GLIBC_2\.(\d+)", content_of(path))]
    newest = max([OLDEST, *minors])
    return f"py3-none-{OLDEST_TAG.format(machine) if newest == OLDEST else f'manylinux_2_{newest}_{machine}'}"


def fields(licences):
    """The fields of METADATA, of the project's table, and the licences of what is in the wheel."""
    project = text_of(f"{HERE}/pyproject.toml")
    said = dict(re.findall(r'^([a-z-]+) = "(.*)"$', project, re.MULTILINE))
    lists = {name: re.findall(r'"(.*?)"', it) for name, it in re.findall(r"^([a-z]+) = \[(.*?)\]$", project, re.MULTILINE | re.DOTALL)}
    others = {"LGPL-2.1": " AND LGPL-2.1-or-later", "ZPL-2.1": " AND ZPL-2.1"}
    return [
        "Metadata-Version: 2.4",
        f"Name: {said['name']}",
        f"Version: {version()}",
        f"Summary: {said['description']}",
        f"Author: {lists['authors'][0]}",
        "License-Expression: MIT" + "".join(said for name, said in others.items() if name in licences),
        *(f"License-File: {it}" for it in licences),
        f"Keywords: {','.join(lists['keywords'])}",
        *(f"Classifier: {it}" for it in lists["classifiers"]),
        f"Requires-Python: {said['requires-python']}",
        "Description-Content-Type: text/markdown",
    ]


def metadata(licences):
    return "\n".join(fields(licences)) + "\n\n" + text_of(f"{HERE}/README.md")


def contents(program, library, tag):
    """The files of the wheel, by their names in it."""
    folder = f"{HERE}/yorqanish"
    files = {f"yorqanish/{name}": content_of(f"{folder}/{name}") for name in sorted(os.listdir(folder)) if name.endswith((".py", ".json", ".typed"))}
    files["yorqanish/VERSION"] = f"{version()}\n".encode()
    if os.path.exists(f"{TOP}/check/table"):
        names = ("table", "claims.py", "points.py", "tableaux.py")
        files.update({f"yorqanish/checks/{it}": content_of(f"{TOP}/check/{it}") for it in names})
    for path, names in ((program, PROGRAMS), (library, LIBRARIES)):
        if path:
            files[f"yorqanish/{names.get((machine_of(path) or '')[:3], names[''])}"] = content_of(path)
    about = f"yorqanish-{version()}.dist-info"
    # (the program and the library come with the notices of the kit's ports, and that of Linux with the licence of the C library in it, too)
    licences = LICENCES if program and "linux" in tag else LICENCES[:2] if program or library else LICENCES[:1]
    licences += ("ZPL-2.1",) if "win_" in tag else ()
    files[f"{about}/METADATA"] = metadata(licences).encode()
    pure = "true" if tag.endswith("any") else "false"
    tags = [f"py3-none-{it}" for it in tag[len("py3-none-") :].split(".")]
    files[f"{about}/WHEEL"] = "\n".join(
        ["Wheel-Version: 1.0", "Generator: make_wheel", f"Root-Is-Purelib: {pure}", *(f"Tag: {it}" for it in tags), ""]
    ).encode()
    for licence in licences:
        path = next((it for it in (f"{TOP}/{licence}", f"{TOP}/release/{licence}", f"{HERE}/{licence}") if os.path.exists(it)), None)
        if path:
            files[f"{about}/licenses/{licence}"] = content_of(path)
    record = "".join(f"{name},sha256={digest(it)},{len(it)}\n" for name, it in files.items())
    files[f"{about}/RECORD"] = (record + f"{about}/RECORD,,\n").encode()
    return files


def digest(content):
    return base64.urlsafe_b64encode(hashlib.sha256(content).digest()).rstrip(b"=").decode()


def make(out, program=None, library=None, is_musl=False):
    """Makes the wheel in a folder; its name. A file that is named has to be there."""
    program, library = program or genuine("calc"), library or (None if is_musl else genuine("libyorqanish.so"))
    for path in (program, library):
        if path and not machine_of(path):
            raise SystemExit(f"make_wheel: {path} is no program and no library")
    if is_musl and (library or not program or "linux" not in tag_of([program]) or not is_static(program)):
        raise SystemExit("make_wheel: a wheel for musl has a program of Linux that is linked statically, and no library")
    for path, what in ((program, "the program calc"), (library, "libyorqanish.so")):
        if not path and not (is_musl and path is library):
            print(f"make_wheel: {what} is not here, and is left out", file=sys.stderr)
    tag = tag_of([it for it in (program, library) if it], is_musl)
    name = f"yorqanish-{version()}-{tag}.whl"
    with zipfile.ZipFile(os.path.join(out, name), "w", zipfile.ZIP_DEFLATED) as wheel:
        for file, content in contents(program, library, tag).items():
            # (a fixed date, so that the same sources make the same wheel)
            entry = zipfile.ZipInfo(file, (2020, 1, 1, 0, 0, 0))
            entry.external_attr = (0o100755 if file in ("yorqanish/calc", "yorqanish/calc.exe") else 0o100644) << 16
            wheel.writestr(entry, content, zipfile.ZIP_DEFLATED)
    return name


# ---- what pip calls

def build_wheel(wheel_directory, config_settings=None, metadata_directory=None):
    # (pip shows what is said here only if it fails)
    if os.path.exists(f"{HERE}/PKG-INFO") and not (config_settings or {}).get("without-program"):
        raise SystemExit(
            "A source archive of yorqanish has no program calc in it, which the package needs: install a wheel, a checkout or a release. "
            "With --config-settings without-program=yes pip installs the package alone, for a calc that is elsewhere."
        )
    return make(wheel_directory, is_musl="musl" in (sysconfig.get_config_var("HOST_GNU_TYPE") or ""))


def build_editable(wheel_directory, config_settings=None, metadata_directory=None):
    """A wheel that links to this folder, whose package takes the program of the checkout."""
    name, about = f"yorqanish-{version()}-py3-none-any.whl", f"yorqanish-{version()}.dist-info/"
    files = {file: it for file, it in contents(None, None, "py3-none-any").items() if file.startswith(about) and not file.endswith("RECORD")}
    files["yorqanish.pth"] = f"{HERE}\n".encode()
    files[f"{about}RECORD"] = "".join(f"{file},,\n" for file in (*files, f"{about}RECORD")).encode()
    with zipfile.ZipFile(os.path.join(wheel_directory, name), "w") as wheel:
        for file, content in files.items():
            wheel.writestr(file, content)
    return name


def build_sdist(sdist_directory, config_settings=None):
    """The source archive: this folder, with the version and the licence, and the binaries if they are there."""
    name = f"yorqanish-{version()}"
    files = {it: f"{HERE}/{it}" for it in ("README.md", "pyproject.toml", "make_wheel.py")}
    names = (it for it in sorted(os.listdir(f"{HERE}/yorqanish")) if it.endswith((".py", ".json", ".typed")))
    files.update({f"yorqanish/{it}": f"{HERE}/yorqanish/{it}" for it in names})
    files.update({"yorqanish/VERSION": f"{TOP}/VERSION", "LICENSE": f"{TOP}/LICENSE"})
    with tarfile.open(os.path.join(sdist_directory, f"{name}.tar.gz"), "w:gz", format=tarfile.PAX_FORMAT) as archive:
        for inside, path in files.items():
            archive.add(path, f"{name}/{inside}")
        path = os.path.join(sdist_directory, "PKG-INFO")
        with open(path, "w", encoding="utf-8") as file:
            file.write(metadata(LICENCES[:1]))
        archive.add(path, f"{name}/PKG-INFO")
        os.remove(path)
    return f"{name}.tar.gz"


def main():
    words = argparse.ArgumentParser(description="Makes the wheel of the Python package.")
    words.add_argument("folder", nargs="?", default=BUILD)
    words.add_argument("--program", help="the program calc (else as it is found)")
    words.add_argument("--library", help="libyorqanish.so (else as it is found)")
    words.add_argument("--musl", action="store_true", help="for musl: with the program alone")
    given = words.parse_args()
    out = os.path.abspath(given.folder)
    os.makedirs(out, exist_ok=True)
    print(os.path.join(out, make(out, given.program, given.library, given.musl)))


if __name__ == "__main__":
    main()
