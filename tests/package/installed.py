"""The package as it is installed: by pip from a checkout and from an archive of it, with the program and the library in it."""
import os
import shutil
import subprocess
import sys
import tempfile
import zipfile

from common import LIBRARY, PROGRAM, TOP, Skipped, main, same

TRIED = """
import os, yorqanish
from yorqanish import Calculator
calc = Calculator()
print(yorqanish.__version__, os.path.basename(calc._way.path), dict(calc.mult([1], [1])))
"""


def run(*words, **how):
    done = subprocess.run([str(it) for it in words], capture_output=True, text=True, **how)
    assert done.returncode == 0, done.stdout[-800:] + done.stderr[-1500:]
    return done.stdout


def bare():
    """An environment in which nothing of the checkout is found, and nothing can be fetched."""
    return {"PATH": "/usr/bin:/bin", "HOME": "/nonexistent", "PIP_NO_INDEX": "1", "PIP_DISABLE_PIP_VERSION_CHECK": "1", "PIP_NO_CACHE_DIR": "1"}


def files(room):
    """The files of the package in a checkout and in an archive."""
    top = os.path.join(room, "checkout")
    shutil.copytree(f"{TOP}/python", f"{top}/python", ignore=shutil.ignore_patterns("__pycache__", "build"))
    os.mkdir(f"{top}/release")
    for name in ("VERSION", "LICENSE", "NOTICE", "release/genuine", "release/LGPL-2.1"):
        shutil.copy(f"{TOP}/{name}", f"{top}/{name}")
    return top


def checkout(room, program=PROGRAM):
    """A checkout with one crate. It has the built program and library if they exist, recorded as built from its sources."""
    top = files(room)
    for name in ("calc", "crates.txt", "HANDLES"):
        shutil.copy(f"{TOP}/{name}", top)
    shutil.copytree(f"{TOP}/crates/calc/src", f"{top}/crates/calc/src")
    os.mkdir(f"{top}/crates/calc/out")
    made = [shutil.copy(program, f"{top}/crates/calc/out/calc")]
    if LIBRARY:
        os.mkdir(f"{top}/build")
        made.append(shutil.copy(LIBRARY, f"{top}/build/libyorqanish.so"))
    run("sh", f"{top}/release/genuine", "--note", run("sh", f"{top}/release/genuine", "--digest").strip(), *made)
    return top


def archive(room):
    """An archive: the program and the library beside the folder python/, and the sums of all."""
    top = files(room)
    shutil.copy(PROGRAM, f"{top}/calc")
    if LIBRARY:
        shutil.copy(LIBRARY, f"{top}/libyorqanish.so")
    names = sorted(it for it in os.listdir(top) if os.path.isfile(f"{top}/{it}"))
    sums = run("sha256sum", *names, cwd=top)
    with open(f"{top}/SHA256SUMS", "w", encoding="ascii") as file:
        file.write(sums)
    return top


def version():
    with open(f"{TOP}/VERSION", encoding="ascii") as file:
        return file.read().strip()


def installs(room, source):
    """pip installs the source into a folder of its own, without a network, and the package answers there by its own program."""
    there = f"{room}/there"
    run(sys.executable, "-m", "pip", "install", "--target", there, source, env=bare(), cwd=room)
    env = {**bare(), "PYTHONPATH": there}
    same(run(sys.executable, "-c", TRIED, env=env, cwd=room), f"{version()} calc {{(2,): 1, (1, 1): 1}}\n")
    if LIBRARY:
        by_library = TRIED.replace("Calculator()", "Calculator(library=True)")
        same(run(sys.executable, "-c", by_library, env=env, cwd=room), f"{version()} libyorqanish.so {{(2,): 1, (1, 1): 1}}\n")
    words = "it['Version'], it['Author'], it['License-Expression']"
    said = f"from importlib.metadata import metadata as m; it = m('yorqanish'); print({words}, sep=', ')"
    same(run(sys.executable, "-c", said, env=env, cwd=room), f"{version()}, The Yorqanish authors, MIT AND LGPL-2.1-or-later\n")


def test_a_checkout_is_installed():
    with tempfile.TemporaryDirectory() as room:
        installs(room, f"{checkout(room)}/python")


def test_a_released_archive_is_installed():
    with tempfile.TemporaryDirectory() as room:
        installs(room, f"{archive(room)}/python")


def test_a_checkout_is_linked():
    """By `pip install -e`; the package is that of the checkout, and so is its program, as long as it is of the checkout's sources."""
    with tempfile.TemporaryDirectory() as room:
        top = checkout(room)
        run(sys.executable, "-m", "venv", "--system-site-packages", f"{room}/own")
        run(f"{room}/own/bin/python", "-m", "pip", "install", "--no-build-isolation", "-e", f"{top}/python", env=bare(), cwd=room)
        told = TRIED + "print(os.path.dirname(yorqanish.__file__), calc._way.path)\n"
        wanted = f"{version()} calc {{(2,): 1, (1, 1): 1}}\n{top}/python/yorqanish {top}/crates/calc/out/calc\n"
        same(run(f"{room}/own/bin/python", "-c", told, env=bare(), cwd=room), wanted)
        with open(f"{top}/crates/calc/src/main.rt", "a", encoding="ascii") as source:
            source.write("another line\n")
        done = subprocess.run([f"{room}/own/bin/python", "-c", told], capture_output=True, text=True, env=bare(), cwd=room)
        assert done.returncode and "sources changed" in done.stderr, done.stderr


def test_a_wheel_is_installed():
    """The wheel's tag is of no newer system than its binaries ask for; the same sources make the same wheel; a source archive makes one."""
    with tempfile.TemporaryDirectory() as room:
        top, outs = checkout(room), []
        for name in ("one", "two"):
            path = run(sys.executable, f"{top}/python/make_wheel.py", f"{room}/{name}").strip()
            with open(path, "rb") as file:
                outs.append(file.read())
        assert outs[0] == outs[1] and "-py3-none-manylinux_2_" in path, path
        with zipfile.ZipFile(path) as wheel:
            assert {"yorqanish/calc", "yorqanish/__init__.py", "yorqanish/py.typed", "yorqanish/VERSION"} <= set(wheel.namelist())
        installs(room, path)


def test_the_tag_of_the_library_alone():
    """The library needs no newer glibc than 2.14, so that its wheel runs on each system that pip takes for manylinux2014."""
    if not LIBRARY:
        raise Skipped("there is no library")
    with tempfile.TemporaryDirectory() as room:
        top = checkout(room)
        os.remove(f"{top}/crates/calc/out/calc")
        name = os.path.basename(run(sys.executable, f"{top}/python/make_wheel.py", f"{room}/out").strip())
        same(name, f"yorqanish-{version()}-py3-none-manylinux_2_17_x86_64.manylinux2014_x86_64.whl")


def test_a_wheel_for_musl():
    """It has the program alone, which asks for no other file; pip is given one where Python is one of musl."""
    static = f"{TOP}/prebuilt/calc"
    if not os.path.exists(static):
        raise Skipped("prebuilt/ has no program")
    with tempfile.TemporaryDirectory() as room:
        top = checkout(room, static)
        musl = f"yorqanish-{version()}-py3-none-musllinux_1_1_x86_64.whl"
        script = "import make_wheel, sys; make_wheel.sysconfig.get_config_var = lambda name: 'x86_64-pc-linux-musl'; print(make_wheel.build_wheel(sys.argv[1]))"
        same(run(sys.executable, "-c", script, room, cwd=f"{top}/python").strip(), musl)
        with zipfile.ZipFile(f"{room}/{musl}") as wheel:
            names = wheel.namelist()
            assert "yorqanish/calc" in names and "yorqanish/libyorqanish.so" not in names, names
            wheel.extractall(f"{room}/musl")
        os.chmod(f"{room}/musl/yorqanish/calc", 0o755)
        tried = "import yorqanish\nprint(yorqanish.Calculator().coef([2], [1], [1]))\ntry: yorqanish.Calculator(library=True)\nexcept yorqanish.NoCalculator as error: print(error)"
        one, told = run(sys.executable, "-c", tried, cwd=room, env={"PATH": "/nowhere", "PYTHONPATH": f"{room}/musl"}).splitlines()
        assert one == "1" and "libyorqanish.so cannot be loaded as a library" in told, (one, told)
        for program in (sys.executable, "/bin/true", *([LIBRARY] if LIBRARY else [])):
            done = subprocess.run([sys.executable, f"{top}/python/make_wheel.py", room, "--musl", "--program", program], capture_output=True, text=True)
            assert done.returncode and "linked statically" in done.stderr + done.stdout, done


def test_a_source_archive_has_what_a_wheel_needs():
    with tempfile.TemporaryDirectory() as room:
        top = checkout(room)
        run(sys.executable, "-c", f"import make_wheel; make_wheel.build_sdist({room!r})", cwd=f"{top}/python")
        run("tar", "xf", f"{room}/yorqanish-{version()}.tar.gz", cwd=room)
        for settings, said in (("{}", "has no program"), ("{'without-program': 'yes'}", f"yorqanish-{version()}-py3-none-any.whl\n")):
            script = f"import make_wheel; print(make_wheel.build_wheel({room!r}, {settings}))"
            done = subprocess.run([sys.executable, "-c", script], capture_output=True, text=True, cwd=f"{room}/yorqanish-{version()}")
            assert said in done.stdout + done.stderr, (settings, done)


if __name__ == "__main__":
    main(globals())
