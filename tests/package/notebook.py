"""The notebook of python/examples, run from its first to its last cell."""
import os
import shutil
import subprocess
import tempfile

from common import TOP, Skipped, main, need


def test_the_notebook_runs():
    need("ipykernel")
    if not shutil.which("jupyter-nbconvert"):
        raise Skipped("there is no nbconvert")
    with tempfile.TemporaryDirectory() as room:
        how = ["--to", "notebook", "--execute", "--ExecutePreprocessor.startup_timeout=200", "--output-dir", room]
        words = ["jupyter-nbconvert", *how, f"{TOP}/python/examples/first_steps.ipynb"]
        done = subprocess.run(words, capture_output=True, text=True, env={**os.environ, "HOME": room})
        assert done.returncode == 0, done.stderr[-1500:]


if __name__ == "__main__":
    main(globals())
