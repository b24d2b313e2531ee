"""package.py VERSION: whether the folder of the Python client is a package that pip takes, without a network, and one
that `make install` puts in its place; and whether the command of what is installed runs."""
import os
import shutil
import subprocess
import sys
import tempfile

from compare import compare, conclude, skipped
import keyretain

SOURCE = os.path.join(os.path.dirname(__file__), "../../python")


def files_of(folder):
    """Those of a package, from its folder on."""
    return sorted(os.path.relpath(place + "/" + name, folder) for place, _, names in os.walk(folder)
                  for name in names if not place.endswith("__pycache__"))


FILES = files_of(SOURCE + "/keyretain")
HELPERS = ("git-credential-keyretain", "docker-credential-keyretain")


def run(*words, **named):
    return subprocess.run(words, stdout=subprocess.PIPE, stderr=subprocess.STDOUT, text=True, check=False, **named)


def compare_installed(what, folder, programs):
    """Its files, that its commands run, and that programs find its backend of keyring."""
    compare(f"{what}: the files", FILES, files_of(folder + "/keyretain"))
    for name in HELPERS:
        told = run(sys.executable, "-B", f"{programs}/{name}", "--version", env={**os.environ, "PYTHONPATH": folder})
        compare(f"{what}: {name}", (0, f"{name} (keyretain) {sys.argv[1]}\n"), (told.returncode, told.stdout))
    told = run(sys.executable, "-B", "-c", FIND_BACKEND, folder)
    compare(f"{what}: the backend of keyring", "keyretain keyretain.credentials.backend\n", told.stdout)
    environment = {**os.environ, "PYTHONPATH": folder, "KEYRETAIN_SOCKET": "/nowhere"}
    ended = run(sys.executable, "-B", "-m", "keyretain", "@u", cwd="/", env=environment)
    compare(f"{what}: the command", (1, "keyretain: /nowhere: "), (ended.returncode, ended.stdout[:21]))


FIND_BACKEND = """import importlib.metadata as found, sys
for package in found.distributions(path=[sys.argv[1]]):
    for entry in package.entry_points:
        if entry.group == "keyring.backends": print(entry.name, entry.value)"""


def python_with_pip():
    """One that has what pip wants to build a package without a network, or None."""
    for python in (sys.executable, "/usr/bin/python3"):
        if os.path.exists(python) and run(python, "-c", "import setuptools, wheel, pip").returncode == 0:
            return python
    return None


def try_pip(folder):
    """On a copy, as setuptools writes into the source."""
    python, source, target = python_with_pip(), folder + "/source", folder + "/target"
    if not python:
        return skipped("the package by pip: no pip, setuptools or wheel")
    shutil.copytree(SOURCE, source, ignore=shutil.ignore_patterns("__pycache__", "build", "*.egg-info"))
    ended = run(python, "-m", "pip", "install", "--no-build-isolation", "--no-index", "--no-deps", "--quiet",
                "--disable-pip-version-check", "--no-compile", "--target", target, source,
                env={**os.environ, "PIP_ROOT_USER_ACTION": "ignore", "PIP_NO_CACHE_DIR": "1"})
    compare("pip", (0, ""), (ended.returncode, ended.stdout))
    compare_installed("by pip", target, target + "/bin")
    kept = [name for name in os.listdir(target) if name.endswith(".dist-info")] if os.path.isdir(target) else []
    compare("its name and version", [f"keyretain-{keyretain.__version__}.dist-info"], kept)


def try_make(folder):
    if not shutil.which("make"):
        return skipped("the package by make install: no make")
    words = ["make", "-s", "-C", SOURCE, f"DESTDIR={folder}/root", "PREFIX=/usr/local", f"PYTHON={sys.executable}"]
    told = run(*words, "install")
    compare("make install", 0, told.returncode)
    found = [place for place, _, names in os.walk(folder + "/root") if "py.typed" in names]
    compare("one folder", 1, len(found))
    compare("below the prefix", True, all(place.startswith(folder + "/root/usr/local/lib/") for place in found))
    for place in found:
        compare_installed("by make install", os.path.dirname(place), folder + "/root/usr/local/bin")
    compare("make uninstall", 0, run(*words, "uninstall").returncode)
    compare("nothing is left", [], files_of(folder + "/root"))


with tempfile.TemporaryDirectory(prefix="keyretain.") as scratch:
    compare("the version", sys.argv[1], keyretain.__version__)
    try_pip(scratch)
    try_make(scratch)
conclude()
