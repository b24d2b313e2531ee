"""How the tests in Python compare and end: a line for each check that fails, and last how many passed and failed. The
client that they import is the one of this project."""
import fnmatch
import os
import shutil
import subprocess
import sys
import threading
import traceback

TOP = os.path.realpath(os.path.join(os.path.dirname(os.path.abspath(__file__)), "../.."))
sys.path.insert(0, f"{TOP}/python")
sys.dont_write_bytecode = True
COMPILER = f"{TOP}/tests/lib/compiler"
if shutil.which("cc") and COMPILER not in os.environ["PATH"].split(":"):
    os.environ["PATH"] = f"{COMPILER}:{os.environ['PATH']}"
counts, told, turn = {True: 0, False: 0}, set(), threading.Lock()
ONLY = os.environ.get("ONLY", "").split()  # patterns of the functions try_* that are carried out; `python` are all


def check(what, fault=None):
    """A check, and what is wrong with it. What fails again isn't told again."""
    with turn:
        counts[not fault] += 1
        if fault and what not in told:
            print(f"fails: {what}: {fault}", flush=True)
            told.add(what)


def said_of(error):
    """An exception, and where it was raised."""
    at = traceback.extract_tb(error.__traceback__)
    where = f", at {os.path.basename(at[-1].filename)}:{at[-1].lineno}" if at else ""
    return f"{type(error).__name__}: {error}{where}"


def is_chosen(name):
    """Whether a function is carried out where ONLY has patterns: those of the functions try_* that are."""
    chosen = not (ONLY and name.startswith("try_")) or "python" in ONLY
    return chosen or any(fnmatch.fnmatch(name, it) for it in ONLY)


def attempt(case, *words):
    """Carries out a function of checks, where it is chosen. An exception is a check that fails, and ends no others.
    Returns whether there was none."""
    try:
        if is_chosen(case.__name__):
            case(*words)
    except Exception as error:
        check(case.__name__, said_of(error))
        return False
    return True


def ended_by(_, error, __):
    """An exception that nothing expects is a check that fails, and the counts are told."""
    check("an exception", said_of(error))
    tell()


sys.excepthook = ended_by


def difference(wanted, got):
    """What was wanted and what was got; of lists and texts of lines what the other hasn't."""
    if isinstance(wanted, str) and isinstance(got, str) and "\n" in wanted:
        wanted, got = wanted.splitlines(), got.splitlines()
    if type(wanted) is type(got) and isinstance(wanted, (list, set, dict)) and len(wanted) > 1:
        parts = [it.items() if isinstance(it, dict) else it for it in (wanted, got)]
        only = [[it for it in one if it not in other] for one, other in (parts, parts[::-1])]
        wanted, got = only if any(only) else (wanted, got)
    return f"wanted {wanted!r}, got {got!r}"


def compare(what, wanted, got):
    check(what, None if wanted == got else difference(wanted, got))


def works(*words):
    """Whether an optional program is there, and runs with these words: a folder of PATH may be closed, and a program
    may be there that can't run here."""
    try:
        how = {"stdin": subprocess.DEVNULL, "stdout": subprocess.DEVNULL, "stderr": subprocess.DEVNULL}
        return subprocess.run(words, **how, timeout=60, check=False).returncode == 0
    except (OSError, subprocess.TimeoutExpired):
        return False


def outcome(run, *words, **named):
    """What a call answers, or the name of what it raises; of what a daemon refuses, that of its error."""
    try:
        return run(*words, **named)
    except Exception as error:
        name = type(error).__name__
        return error.name if name == "Refused" else name


def text_of(path, errors="strict"):
    """A file of this project."""
    with open(f"{TOP}/{path}", encoding="utf-8", errors=errors) as file:
        return file.read()


def write(path, text, mode=0o644):
    """Writes a file, and the folders to it."""
    os.makedirs(os.path.dirname(path), exist_ok=True)
    with open(path, "w", encoding="utf-8") as file:
        file.write(text)
    os.chmod(path, mode)


def skipped(what):
    print(f"skipped: {what}", flush=True)


def tell():
    """The last line."""
    name = os.path.basename(sys.argv[0]).removesuffix(".py")
    print(f"{name}: {counts[True]} passed, {counts[False]} failed", flush=True)


def conclude():
    """The last line, and the status."""
    tell()
    sys.exit(counts[False] > 0)
