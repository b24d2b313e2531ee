"""with_keyring.py: the backend of Python's keyring as the command keyring(1) uses it. Wants PYTHONPATH to name the
folder where the package is installed."""
import os
import sys

from helpers import compare, conclude, daemon, run

BACKEND = "keyretain.credentials.backend.Keyring"


def command(*words, given="", **environment):
    """The status and what is printed."""
    ended = run([sys.executable, "-B", "-m", "keyring", *words], given, environment)
    return ended[0], ended[1].decode().rstrip("\n")


def try_command():
    with daemon():
        compare("it is listed", True, BACKEND in command("--list-backends")[1])
        compare("none", 1, command("get", "s", "u")[0])
        compare("set", 0, command("set", "s", "u", given="s3 \u20ac\n")[0])
        compare("get", (0, "s3 \u20ac"), command("get", "s", "u"))
        compare("set anew", 0, command("set", "s", "u", given="s4\n")[0])
        compare("get what is new", (0, "s4"), command("get", "s", "u"))
        compare("of another user", 1, command("get", "s", "v")[0])
        compare("del", 0, command("del", "s", "u")[0])
        compare("it is gone", 1, command("get", "s", "u")[0])
        compare("del, again", True, command("del", "s", "u")[0] != 0)


os.environ.update({"PYTHON_KEYRING_BACKEND": BACKEND, "HOME": "/nowhere", "PYTHONIOENCODING": "utf-8"})
try_command()
conclude()
