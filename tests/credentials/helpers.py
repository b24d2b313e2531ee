"""Daemons, helpers and keepers, for the tests of the helpers of git, docker and keyring.

The folder of what is tried is FOLDER in the environment: bin/ has the helpers and keyretain-session, and the package
lies in PACKAGE. KEYRETAIND is the daemon."""
import os
import subprocess
import tempfile
from contextlib import contextmanager, suppress

from compare import attempt, compare, conclude, outcome, skipped, text_of, write  # noqa: F401 # for who imports this
from daemons import PATIENCE, Daemon, until
import keyretain

FOLDER, KEYRETAIND = os.environ["FOLDER"], os.environ["KEYRETAIND"]


@contextmanager
def daemon(lanes=32):
    """A daemon that nobody has used, named by the environment. Answers the process."""
    with tempfile.TemporaryDirectory(prefix="keyretain.") as folder:
        os.environ["KEYRETAIN_SOCKET"] = folder + "/sock"
        with Daemon(KEYRETAIND, folder + "/sock", lanes, stderr=subprocess.DEVNULL) as begun:
            yield begun.process
        until(lambda: not keepers())


def keepers():
    """The command lines of the keepers at this daemon, with their pids."""
    found = []
    for pid in filter(str.isdigit, os.listdir("/proc")):
        try:
            with open(f"/proc/{pid}/cmdline", "rb") as words:
                line = words.read().decode().rstrip("\0").split("\0")
        except OSError:
            continue
        if os.path.basename(line[0]) == "keyretain-keeper" and line[-1] == os.environ["KEYRETAIN_SOCKET"]:
            found.append((int(pid), line))
    return found


def run(words, given="", environment=None, timeout=PATIENCE, **named):
    """The status of a program, and what it prints on its standard output and on standard error, as bytes."""
    ended = subprocess.run(words, input=given if isinstance(given, bytes) else given.encode(), capture_output=True,
                           timeout=timeout, env={**os.environ, **(environment or {})}, check=False, **named)
    return ended.returncode, ended.stdout, ended.stderr


def helper(name, *words):
    return [f"{FOLDER}/bin/{name}-credential-keyretain", *words]


def is_one_line(text, program):
    """What a program tells on standard error."""
    return text.startswith(program.encode() + b": ") and text.count(b"\n") == 1 and text.endswith(b"\n")


@contextmanager
def looking(ring):
    """A client that looks at what a helper keeps: answers a function that tells the descriptions with the payloads."""
    with keyretain.Client(timeout=PATIENCE) as client:
        context = client.hello(os.geteuid(), os.getegid())

        def look():
            try:
                found = client.search(context, keyretain.USER, "keyring", ring)
            except keyretain.Refused:
                return {}
            kept = {}
            for serial in client.read_ring(context, found):
                with suppress(keyretain.Refused):
                    kept[client.describe(context, serial).split(b";", 4)[4].decode()] = client.read(context, serial)
            return kept

        yield look
