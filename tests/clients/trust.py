"""trust.py: whom the Python client tells anything: where it looks for a daemon, and who may listen. Wants to be root,
or root of a user namespace that has other uids; `trust.py one` makes the checks that one user can."""
import ctypes
import os
import shutil
import signal
import socket
import struct
import subprocess
import sys
import tempfile
from contextlib import contextmanager, suppress

import daemons
import servers
from servers import attempt, compare, in_child, keyretain, outcome, skipped, told_by

OWN, DAEMON, OTHER = os.geteuid(), 65533, 65534  # uids
places = getattr(keyretain, "places", keyretain)


def become(uid):
    if uid != os.geteuid():
        daemons.become(uid)


@contextmanager
def listening(path, uid=OWN):
    """A process of this user listens at the path. Answers a function: how many bytes it was told by one client."""
    def serve(write):
        become(uid)
        with socket.socket(socket.AF_UNIX) as listener:
            listener.bind(path)
            listener.listen(8)
            os.chmod(path, 0o666)
            os.write(write, b".")
            while True:
                with listener.accept()[0] as end:
                    told = 0
                    while piece := end.recv(4096):
                        told += len(piece)
                os.write(write, b"%8d" % told)

    child, read = in_child(serve)
    try:
        os.read(read, 1)
        yield lambda: int(os.read(read, 8))
    finally:
        os.kill(child, signal.SIGKILL)
        os.waitpid(child, 0)
        os.close(read)
        os.unlink(path)


def hello(words, named):
    with keyretain.Client(*words, **named) as client:
        client.send("HELLO", 0, 0, 0, ())
    return "told"


def told_as(uid, environment, run, *words, is_apart=False):
    """What a call comes to as this user, with these variables; apart, where nobody else has a number."""
    def run_there(write):
        become(uid)
        if is_apart and not daemons.leave_users(f"0 {os.geteuid()} 1", f"0 {os.getegid()} 1"):
            raise OSError(ctypes.get_errno(), "unshare")
        os.environ.update(environment or {})
        os.write(write, str(outcome(run, *words)).encode())

    return told_by(run_there)


def tells(*words, uid=OWN, environment=None, is_apart=False, **named):
    """What becomes of a client with these arguments, which says HELLO as this user."""
    return told_as(uid, environment, hello, words, named, is_apart=is_apart)


@contextmanager
def folders(owner=None):
    """A runtime directory, and a folder for the system's socket. An owner has the first, with a folder for a daemon."""
    with tempfile.TemporaryDirectory(prefix="keyretain.") as folder:
        os.chmod(folder, 0o755)
        runtime, system = folder + "/runtime", folder + "/system"
        os.mkdir(runtime)
        os.mkdir(system)
        places.SYSTEM_PATH = places.DEFAULT_PATH = system + "/keyretain.sock"
        os.environ["XDG_RUNTIME_DIR"] = runtime
        if owner is not None:
            os.mkdir(runtime + "/keyretain")
            for it in (runtime, runtime + "/keyretain"):
                os.chown(it, owner, owner)
        yield runtime, system


# ---- Where


def try_places():
    """A daemon of one's own that is down isn't replaced by the system's, and one that was never set up is."""
    with folders() as (runtime, system):
        own = runtime + "/keyretain/keyretain.sock"
        compare("nothing set up", system + "/keyretain.sock", keyretain.default_path())
        with listening(system + "/keyretain.sock"):
            compare("none of one's own", "told", tells())
            os.mkdir(runtime + "/keyretain")
            compare("one of one's own that is down", "FileNotFoundError", tells())
            os.mkdir(own)
            compare("a folder in its place", "ConnectionRefusedError", tells())
            os.rmdir(own)
            with open(own, "w", encoding="ascii"):
                compare("a file in its place", "ConnectionRefusedError", tells())
            os.unlink(own)
            with listening(own) as told:
                compare("one of one's own", "told", tells())
                compare("what it was told", True, told() > 0)
            compare("a named one that is down", "FileNotFoundError", tells(environment={"KEYRETAIN_SOCKET": own}))
            compare("an empty name is none", own, keyretain.default_path())
            os.environ["XDG_RUNTIME_DIR"] = __file__
            compare("a file as the runtime directory", system + "/keyretain.sock", keyretain.default_path())


def try_names():
    for path, error in (("", "FileNotFoundError"), ("\0abstract", "ValueError"), ("a\0b", "ValueError")):
        compare(f"the path {path!r}", error, outcome(keyretain.Client, path))
    compare("an unknown word of trust", "ValueError", outcome(lambda: keyretain.Client("/nowhere", trust="all")))


def try_peer():
    with folders() as (_, system):
        path = system + "/keyretain.sock"
        with listening(path):
            with keyretain.Client(path) as client:
                compare("who listens", (OWN, os.getegid(), True),
                        (client.peer().uid, client.peer().gid, os.path.exists(f"/proc/{client.peer().pid}")))


# ---- Who


def try_found():
    """The socket's file may be one's own, and who listens another."""
    with folders(OWN) as (runtime, _):
        os.chown(runtime + "/keyretain", OTHER, OTHER)
        own = runtime + "/keyretain/keyretain.sock"
        with listening(own, OTHER) as told:
            os.chown(own, OWN, -1)
            compare("another listens at one's own path", "PermissionError", tells())
            compare("what another was told", 0, told())
            compare("the same, found, where anybody may", "PermissionError", tells(trust="any"))
            compare("the same, named", "PermissionError", tells(own))
            compare("the same, named, where anybody may", "told", tells(own, trust="any"))
            compare("the same, named, and the environment isn't asked who may", "PermissionError",
                    tells(own, environment={"KEYRETAIN_TRUST": "any"}))


def try_found_root():
    """Root at another user's own path isn't that user."""
    with folders(OTHER) as (runtime, _):
        with listening(runtime + "/keyretain/keyretain.sock", 0):
            compare("root listens at one's own path", "PermissionError", tells(uid=OTHER))
        with listening(runtime + "/keyretain/keyretain.sock", OTHER):
            compare("oneself there", "told", tells(uid=OTHER))


def try_effective():
    """A program of root's that is another user for now is that user, whose daemon it finds and trusts."""
    def ask(write):
        os.setegid(OTHER)
        os.seteuid(OTHER)
        answers = [keyretain.default_path(), outcome(hello, (), {}), outcome(hello, (own,), {}),
                   outcome(hello, (others,), {})]
        os.environ["KEYRETAIN_SOCKET"] = own
        os.write(write, str([*answers, outcome(hello, (), {})]).encode())

    with folders(OTHER) as (runtime, _):
        own, others = runtime + "/keyretain/keyretain.sock", os.path.dirname(runtime) + "/others.sock"
        os.chmod(os.path.dirname(runtime), 0o777)
        with listening(own, OTHER), listening(others, DAEMON):
            compare("root, another user for now: its path, found and named, a third one's, by the environment",
                    str([own, "told", "told", "PermissionError", "told"]), told_by(ask))


def try_another_runtime_directory():
    """su(1) may keep the variable: a directory of another user's isn't looked into."""
    with folders(OWN) as (runtime, system):
        with listening(runtime + "/keyretain/keyretain.sock", OWN):
            os.chown(runtime, OTHER, OTHER)
            compare("another's runtime directory", False, runtime in str(keyretain.default_path()))
        compare("nor one that isn't there", system + "/keyretain.sock",
                told_as(OTHER, {"XDG_RUNTIME_DIR": "/nowhere"}, keyretain.default_path))


def try_closed():
    """One's own folder that can't be looked into isn't replaced by the system's daemon."""
    with folders(OTHER) as (runtime, system):
        os.chown(system, DAEMON, DAEMON)
        os.chmod(runtime, 0)
        with listening(system + "/keyretain.sock", DAEMON):
            compare("a folder of one's own that is closed", "PermissionError", tells(uid=OTHER))
        os.chmod(runtime, 0o700)


def try_named():
    """A path that is named is one's own, root's or the system daemon's."""
    with folders() as (_, system):
        path = os.path.dirname(system) + "/named.sock"
        os.chmod(os.path.dirname(system), 0o777)
        for who, wanted in ((OTHER, "PermissionError"), (DAEMON, "told"), (0, "told")):
            os.chown(system, DAEMON, DAEMON)
            with listening(path, who) as told:
                compare(f"root, told of a daemon of uid {who}", wanted, tells(path))
                compare("what it was told", wanted == "told", told() > 0)
                compare("by the environment", wanted, tells(environment={"KEYRETAIN_SOCKET": path}))
                compare("where anybody may", "told", tells(path, trust="any"))
                compare("who listens", str(who), peer_of(path))
        with listening(path, OTHER):
            compare("one's own", "told", tells(path, uid=OTHER))
            os.chown(system, 0, 0)
            compare("a third user's", "PermissionError", tells(path, uid=DAEMON))
        with listening(path, 0):
            compare("root's", "told", tells(path, uid=OTHER))


def try_unknown():
    """In a user namespace users without a number look like one, so like the owner of the system's folder."""
    with folders() as (_, system):
        os.chown(system, DAEMON, DAEMON)
        os.chmod(os.path.dirname(system), 0o777)
        for path, who, wanted in ((system + "/keyretain.sock", DAEMON, "told"),
                                  (os.path.dirname(system) + "/named.sock", OTHER, "PermissionError")):
            with listening(path, who):
                compare(f"who has no number, {wanted}", wanted, tells(path, is_apart=True))


def peer_of(path):
    with keyretain.Client(path, trust="any") as client:
        return str(client.peer().uid)


def try_system():
    """At the system's path only the owner of its folder, and root."""
    with folders() as (runtime, system):
        path = system + "/keyretain.sock"
        os.chown(system, DAEMON, DAEMON)
        for who, uid, wanted in ((DAEMON, 0, "told"), (DAEMON, OTHER, "told"), (0, OTHER, "told")):
            with listening(path, who) as told:
                compare(f"uid {uid} and the system's daemon of uid {who}", wanted, tells(uid=uid))
                compare("what it was told", True, told() > 0)
        os.rename(system, system + ".moved")
        os.symlink(system + ".moved", system)
        os.lchown(system, DAEMON, DAEMON)
        with listening(path, DAEMON):
            compare("a link in place of the folder", "PermissionError", tells(uid=OTHER))
        os.unlink(system)
        os.rename(system + ".moved", system)
        os.chmod(system, 0o777)
        with listening(path, OTHER):
            compare("root and another's daemon there", "PermissionError", tells())
            compare("the same user's", "PermissionError", tells(uid=OTHER))
            compare("the same, where anybody may", "PermissionError", tells(uid=OTHER, trust="any"))


def try_set_uid():
    """What a program that was started with rights of its own finds: what the environment says isn't for it."""
    words = """import sys; sys.path[0] = sys.argv[1]; import keyretain; print(keyretain.default_path())
print(keyretain.places.place_of("/named", None).trust.name)
client = object.__new__(keyretain.Client)
client.join = lambda *_: print("joined")
print(client.enter_session(1))"""

    def run(write):
        os.setresgid(OTHER, OWN, OWN)
        os.setresuid(OTHER, OWN, OWN)
        os.dup2(write, 1)
        os.execve(sys.executable, [sys.executable, "-B", "-c", words, sys.path[0]],
                  {"KEYRETAIN_SOCKET": "/another", "XDG_RUNTIME_DIR": runtime, "KEYRETAIN_SESSION": "5:named"})

    with folders(OWN) as (runtime, _):
        compare("in a program that runs set-uid: the path, whom it trusts at one it names, whether in a session",
                "/run/keyretain/keyretain.sock\nNAMED\nFalse\n", told_by(run))


def python_for(uid):
    """A Python that this user may execute, or None."""
    for python in (sys.executable, "/usr/bin/python3"):
        with suppress(OSError, subprocess.CalledProcessError):
            subprocess.run([python, "-c", "1"], user=uid, group=uid, extra_groups=[], stdout=subprocess.DEVNULL,
                           stderr=subprocess.DEVNULL, check=True)
            return os.path.realpath(python)
    return None


def with_capability(python, folder):
    """A copy of it that is given a capability, CAP_NET_BIND_SERVICE, as setcap(8) does; None where files can't be."""
    copy = shutil.copy(python, folder + "/python")
    try:
        os.setxattr(copy, "security.capability", struct.pack("<5I", 0x02000001, 1 << 10, 0, 0, 0))
    except OSError:
        return None
    return copy


def try_capabilities():
    """A program that is given capabilities is told nothing by the environment; one that has given up its rights is."""
    words = "import sys; sys.path.insert(0, sys.argv[1]); import keyretain; print(keyretain.default_path())"
    compare("the path in a program that has become another user", "/another",
            told_as(OTHER, {"KEYRETAIN_SOCKET": "/another"}, keyretain.default_path))
    with tempfile.TemporaryDirectory(prefix="keyretain.") as folder:
        os.chmod(folder, 0o755)
        python = python_for(OTHER)
        copy = with_capability(python, folder) if python else None
        if not copy:
            return skipped("a program with capabilities: no Python that another user may execute, or no such files")
        package = shutil.copytree(os.path.dirname(keyretain.__file__), folder + "/package/keyretain")
        environment = {"KEYRETAIN_SOCKET": "/another", "PYTHONHOME": os.path.dirname(os.path.dirname(python))}
        told = subprocess.run([copy, "-B", "-c", words, os.path.dirname(package)], user=OTHER, group=OTHER,
                              extra_groups=[], env=environment, text=True, stdout=subprocess.PIPE, check=False)
        compare("the path in a program with capabilities", "/run/keyretain/keyretain.sock", told.stdout.strip())


if __name__ == "__main__":
    os.environ.pop("KEYRETAIN_SOCKET", None)
    cases = [try_places, try_names, try_peer]
    if sys.argv[1:] != ["one"]:
        cases += [try_found, try_found_root, try_effective, try_another_runtime_directory, try_closed,
                  try_named, try_unknown, try_system, try_set_uid, try_capabilities]
    for case in cases:
        attempt(case)
    servers.conclude()
