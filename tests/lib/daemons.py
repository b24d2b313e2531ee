"""A folder and its end, one daemon and one guard, and connections of any user to these, for the tests in Python."""
import contextlib
import ctypes
import fcntl
import os
import shutil
import signal
import socket
import subprocess
import sys
import tempfile
import termios
import time

ENDS = signal.SIGINT, signal.SIGTERM, signal.SIGHUP
CLONE_NEWUSER = 0x10000000  # unshare(2)
PATIENCE = 60  # seconds that anything may take on a busy machine


def begun_in(folder):
    """The processes that have their temporary files in a folder, but this one."""
    for pid in filter(str.isdigit, os.listdir("/proc")):
        with contextlib.suppress(OSError), open(f"/proc/{pid}/environ", "rb") as file:
            if f"\0TMPDIR={folder}/".encode() in b"\0" + file.read() and int(pid) != os.getpid():
                yield int(pid)


@contextlib.contextmanager
def room():
    """A folder for all that is tried, which other users may enter. At its end, and by a signal that ends these tests,
    nothing is left of what was begun there."""
    folder = tempfile.mkdtemp(prefix="keyretain.", dir="/tmp")
    os.chmod(folder, 0o711)
    os.mkdir(f"{folder}/tmp")
    os.chmod(f"{folder}/tmp", 0o1777)
    tempfile.tempdir = os.environ["TMPDIR"] = f"{folder}/tmp"

    def end(number=0, _=None):
        for it in ENDS:
            signal.signal(it, signal.SIG_IGN)
        for pid in begun_in(folder):
            with contextlib.suppress(OSError):
                os.kill(pid, signal.SIGKILL)
        shutil.rmtree(folder, ignore_errors=True)
        if number:
            os._exit(128 + number)

    for it in ENDS:
        signal.signal(it, end)
    try:
        yield folder
    finally:
        end()


def until(holds, patience=PATIENCE):
    """Whether a condition has come to hold."""
    end = time.monotonic() + patience
    while not holds():
        if time.monotonic() > end:
            return False
        time.sleep(0.02)
    return True


class Program:
    """A program that says in its first line that it listens. It is killed at the end of its block, or by end()."""

    def __init__(self, *words, **how):
        how = {"stdin": subprocess.DEVNULL, "stdout": subprocess.PIPE, **how}
        self.process = subprocess.Popen([str(it) for it in words], **how)
        self.pid, self.line = self.process.pid, self.process.stdout.readline()

    def end(self):
        self.process.kill()
        self.process.wait()
        self.process.stdout.close()

    def __enter__(self):
        return self

    def __exit__(self, *_):
        self.end()


class Daemon(Program):
    """keyretaind at a path, as `around` runs it."""

    def __init__(self, program, path, lanes=32, around=(), **how):
        super().__init__(*around, program, "--socket", path, "--lanes", lanes, **how)
        self.path = path


class Guard(Program):
    """keyretain-guard at a path, before the daemon at another."""

    def __init__(self, program, path, daemon, *options, **how):
        super().__init__(program, "--listen", path, "--daemon", daemon, *options, **how)
        self.path = path


def become(uid, gid=None, groups=()):
    """Another user for good, of the group of its number where none is named."""
    gid = uid if gid is None else gid
    os.setgroups(groups)
    os.setresgid(gid, gid, gid)
    os.setresuid(uid, uid, uid)


def leave_users(uids, gids):
    """Has a user namespace with these numbers; whether it may."""
    if ctypes.CDLL(None, use_errno=True).unshare(CLONE_NEWUSER):
        return False
    for name, text in ("setgroups", "deny"), ("uid_map", uids), ("gid_map", gids):
        with open(f"/proc/self/{name}", "w", encoding="ascii") as file:
            file.write(text)
    return True


def connect(path):
    end = socket.socket(socket.AF_UNIX)
    end.settimeout(PATIENCE)
    end.connect(os.fspath(path))
    return end


def unread(end, of=termios.FIONREAD):
    """How many bytes have come and aren't read; of TIOCOUTQ, how many that were sent the other end hasn't read."""
    count = bytearray(4)
    fcntl.ioctl(end, of, count)
    return int.from_bytes(count, sys.byteorder)


def wait_until_read(end):
    """Until the other end has read all that was sent, as long as patience lasts."""
    until_then = time.monotonic() + PATIENCE
    while time.monotonic() < until_then and unread(end, termios.TIOCOUTQ):
        pass


def listening(path, backlog=8, kind=socket.SOCK_STREAM):
    """A socket that anybody may connect to."""
    end = socket.socket(socket.AF_UNIX, kind)
    end.bind(os.fspath(path))
    os.chmod(path, 0o666)
    end.listen(backlog)
    return end


def received(end, count):
    """So many bytes, or those that came before the end."""
    got = b""
    while len(got) < count and (more := end.recv(count - len(got))):
        got += more
    return got
