#!/usr/bin/env python3
"""inject.py GUARD KEYRETAIND: system calls of the guard that fail now and then, by strace; a refused and a good HELLO,
sent byte by byte, and whole ones behind them are answered all the same. Without the guard's own filter, in which a call
that strace makes fail has the number -1."""

import os
import shutil
import signal
import struct
import subprocess
import sys
import tempfile
import time

from compare import compare, conclude
from daemons import Daemon, Program, connect, received, wait_until_read
from versions import hello

GUARD, DAEMON = sys.argv[1:3]
FAULTS = [*(f"accept4:error={error}:when=1..3" for error in ("EAGAIN", "ENOMEM", "EMFILE", "ENFILE", "ECONNABORTED",
                                                             "ENOBUFS")),
          "connect:error=EAGAIN:when=1..3", "connect:error=ENOMEM:when=1..2",
          *(f"recvfrom:error={error}:when=2+3" for error in ("EINTR", "EAGAIN", "ENOBUFS")),
          *(f"sendto:error={error}:when=1..3" for error in ("EAGAIN", "EINTR", "ENOBUFS")),
          "getsockopt:error=ENOPROTOOPT:when=2..3", "poll:error=EINTR:when=1..3", "fcntl:error=ENOMEM:when=1"]
folder = tempfile.mkdtemp(prefix="keyretain.")
GUARD_HERE = GUARD, "--no-filter", "--daemon", f"{folder}/private"


def own(uid=os.geteuid(), gid=os.getegid()):
    return hello(uid, gid)


def status(client):
    """The status of the next reply."""
    length, found = struct.unpack("<II", received(client, 8))
    received(client, length - 4)
    return found


def ask_often(path):
    """The statuses of the replies to a foreign HELLO and four own ones."""
    with connect(path) as client:
        for byte in own(os.geteuid() + 1) + own():
            client.sendall(bytes([byte]))
            wait_until_read(client)
        statuses = status(client), status(client)
        for _ in range(3):  # whole
            client.sendall(own())
            statuses += (status(client),)
        return statuses


def ask_for_groups(path):
    """The statuses of the replies to two HELLOs that name the group 0, of a client that isn't in it."""
    child = os.fork()
    if child == 0:
        if os.geteuid() == 0:
            os.setgroups([])
            os.setgid(4242)
        with connect(path) as client:
            client.sendall(own(gid=0) * 2)
            os._exit(10 * status(client) + status(client))
    return os.waitstatus_to_exitcode(os.waitpid(child, 0)[1])


def statuses(fault, ask=ask_often):
    path = f"{folder}/public"
    traced = ["strace", "-f", "-qq", "-o", f"{folder}/trace", "-e", f"trace={fault.split(':')[0]}", "-e",
              f"inject={fault}"]
    with Program(*traced, *GUARD_HERE, "--listen", path, stderr=subprocess.DEVNULL) as traced:
        try:
            got = ask(path)
            return got if "(INJECTED)" in open(f"{folder}/trace", encoding="utf-8").read() else "no call failed"
        except OSError as error:
            return repr(error)
        finally:
            guards = open(f"/proc/{traced.pid}/task/{traced.pid}/children", encoding="ascii").read().split()
            for guard in guards:
                os.kill(int(guard), signal.SIGTERM)
            if guards:
                traced.process.wait()


def wait_awhile(path):
    """How often the guard tries to accept a client, for which there are no descriptors, in half a second."""
    with connect(path):
        time.sleep(0.5)
    tries = open(f"{folder}/trace", encoding="utf-8").read().count("accept4(")
    return "often" if tries > 100 else "now and then"


def fails_to_listen():
    """How a guard ends that can't listen at the path that it has bound: its status, what it prints, and what it
    leaves."""
    path = f"{folder}/unheard"
    words = ["strace", "-f", "-qq", "-o", "/dev/null", "-e", "trace=listen", "-e", "inject=listen:error=ENOBUFS",
             *GUARD_HERE, "--listen", path]
    ended = subprocess.run(words, capture_output=True, timeout=60, check=False)
    return ended.returncode, ended.stdout, os.path.exists(path)


with Daemon(DAEMON, f"{folder}/private", 16, stderr=subprocess.DEVNULL):
    for one in FAULTS:
        compare(one, (1, 0, 0, 0, 0), statuses(one))
    compare("groups that aren't told", 11, statuses("getsockopt:error=ENOPROTOOPT:when=2", ask_for_groups))
    compare("no descriptors at all", "now and then", statuses("accept4:error=EMFILE", wait_awhile))
compare("listen", (3, b"error: socket\n", False), fails_to_listen())
shutil.rmtree(folder)
conclude()
