"""The guard that is tried with a daemon behind it, clients of any user, and their frames, for the parts of guard.py."""
import contextlib
import functools
import os
import re
import select
import signal
import socket
import struct
import subprocess
import sys
import tempfile
import time

from compare import attempt, compare, conclude, skipped  # noqa: F401 # for who imports this
import daemons
from daemons import PATIENCE, become
from versions import asked, frame, hello  # noqa: F401

GUARD, DAEMON, CLIENT = sys.argv[1:4]
IS_SANITIZED = "sanitized" in sys.argv[4:]
HELLO, EXEC = 256, 259
EPERM, ESRCH, EACCES, EINVAL, EDQUOT = 1, 3, 13, 22, 122
ROOT = os.geteuid() == 0
USER_A, USER_B = 4001, 4002
GROUP_A = 4101  # of user A
NOBODY = 2**32 - 1
# Who asks: a user that isn't root, and the ids of that.
WHO, UID, GID = ((USER_A, GROUP_A, [4100]), USER_A, GROUP_A) if ROOT else ((), os.geteuid(), os.getegid())
NO_FILTER = ["--no-filter"] if IS_SANITIZED else []
TMP = tempfile.mkdtemp(prefix="keyretain.")
os.chmod(TMP, 0o755)


def check(name, got, wanted):
    compare(name, wanted, got)


def by_root(what):
    """Has a function that root alone can run, and says what isn't tried by others."""
    return lambda function: function if ROOT else functools.wraps(function)(lambda: skipped(f'{what}: not root'))


def check_soon(name, found, wanted):
    """The same of what comes to be so."""
    end = time.monotonic() + PATIENCE
    while (got := found()) != wanted and time.monotonic() < end:
        time.sleep(0.02)
    compare(name, wanted, got)


def ask(op, context=0, body=b"", tag=None, version=None):
    """A frame, of the first version where it has no tag."""
    return frame(op, context, body, version or (1 if tag is None else 2), tag or 0)


def add(context, name, payload, tag=None, ring=-4):
    return asked("ADD", context, (b"user", name, payload, ring), tag)


def read_key(context, serial, tag=None):
    return asked("READ", context, (serial,), tag)


class Client:
    def __init__(self, sock):
        self.sock, self.have = sock, b''
        sock.settimeout(PATIENCE)

    def send(self, *frames):
        with contextlib.suppress(BrokenPipeError, ConnectionResetError):  # what was answered before can still be read
            self.sock.sendall(b''.join(frames))

    def send_apart(self, stream):
        """Sends each byte once the one before it has been read."""
        for byte in stream:
            self.send(bytes([byte]))
            self.wait_until_read()

    def wait_until_read(self):
        daemons.wait_until_read(self.sock)

    def exactly(self, count):
        while len(self.have) < count:
            try:
                piece = self.sock.recv(65536)
            except ConnectionResetError:
                piece = b''
            if not piece:
                return None
            self.have += piece
        taken, self.have = self.have[:count], self.have[count:]
        return taken

    def reply(self, tagged=False):
        """(status, answer) or (status, tag, answer); 'end' where the connection has ended"""
        head = self.exactly(4)
        if head is None:
            return 'end'
        rest = self.exactly(struct.unpack('<I', head)[0])
        if rest is None:
            return 'broken'
        status = struct.unpack_from('<I', rest)[0]
        if not tagged:
            return status, rest[4:]
        return status, struct.unpack('<Q', rest[4:12])[0], rest[12:]

    def rest(self):
        """The statuses of all replies that come, and what ends them."""
        statuses = []
        while not isinstance(reply := self.reply(), str):
            statuses.append(reply[0])
        return statuses, reply

    def status(self, *frames, tagged=False):
        self.send(*frames)
        reply = self.reply(tagged)
        return reply if isinstance(reply, str) else reply[0]

    def serial(self, frame):
        """The number that an ask answers."""
        status, answer = self.ask(frame)
        assert status == 0, status
        return struct.unpack('<I', answer)[0]

    def context(self, uid, gid, groups=()):
        return self.serial(hello(uid, gid, groups))

    def ask(self, frame):
        self.send(frame)
        return self.reply()

    def close(self):
        self.sock.close()


def connect_as(path, uid=None, gid=None, groups=(), count=1, before=None):
    """Connections that a child of that uid has made."""
    if uid is None:
        return [Client(daemons.connect(path)) for _ in range(count)]
    ours, theirs = socket.socketpair()
    child = os.fork()
    if child == 0:
        try:
            become(uid, gid, groups)
            if before:
                before()
            for _ in range(count):
                with daemons.connect(path) as sock:
                    socket.send_fds(theirs, [b'x'], [sock.fileno()])
            os._exit(0)
        except BaseException as error:
            print('child:', error, flush=True)
            os._exit(1)
    theirs.close()
    made = []
    for _ in range(count):
        data, fds, _, _ = socket.recv_fds(ours, 1, 1)
        if not fds:
            break
        made.append(Client(socket.socket(fileno=fds[0])))
    os.waitpid(child, 0)
    ours.close()
    return made


ALL = set()


class Running:
    count = 0

    def __init__(self, *options, daemon=True, lanes=64, limit=None):
        Running.count += 1
        ALL.add(self)
        self.private = f'{TMP}/{Running.count}.private'
        self.public = f'{TMP}/{Running.count}.public'
        self.daemon = self.guard = None
        self.lanes = lanes
        if daemon:
            self.start_daemon()
        self.options, self.limit = options, limit
        self.words = [GUARD, '--listen', self.public, '--daemon', self.private, *NO_FILTER]
        self.start_guard()

    def start_daemon(self):
        self.daemon = daemons.Daemon(DAEMON, self.private, self.lanes, stderr=subprocess.DEVNULL).process

    def start_guard(self):
        self.errors = open(f'{TMP}/{Running.count}.errors', 'ab')
        begun = daemons.Guard(GUARD, self.public, self.private, *NO_FILTER, *self.options, stderr=self.errors,
                              preexec_fn=self.limit)
        self.guard, self.line = begun.process, begun.line

    def one(self, *who, **more):
        return connect_as(self.public, *who, **more)[0]

    def many(self, count, *who, **more):
        return connect_as(self.public, *who, count=count, **more)

    def end(self):
        self.guard.send_signal(signal.SIGTERM)
        status = self.guard.wait(PATIENCE)
        if self.daemon:
            kill(self.daemon)
        ALL.discard(self)
        errors = open(self.errors.name).read()
        if 'Sanitizer' in errors or 'runtime error' in errors:
            check('no report', errors, '')
        return status

    def memory(self):
        status = open(f'/proc/{self.guard.pid}/status').read()
        return int(re.search(r'VmRSS:\s+(\d+)', status).group(1))


def is_alive(client):
    """Whether the guard has not ended it."""
    ready, _, _ = select.select([client.sock], [], [], 0)
    if not ready:
        return True
    try:
        return client.sock.recv(1, socket.MSG_PEEK) != b''
    except OSError:
        return False


def kill(process):
    process.kill()
    process.wait()


def alive(clients):
    return sum(map(is_alive, clients))


def kill_all():
    """Ends the runs that a fault has left."""
    for run in list(ALL):
        for process in filter(None, (run.guard, run.daemon)):
            kill(process)
    ALL.clear()


def descriptors(run):
    return len(os.listdir(f'/proc/{run.guard.pid}/fd')) if ROOT else 0  # it isn't dumpable


def ticks(run):
    """Of the processor that the guard has used, a hundredth of a second each."""
    return sum(map(int, open(f'/proc/{run.guard.pid}/stat').read().split()[13:15]))


def wait_for_replies(client):
    """Until no more come, since they aren't read."""
    there, before, end = 0, None, time.monotonic() + PATIENCE
    while (there != before or not there) and time.monotonic() < end:
        before = there
        time.sleep(0.1)
        there = daemons.unread(client.sock)
