"""The sides that answer lines: the kernel's keyrings, by contexts.c, and `keyretain script`, or the same calls under
keyretain-session. An answer is a number, bytes, None, or the name of an error."""
import contextlib
import errno
import fcntl
import os
import select
import shutil
import signal
import socket
import struct
import subprocess
import tempfile
import time

import compare  # noqa: F401 - it has the path of the client
import daemons
from lines import RINGS
from scripts import EMPTY, OF_SESSION, OUTSIDE

FIRST, CONTEXTS, ABOVE = 3, 24, 100  # the sockets of contexts.c; how many; where they stand here
QUEUES, CAPACITY = (FIRST + CONTEXTS, FIRST + CONTEXTS + 2), 64  # the pipes of notes, behind these; their size
SET_SIZE, SET_FILTER = 0x5760, 0x5761  # linux/watch_queue.h
PATIENCE = 30
NAMES = {number: name for number, name in errno.errorcode.items()} | {35: "EDEADLK", 95: "EOPNOTSUPP"}
NUMBERS = {name: number for number, name in NAMES.items()}
MAPS = f"0 {OUTSIDE} 100000\n{OF_SESSION} {OF_SESSION} 1\n3000000000 {OUTSIDE + 100000} 16\n"


class Lost(Exception):
    """A side that doesn't answer."""


def text(word):
    return f"s{word.encode().hex() if word != EMPTY else ''}"


def payload(word):
    data = bytes.fromhex(word[4:]) if word.startswith("hex:") else word.encode()
    return f"b{data.hex()} n{len(data)}"


def entries(words):
    """A struct watch_notification_filter. Its entries have a type, two words for `info`, and eight of subtypes."""
    rows = [[int(it, 16) for it in word.split(":")] for word in words]
    return "b" + struct.pack("II", len(rows), 0).hex() + "".join(
        struct.pack("11I", *row, *[0] * 7).hex() for row in rows)


# Of each word of a script the call, where ID, TEXT, DATA and the like stand for what the words say.
CALLS = {
    "add": ("add", text, text, payload, "id"), "newring": ("add", b"keyring", text, "z n0", "id"),
    "request": ("request", text, text, "z", "to"), "id": ("keyctl n0", "id", "flag"),
    "join": ("keyctl n1", "name"), "update": ("keyctl n2", "id", payload), "revoke": ("keyctl n3", "id"),
    "chown": ("keyctl n4", "id", "number", "n-1"), "chgrp": ("keyctl n4", "id", "n-1", "number"),
    "setperm": ("keyctl n5", "id", "mask"), "rdescribe": ("keyctl n6", "id", "o"), "clear": ("keyctl n7", "id"),
    "link": ("keyctl n8", "id", "id"), "unlink": ("keyctl n9", "id", "id"),
    "search": ("keyctl n10", "id", text, text, "to"), "print": ("keyctl n11", "id", "o"),
    "timeout": ("keyctl n15", "id", "number"), "invalidate": ("keyctl n21", "id"),
    "restrict": ("keyctl n29", "id", "name", "z"), "move": ("keyctl n30", "id", "id", "id", "flag"),
    "watch": ("keyctl n32", "id", "queue", "watch"), "readq": ("read", "queue", "o"),
    "filter": ("ioctl", "queue", f"n{SET_FILTER}", "entries"),
}
NUMBERED = {"add", "newring", "request", "id", "join", "search", "hello", "thread", "fork"}
BYTES = {"print", "rdescribe", "readq"}


def call_of(word, words, serial):
    """The call that a line of a script is; `serial` has the serial that a word stands for."""
    said, rest = [], list(words)
    for part in CALLS[word]:
        if callable(part):
            said.append(part(rest.pop(0)))
        elif isinstance(part, bytes):
            said.append(text(part.decode()))
        elif part == "id":
            said.append(f"n{serial(rest.pop(0))}")
        elif part == "to":
            said.append(f"n{serial(rest.pop(0)) if rest else 0}")
        elif part == "number":
            said.append(f"n{rest.pop(0)}")
        elif part == "queue":
            said.append(f"n{QUEUES[int(rest.pop(0)) - 1]}")
        elif part == "watch":
            said.append(f"n{rest.pop(0).replace('off', '-1')}")
        elif part == "entries":
            said.append(entries(rest))
        elif part == "mask":
            said.append(f"n{int(rest.pop(0), 16)}")
        elif part == "name":
            said.append(text(rest.pop(0)) if rest else "z")
        elif part == "flag":
            flag = rest.pop(0) if rest else "0"
            said.append(f"n{flag if flag.isdigit() else 1}")
        else:
            said.append(part)
    return " ".join(said)


def serials(data, order):
    """The serials of a keyring, in a machine's order of bytes."""
    return [it for it, in struct.iter_unpack(f"{order}I", data)] if len(data) % 4 == 0 else None


def records(data, order):
    """Notes, each a tuple of type and subtype, info, and up to two words behind: linux/watch_queue.h."""
    found = []
    while data:
        length = max(8, data[4] & 0x7F) if len(data) > 4 else 8
        found.append(struct.unpack(f"{order}{length // 4}I", data[:length]))
        data = data[length:]
    return found


def has_notes():
    """Whether this kernel has pipes of notes, and so CONFIG_WATCH_QUEUE."""
    try:
        ends = os.pipe2(os.O_EXCL)
    except OSError:
        return False
    for it in ends:
        os.close(it)
    return True


class Calls:
    """Contexts that make system calls by lines, by contexts.c: each has a socket, by which it is asked and answers."""

    def __init__(self, words, env=None):
        pairs = [socket.socketpair(socket.AF_UNIX, socket.SOCK_SEQPACKET) for _ in range(CONTEXTS)]
        self.ends, self.taken = [pair[0] for pair in pairs], 1
        others = [fcntl.fcntl(pair[1], fcntl.F_DUPFD_CLOEXEC, ABOVE) for pair in pairs]
        for pair in pairs:
            pair[1].close()
            pair[0].settimeout(PATIENCE)
            pair[0].setsockopt(socket.SOL_SOCKET, socket.SO_SNDBUF, 1 << 18)
        actions = [(os.POSIX_SPAWN_DUP2, it, FIRST + at) for at, it in enumerate(others)]
        actions += [(os.POSIX_SPAWN_OPEN, it, os.devnull, os.O_RDWR, 0) for it in (1, 2)]
        self.pid = os.posix_spawnp(words[0], words, {**os.environ, **(env or {})}, file_actions=actions)
        for it in others:
            os.close(it)

    def receive(self, context):
        try:
            said = self.ends[context].recv(1 << 18).decode()
        except OSError as error:
            raise Lost(f"context {context}: {error}") from error
        if not said:
            raise Lost(f"context {context} is gone")
        value, _, data = said.partition(" ")
        return int(value), bytes.fromhex(data)

    def say(self, context, line):
        try:
            self.ends[context].send(line.encode())
        except OSError as error:
            raise Lost(f"context {context}: {error}") from error
        return self.receive(context)

    def make(self, context, how):
        """Another context, by a thread or a fork of one."""
        number = self.taken
        if number == CONTEXTS:
            raise Lost("contexts")
        self.taken += 1
        if self.say(context, f"{how} {number}")[0] < 0:
            raise Lost(how)
        return number

    def control(self, context, word):
        self.say(context, word)

    def fill(self, context, count, ring):
        return self.say(context, f"fill {count} {ring}")[0]

    def answer(self, context, word, words, serial):
        """What a line is answered."""
        value, data = self.say(context, call_of(word, words, serial))
        if value < 0:
            return NAMES.get(-value, str(-value))
        if word == "rdescribe":
            return data[:-1]
        return data if word in BYTES else value if word in NUMBERED else None

    def close(self):
        for it in self.ends:
            it.close()


class Kernel(Calls):
    """The kernel's keyrings, in a user namespace of its own, or where `root` is said among all users."""

    def __init__(self, program, root=False):
        super().__init__([program, "beside" if root else "apart"])
        self.root, self.users = root, set()
        child = self.receive(0)[0]
        if not root:
            for name in "uid", "gid":
                with open(f"/proc/{child}/{name}_map", "w", encoding="ascii") as file:
                    file.write(MAPS)
        self.ends[0].send(b"g")
        self.receive(0)
        self.notes = has_notes()
        for it in QUEUES if self.notes else ():  # all contexts inherit them
            if self.say(0, f"pipe2 p n{os.O_EXCL | os.O_NONBLOCK}")[0] or self.say(
                    0, f"ioctl n{it} n{SET_SIZE} n{CAPACITY}")[0]:
                raise Lost("a pipe of notes")
        self.helper = self.make(0, "fork")
        self.inherits = self.has_session()
        self.sentinels = self.say(self.helper, "keyctl n1 z")[0]

    def has_session(self):
        """Whether a session is handed on to all contexts: that of a login, from above."""
        session = self.say(self.helper, "keyctl n0 n-3 n0")[0]
        return b";_uid_ses." not in self.say(self.helper, f"keyctl n6 n{session} o")[1]

    def hello(self, words):
        number = self.make(0, "fork")
        self.users.add(words[0])
        if self.say(number, f"user {' '.join(words)}")[0]:
            raise Lost(f"hello {' '.join(words)}")
        if self.inherits:  # the user-session keyring in its place, as if there were none
            self.say(number, "keyctl n0 n-5 n0")
            self.say(number, f"keyctl n1 {text('_uid_ses.' + words[0])}")
        return number

    def is_there(self, serial):
        """Whether there is still something of a key: what isn't linked is ENOENT, in whatever state, for everybody."""
        return self.say(self.helper, f"keyctl n9 n{serial} n{self.sentinels}")[0] != -errno.ENOKEY

    def settle(self):
        self.say(self.helper, "settle")

    def collect(self):
        """Waits until the collector has been through all keys once, from its beginning."""
        for _ in range(2):
            key, _ = self.say(self.helper, f"add {text('user')} {text('sentinel')} b00 n1 n{self.sentinels}")
            self.say(self.helper, f"keyctl n21 n{key}")
            end = time.monotonic() + PATIENCE
            while self.say(self.helper, f"keyctl n11 n{self.sentinels} o")[0] > 0:
                if time.monotonic() > end:
                    raise Lost("the collector")
                time.sleep(0.0005)

    def leave(self):
        """Takes the user keyrings away that a user namespace would have kept."""
        for uid in self.users - {"0"}:
            number = self.make(0, "fork")
            self.say(number, f"user {uid} {uid}")
            rings = [self.say(number, f"keyctl n0 n{it} n0")[0] for it in (-4, -5)]  # both before one is made anew
            for ring in rings:
                self.say(number, f"keyctl n21 n{ring}")
        self.collect()

    def end(self):
        with contextlib.suppress(Lost):
            if self.root:
                self.leave()
        os.kill(self.pid, signal.SIGKILL)
        os.waitpid(self.pid, 0)
        if self.root:  # what held sessions is let go a little later, and the next script could join them by their names
            time.sleep(0.2)
        self.close()


class Script:
    """`keyretain script`, by its lines. A context is named by its number, and `current` is the current one."""

    def __init__(self, program):
        pipes = {"stdin": subprocess.PIPE, "stdout": subprocess.PIPE, "stderr": subprocess.DEVNULL}
        self.process = subprocess.Popen([program, "script"], **pipes)
        self.current = 0

    def say(self, line):
        try:
            self.process.stdin.write(line.encode() + b"\n")
            self.process.stdin.flush()
            if not select.select([self.process.stdout], [], [], PATIENCE)[0]:
                raise Lost("keyretain script")
            said = self.process.stdout.readline()
        except OSError as error:
            raise Lost("keyretain script") from error
        if said in (b"", b"usage\n"):
            raise Lost(f"keyretain script: {said!r} to {line[:100]}")
        return said[:-1]

    def answer(self, context, word, words, serial):
        if context != self.current:
            self.say(f"context {context}")
            self.current = context
        said = self.say(" ".join([word, *(str(serial(it)) if it.startswith("$") else it for it in words)]))
        if said.startswith(b"error "):
            return said.split(b" ")[2].decode()
        if word in NUMBERED:
            return int(said)
        if word == "readq":
            return bytes.fromhex(said.decode())
        if word in BYTES:
            return bytes.fromhex(said[5:].decode()) if said.startswith(b":hex:") else said
        return None

    def hello(self, words):
        self.current = int(self.say(" ".join(["hello", *words])))
        return self.current

    def make(self, context, how):
        return self.answer(context, how, [], None)

    def control(self, context, word):
        self.answer(context, word, [], None)

    def fill(self, context, count, ring):
        """Adds so many keys f0, f1 .. to a keyring. Returns how many were refused."""
        self.answer(context, "rdescribe", [str(ring)], None)
        return sum(self.say(f"add user f{at} v {ring}").startswith(b"error") for at in range(count))

    def set_moment(self, moment):
        self.say(f"moment {moment}")

    def end(self):
        self.process.stdin.close()
        self.process.wait(PATIENCE)
        self.process.stdout.close()


class Session(Calls):
    """The same calls under `keyretain-session --syscalls`, with a daemon of its own, by one user in one session."""

    def __init__(self, program, folder, keyretaind):
        self.room = tempfile.mkdtemp(dir=folder)
        os.chmod(self.room, 0o711)
        self.moment, path = f"{self.room}/moment", f"{self.room}/sock"
        self.set_moment(0)
        with_clock = {**os.environ, "KEYRETAIN_MOMENT": self.moment, "LD_PRELOAD": f"{folder}/hooks.so"}
        self.daemon = daemons.Daemon(keyretaind, path, env=with_clock)
        os.chmod(path, 0o666)
        super().__init__(["setpriv", "--reuid", OF_SESSION, "--regid", OF_SESSION, "--clear-groups",
                          f"{folder}/c/keyretain-session", "--syscalls", "--", program, "within"],
                         {"KEYRETAIN_SOCKET": path})
        try:
            self.receive(0)
        except Lost:
            self.end()
            raise

    def set_moment(self, moment):
        with open(self.moment, "r+b" if os.path.exists(self.moment) else "wb") as file:
            file.write(struct.pack("<Q", moment))

    def hello(self, words):
        return 0

    def control(self, context, word):
        super().control(context, word)
        if word == "exit":
            time.sleep(0.05)  # who asks first while its maker is still ending may be in no session

    def end(self):
        self.close()  # so all contexts end, and with them the session
        os.waitpid(self.pid, 0)
        self.daemon.end()
        shutil.rmtree(self.room)
