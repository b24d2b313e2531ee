"""The ways to ask: each plays lines on a store that nobody has used, and answers what is printed for each.

A daemon under test has a clock of its own (hooks.c), so that `moment` sets the time on each way."""
import ctypes
import errno
import os
import shutil
import socket
import struct
import subprocess
import tempfile

import daemons
import keyretain
import versions
from compare import outcome
from lines import Player, ask_of, printed

PATIENCE = 120
AHEAD = 64
FIRST_MOMENT = 1_000_000_000


class Programs:
    """What is under test: set once, by alike.py."""

    keyretain = keyretaind = hooks = library = keyutils = session = guard = folder = None


def environment(**more):
    kept = {name: value for name, value in os.environ.items() if not name.startswith("KEYRETAIN_")}
    return {**kept, **more}


class Daemon:
    """A daemon on a path of its own, and the file that has its moment. A clock that is set back counts as it was, so
    the first moment is that with which lines begin."""

    first_moment = FIRST_MOMENT

    def __init__(self, guarded=False):
        self.folder = tempfile.mkdtemp(dir=Programs.folder)
        os.chmod(self.folder, 0o711)
        self.moment = f"{self.folder}/moment"
        self.set_moment(self.first_moment)
        self.path = f"{self.folder}/sock"
        with_clock = environment(KEYRETAIN_MOMENT=self.moment, LD_PRELOAD=Programs.hooks)
        self.programs = [daemons.Daemon(Programs.keyretaind, self.path, env=with_clock)]
        if guarded:
            trusts = "--trust", os.geteuid(), "--connections", 32
            guard = daemons.Guard(Programs.guard, f"{self.folder}/public", self.path, *trusts, env=environment())
            self.programs.insert(0, guard)
            self.path = guard.path

    def set_moment(self, moment):
        with open(self.moment, "r+b" if os.path.exists(self.moment) else "wb") as file:
            file.write(struct.pack("<Q", moment))

    def end(self):
        for program in self.programs:
            program.end()
        shutil.rmtree(self.folder)


class Process:
    """A program that is given lines, and prints one for each."""

    def __init__(self, words, env=None):
        pipes = {"stdin": subprocess.PIPE, "stdout": subprocess.PIPE}
        self.process = subprocess.Popen(words, env=env or environment(), text=True, **pipes)

    def play(self, lines):
        """Not so many at once that both could wait for each other."""
        answers, at = [], 0
        while at < len(lines):
            piece = [lines[at]]
            while len(piece) < AHEAD and at + len(piece) < len(lines) and sum(map(len, piece)) < 16384:
                piece.append(lines[at + len(piece)])
            self.process.stdin.write("".join(f"{line}\n" for line in piece))
            self.process.stdin.flush()
            answers += [self.process.stdout.readline().rstrip("\n") for _ in piece]
            at += len(piece)
        return answers

    def end(self):
        self.process.stdin.close()
        self.process.wait(PATIENCE)
        self.process.stdout.close()


class Script(Process):
    """`keyretain script`, on a store of its own."""

    name = "a script"

    def __init__(self):
        super().__init__([Programs.keyretain, "script"])


class OfDaemon:
    """A way with a daemon of its own, or as one client of that which is given. Moments are set between lines."""

    guarded = False

    def __init__(self, daemon=None):
        self.daemon, self.is_own = daemon or Daemon(self.guarded), daemon is None
        self.begin()

    def play(self, lines):
        answers, piece = [], []
        for line in [*lines, None]:
            if line is not None and not line.startswith("moment "):
                piece.append(line)
                continue
            answers += self.play_piece(piece)
            piece = []
            if line:
                self.daemon.set_moment(int(line.split()[1]))
                answers.append("ok")
        return answers

    def end(self):
        self.close()
        if self.is_own:
            self.daemon.end()


class Piped(OfDaemon):
    """By a program that is given the lines, which `begin` starts."""

    def play_piece(self, lines):
        return self.program.play(lines)

    def close(self):
        self.program.end()


class RemoteScript(Piped):
    """`keyretain --socket PATH script`."""

    name = "a script over a socket"

    def begin(self):
        self.program = Process([Programs.keyretain, "--socket", self.daemon.path, "script"])


class OneByOne(OfDaemon):
    """By a function that carries out one ask."""

    def begin(self):
        self.player = Player(self.ask, None)
        self.connect()

    def play_piece(self, lines):
        return [self.player.play(line) for line in lines]


class Frames(OfDaemon):
    """Frames, many in one write. Their versions are drawn from `versions` in turn."""

    versions = (1,)

    def begin(self):
        self.end_of_it = daemons.connect(self.daemon.path)
        self.end_of_it.settimeout(PATIENCE)
        self.received, self.context, self.asked = b"", 0, 0

    def play_piece(self, lines):
        """A HELLO says in which context the asks behind it are, so its reply is awaited."""
        answers, waiting = [], []
        for line in lines:
            name, values = ask_of(line)
            if name == "context":
                answers += self._exchange(waiting)
                answers.append("ok")
                self.context, waiting = values, []
                continue
            waiting.append((name, self.context, values))
            if name == "HELLO" or len(waiting) == AHEAD:
                answers += self._exchange(waiting)
                waiting = []
                if name == "HELLO" and answers[-1].isdigit():
                    self.context = int(answers[-1])
        return answers + self._exchange(waiting)

    def _exchange(self, asks):
        sent, answers = b"", []
        for at, (name, context, values) in enumerate(asks):
            sent += versions.encode_ask(name, context, values, self._version(at), self.asked + at)
        self._send(sent)
        for at, (name, _, _) in enumerate(asks):
            answers.append(self._receive(name, self._version(at), self.asked + at))
        self.asked += len(asks)
        return answers

    def _version(self, at):
        return self.versions[(self.asked + at) % len(self.versions)]

    def _send(self, sent):
        """Replies are taken meanwhile, as a daemon whose replies aren't taken reads no more."""
        at = 0
        while at < len(sent):
            try:
                at += self.end_of_it.send(sent[at:at + 65536], socket.MSG_DONTWAIT)
            except BlockingIOError:
                self.received += self.end_of_it.recv(65536)

    def _receive(self, name, version, tag):
        while (reply := versions.decode_reply(self.received, version)) is None:
            piece = self.end_of_it.recv(65536)
            if not piece:
                return "the end"
            self.received += piece
        self.received = self.received[reply.length:]
        if reply.tag not in (None, tag):
            return f"the tag {reply.tag}"
        return printed(name, outcome(keyretain.answer_of, name, reply))

    def close(self):
        self.end_of_it.close()


class Frames1(Frames):
    name = "frames of version 1"


class Frames2(Frames):
    name, versions = "frames of version 2", (2,)


class FramesOfBoth(Frames):
    name, versions = "frames of both versions behind the guard", (2, 1, 1)
    guarded = True


def takes_context(name):
    """Whether the clients' functions for an ask take a context, as the Python client's method says."""
    return "context" in getattr(keyretain.Client, name.lower()).__annotations__


class Python(OneByOne):
    """The Python client's methods."""

    name = "the Python client"

    def connect(self):
        self.client = keyretain.Client(self.daemon.path, timeout=PATIENCE)

    def ask(self, name, context, values):
        try:
            if name == "READ_QUEUE":  # its method gives records
                return self.client.ask(name, 0, *values)
            method = getattr(self.client, name.lower())
            if method.__defaults__ and not method.__defaults__[-1] and not values[-1]:
                values = values[:-1]  # its method has that where it isn't given
            answer = method(context, *values) if takes_context(name) else method(*values)
            return answer.encode() if name == "DESCRIBE" and isinstance(answer, str) else answer
        except keyretain.Refused as refused:
            return refused.name

    def close(self):
        self.client.close()


def name_of_error():
    number = ctypes.get_errno()
    return next((name for status, name in keyretain.STATUSES.items() if status == number),
                errno.errorcode.get(number, str(number)))


class Library(OneByOne):
    """The functions of libkeyretain."""

    name = "the C library"
    LONG = [name for name, ask in keyretain.ASKS.items() if ask.answer in ("number", "bytes")]
    ROOM = 1 << 18

    def connect(self):
        self.library = ctypes.CDLL(Programs.library, use_errno=True)
        self.library.kr_open.restype = ctypes.c_void_p
        for name in self.LONG:
            getattr(self.library, f"kr_{name.lower()}").restype = ctypes.c_int64
        self.connection = ctypes.c_void_p(self.library.kr_open(self.daemon.path.encode()))
        self.room = ctypes.create_string_buffer(self.ROOM)

    def ask(self, name, context, values):
        words, form = [ctypes.c_uint32(context)] if takes_context(name) else [], keyretain.ASKS[name].answer
        for value in values:
            words += self._words(name, value)
        if name == "ADD":  # the payload's length comes behind it
            words.insert(4, ctypes.c_size_t(len(values[2])))
        if name == "UPDATE":
            words.append(ctypes.c_size_t(len(values[1])))
        if form == "bytes":
            room = values[1] if name == "READ_QUEUE" else self.ROOM
            words = words[:1 if name == "READ_QUEUE" else None] + [self.room, ctypes.c_size_t(room)]
        answer = getattr(self.library, f"kr_{name.lower()}")(self.connection, *words)
        if answer == -1:
            return name_of_error()
        return self.room.raw[:answer] if form == "bytes" else None if form == "nothing" else answer

    @staticmethod
    def _words(name, value):
        if isinstance(value, int):
            return [ctypes.c_uint32(value & 0xFFFFFFFF)]
        if isinstance(value, bytes):
            return [value]
        if name == "HELLO":
            return [ctypes.c_uint32(len(value)), (ctypes.c_uint32 * len(value))(*value)]
        return [ctypes.c_uint32(len(value)), b"".join(keyretain.ENTRY.pack(*it) for it in value)]

    def close(self):
        self.library.kr_close(self.connection)


# ---- What programs ask that know nothing of keyretain: calls.py carries the lines out


class Calls(Piped):
    """A program that makes the calls, in the one context that it has: run by some words, and by a library or none."""

    def begin_by(self, words, library):
        env = environment(KEYRETAIN_SOCKET=self.daemon.path, PYTHONPATH=os.environ.get("PYTHONPATH", ""))
        self.program = Process([*words, "python3", "-B", f"{os.path.dirname(__file__)}/calls.py", library], env)


class Keyutils(Calls):
    name = "libkeyutils"

    def begin(self):
        self.begin_by([], Programs.keyutils)


class SystemCalls(Calls):
    name = "system calls"

    def begin(self):
        self.begin_by([Programs.session, "--syscalls", "work", "--"], "-")


class GuardedSystemCalls(SystemCalls):
    name, guarded = "system calls behind the guard", True
