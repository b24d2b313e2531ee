"""both.py PATH LIBRARY: libkeyretain, which is LIBRARY, and the Python client on one daemon that nobody has used. What
one adds the other reads, updates, revokes and watches, and what one client alone kept is gone when it ends."""
import ctypes
import errno
import os
import signal
import sys
import time

from servers import compare, conclude, keyretain, number, outcome, reply, served
from keyretain import Loss, Note, Removal

ALL = 0x3F3F3F3F
THREAD, SESSION, USER = keyretain.THREAD, keyretain.SESSION, keyretain.USER


class Library:
    """A connection of libkeyretain. A refused call answers the name of its error."""

    def __init__(self, path=sys.argv[1]):
        self.library = ctypes.CDLL(sys.argv[2], use_errno=True)
        self.library.kr_open.restype = ctypes.c_void_p
        for name in (it for it, ask in keyretain.ASKS.items() if ask.answer in ("number", "bytes")):
            getattr(self.library, f"kr_{name.lower()}").restype = ctypes.c_int64
        self.connection = ctypes.c_void_p(self.library.kr_open(path.encode()))

    def ask(self, name, *words):
        """kr_NAME. Texts are bytes, numbers are of 32 bits."""
        numbers = [ctypes.c_uint32(word & 0xFFFFFFFF) if isinstance(word, int) else word for word in words]
        answered = getattr(self.library, "kr_" + name)(self.connection, *numbers)
        return errno.errorcode[ctypes.get_errno()] if answered == -1 else answered

    def ask_bytes(self, name, *words):
        """The same, of a call that puts its answer into a buffer."""
        buffer = ctypes.create_string_buffer(4096)
        answered = self.ask(name, *words, buffer, ctypes.c_size_t(len(buffer)))
        return answered if isinstance(answered, str) else buffer.raw[:answered]

    def add(self, context, description, payload, ring):
        return self.ask("add", context, b"user", description, payload, ctypes.c_size_t(len(payload)), ring)

    def update(self, context, key, payload):
        return self.ask("update", context, key, payload, ctypes.c_size_t(len(payload)))

    def read(self, context, key):
        return self.ask_bytes("read", context, key)

    def read_queue(self, queue):
        records = self.ask_bytes("read_queue", queue)
        return [] if records == "EAGAIN" else keyretain.decode_notes(records)

    def close(self):
        self.library.kr_close(self.connection)


def until_noted(read_queue, queue):
    """The notes of a queue, once there are any: the daemon sees a little later that a client has gone."""
    for _ in range(500):
        if notes := read_queue(queue):
            return notes
        time.sleep(0.02)
    return []


def try_keys(c, python, own, other):
    """`own` is the context of the library, `other` that of the Python client. Answers the keys that stay."""
    first, second = python.add(other, "user", "a b\n", b"\0\xff", USER), c.add(own, b"second", b"two", USER)
    python.setperm(other, first, ALL)
    compare("a mask", 0, c.ask("setperm", own, second, ALL))
    compare("a payload of Python's", b"\0\xff", c.read(own, first))
    compare("a payload of the library's", b"two", python.read(other, second))
    for key in (first, second, USER):
        compare("a description", python.describe(other, key), c.ask_bytes("describe", own, key))
        compare("rights on another's context", "ESRCH", c.ask("get_id", other, key, 0))
    compare("links", python.read(other, USER), c.read(own, USER))
    compare("a search by the library", first, c.ask("search", own, USER, b"user", b"a b\n", 0))
    compare("a search by Python", second, python.search(other, USER, "user", "second"))
    return first, second


def try_notes(c, python, own, other, first, second):
    """Both watch all, and each changes what the other has added."""
    queues, user = (c.ask("open_queue", 64), python.open_queue(64)), python.get_id(other, USER)
    for number, key in enumerate((first, second, USER), 1):
        compare("a watch", 0, c.ask("watch", own, key, queues[0], 100 + number))
        python.watch(other, key, queues[1], number)
    compare("Python's queue", "EBADF", c.ask_bytes("read_queue", queues[1]))
    compare("the library's queue", "EBADF", outcome(python.read_queue, queues[0]))
    ring = python.add(other, "keyring", "ring", b"", USER)
    python.setperm(other, ring, ALL)
    compare("an update of Python's", 0, c.update(own, first, b"new"))
    python.update(other, second, b"newer")
    compare("what the library wrote", b"new", python.read(other, first))
    compare("what Python wrote", b"newer", c.read(own, second))
    compare("a move", 0, c.ask("move", own, second, USER, ring, 0))
    python.move(other, second, ring, USER, True)
    compare("a timeout", 0, c.ask("set_timeout", own, first, 100))
    python.revoke(other, second)
    compare("what Python revoked", "EKEYREVOKED", c.read(own, second))
    compare("an end of Python's", 0, c.ask("invalidate", own, first))
    compare("what the library ended", "ENOKEY", outcome(python.read, other, first))
    python.clear(other, USER)
    for add, read, queue in ((100, c.read_queue, queues[0]), (0, python.read_queue, queues[1])):
        compare("the notes", [
            Note(add + 3, "linked", user, ring), Note(add + 1, "updated", first, 0),
            Note(add + 2, "updated", second, 0), Note(add + 3, "unlinked", user, second),
            Note(add + 3, "linked", user, second), Note(add + 1, "attributes set", first, 0),
            Note(add + 2, "revoked", second, 0), Note(add + 1, "invalidated", first, 0), Removal(add + 1, first),
            Note(add + 3, "cleared", user, 0), Removal(add + 2, second)], read(queue))
        compare("no more notes", [], read(queue))


def try_filters(c, python, own, other):
    """Each has a queue of two records, and its own filter on one key."""
    key = c.add(own, b"key", b"v", USER)
    c.ask("setperm", own, key, ALL)
    queues, updates, attributes = (c.ask("open_queue", 2), python.open_queue(2)), 1 << 1, 1 << 7
    entry = keyretain.ENTRY.pack(1, 0, 0, attributes, *[0] * 7)
    compare("a filter", 0, c.ask("set_filter", queues[0], 1, entry))
    python.set_filter(queues[1], [(1, 0, 0, updates, *[0] * 7)])
    compare("a watch", 0, c.ask("watch", own, key, queues[0], 8))
    python.watch(other, key, queues[1], 7)
    for _ in range(3):
        compare("an update", 0, c.update(own, key, b"w"))
        python.setperm(other, key, ALL)
    compare("what the library's filter passed", [Note(8, "attributes set", key, 0)] * 2 + [Loss()],
            c.read_queue(queues[0]))
    compare("what Python's filter passed", [Note(7, "updated", key, 0)] * 2 + [Loss()], python.read_queue(queues[1]))


def try_ends(c, python, own, other):
    """A session of one name is shared. The library ends, and what it alone kept is gone."""
    session = python.join(other, "work")
    python.setperm(other, session, ALL)
    compare("the session of a name", session, c.ask("join", own, b"work"))
    shared, alone = c.add(own, b"shared", b"s", SESSION), c.add(own, b"alone", b"t", THREAD)
    c.ask("setperm", own, alone, ALL)
    compare("a request for what is shared", shared, python.request(other, "user", "shared"))
    compare("a request for what isn't", "ENOKEY", outcome(python.request, other, "user", "alone"))
    queue = python.open_queue(8)
    python.watch(other, alone, queue, 200)
    c.close()
    compare("the library has gone", [Removal(200, alone)], until_noted(python.read_queue, queue))
    compare("its key", "ENOKEY", outcome(python.read, other, alone))
    compare("the shared one", b"s", python.read(other, shared))
    python.setperm(other, shared, ALL)
    return shared


def try_python_ends(python, shared):
    """The same the other way round."""
    c = Library()
    own, queue = c.ask("hello", 1000, 1000, 0, None), c.ask("open_queue", 8)
    compare("a watch", 0, c.ask("watch", own, shared, queue, 5))
    python.close()
    compare("Python has gone", [Removal(5, shared)], until_noted(c.read_queue, queue))
    compare("its key", "ENOKEY", c.read(own, shared))
    c.close()


def try_made_just_now(c, python):
    """A session may have had the serial that JOIN gives next, of a daemon before: that isn't entered."""
    ids = os.geteuid(), os.getegid()
    own, other = c.ask("hello", *ids, 0, None), python.hello(*ids)
    named = b"%d:new" % (python.join(other) + 1)
    compare("a session of that serial that is made just now", "EKEYREVOKED", c.ask("enter_session", own, named))


def try_unanswered():
    """A JOIN by a name that isn't answered in time, or is interrupted, may be carried out yet, when another user's
    keyring has the name: so its context ends."""
    def serve(end):
        for tag, name, _ in end.asks():
            asked.append(name)
            if name == "HELLO":
                end.socket.sendall(reply(tag, number(1)))

    def by_library(path, interrupts=False):
        c = Library(path)
        c.library.kr_set_patience(c.connection, 20000 if interrupts else 300)
        c.library.kr_set_interruptible(c.connection, interrupts)
        c.ask("hello", 1000, 1000, 0, None)
        signal.setitimer(signal.ITIMER_REAL, 0.3 if interrupts else 0)
        return c.ask("enter_session", 1, b"5:work"), c.close()

    def interrupted(path):
        signal.signal(signal.SIGALRM, lambda *_: None)
        return by_library(path, True)

    def by_python(path):
        with keyretain.Client(path, timeout=0.3) as client:
            return (outcome(client.enter_session, client.hello(1000, 1000), "5:work"),)

    for run, refused in (by_library, "ETIMEDOUT"), (interrupted, "EINTR"), (by_python, "TimeoutError"):
        asked = []
        with served(serve) as path:
            compare(f"a session that isn't entered in time: {run.__name__}", refused, run(path)[0])
            time.sleep(0.2)
            compare(f"what was asked: {run.__name__}", ["HELLO", "JOIN", "EXIT"], asked)


def main():
    c, python = Library(), keyretain.Client(sys.argv[1], timeout=20)
    own, other = c.ask("hello", 1000, 1000, 0, None), python.hello(1000, 1000)
    try_notes(c, python, own, other, *try_keys(c, python, own, other))
    try_filters(c, python, own, other)
    try_made_just_now(c, python)
    try_python_ends(python, try_ends(c, python, own, other))
    try_unanswered()
    conclude()


main()
