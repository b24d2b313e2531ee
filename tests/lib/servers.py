"""Servers that answer as a test says, for the tests of clients."""
import os
import socket
import struct
import tempfile
import threading
from contextlib import contextmanager, suppress

from compare import attempt, compare, conclude, outcome, skipped  # noqa: F401 # for who imports this
import keyretain
from versions import number, reply


class End:
    """The server's end of a connection, which takes whole asks of version 2."""

    def __init__(self, end):
        self.socket, self.context = end, 0

    def __enter__(self):
        return self

    def __exit__(self, *_):
        self.socket.close()

    def asks(self):
        """Yields the tag, the name and the values of each ask; `context` is that of the last."""
        while head := self.socket.recv(4, socket.MSG_WAITALL):
            rest = self.socket.recv(struct.unpack("<I", head)[0], socket.MSG_WAITALL)
            version, operation, self.context, tag = struct.unpack_from("<HHIQ", rest)
            if version != 2:
                return
            name = keyretain.name_of(operation)
            yield tag, name, keyretain.decode_body(name, rest[16:])


def plain(name, values):
    """What is answered by a daemon whose keys hold their serials as text."""
    form = keyretain.ASKS[name].answer
    return b"%d" % (values[0] if values else 0) if form == "bytes" else b"" if form == "nothing" else number(77)


def answer_all(end):
    """As a daemon that knows every key."""
    for tag, name, values in end.asks():
        end.socket.sendall(reply(tag, plain(name, values)))


@contextmanager
def served(serve=answer_all, backlog=8):
    """A path where each connection is served by `serve(end)`, in a thread of its own."""
    def run(end):
        with suppress(OSError), end:
            serve(end)

    def accept():
        while True:
            try:
                end = End(listener.accept()[0])
            except OSError:
                return
            threading.Thread(target=run, args=(end,), daemon=True).start()

    with tempfile.TemporaryDirectory(prefix="keyretain.") as folder, socket.socket(socket.AF_UNIX) as listener:
        listener.bind(folder + "/sock")
        listener.listen(backlog)
        threading.Thread(target=accept, daemon=True).start()
        yield folder + "/sock"
        listener.shutdown(socket.SHUT_RDWR)


@contextmanager
def client_of(serve=answer_all, timeout=20):
    """A client whose server is that."""
    with served(serve) as path, keyretain.Client(path, timeout) as client:
        yield client


def in_child(run, fork=os.fork):
    """A child that runs this, given the writing end of a pipe, and its reading end."""
    read, write = os.pipe()
    child = fork()
    if child == 0:
        os.close(read)
        try:
            run(write)
        finally:
            os._exit(0)
    os.close(write)
    return child, read


def told_by(run, fork=os.fork):
    """What a child that runs this writes."""
    child, read = in_child(run, fork)
    with os.fdopen(read) as answered:
        text = answered.read()
    os.waitpid(child, 0)
    return text
