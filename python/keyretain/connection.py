"""A connection: how it is made, how asks go out on it, and how the reply to each is found.

The socket doesn't block. Each call waits in poll(2) alone, until one moment of the monotonic clock. An exception may
come anywhere, also from a handler of a signal. One that comes while nothing is half done leaves the connection as it
was. Any other ends it: `_cut` is True while a frame is sent or bytes are taken, so that what ends a call in its midst
leaves it True.
"""
from __future__ import annotations

import errno
import fcntl
import os
import select
import socket
import struct
import time
import weakref
from collections import deque
from typing import Any, NamedTuple, Optional, Union

from .errors import Lost, Malformed, TooFarAhead
from .frames import SHORTEST_REPLY, Reply, decode_reply, make_ask
from .places import Peer, Place, check

AHEAD = 256  # asks that may await receive(): each may be answered with some 256 KiB
PIECE = 1 << 16
LONGEST_PAUSE = 0.05  # seconds between two attempts to connect
LONGEST_WAIT = 2**31 - 1  # milliseconds, of poll(2)
CREDENTIALS = struct.Struct("=iII")

CUT = "a call ended in the midst of a frame"
PARENTS = "the connection is the parent's"
CLOSED = "the program closed the connection's descriptor"


class Deadline:
    """The moment at which a call gives up; without seconds it never does."""

    def __init__(self, seconds: Optional[float]) -> None:
        self._end = None if seconds is None else time.monotonic() + seconds
        self._is_over = False

    def left(self) -> Optional[float]:
        """Seconds from now on, or None. Once there are none one look is made, and then TimeoutError raised."""
        if self._end is None:
            return None
        left = max(0.0, self._end - time.monotonic())
        if left == 0 and self._is_over:
            raise TimeoutError(errno.ETIMEDOUT, os.strerror(errno.ETIMEDOUT))
        self._is_over = left == 0
        return left

    def sleep(self, seconds: float) -> None:
        left = self.left()
        time.sleep(seconds if left is None else min(seconds, left))

    def wait(self, poll: select.poll) -> None:
        """Until one of these sockets is ready."""
        ready: list[Any] = []
        while not ready:
            left = self.left()
            ready = poll.poll(None if left is None else min(1000 * left, LONGEST_WAIT))


class Asked(NamedTuple):
    """An ask that was sent. Its reply is kept for receive() if it was sent ahead, and else for the call that waits."""

    name: str
    tag: int
    is_ahead: bool


# ---- Bytes that may be secret: a bytearray that grows, or whose front is taken away, leaves a copy behind. So each is
# made anew, and the old one is wiped.


def wipe(held: Union[bytearray, memoryview]) -> None:
    held[:] = bytes(len(held))


def _joined(held: bytearray, more: memoryview) -> bytearray:
    both = bytearray().join((held, more))
    wipe(held)
    wipe(more)
    return both


def _behind(held: bytearray, at: int) -> bytearray:
    left = bytearray(memoryview(held)[at:])
    wipe(held)
    return left


# ---- Sockets


def _open_socket() -> socket.socket:
    """One whose number isn't that of an input or output which was closed."""
    opened = socket.socket(socket.AF_UNIX)
    if opened.fileno() > 2:
        return opened
    with opened:
        return socket.socket(fileno=fcntl.fcntl(opened, fcntl.F_DUPFD_CLOEXEC, 3))


def _connect(end: socket.socket, place: Place, deadline: Deadline) -> None:
    """A daemon whose backlog is full is asked again until the deadline: unix(7) has no event for it."""
    pause = 0.001
    end.setblocking(False)
    while True:
        try:
            return end.connect(os.fspath(place.path))
        except BlockingIOError:
            deadline.sleep(pause)
            pause = min(2 * pause, LONGEST_PAUSE)
        except OSError as error:
            if error.errno is None:  # Python's own, before it asks the system
                raise OSError(errno.ENAMETOOLONG, os.strerror(errno.ENAMETOOLONG), place.path) from error
            error.filename = place.path
            raise


def _identity_of(end: socket.socket) -> Optional[tuple[int, int]]:
    """What tells a socket from whatever else may have its number later; None where that is closed."""
    try:
        status = os.fstat(end.fileno())
    except OSError:
        return None
    return status.st_dev, status.st_ino


def peer_of(end: socket.socket) -> Peer:
    """Who listened when this socket was connected."""
    return Peer(*CREDENTIALS.unpack(end.getsockopt(socket.SOL_SOCKET, socket.SO_PEERCRED, CREDENTIALS.size)))


# ---- Forks: a child has no part in its parent's connections

_forks = 0
_open: weakref.WeakSet[Connection] = weakref.WeakSet()


def _in_child() -> None:
    """Closes the child's copies, which would keep the parent's connections from ending."""
    global _forks
    _forks += 1
    for connection in list(_open):
        connection.end(PARENTS, forget=True)


os.register_at_fork(after_in_child=_in_child)


# ---- A connection


class Connection:
    """What Client has of the daemon: asks go out, and replies come in, in order."""

    def __init__(self, place: Place, deadline: Deadline) -> None:
        self._owner = (os.getpid(), _forks)
        self._lost, self._cut = "", False
        self._received, self._last = bytearray(), 0
        self._room = memoryview(bytearray(PIECE))
        self._waiting: deque[Asked] = deque()
        self._come: deque[tuple[Asked, Reply]] = deque()
        self._answer: Optional[Reply] = None
        self._awaited = 0  # the tag of the ask for which a call waits
        self._socket = _open_socket()
        self._identity = _identity_of(self._socket)
        _open.add(self)
        try:
            _connect(self._socket, place, deadline)
            self.peer = peer_of(self._socket)
            check(self.peer, place)
        except BaseException:
            self._socket.close()
            raise
        self._readable, self._either = select.poll(), select.poll()
        self._readable.register(self._socket, select.POLLIN)
        self._either.register(self._socket, select.POLLIN | select.POLLOUT)

    def end(self, why: str, forget: bool = False) -> None:
        """From here on each call raises Lost, and says why; but first receive() gives the answers that have come,
        unless they are to be forgotten. A program may have closed the descriptor, and have something else under its
        number."""
        self._lost = self._lost or why
        if self._identity == _identity_of(self._socket):
            self._socket.close()
        else:
            self._socket.detach()
        self._received = _behind(self._received, len(self._received))
        self._drop_answer()
        if forget:
            for _, reply in self._come:
                wipe(reply.body)
            self._come.clear()

    def _drop_answer(self) -> None:
        if self._answer is not None:
            wipe(self._answer.body)
        self._answer = None

    def check(self) -> None:
        """Lost where the connection can't be used."""
        if self._owner != (os.getpid(), _forks):
            self.end(PARENTS, forget=True)
        if not self._lost and self._identity != _identity_of(self._socket):
            self.end(CLOSED, forget=True)
        if self._cut:
            self.end(CUT)
        if self._lost:
            raise Lost(self._lost)

    def _fail(self, error: OSError) -> OSError:
        """Ends the connection for this error."""
        self.end(error.strerror, forget=not isinstance(error, Lost))
        return error

    # Asks

    def send(self, name: str, context: int, values: tuple[Any, ...], is_ahead: bool, deadline: Deadline) -> Asked:
        """Sends an ask. An ask of which no byte was sent was never made; one that is cut short ends the connection."""
        self.check()
        if is_ahead and len(self._waiting) + len(self._come) >= AHEAD:
            raise TooFarAhead(AHEAD)
        asked = Asked(name, self._last + 1, is_ahead)
        whole = make_ask(name, context, values, asked.tag)
        try:
            self._write(memoryview(whole), asked, deadline)
        except BaseException:
            if self._cut:
                self.end(CUT)
            raise
        finally:
            wipe(whole)
        return asked

    def _write(self, whole: memoryview, asked: Asked, deadline: Deadline) -> None:
        """Takes what comes while it waits: a daemon whose replies aren't taken doesn't read."""
        at = self._write_some(whole)
        while at == 0:
            deadline.wait(self._either)
            self._pull()
            at = self._write_some(whole)
        self._cut = True
        self._waiting.append(asked)
        self._last = asked.tag
        while at < len(whole):
            deadline.wait(self._either)
            self._pull()
            at += self._write_some(whole[at:])
        self._cut = False

    def _write_some(self, piece: memoryview) -> int:
        """How many bytes have gone out: none where there is no room. `_cut` is then as it was."""
        was_cut, self._cut = self._cut, True
        try:
            return self._socket.send(piece, socket.MSG_NOSIGNAL)
        except BlockingIOError:
            self._cut = was_cut
            return 0
        except OSError as error:
            raise self._fail(Lost(f"sending: {error.strerror}")) from None

    # Replies

    def _pull(self) -> None:
        """Takes the bytes that have come, if any, and the replies that are whole with them."""
        was_cut, self._cut = self._cut, True
        try:
            count = self._socket.recv_into(self._room)
        except BlockingIOError:
            self._cut = was_cut
            return
        except OSError as error:
            raise self._fail(Lost(f"receiving: {error.strerror}")) from None
        if not count:
            raise self._fail(Lost("the daemon ended the connection"))
        self._received = _joined(self._received, self._room[:count])
        try:
            self._take_replies()
        except Malformed as error:
            raise self._fail(error)
        self._cut = was_cut

    def _take_replies(self) -> None:
        """Gives each whole reply to whom it is for; one that a call gave up waiting for is dropped."""
        view, at = memoryview(self._received), 0
        while at < len(view):
            if not self._waiting:
                raise Malformed("bytes that nobody asked for")
            reply = decode_reply(view[at:], bytearray)
            if reply is None:
                break
            self._take_reply(reply)
            at += reply.length
        if at:
            self._received = _behind(self._received, at)

    def _take_reply(self, reply: Reply) -> None:
        asked = self._waiting[0]
        if reply.tag != asked.tag:
            wipe(reply.body)
            raise Malformed(f"a reply to {reply.tag}, not to {asked.tag}")
        self._waiting.popleft()
        if asked.is_ahead:
            self._come.append((asked, reply))
        elif asked.tag == self._awaited:
            self._drop_answer()
            self._answer = reply
        else:
            wipe(reply.body)

    def _receive(self, deadline: Deadline) -> None:
        try:
            deadline.wait(self._readable)
            self._pull()
        except BaseException:
            if self._cut:
                self.end(CUT)
            elif self._waiting and not self._waiting[0].is_ahead:
                wipe(memoryview(self._received)[4 + SHORTEST_REPLY:])  # nobody awaits it any more
            raise

    def reply_to(self, asked: Asked, deadline: Deadline) -> Reply:
        """The reply to an ask that wasn't sent ahead, which is the last one."""
        self._drop_answer()
        self._awaited = asked.tag
        while self._answer is None:
            self._receive(deadline)
        reply, self._answer = self._answer, None
        return reply

    def next_ahead(self, deadline: Deadline) -> tuple[Asked, Reply]:
        """The reply to the first ask that was sent ahead and isn't answered."""
        if self._owner == (os.getpid(), _forks) and self._come:
            return self._come.popleft()
        self.check()
        if not any(asked.is_ahead for asked in self._waiting):
            raise IndexError("no ask has been sent ahead")
        while not self._come:
            self._receive(deadline)
        return self._come.popleft()
