"""The client: a row and a method for each ask, and what is built on them."""
from __future__ import annotations

import errno
import time
from collections.abc import AsyncIterator, Iterator
from typing import Any, Optional, Sequence, Union, cast

from .connection import Asked, Connection, Deadline, wipe
from .errors import Malformed, Refused
from .frames import LEAVE_AS_IT_IS, Answer, Bytes, Reply, Text, answer_of, decode_serials, row
from .notes import Record, Removal, decode_notes
from .places import Path, Peer, advice, environment, place_of
from .sessions import VARIABLE, enter, parse_session

PATIENCE = 30.0


class Client:
    """A connection, which ends with `close` or its `with` block, and its contexts and queues with it.

    `path` names the daemon's socket; without it default_path() does. Nothing is sent before it is known who listens
    there: the effective user where the path was found in the runtime directory, root or the system's daemon where it is
    the system's, any of these where it was named. Else PermissionError is raised. A path that is named may be anybody's
    if `trust` is "any".

    `timeout` is how many seconds a call may take in all, 0 to look once and None for no end; then it raises
    TimeoutError. It may be set anew. Signals don't lengthen it.

    A call that an exception ends leaves the connection as it was where no frame was half sent or half taken: whether
    the ask was carried out isn't known then, and a reply that comes late is dropped. In the midst of a frame it ends
    the connection. A child of fork(2) has no part in it: each call raises Lost there, and its copy of the socket is
    closed. So does each call after the program has closed the socket's descriptor itself: what has that number since is
    neither written to nor closed."""

    def __init__(self, path: Optional[Path] = None, timeout: Optional[float] = PATIENCE,
                 trust: Optional[str] = None) -> None:
        self.timeout = timeout
        self._place = place_of(path, trust)
        try:
            self._connection = Connection(self._place, Deadline(timeout))
        except OSError as error:
            next_step = advice(path, error.errno)
            if next_step and hasattr(error, "add_note"):  # of Python 3.11: a traceback shows it
                error.add_note(next_step)
            raise
        self.doubtful: set[int] = set()  # contexts that may be in another user's session: see sessions.enter

    @property
    def path(self) -> Path:
        """Where the daemon listens."""
        return self._place.path

    def peer(self) -> Peer:
        """Who listened when the connection was made: its pid, uid and gid."""
        return self._connection.peer

    def close(self) -> None:
        """Ends the connection; in a child of fork(2) the parent's stays."""
        self._connection.end("it was closed", forget=True)

    def __enter__(self) -> Client:
        return self

    def __exit__(self, *_: object) -> None:
        self.close()

    def send(self, name: str, context: int = 0, *values: Any) -> int:
        """Sends an ask without waiting for its reply; answers its tag. receive() gives the answers, in order. While it
        waits to write, replies are read and kept. So at most 256 asks may be ahead of receive(), which take 64 MiB at
        worst; then it raises TooFarAhead."""
        return self._send(name, context, values, True, Deadline(self.timeout)).tag

    def _send(self, name: str, context: int, values: tuple[Any, ...], is_ahead: bool, deadline: Deadline) -> Asked:
        if context in self.doubtful and name not in ("JOIN", "DESCRIBE", "EXIT"):
            raise Refused(name, errno.ESRCH)
        return self._connection.send(name, context, values, is_ahead, deadline)

    def receive(self) -> Answer:
        """The answer to the first ask that was sent ahead and has none yet."""
        asked, reply = self._connection.next_ahead(Deadline(self.timeout))
        return self._answer_of(asked.name, reply)

    def ask(self, name: str, context: int = 0, *values: Any) -> Answer:
        """One ask and its answer."""
        return self._answer_of(name, self._exchange(name, context, values))

    def _exchange(self, name: str, context: int, values: tuple[Any, ...]) -> Reply:
        deadline = Deadline(self.timeout)
        asked = self._send(name, context, values, False, deadline)
        return self._connection.reply_to(asked, deadline)

    def _answer_of(self, name: str, reply: Reply, room: Optional[memoryview] = None) -> Answer:
        """The answer or, where there is room for bytes, their length; the reply's own copy is wiped."""
        try:
            if room is None or reply.status:
                return answer_of(name, reply)
            if len(reply.body) <= len(room):
                room[:len(reply.body)] = reply.body
            return len(reply.body)
        except Malformed as error:
            self._connection.end(error.strerror, forget=True)
            raise
        finally:
            wipe(reply.body)

    def _number(self, name: str, context: int, *values: Any) -> int:
        return cast(int, self.ask(name, context, *values))

    def _bytes(self, name: str, context: int, *values: Any) -> bytes:
        return cast(bytes, self.ask(name, context, *values))

    # Contexts: the first three answer the number that other asks take as `context`.

    @row(256, "u32 u32 groups", "number")
    def hello(self, uid: int, gid: int, groups: Sequence[int] = ()) -> int:
        """A new context of this user. The daemon believes it."""
        return self._number("HELLO", 0, uid, gid, groups)

    @row(257, "", "number")
    def thread(self, context: int) -> int:
        """A context for another thread of the same process."""
        return self._number("THREAD", context)

    @row(258, "", "number")
    def fork(self, context: int) -> int:
        """A context for a child process."""
        return self._number("FORK", context)

    @row(259, "", "nothing")
    def exec(self, context: int) -> None:
        """As execve(2): the thread and process keyrings go."""
        self.ask("EXEC", context)

    @row(260, "", "nothing")
    def exit(self, context: int) -> None:
        """Ends the context."""
        self.ask("EXIT", context)

    @row(261, "", "nothing")
    def leave(self) -> None:
        """Ends all contexts and queues of this connection."""
        self.ask("LEAVE")

    # Keys and keyrings. `key` and `ring` are serials, or one of THREAD to USER_SESSION.

    @row(0, "id u8", "serial")
    def get_id(self, context: int, key: int, create: bool = False) -> int:
        """The serial of a keyring that is named by its place."""
        return self._number("GET_ID", context, key, int(create))

    @row(1, "text", "serial")
    def join(self, context: int, name: Text = "") -> int:
        """Joins the session of this name, or a new one; answers its serial."""
        return self._number("JOIN", context, name)

    def enter_session(self, context: int, session: Union[str, bytes, None] = None) -> bool:
        """Joins a session that others hold and that must still be there: SERIAL:NAME, which KEYRETAIN_SESSION says
        where nothing is given. False where the text names none, and where that session was revoked, is gone, is another
        user's, or gives group or others anything: then the context may have a new session keyring, which nobody
        shares. Where it raises, the context may have ended."""
        named = parse_session(environment(VARIABLE) if session is None else session)
        return named is not None and enter(self, context, named)

    @row(2, "id blob", "nothing")
    def update(self, context: int, key: int, payload: Text) -> None:
        """Gives the key this payload."""
        self.ask("UPDATE", context, key, payload)

    @row(3, "id", "nothing")
    def revoke(self, context: int, key: int) -> None:
        """Makes the key useless: EKEYREVOKED from here on."""
        self.ask("REVOKE", context, key)

    @row(4, "id u32 u32", "nothing")
    def chown(self, context: int, key: int, uid: int = LEAVE_AS_IT_IS, gid: int = LEAVE_AS_IT_IS) -> None:
        """Changes the owner, the group or both."""
        self.ask("CHOWN", context, key, uid, gid)

    @row(5, "id u32", "nothing")
    def setperm(self, context: int, key: int, mask: int) -> None:
        """Sets the permission mask of keyctl_setperm(3)."""
        self.ask("SETPERM", context, key, mask)

    @row(6, "id", "bytes")
    def describe(self, context: int, key: int) -> bytes:
        """`type;uid;gid;mask;description`, as bytes: a description may be any."""
        return self._bytes("DESCRIBE", context, key)

    @row(7, "id", "nothing")
    def clear(self, context: int, ring: int) -> None:
        """Unlinks all that the keyring links."""
        self.ask("CLEAR", context, ring)

    @row(8, "id id", "nothing")
    def link(self, context: int, key: int, ring: int) -> None:
        """Links the key into the keyring."""
        self.ask("LINK", context, key, ring)

    @row(9, "id id", "nothing")
    def unlink(self, context: int, key: int, ring: int) -> None:
        """Takes the link to the key out of the keyring."""
        self.ask("UNLINK", context, key, ring)

    @row(10, "id text text id", "serial")
    def search(self, context: int, head: int, type: Text, description: Text, destination: int = 0) -> int:
        """The serial that is found below `head`; it is linked to `destination` where that isn't 0."""
        return self._number("SEARCH", context, head, type, description, destination)

    @row(11, "id", "bytes")
    def read(self, context: int, key: int) -> bytes:
        """The payload of a key. Python can't wipe these bytes: read_into() gives them to whoever can."""
        return self._bytes("READ", context, key)

    def read_into(self, context: int, key: int, buffer: Union[bytearray, memoryview]) -> int:
        """Puts the payload of a key into a buffer that the caller may wipe, and answers its length. If it is longer
        than the buffer, nothing is put there. No other copy stays in the program."""
        with memoryview(buffer) as whole, whole.cast("B") as room:
            return cast(int, self._answer_of("READ", self._exchange("READ", context, (key,)), room))

    def read_ring(self, context: int, ring: int) -> list[int]:
        """The serials that a keyring links. Malformed where the key reads as none: it isn't a keyring."""
        return decode_serials(self.read(context, ring))

    @row(15, "id u32", "nothing")
    def set_timeout(self, context: int, key: int, seconds: int) -> None:
        """The key expires so many seconds from now; 0 takes that away."""
        self.ask("SET_TIMEOUT", context, key, seconds)

    @row(21, "id", "nothing")
    def invalidate(self, context: int, key: int) -> None:
        """Takes the key away from all."""
        self.ask("INVALIDATE", context, key)

    @row(29, "id text", "nothing")
    def restrict_keyring(self, context: int, ring: int, type: Text = "") -> None:
        """Closes the keyring against new links."""
        self.ask("RESTRICT_KEYRING", context, ring, type)

    @row(30, "id id id u32", "nothing")
    def move(self, context: int, key: int, source: int, destination: int, exclusive: bool = False) -> None:
        """Moves a link; `exclusive` refuses to displace a key of the same name."""
        self.ask("MOVE", context, key, source, destination, int(exclusive))

    @row(262, "text text blob id", "serial")
    def add(self, context: int, type: Text, description: Text, payload: Text, ring: int) -> int:
        """The serial of the key that was made in the keyring, or updated there."""
        return self._number("ADD", context, type, description, payload, ring)

    @row(263, "text text id", "serial")
    def request(self, context: int, type: Text, description: Text, destination: int = 0) -> int:
        """The serial that a search of the thread, process and session keyring finds."""
        return self._number("REQUEST", context, type, description, destination)

    # Queues of notes.

    @row(264, "u32", "number")
    def open_queue(self, capacity: int) -> int:
        """The number of a queue that holds so many records."""
        return self._number("OPEN_QUEUE", 0, capacity)

    @row(32, "id u32 i32", "nothing")
    def watch(self, context: int, key: int, queue: int, watch: int = 0) -> None:
        """The notes of a key go to the queue, and bear this number of 0 to 255; -1 ends that."""
        self.ask("WATCH", context, key, queue, watch)

    @row(265, "u32 entries", "nothing")
    def set_filter(self, queue: int, entries: Sequence[Sequence[int]]) -> None:
        """Entries are (type, info_filter, info_mask, eight words of subtype bits)."""
        self.ask("SET_FILTER", 0, queue, entries)

    @row(266, "u32 u32", "bytes")
    def read_queue(self, queue: int, room: int = 4096) -> list[Record]:
        """The records that wait, as many as have room; none where none waits."""
        try:
            return decode_notes(self._bytes("READ_QUEUE", 0, queue, room))
        except Refused as refused:
            if refused.errno == errno.EAGAIN:
                return []
            raise

    @row(267, "u32", "nothing")
    def close_queue(self, queue: int) -> None:
        """Ends the queue and its watches."""
        self.ask("CLOSE_QUEUE", 0, queue)

    def notes(self, queue: int, pause: float = 0.05, longest: float = 1.0) -> Iterator[Record]:
        """Yields the records of a queue, without end. As nothing wakes a reader it is polled, in pauses of seconds that
        grow from `pause` to `longest` while nothing comes."""
        for records, left in self._polled(queue, pause, longest):
            yield from records
            time.sleep(left)

    async def notes_async(self, queue: int, pause: float = 0.05, longest: float = 1.0) -> AsyncIterator[Record]:
        """The same between the other tasks of a loop of asyncio, which wait while an ask is answered."""
        import asyncio  # which takes as long to load as all else here
        for records, left in self._polled(queue, pause, longest):
            for record in records:
                yield record
            await asyncio.sleep(left)

    def _polled(self, queue: int, pause: float, longest: float) -> Iterator[tuple[list[Record], float]]:
        """What waits, and how long to wait then: a tenth of the time since something came."""
        last = time.monotonic()
        while True:
            records = self.read_queue(queue)
            now = time.monotonic()
            last = now if records else last
            yield records, min(max(pause, (now - last) / 10), max(pause, longest))


def notes_of(client: Client, queue: int, pause: float = 0.05, longest: float = 1.0) -> Iterator[Record]:
    """The same until a watch has ended."""
    for note in client.notes(queue, pause, longest):
        yield note
        if isinstance(note, Removal):
            return
