"""A locker: what one kind of helper keeps, as keys in a keyring of the user keyring.

Two helpers may run at once. So a keyring is put into the user keyring only where there is none of its name, and an
entry is complete, with its timeout, before a link puts it there in place of the one of the same description: a reader
finds the old one or the new one."""
from __future__ import annotations

import errno
import os
from collections.abc import Iterator
from contextlib import AbstractContextManager, contextmanager, nullcontext
from typing import NamedTuple, Optional

from .. import THREAD, USER, Client, Refused
from . import keeper

PATIENCE = 10.0
LONGEST_NAME, LONGEST_PAYLOAD = 4095, 32767
GROUPS = 32  # as many as the daemon takes
GONE = (errno.EKEYEXPIRED, errno.EKEYREVOKED, errno.ENOKEY, errno.ENOENT)


class Entry(NamedTuple):
    """A key that can be used, as it was seen. The one that was put later has the greater serial."""

    serial: int
    description: bytes


def find_own(client: Client, context: int, ring: int, kind: str, description: str) -> int:
    """The serial of the effective user's own key of this name. A search also finds what another user has put into a
    keyring that is linked there: that is refused as if it weren't."""
    serial = client.search(context, ring, kind, description)
    if int(client.describe(context, serial).split(b";", 2)[1]) != os.geteuid():
        raise Refused("SEARCH", errno.ENOKEY)
    return serial


@contextmanager
def letting_pass(errors: tuple[int, ...]) -> Iterator[None]:
    """A block that ends, and no more, where the daemon refuses something by one of these errors."""
    try:
        yield
    except Refused as refused:
        if refused.errno not in errors:
            raise


class Locker(AbstractContextManager["Locker"]):
    """The entries of a keyring, on a connection that ends with the block."""

    def __init__(self, name: str) -> None:
        self._name, self._client = name, Client(timeout=PATIENCE)
        try:
            self._context = self._client.hello(os.geteuid(), os.getegid(), os.getgroups()[:GROUPS])
            self._ring = self._find()
        except BaseException:
            self._client.close()
            raise

    def __exit__(self, *_: object) -> None:
        self._client.close()

    # Reading

    def _find(self, gone: tuple[int, ...] = (*GONE, errno.EACCES)) -> int:
        """The serial of the keyring, or 0: who possesses another user's would possess what is kept there. One on which
        there is no right is another user's, unless it has the place of the own one."""
        with letting_pass(gone):
            return find_own(self._client, self._context, USER, "keyring", self._name)
        return 0

    def entries(self) -> list[Entry]:
        """Those that can be used, the newest first."""
        serials = self._client.read_ring(self._context, self._ring) if self._ring else []
        return [entry for serial in sorted(serials, reverse=True) for entry in self._entry(serial)]

    def named(self, description: str) -> list[Entry]:
        """The one of this description, or none."""
        return [entry for entry in self.entries() if entry.description == description.encode()]

    def _entry(self, serial: int) -> Iterator[Entry]:
        """What can't be used any more is swept out."""
        described: list[bytes] = []
        with letting_pass(GONE):
            described = self._client.describe(self._context, serial).split(b";", 4)
        if not described:
            self._unlink(serial)
        elif described[0] == b"user" and len(described) == 5:
            yield Entry(serial, described[4])

    def watched(self, most: int) -> Iterator[bool]:
        """Watches so many entries, the newest, and the keyrings that lead to them. Then it says each time whether
        something has happened to them since."""
        queue = self._client.open_queue(most)
        links = self._client.read_ring(self._context, self._ring) if self._ring else []
        for key in [USER, *([self._ring] if self._ring else []), *sorted(links, reverse=True)[:most]]:
            with letting_pass((*GONE, errno.EACCES)):
                self._client.watch(self._context, key, queue)
        while True:
            yield bool(self._client.read_queue(queue))

    def payload(self, entry: Entry) -> Optional[bytes]:
        """None where the entry has expired meanwhile, or was taken out."""
        with letting_pass(GONE):
            return self._client.read(self._context, entry.serial)
        return None

    # Changing

    def put(self, description: str, payload: bytes, seconds: int = 0) -> None:
        """Keeps an entry for so many seconds, or without an end for 0, in place of one of this description."""
        if len(description) > LONGEST_NAME:
            raise OSError(errno.ENAMETOOLONG, f"a name of more than {LONGEST_NAME} bytes")
        if len(payload) > LONGEST_PAYLOAD:
            raise OSError(errno.E2BIG, f"a secret of more than {LONGEST_PAYLOAD} bytes")
        self._ring = self._ring or self._make_ring()
        with self._holding():
            serial = self._client.add(self._context, "user", description, payload, THREAD)
            self._client.set_timeout(self._context, serial, seconds)
            self._client.link(self._context, serial, self._ring)

    def update(self, entry: Entry, payload: bytes, seconds: int = 0) -> bool:
        """Puts something else into this very entry, as put does. False where it is gone."""
        if len(payload) > LONGEST_PAYLOAD:
            raise OSError(errno.E2BIG, f"a secret of more than {LONGEST_PAYLOAD} bytes")
        with letting_pass(GONE):
            self._client.update(self._context, entry.serial, payload)
            self._client.set_timeout(self._context, entry.serial, seconds)
            return True
        return False

    def drop(self, entry: Entry) -> None:
        """Takes out this very entry, and not one that has taken its place."""
        self._unlink(entry.serial)

    def _unlink(self, serial: int) -> None:
        with letting_pass(GONE):
            self._client.unlink(self._context, serial, self._ring)

    def _make_ring(self) -> int:
        """Makes the keyring beside the user keyring, and moves it there. One that can't be used any more gives way."""
        made = self._client.add(self._context, "keyring", self._name, b"", THREAD)
        with letting_pass((errno.EEXIST,)):
            self._client.move(self._context, made, THREAD, USER, exclusive=True)
            return made
        other = self._find(GONE)
        if not other:
            self._client.link(self._context, made, USER)
        return other or made

    # What holds it

    def _holding(self) -> AbstractContextManager[None]:
        path = os.fsdecode(self._client.path)
        return nullcontext() if self._is_held() else keeper.holding(self._name, path)

    def _is_held(self) -> bool:
        """Whether a session of this user's holds the user keyring. What outlives its session still names it."""
        probe = self._client.thread(self._context)
        try:
            return self._client.enter_session(probe)
        finally:
            self._client.exit(probe)
