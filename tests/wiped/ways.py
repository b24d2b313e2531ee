"""The ways by which a secret goes out of a daemon, or comes back to its reader, by raw frames of either version."""
from __future__ import annotations

import os
import struct
import time

from daemons import connect, received
from versions import encode_ask, keyretain

from memory import Secret

PATIENCE = 180  # seconds in which a reply comes, on a busy machine
U, S, P, T = keyretain.USER, keyretain.SESSION, keyretain.PROCESS, keyretain.THREAD


class Raw:
    """A connection, with nothing kept of what goes over it."""

    def __init__(self, path: str, version: int) -> None:
        self.end = connect(path)
        self.end.settimeout(PATIENCE)
        self.version, self.tag = version, 0
        self.context = 0
        self.context = self.ask("HELLO", os.geteuid(), os.getegid(), ())

    def frame(self, name: str, *values) -> bytes:
        self.tag += 1
        return encode_ask(name, self.context, values, self.version, self.tag)

    def reply(self) -> tuple[int, bytes]:
        head = received(self.end, 4)
        if len(head) < 4:
            raise EOFError
        body = received(self.end, struct.unpack("<I", head)[0])
        return struct.unpack_from("<I", body)[0], body[12 if self.version == 2 else 4:]

    def ask(self, name: str, *values, wants=0):
        self.end.sendall(self.frame(name, *values))
        status, body = self.reply()
        assert status == wants, (name, status)
        return struct.unpack("<I", body)[0] if len(body) == 4 and name not in ("READ",) else body

    def close(self) -> None:
        self.end.close()


def add(c: Raw, secret: Secret, ring=U, desc="token") -> int:
    return c.ask("ADD", "user", desc, secret.payload, ring)


# Each takes a connection and a secret, and says how many copies may be left: the key's own, or none.

# These stand for the key that was added, for the secret, and for a longer one.
KEY, PAYLOAD, LONGER = object(), object(), object()
EXPIRES = ("SET_TIMEOUT", KEY, 1), ("SLEEP", 1.1)


def asks(*rows, ring=None, wants=0, left=0):
    """A way of these asks, ends and pauses, behind an ADD to a ring if one is named. The last ask has this status, a
    READ that is accepted gives the secret, and so many copies are left."""
    def way(c, s):
        stands = {KEY: ring and add(c, s, ring), PAYLOAD: s.payload, LONGER: b"z" * (2 * len(s.payload) % 32767 + 1)}
        for at, (name, *values) in enumerate(rows, 1):
            if name in ("CLOSE", "SLEEP"):
                c.close() if name == "CLOSE" else time.sleep(*values)
                continue
            status = wants if at == len(rows) else 0
            answer = c.ask(name, *[stands.get(it, it) for it in values], wants=status)
            assert name != "READ" or status or answer == s.payload
        return left

    return way


def move_over(c, s):
    """MOVE displaces a link that was the last of a key."""
    ring = c.ask("ADD", "keyring", "other", b"", U)
    add(c, s, ring)
    key = c.ask("ADD", "user", "token", b"other", U)
    c.ask("MOVE", key, U, ring, 0)


def close_readers(c, s):
    """Eight that have read it close at once. The C library then gives the stacks of ended threads back."""
    key, path, version = add(c, s), c.end.getpeername(), c.version
    readers = [Raw(path, version) for _ in range(8)]
    for reader in readers:
        assert reader.ask("READ", key) == s.payload
    for reader in readers:
        reader.close()
    time.sleep(0.3)
    c.ask("REVOKE", key)


def breaks_off(change):
    """A connection that ends behind what this makes of an ADD's frame."""
    def way(c, s):
        c.end.sendall(change(c.frame("ADD", "user", "token", s.payload, U)))
        time.sleep(0.3)
        c.close()
        time.sleep(0.3)

    return way


def pieces(c, s):
    """The same, sent in three parts."""
    whole = c.frame("ADD", "user", "token", s.payload, U)
    for part in (whole[:20], whole[20:len(whole) // 2], whole[len(whole) // 2:]):
        c.end.sendall(part)
        time.sleep(0.05)
    assert c.reply()[0] == 0
    return 1


def read_many(c, s):
    """Twenty READs sent ahead, whose replies go out together."""
    key = add(c, s)
    c.end.sendall(b"".join(c.frame("READ", key) for _ in range(20)))
    for _ in range(20):
        assert c.reply() == (0, s.payload)
    return 1


def read_unread(c, s):
    """READs whose replies nobody takes, and then the end."""
    key = add(c, s, P)
    c.end.sendall(b"".join(c.frame("READ", key) for _ in range(40)))
    time.sleep(0.3)
    c.close()
    time.sleep(0.5)


def read_behind(c, s):
    """READs that are held, and a reply behind them that is longer than the room for both: nothing may move."""
    key, ring = add(c, s), c.ask("ADD", "keyring", "ring", b"", U)
    for start in range(0, 17_000, 250):
        names = [f"key {n}" for n in range(start, start + 250)]
        c.end.sendall(b"".join(c.frame("ADD", "user", name, b"x", ring) for name in names))
        for _ in names:
            assert c.reply()[0] == 0
    held = min(60_000 // (len(s.payload) + 16), 100)
    c.end.sendall(b"".join(c.frame("READ", key) for _ in range(held)) + c.frame("READ", ring))
    for _ in range(held):
        assert c.reply() == (0, s.payload)
    assert len(c.reply()[1]) == 68_000
    c.ask("REVOKE", key)


def batch(c, s):
    """ADD, UPDATE and REVOKE sent ahead, in one write."""
    key = add(c, s)
    again = [c.frame("UPDATE", key, s.payload) for _ in range(2)]
    c.end.sendall(b"".join([*again, c.frame("REVOKE", key)]))
    for _ in range(3):
        assert c.reply()[0] == 0


OVER = "ADD", "user", "token", b"other", U
# An expired key keeps its payload until it is unlinked, displaced or dropped (profile, expired keys stay), and the keys
# of a session keyring go as another is joined.
WAYS = {"kept: ADD": asks(ring=U, left=1), "kept: ADD in three parts": pieces,
        "kept: READ": asks(("READ", KEY), ring=U, left=1), "kept: 20 READs ahead": read_many,
        "UPDATE": asks(("UPDATE", KEY, b"other"), ring=U), "UPDATE, longer": asks(("UPDATE", KEY, LONGER), ring=U),
        "UPDATE, one byte": asks(("UPDATE", KEY, b"z"), ring=U), "ADD over it": asks(OVER, ring=U),
        "expired, ADD over it": asks(*EXPIRES, OVER, ring=U), "REVOKE": asks(("REVOKE", KEY), ring=U),
        "REVOKE, UNLINK": asks(("REVOKE", KEY), ("UNLINK", KEY, U), ring=U),
        "INVALIDATE": asks(("INVALIDATE", KEY), ring=U), "UNLINK": asks(("UNLINK", KEY, U), ring=U),
        "CLEAR": asks(("CLEAR", U), ring=U), "MOVE over it": move_over,
        "expired, UNLINK": asks(*EXPIRES, ("UNLINK", KEY, U), ring=U),
        "expired": asks(*EXPIRES, ("READ", KEY), ring=U, wants=127, left=1),
        "JOIN": asks(("JOIN", ""), ("ADD", "user", "token", PAYLOAD, S), ("JOIN", "")),
        "EXEC": asks(("EXEC",), ring=P), "EXIT": asks(("EXIT",), ring=T), "LEAVE": asks(("LEAVE",), ring=P),
        "close": asks(("CLOSE",), ("SLEEP", 0.3), ring=P), "readers close, REVOKE": close_readers,
        "close amid ADD": breaks_off(lambda whole: whole[:-4]),
        "fault in ADD": breaks_off(lambda whole: whole[:6] + b"\xff\xff" + whole[8:]),  # its bytes were held already
        "ADD: ENODEV": asks(("ADD", "nosuch", "token", PAYLOAD, U), wants=19),
        "ADD: ENOKEY": asks(("ADD", "user", "token", PAYLOAD, 2_000_000_000), wants=126),
        "UPDATE: ENOKEY": asks(("UPDATE", 2_000_000_000, PAYLOAD), wants=126),
        "READ, REVOKE": asks(("READ", KEY), ("REVOKE", KEY), ring=U), "READs not taken, close": read_unread,
        "READs, a long READ, REVOKE": read_behind, "UPDATE, REVOKE ahead": batch}
