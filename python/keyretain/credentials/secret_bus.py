"""The session bus, by jeepney: messages of bounded size, who sends them, and what is sent back. The bus is to be one of
the effective user. What it says of the uids of its clients it has from the kernel."""
from __future__ import annotations

import os
import select
import socket
import struct
from contextlib import suppress
from itertools import count
from typing import Any, Optional

from jeepney import HeaderFields, Message, MessageType
from jeepney.bus import get_bus
from jeepney.bus_messages import MatchRule, message_bus
from jeepney.io.blocking import prep_socket
from jeepney.low_level import Header, calc_msg_size

LONGEST = 128 << 10
HEAD = 16  # bytes of a message, from which its size is known
PATIENCE = 30.0
MOST_SENDERS, MOST_EARLY = 4096, 256
BUS = "org.freedesktop.DBus"
FIRST_OWNER = 1  # RequestName's answer where the name is ours now
DO_NOT_QUEUE = 4


def field(message: Message, which: HeaderFields) -> Any:
    """A field of the header; None where there is none."""
    return message.header.fields.get(which)


class Wire:
    """One connection to the bus."""

    def __init__(self) -> None:
        self._socket, self._serials = prep_socket(get_bus("SESSION"), timeout=PATIENCE), count(1)
        pid_uid_gid = self._socket.getsockopt(socket.SOL_SOCKET, socket.SO_PEERCRED, struct.calcsize("3i"))
        self._early: list[Message] = []
        if struct.unpack("3i", pid_uid_gid)[1] != os.geteuid():
            raise PermissionError("the session bus is another user's")
        self.ask(message_bus.Hello())

    def _read(self, length: int) -> bytes:
        read = bytearray()
        while len(read) < length:
            piece = self._socket.recv(min(length - len(read), LONGEST))
            if not piece:
                raise EOFError
            read += piece
        return bytes(read)

    def receive(self, seconds: Optional[float] = None) -> Optional[Message]:
        """None where none comes in so many seconds."""
        if self._early:
            return self._early.pop(0)
        comes = seconds is None or select.select([self._socket], [], [], seconds)[0]
        return self._next(None) if comes else None

    def _next(self, patience: Optional[float]) -> Message:
        """The body is None where it is too long. What can't be read at all is a signal of no name."""
        self._socket.settimeout(patience)
        head = self._read(HEAD)
        self._socket.settimeout(PATIENCE)
        size = calc_msg_size(head)
        whole = head + self._read(min(size, LONGEST) - HEAD)
        for begin in range(LONGEST, size, LONGEST):
            self._read(min(LONGEST, size - begin))
        try:
            return Message.from_buffer(whole) if size <= LONGEST else Message(Header.from_buffer(whole)[0], None)
        except Exception:  # pylint: disable=broad-except # whatever it is made of
            return Message(Header(b"l", MessageType.signal, 0, 1, 0, 1, {}), None)

    def send(self, message: Message) -> int:
        """Answers the serial. A bus that takes nothing for so long ends the program."""
        serial = next(self._serials) % 0xffffffff + 1
        whole = message.serialise(serial)
        self._socket.settimeout(PATIENCE)
        try:
            self._socket.sendall(whole)
        except OSError:
            self._socket.close()  # half of a message may have been sent: no other can follow
            raise
        return serial

    def ask(self, message: Message, most: int = 0) -> Optional[Any]:
        """The first value of the bus's reply, None for an error. So many others that come meanwhile are kept."""
        serial = self.send(message)
        while True:
            reply = self._next(PATIENCE)
            if field(reply, HeaderFields.reply_serial) == serial and field(reply, HeaderFields.sender) == BUS:
                is_good = reply.header.message_type is MessageType.method_return and reply.body
                return reply.body[0] if is_good else None
            self._early += [reply] if len(self._early) < most else []


class Bus:
    """Two connections: on one come the calls, and on the other the bus says who calls."""

    def __init__(self, name: str) -> None:
        self._calls, self._asks = Wire(), Wire()
        self.receive, self.send = self._calls.receive, self._calls.send
        self._is_own: dict[str, bool] = {}
        gone = MatchRule(type="signal", sender=BUS, interface=BUS, member="NameOwnerChanged")
        self._calls.ask(message_bus.AddMatch(gone))
        # The calls for which the bus has started the program come before this reply.
        if self._calls.ask(message_bus.RequestName(name, DO_NOT_QUEUE), MOST_EARLY) != FIRST_OWNER:
            raise FileExistsError(self._told_of_owner(name))

    def _told_of_owner(self, name: str) -> str:
        """Whose the name is, and what to do. A process gives itself any name."""
        pid, comm = self._calls.ask(message_bus.GetConnectionUnixProcessID(name)), "another program"
        with suppress(OSError), open(f"/proc/{pid}/comm", encoding="ascii", errors="replace") as file:
            comm = "".join(sign if sign.isprintable() else "?" for sign in file.read()[:-1])
        if comm == "keyretain-secre":
            return f"it runs already, as process {pid}"
        return f"{name} is {comm}'s (process {pid}) on this bus. keyretain-secrets(1) shows how the bus starts this " \
            "program in its place; then end that one"

    def is_own(self, sender: str) -> bool:
        """Whether it is a process of the effective user. No unique name is given to a second one."""
        if sender not in self._is_own:
            if len(self._is_own) >= MOST_SENDERS:
                self._is_own.clear()
            self._is_own[sender] = self._asks.ask(message_bus.GetConnectionUnixUser(sender)) == os.geteuid()
        return self._is_own[sender]

    def gone(self, message: Message) -> Optional[str]:
        """The unique name of a client that has left, where the bus says so."""
        said = [field(message, which) for which in (HeaderFields.sender, HeaderFields.member, HeaderFields.signature)]
        if said != [BUS, "NameOwnerChanged", "sss"] or message.body is None or message.body[2] != "":
            return None
        name: str = message.body[0]
        self._is_own.pop(name, None)
        return name
