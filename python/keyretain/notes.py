"""Notes: the records of a queue, as Documentation/core-api/watch_queue.rst lays them out."""
from __future__ import annotations

import struct
from typing import NamedTuple, Union

from .errors import Malformed
from .frames import check_serial


class Note(NamedTuple):
    """What happened to a watched key, and the other key of a link."""

    watch: int
    what: str
    key: int
    other: int


class Removal(NamedTuple):
    """The watch has ended: it was taken away, or its key is gone."""

    watch: int
    key: int


class Loss(NamedTuple):
    """The queue was full here, and records were dropped."""


Record = Union[Note, Removal, Loss]

SUBTYPES = ("instantiated", "updated", "linked", "unlinked", "cleared", "revoked", "invalidated", "attributes set")
SHORT = ("inst", "upd", "link", "unlk", "clr", "rev", "inv", "attr")  # of keyctl(1)
META, KEY_NOTIFY = 0, 1


def _serial(number: int) -> int:
    """The number, which is 0 where a record names no key."""
    return number and check_serial(number)


def _decode_note(received: bytes, at: int) -> tuple[Record, int]:
    word, info = struct.unpack_from("<II", received, at)
    kind, subtype, length, watch = word & 0xFFFFFF, word >> 24, info & 0x7F, info >> 8 & 0xFF
    if (kind, subtype, length) == (META, 1, 8):
        return Loss(), length
    if (kind, subtype, length) == (META, 0, 16):
        return Removal(watch, _serial(struct.unpack_from("<Q", received, at + 8)[0])), length
    if kind == KEY_NOTIFY and subtype < len(SUBTYPES) and length == 16:
        return Note(watch, SUBTYPES[subtype], *map(_serial, struct.unpack_from("<II", received, at + 8))), length
    raise Malformed(f"a record {word:08x} {info:08x}")


def decode_notes(received: bytes) -> list[Record]:
    """The records of READ_QUEUE's answer, in order."""
    notes: list[Record] = []
    at = 0
    try:
        while at < len(received):
            note, length = _decode_note(received, at)
            notes.append(note)
            at += length
    except struct.error:
        raise Malformed("a record is cut short") from None
    return notes


def describe_note(note: Record) -> str:
    """A line as `keyctl watch` prints it: keyctl(1)."""
    if isinstance(note, Loss):
        return "-- LOSS --"
    if isinstance(note, Removal):
        return f"{note.key} gc"
    other = f" {note.other}" if note.other else ""
    return f"{note.key} {SHORT[SUBTYPES.index(note.what)]}{other}"
