"""Frames of version 2: asks and replies as bytes, and back. docs/FORMAT.md has each of them."""
from __future__ import annotations

import struct
from typing import Any, Callable, NamedTuple, Optional, Sequence, TypeVar, Union

from .errors import STATUSES, Malformed, Refused

VERSION = 2

THREAD, PROCESS, SESSION, USER, USER_SESSION = -1, -2, -3, -4, -5  # ids of keyrings: keyrings(7)
LEAVE_AS_IT_IS = 0xFFFFFFFF  # a uid or gid of chown

Bytes = Union[bytes, bytearray, memoryview]
Text = Union[str, Bytes]  # a str is sent as UTF-8
Answer = Union[int, bytes, None]


class Ask(NamedTuple):
    """An ask's number, the forms of its fields, and what it answers: a number, a key's serial, bytes or nothing."""

    number: int
    fields: str
    answer: str


ASKS: dict[str, Ask] = {}  # by their names: a method of Client makes each, and has its row
Method = TypeVar("Method", bound=Callable[..., Any])


def row(number: int, fields: str, answer: str) -> Callable[[Method], Method]:
    """The row of the ask that has the method's name."""
    def put(method: Method) -> Method:
        ASKS[method.__name__.upper()] = Ask(number, fields, answer)
        return method
    return put


NUMBERS = {"id": struct.Struct("<i"), "i32": struct.Struct("<i"), "u8": struct.Struct("<B"), "u32": struct.Struct("<I")}
ENTRY = struct.Struct("<3I8I")
HEAD = struct.Struct("<IHHIQ")
COUNTED = {"text": ("<H", 1), "blob": ("<I", 1), "groups": ("<I", 4), "entries": ("<I", ENTRY.size)}
LONGEST_ASK = 65536
HIGHEST_SERIAL = 2**31 - 1
SHORTEST_REPLY, LONGEST_REPLY = 12, 262152

# ---- Asks


def _view(value: Text) -> memoryview:
    """Its bytes, without a copy of them where they stand in a row."""
    view = memoryview(value.encode() if isinstance(value, str) else value)
    return view.cast("B") if view.c_contiguous else memoryview(view.tobytes())


def _encode_field(form: str, value: Any) -> list[Union[bytes, memoryview]]:
    if form in NUMBERS:
        return [NUMBERS[form].pack(value)]
    if form in ("text", "blob"):
        view = _view(value)
        return [struct.pack(COUNTED[form][0], len(view)), view]
    if form == "groups":
        return [struct.pack(f"<I{len(value)}I", len(value), *value)]
    return [struct.pack("<I", len(value)), *(ENTRY.pack(*entry) for entry in value)]


def _encode_fields(name: str, values: Sequence[Any]) -> list[Union[bytes, memoryview]]:
    forms = ASKS[name].fields.split()
    if len(forms) != len(values):
        raise TypeError(f"{name} has the fields {forms}")
    try:
        return [part for form, value in zip(forms, values) for part in _encode_field(form, value)]
    except struct.error as error:
        raise ValueError(f"{name}: {error}") from None


def encode_body(name: str, values: Sequence[Any]) -> bytes:
    """The fields of this ask, one after the other. ValueError where a value is out of its width."""
    return b"".join(_encode_fields(name, values))


def frame(number: int, context: int, body: bytes = b"", tag: int = 0) -> bytes:
    """An ask's frame around any bytes, also such as the daemon will refuse."""
    return HEAD.pack(HEAD.size - 4 + len(body), VERSION, number, context, tag) + body


def make_ask(name: str, context: int, values: Sequence[Any], tag: int) -> bytearray:
    """An ask's frame, with the only copy of its payload, which whoever has sent it wipes."""
    fields = _encode_fields(name, values)
    size = HEAD.size - 4 + sum(map(len, fields))
    if size > LONGEST_ASK:
        raise ValueError(f"{name} is longer than a frame")
    try:
        head = HEAD.pack(size, VERSION, ASKS[name].number, context, tag)
    except struct.error as error:
        raise ValueError(f"{name}: {error}") from None
    return bytearray().join([head, *fields])


def encode_ask(name: str, context: int, values: Sequence[Any] = (), tag: int = 0) -> bytes:
    """An ask's frame. ValueError where no frame holds it."""
    return bytes(make_ask(name, context, values, tag))


def _decode_field(form: str, body: bytes, at: int) -> tuple[Any, int]:
    """A field's value, and where the next one begins; struct.error where bytes are missing."""
    if form in NUMBERS:
        return NUMBERS[form].unpack_from(body, at)[0], at + NUMBERS[form].size
    width, item = COUNTED[form]
    count, at = struct.unpack_from(width, body, at)[0], at + struct.calcsize(width)
    end = at + count * item
    if end > len(body):
        raise struct.error(f"{form} is cut short")
    if form == "groups":
        return list(struct.unpack_from(f"<{count}I", body, at)), end
    if form == "entries":
        return [ENTRY.unpack_from(body, i) for i in range(at, end, item)], end
    return body[at:end], end


def decode_body(name: str, body: bytes) -> Optional[list[Any]]:
    """The fields of an ask's body; None where it isn't exactly these."""
    values: list[Any] = []
    at = 0
    try:
        for form in ASKS[name].fields.split():
            value, at = _decode_field(form, body, at)
            values.append(value)
    except struct.error:
        return None
    return values if at == len(body) and not (name == "GET_ID" and values[1] > 1) else None


def name_of(number: int) -> Optional[str]:
    """The ask of this number, or None."""
    return next((name for name, ask in ASKS.items() if ask.number == number), None)


# ---- Replies


class Reply(NamedTuple):
    """A reply, and how long its frame is."""

    status: int
    tag: int
    body: Union[bytes, bytearray]
    length: int


def decode_reply(received: Bytes, kind: Union[type[bytes], type[bytearray]] = bytes) -> Optional[Reply]:
    """The first reply of these bytes, with a body of this kind, or None where it isn't whole yet. Malformed where it
    can't become one."""
    if len(received) < 4:
        return None
    length = struct.unpack_from("<I", received)[0]
    if not SHORTEST_REPLY <= length <= LONGEST_REPLY:
        raise Malformed(f"a reply of {length} bytes")
    if len(received) < 4 + length:
        return None
    status, tag = struct.unpack_from("<IQ", received, 4)
    return Reply(status, tag, kind(memoryview(received)[4 + SHORTEST_REPLY:4 + length]), 4 + length)


def answer_of(name: str, reply: Reply) -> Answer:
    """The number, the bytes or the None that a reply to this ask answers; Refused for an error."""
    if reply.status:
        if reply.status not in STATUSES or reply.body:
            raise Malformed(f"status {reply.status} with {len(reply.body)} bytes")
        raise Refused(name, reply.status)
    form = ASKS[name].answer
    if form == "bytes":
        return bytes(reply.body)
    if len(reply.body) != (0 if form == "nothing" else 4):
        raise Malformed(f"{name} is answered with {len(reply.body)} bytes")
    if form == "nothing":
        return None
    number = int.from_bytes(reply.body, "little")
    return check_serial(number) if form == "serial" else number


def check_serial(number: int) -> int:
    """The number, where a key may have it. As an id any other would name something else."""
    if not 0 < number <= HIGHEST_SERIAL:
        raise Malformed(f"{number} is no key's serial")
    return number


def decode_serials(payload: bytes) -> list[int]:
    """The serials that a keyring links, from the payload that it reads as."""
    if len(payload) % 4:
        raise Malformed(f"a keyring of {len(payload)} bytes")
    return [check_serial(number) for number in struct.unpack(f"<{len(payload) // 4}I", payload)]
