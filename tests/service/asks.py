"""The frames of asks and replies for attacks.py and memory.py: those of the Python client, and what a daemon answers to
any bytes; and a client for mesh.py and wakes.py."""
import struct
import sys

from versions import decode_reply, encode_ask, frame, keyretain, number, reply

HELLO = encode_ask("HELLO", 0, (1000, 1000, ()))


def accepted(answer):
    return reply(0, number(answer) if isinstance(answer, int) else answer, version=1)


def refused(status):
    return reply(0, b"", status, 1)


class Client(keyretain.Client):
    """A connection to the daemon at the first word, and its context. An answer comes within some milliseconds."""

    def __init__(self, uid):
        super().__init__(sys.argv[1], 10)
        self.context = self.hello(uid, uid)

    def many(self, name, rows, ahead=64):
        """The answers to such asks of these values, so many of which are sent before replies are taken."""
        answers = []
        for begin in range(0, len(rows), ahead):
            for row in rows[begin:begin + ahead]:
                self.send(name, self.context, *row)
            answers += [self.receive() for _ in rows[begin:begin + ahead]]
        return answers


class Ask:
    """An ask's bodies, and whether its answer is a number, nothing or bytes."""

    def __init__(self, name):
        self.name, self.fields, self.answer = name, keyretain.ASKS[name].fields.split(), keyretain.ASKS[name].answer

    def of_length(self, length):
        """A body of this length: ids are -4, the first run takes what is left, and all else is zeros. None where none
        can be."""
        left = length - sum(WIDTHS[field] for field in self.fields)
        body = b""
        for field in self.fields:
            if field == "id":
                body += struct.pack("<i", -4)
            elif field not in EACH:
                body += bytes(WIDTHS[field])
            else:
                count = max(left, 0) // EACH[field]
                body += count.to_bytes(WIDTHS[field], "little") + b"a" * (count * EACH[field])
                left -= count * EACH[field]
        return body if len(body) == length else None


# How wide a field is, or the count that it begins with, and each of what the count is of.
WIDTHS = {"id": 4, "i32": 4, "u32": 4, "u8": 1, "text": 2, "blob": 4, "groups": 4, "entries": 4}
EACH = {"text": 1, "blob": 1, "groups": 4, "entries": keyretain.ENTRY.size}

ASKS = {ask.number: Ask(name) for name, ask in keyretain.ASKS.items()}


def status_without_context(operation, fields):
    """The status of an ask whose client has no such context, and no queue: 0 where it is accepted all the same."""
    if operation == 256:
        uids = [*fields[:2], *fields[2]]
        return 22 if len(uids) > 34 or 0xFFFFFFFF in uids else 0
    if operation == 261:
        return 0
    if operation == 264:
        return 0 if 1 <= fields[0] <= 4096 else 22
    return 9 if operation in (265, 266, 267) else 3


def is_reply(operation, got, version=1, tag=None):
    """Whether these bytes are just one reply to this operation, with this tag."""
    try:
        found = decode_reply(got, version)
        if found is None or found.length != len(got) or found.tag != tag:
            return False
        keyretain.answer_of(ASKS[operation].name, found)
    except keyretain.Refused:
        pass
    except keyretain.Malformed:
        return False
    return True
