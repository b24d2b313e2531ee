"""Frames of both versions, for tests of those who keep both: keyretaind and keyretain-guard. The clients speak the
second alone; in the first there is no tag."""
import struct

from compare import compare  # noqa: F401 pylint: disable=unused-import # which says where the client is
import keyretain

VERSIONS = (1, 2)


def in_version(version, whole):
    """An ask's frame of version 2, in this version."""
    if version == 2:
        return whole
    rest = struct.pack("<H", version) + whole[6:12] + whole[20:]
    return struct.pack("<I", len(rest)) + rest


def encode_ask(name, context, values=(), version=1, tag=0):
    return in_version(version, keyretain.encode_ask(name, context, values, tag))


def asked(name, context, values=(), tag=None):
    """An ask's frame, of the first version where it has no tag."""
    return encode_ask(name, context, values, 1 if tag is None else 2, tag or 0)


def hello(uid, gid, groups=(), tag=None):
    return asked("HELLO", 0, (uid, gid, groups), tag)


def frame(number, context, body=b"", version=1, tag=0):
    return in_version(version, keyretain.frame(number, context, body, tag))


def number(value):
    """What a number is in the body of a reply."""
    return struct.pack("<I", value)


def reply(tag, body=b"", status=0, version=2):
    """A reply's frame around any bytes."""
    rest = number(status) + (struct.pack("<Q", tag) if version == 2 else b"") + body
    return number(len(rest)) + rest


def decode_reply(received, version=1):
    """As the client's; the tag is None in version 1."""
    if version == 2 or len(received) < 4:
        return keyretain.decode_reply(received)
    length = struct.unpack_from("<I", received)[0]
    found = keyretain.decode_reply(number(length + 8) + received[4:8] + bytes(8) + received[8:4 + length])
    return found and found._replace(tag=None, length=4 + length)
