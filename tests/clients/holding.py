"""holding.py KEEPER: whether keyretain-keeper --hold goes on where a daemon doesn't say for a while what the keyring
has, and ends where there is no keyring any more; and that all its asks together end within its patience."""
import errno
import itertools
import os
import struct
import subprocess
import sys
import threading
import time

from compare import compare, conclude
from servers import reply, served
import keyretain

RING, KEY, MARK, SESSION = 77, 78, 79, 80
SERIAL, LINK = struct.pack("<I", RING), struct.pack("<I", KEY)
OWN, OTHERS = (b"keyring;%d;0;3f1b0000;of some user" % uid for uid in (os.geteuid(), os.geteuid() + 1))
FORMS = {"number": SERIAL, "serial": SERIAL, "nothing": b"", "bytes": OWN}


class Daemon:
    """One whose keyring reads as these, one after the other: bytes, or the number of an error. Another user has the
    name of the keeper's session, which a key of its own says. `ended` is set when the keeper has gone, which has read
    the keyring `count` times then."""

    def __init__(self, readings):
        self.readings, self.count, self.ended = iter(readings), 0, threading.Event()

    def answer(self, name, values):
        if name == "SEARCH" and b"user" in values:
            return struct.pack("<I", MARK), 0
        if name == "JOIN":
            return struct.pack("<I", SESSION), 0
        if name == "DESCRIBE" and SESSION in values:
            return OTHERS, 0
        if name == "READ" and MARK in values:
            return b"_ses.0123456789abcdef", 0
        if name == "READ":
            self.count += 1
            reading = next(self.readings)
            return (b"", reading) if isinstance(reading, int) else (reading, 0)
        return FORMS[keyretain.ASKS[name].answer], 0

    def serve(self, end):
        for tag, name, values in end.asks():
            body, status = self.answer(name, values)
            end.socket.sendall(reply(tag, body, status))
        self.ended.set()


def readings_of(keeper, *readings):
    """How often the keyring was read before the keeper ended."""
    daemon = Daemon(itertools.chain(readings, itertools.repeat(b"")))
    with served(daemon.serve) as path:
        subprocess.run([keeper, "--hold", "ring", "--socket", path], input=b"", stdout=subprocess.DEVNULL, check=True)
        compare("it ends", True, daemon.ended.wait(60))
    return daemon.count


def said_to_slow(keeper):
    """What it says with a patience of a second, to a daemon whose answers take a third of one each."""
    def serve(end):
        for tag, name, values in end.asks():
            time.sleep(0.35)
            end.socket.sendall(reply(tag, FORMS[keyretain.ASKS[name].answer]))

    with served(serve) as path:
        return subprocess.run([keeper, "--socket", path, "--patience", "1000"], input=b"", stdout=subprocess.PIPE,
                              check=False).stdout[:10]


# The last two looks find nothing, as the name of its session is given up between them.
compare("a keyring without keys", 1, readings_of(sys.argv[1]))
compare("keys that go", 4, readings_of(sys.argv[1], LINK, LINK))
compare("a daemon without memory", 6, readings_of(sys.argv[1], LINK, errno.ENOMEM, errno.ENOMEM, LINK))
compare("no memory at first", 4, readings_of(sys.argv[1], errno.ENOMEM, LINK))
for gone in errno.ENOKEY, errno.EKEYREVOKED, errno.EACCES:
    compare(f"a keyring that is gone, {gone}", 3, readings_of(sys.argv[1], LINK, gone, gone))
compare("a daemon that is slow at each ask", b"failed 110", said_to_slow(sys.argv[1]))
conclude()
