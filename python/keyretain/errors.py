"""What a call raises. All of them are OSErrors, and each has the number of its error in `errno`. They can be pickled: a
worker of multiprocessing whose error can't be has its parent wait for ever."""
from __future__ import annotations

import errno
import os
from typing import Any

STATUSES = {
    1: "EPERM", 2: "ENOENT", 3: "ESRCH", 9: "EBADF", 11: "EAGAIN", 12: "ENOMEM", 13: "EACCES", 16: "EBUSY",
    17: "EEXIST", 19: "ENODEV", 20: "ENOTDIR", 22: "EINVAL", 23: "ENFILE", 28: "ENOSPC", 35: "EDEADLK", 40: "ELOOP",
    57: "EBADSLT", 95: "EOPNOTSUPP", 105: "ENOBUFS", 126: "ENOKEY", 127: "EKEYEXPIRED", 128: "EKEYREVOKED",
    122: "EDQUOT",  # keyretain-guard(8) says it, and no daemon
}


class Refused(OSError):
    """The daemon refused an ask. `errno` is the number of its error, `name` what the manual calls it."""

    def __init__(self, ask: str, status: int) -> None:
        super().__init__(status, os.strerror(status))
        self.ask, self.name = ask, STATUSES[status]

    def __reduce__(self) -> tuple[Any, ...]:
        return type(self), (self.ask, self.errno)

    def __str__(self) -> str:
        return f"{self.ask}: {self.name}: {self.strerror}"


class Lost(ConnectionError):
    """The connection can't be used any more: it has ended, an exception cut a frame short, or it is the parent's."""

    def __init__(self, why: str) -> None:
        super().__init__(errno.ECONNRESET, why)

    def __reduce__(self) -> tuple[Any, ...]:
        return type(self), (self.strerror,)


class Malformed(OSError):
    """What came is no reply, or what was read no listing."""

    def __init__(self, what: str) -> None:
        super().__init__(errno.EPROTO, what)

    def __reduce__(self) -> tuple[Any, ...]:
        return type(self), (self.strerror,)


class TooFarAhead(BlockingIOError):
    """As many asks are ahead of their replies as may be: receive() takes one."""

    def __init__(self, count: int) -> None:
        super().__init__(errno.EAGAIN, f"{count} asks have been sent ahead, and their answers not received")
        self.count = count

    def __reduce__(self) -> tuple[Any, ...]:
        return type(self), (self.count,)
