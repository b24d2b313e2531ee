"""keyretain-keeper(8), which holds a keyring as long as it has keys. It is executed with nothing of this process but a
pipe: it stays as long as the pipe is open, and then until the last key has expired.

Where the user has a systemd it belongs to that, and not to the login whose program has started it: it neither ends with
that login nor keeps it from ending, and ends with the user's last one."""
from __future__ import annotations

import errno
import fcntl
import os
import select
import subprocess
import time
from collections.abc import Iterator
from contextlib import contextmanager, suppress
from typing import Optional

KEEPER = "/usr/local/libexec/keyretain/keyretain-keeper"  # `make install` writes its folder here
MANAGERS = "/run/user"  # each has a folder of its user, which nobody else may change
MANAGED = ("/usr/bin/systemd-run", "--user", "--scope", "--quiet", "--collect", "--")
PATIENCE = 10.0
LONGEST_ANSWER = 8192


def _pipe() -> tuple[int, int]:
    """Both ends. The number of the writing one, which stays, is none of the three that programs read from and write
    to."""
    reading, low = os.pipe()
    try:
        return reading, fcntl.fcntl(low, fcntl.F_DUPFD_CLOEXEC, 3)
    except BaseException:
        os.close(reading)
        raise
    finally:
        os.close(low)


def _spawn(words: list[str], variables: dict[str, str], life: int) -> subprocess.Popen[bytes]:
    """Starts it: descriptor 0 is the pipe that it waits on, 1 the one that it answers on."""
    try:
        return subprocess.Popen([os.path.basename(words[0]), *words[1:]], executable=words[0], env=variables,
                                start_new_session=True, stdin=life, stdout=subprocess.PIPE, stderr=subprocess.DEVNULL)
    finally:
        os.close(life)


def _read_line(reading: int, end: float) -> bytes:
    """The first line of its answer, by this moment of the monotonic clock; what came, where it ends before."""
    poll, text = select.poll(), b""
    poll.register(reading, select.POLLIN)
    while b"\n" not in text and len(text) < LONGEST_ANSWER:
        if not poll.poll(1000 * max(0.0, end - time.monotonic())):
            raise TimeoutError(errno.ETIMEDOUT, os.strerror(errno.ETIMEDOUT), KEEPER)
        piece = os.read(reading, LONGEST_ANSWER)
        if not piece:
            break
        text += piece
    return text.split(b"\n")[0]


def _check(line: bytes) -> None:
    """OSError unless it says what it holds. Else it says `refused ERROR WHAT` or `failed ERROR WHAT`."""
    kind, _, rest = line.partition(b" ")
    if kind in (b"refused", b"failed"):
        number = rest.split(b" ")[0]
        error = int(number) if number.isdigit() else errno.EPROTO
        raise OSError(error, os.strerror(error), KEEPER)
    if b":" not in line:
        raise OSError(errno.ECHILD, "it ended without a word", KEEPER)


def _answer(child: subprocess.Popen[bytes], end: float) -> bytes:
    """What it says. The process that was started goes to the background at once: what stays is another's child. Its
    user, whose effective uid a program of root's may have taken, may have stopped it: then it's left at this moment."""
    line = b""
    try:
        with child.stdout as answer:  # type: ignore[union-attr] # there is one
            line = _read_line(answer.fileno(), end)
        return line
    finally:
        with suppress(subprocess.TimeoutExpired):
            child.wait(max(0.0, end - time.monotonic()) if line else 0)  # else nobody waits for it any more


def _begin(words: list[str], variables: dict[str, str], end: float) -> int:
    """Has it started by this moment, and answers its pipe's other end. OSError where it isn't, or says why not."""
    reading, life = _pipe()
    try:
        _check(_answer(_spawn(words, variables, reading), end))
        return life
    except BaseException:
        os.close(life)
        raise


def _begin_managed(words: list[str], end: float) -> Optional[int]:
    """The same by the user's systemd; None where there is none, or it doesn't do so, in half of the time. A program of
    root's that has taken a user's effective uid isn't that systemd's to start."""
    folder = f"{MANAGERS}/{os.geteuid()}"
    if os.getuid() != os.geteuid() or not os.path.exists(f"{folder}/systemd/private"):
        return None
    with suppress(OSError):
        return _begin([*MANAGED, *words], {"XDG_RUNTIME_DIR": folder}, end - PATIENCE / 2)
    return None


@contextmanager
def holding(ring: str, socket: str) -> Iterator[None]:
    """Within this block a keeper holds the keyring, and behind it as long as it has keys. OSError where none can."""
    words, end = [KEEPER, "--hold", ring, "--socket", socket], time.monotonic() + PATIENCE
    life = _begin_managed(words, end) or _begin(words, {}, end)
    try:
        yield
    finally:
        os.close(life)
