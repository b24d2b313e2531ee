"""What the helpers' programs have in common."""
from __future__ import annotations

import errno
import resource
import sys
from contextlib import suppress
from typing import BinaryIO, Optional, TextIO

from .. import Refused, __version__
from ..places import advice, default_path

LONGEST_INPUT = 1 << 20


class Unusable(Exception):
    """What was given can't be kept or answered. The text has nothing of it, as that may be secret."""


PR_SET_DUMPABLE = 4  # prctl(2)


def keep_no_core() -> None:
    """A program that crashes leaves no file of its memory, which may have secrets. With a limit of 0 a program that
    core_pattern names is handed it all the same, core(5); with 1, which is less than any core, it isn't either. Where
    no more than 0 is allowed, or a socket is handed it, the kernel is told that nobody may have it."""
    hard = resource.getrlimit(resource.RLIMIT_CORE)[1]
    resource.setrlimit(resource.RLIMIT_CORE, (0 if hard == 0 else 1, hard))
    is_sent = False
    with suppress(OSError), open("/proc/sys/kernel/core_pattern", "rb") as pattern:
        is_sent = pattern.read(1) == b"@"
    if hard == 0 or is_sent:
        with suppress(ImportError, OSError, AttributeError):
            import ctypes  # pylint: disable=import-outside-toplevel # it takes long, and is seldom wanted
            ctypes.CDLL(None).prctl(PR_SET_DUMPABLE, 0, 0, 0, 0)


def standard(stream: Optional[TextIO]) -> BinaryIO:
    """Standard input or output as bytes. A program may have been started without."""
    if stream is None:
        raise Unusable("standard input or output is closed")
    return stream.buffer


def _limited(given: bytes) -> bytes:
    if len(given) > LONGEST_INPUT:
        raise Unusable(f"more than {LONGEST_INPUT} bytes are given")
    return given


def read_all() -> bytes:
    """Standard input."""
    return _limited(standard(sys.stdin).read(LONGEST_INPUT + 1))


def read_line() -> bytes:
    """The next line of it, with its end; nothing where there is none."""
    return _limited(standard(sys.stdin).readline(LONGEST_INPUT + 1))


def print_bytes(text: bytes) -> None:
    output = standard(sys.stdout)
    output.write(text)
    output.flush()


def complain(text: str) -> None:
    """A line on standard error. Where that is closed, print would say it on standard output, as an answer."""
    if sys.stderr is not None:
        print(text, file=sys.stderr)


def version_of(program: str) -> str:
    return f"{program} (keyretain) {__version__}"


def words_of(error: Exception) -> str:
    """One line for people, also of what to do where a daemon can't be asked."""
    if not isinstance(error, OSError) or isinstance(error, Refused) or error.strerror is None:
        words = str(error)
    else:
        words = error.strerror if error.filename is None else f"{error.filename}: {error.strerror}"
    is_daemons = isinstance(error, OSError) and error.filename in (None, default_path())
    is_asked = not isinstance(error, Refused) or error.errno == errno.EDQUOT  # which keyretain-guard says
    next_step = advice(None, error.errno) if is_daemons and is_asked else None
    return " ".join((f"{words}: {next_step}" if next_step else words).split())
