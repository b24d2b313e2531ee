"""What is left of a secret in a process: the resident pages of /proc/PID/mem, looked through for its marks.

A secret of this module is made of words of eight bytes, each of a mark of five random letters and three digits. So any
12 bytes of it in a row hold a whole mark, wherever they begin.
"""
from __future__ import annotations

import errno
import os
import random
import struct
import time
from string import ascii_letters
from typing import Iterator, NamedTuple

PAGE = os.sysconf("SC_PAGESIZE")
PRESENT, SWAPPED = 1 << 63, 1 << 62
PIECE = 1024  # pages that are read at once
MARK, WORD = 5, 8
LONGEST = 1 << 36
TRIES = 50
KERNELS = "[vvar]", "[vvar_vclock]", "[vsyscall]", "[vdso]"


class Secret:
    """A payload of so many bytes, whose words nothing else has."""

    def __init__(self, length: int) -> None:
        self.mark = "".join(random.SystemRandom().choices(ascii_letters, k=MARK)).encode()
        self.payload = b"".join(b"%s%03d" % (self.mark, n % 1000) for n in range(-(-length // WORD)))[:length]

    def places(self, data: bytes) -> Iterator[int]:
        """Where its words stand in some bytes."""
        at = -1
        while (at := data.find(self.mark, at + 1)) >= 0:
            yield at


class Run(NamedTuple):
    """Words of a secret in a row: in what mapping, and how many."""

    mapping: str
    words: int


def mappings(process: int) -> Iterator[tuple[int, int, str]]:
    """What is mapped for reading: start, end, name; but for the kernel's own pages, and the shadow of a sanitizer."""
    with open(f"/proc/{process}/maps", encoding="utf-8") as maps:
        for line in maps:
            words = line.split(maxsplit=5)
            start, end = (int(it, 16) for it in words[0].split("-"))
            name = words[5].strip() if len(words) > 5 else "anonymous"
            if words[1][0] == "r" and end - start < LONGEST and name not in KERNELS:
                yield start, end, name


def resident(process: int, start: int, end: int) -> Iterator[tuple[int, int]]:
    """The runs of pages of a mapping that are in memory or in swap, as (start, end)."""
    begun = None
    with open(f"/proc/{process}/pagemap", "rb", buffering=0) as pages:
        for begin in range(start, end, PIECE * PAGE):
            count = min(PIECE, (end - begin) // PAGE)
            pages.seek(begin // PAGE * 8)
            for at, entry in enumerate(struct.unpack(f"<{count}Q", pages.read(8 * count))):
                is_there, place = entry & (PRESENT | SWAPPED), begin + at * PAGE
                if is_there and begun is None:
                    begun = place
                elif not is_there and begun is not None:
                    yield begun, place
                    begun = None
    if begun is not None:
        yield begun, end


def left_of(process: int, secret: Secret) -> list[Run]:
    """What is left of a secret in all that is resident. Where a mapping goes meanwhile, it looks again."""
    for _ in range(TRIES):
        try:
            return look(process, secret)
        except OSError as error:
            if error.errno != errno.EIO:
                raise
        time.sleep(0.02)
    return look(process, secret)


def look(process: int, secret: Secret) -> list[Run]:
    """Its words, those that stand in a row as one run."""
    found: list[Run] = []
    with open(f"/proc/{process}/mem", "rb") as memory:
        for whole, behind, name in mappings(process):
            for start, end in resident(process, whole, behind):
                memory.seek(start)
                last = None
                for at in secret.places(memory.read(end - start)):
                    if last == at - WORD:
                        found[-1] = Run(name, found[-1].words + 1)
                    else:
                        found.append(Run(name, 1))
                    last = at
    return found
