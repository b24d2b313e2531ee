"""python3 -I -m keyretain [--exec COMMAND] KEY: watches a key for the caller's uid, in the session that it is in. It
prints its notes as `keyctl watch` does, or runs a command of the shell at each, which finds the note in the variable
KEYRETAIN_NOTE. What is watched it says on standard error."""
from __future__ import annotations

import errno
import os
import subprocess
import sys
from typing import Optional, Sequence

from . import PROCESS, SESSION, THREAD, USER, USER_SESSION, Client, Refused, describe_note, notes_of
from .credentials.helper import words_of
from .places import environment
from .sessions import VARIABLE

WORDS = {"@t": THREAD, "@p": PROCESS, "@s": SESSION, "@u": USER, "@us": USER_SESSION}
LARGEST_SERIAL = 0x7FFFFFFF
USAGE = "usage: python3 -I -m keyretain [--exec COMMAND] KEY    (a serial, @t, @p, @s, @u or @us)"
FAILED, WRONG_WORDS = 1, 2


def key_of(word: str) -> Optional[int]:
    """The key that a word names, or None."""
    if word in WORDS:
        return WORDS[word]
    if not (word.isascii() and word.isdecimal() and len(word) <= len(str(LARGEST_SERIAL))):
        return None
    return int(word) if 0 < int(word) <= LARGEST_SERIAL else None


def printable(text: bytes) -> str:
    """Text of others, without what a terminal would obey."""
    return "".join(sign if sign.isprintable() else f"\\x{ord(sign):02x}"
                   for sign in text.decode("ascii", "backslashreplace"))


def act(note: str, command: Optional[str]) -> None:
    """What is done at a note. The next one waits until the command has ended."""
    if command is None:
        print(note, flush=True)
        return
    environ = {**os.environ, "KEYRETAIN_NOTE": note}
    status = subprocess.run(["/bin/sh", "-c", command], env=environ, check=False).returncode
    if status != 0:
        print(f"keyretain: the command ended with {status}: {note}", file=sys.stderr)


def watch(key: int, command: Optional[str]) -> None:
    """Tells the notes of a key until it is watched no more."""
    with Client() as client:
        context = client.hello(os.geteuid(), os.getegid(), os.getgroups()[:32])
        if environment(VARIABLE) and not client.enter_session(context):
            raise Refused("JOIN", errno.EKEYREVOKED)
        queue = client.open_queue(256)
        client.watch(context, key, queue)
        print("watching", printable(client.describe(context, key)), file=sys.stderr, flush=True)
        for note in notes_of(client, queue):
            act(describe_note(note), command)


def main(words: Sequence[str]) -> int:
    """Answers the exit status."""
    command = words[1] if len(words) == 3 and words[0] == "--exec" else None
    key = key_of(words[-1]) if len(words) == (1 if command is None else 3) else None
    if key is None:
        print(USAGE, file=sys.stderr)
        return WRONG_WORDS
    try:
        watch(key, command)
    except OSError as error:
        print(f"keyretain: {words_of(error)}", file=sys.stderr)
        return FAILED
    except KeyboardInterrupt:
        pass
    return 0


if __name__ == "__main__":
    sys.exit(main(sys.argv[1:]))
