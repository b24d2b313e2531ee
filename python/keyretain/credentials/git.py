"""git-credential-keyretain(1): a helper of gitcredentials(7). It keeps what git was given, as long as it says, and
gives git the newest that fits."""
from __future__ import annotations

import sys
import time
from typing import Optional, Sequence
from urllib.parse import quote_from_bytes, unquote_to_bytes

from .helper import Unusable, complain, keep_no_core, print_bytes, read_line, version_of, words_of
from .locker import Entry, Locker

PROGRAM = "git-credential-keyretain"
USAGE = f"usage: {PROGRAM} [--timeout SECONDS] get|store|erase"
FAILED, WRONG_WORDS = 1, 2
KEYRING = "git-credentials"
SECONDS = 900
MOST_SECONDS = 0xFFFFFFFF
MOST_ATTRIBUTES = 1000

NAMES = (b"protocol", b"host", b"path", b"username")
KEPT = (b"password", b"password_expiry_utc", b"oauth_refresh_token")

Attributes = dict[bytes, bytes]  # those of git-credential(1)


# ---- Attributes, descriptions and payloads


def read_attributes() -> Attributes:
    """Lines NAME=VALUE, up to an empty one or the end. A value may be any bytes but a newline or a null byte."""
    given: Attributes = {}
    for number in range(1, MOST_ATTRIBUTES + 1):
        line = read_line()
        if line in (b"", b"\n"):
            return given
        name, equals, value = line[:-1 if line.endswith(b"\n") else None].partition(b"=")
        if not equals or b"\0" in line:
            raise Unusable(f"line {number} is no attribute")
        given[name] = value
    raise Unusable(f"more than {MOST_ATTRIBUTES} attributes")


def describe(given: Attributes) -> str:
    """What a key is found by."""
    words = [f"{name.decode()}={quote_from_bytes(given[name], safe='')}" for name in NAMES if name in given]
    return " ".join(["git", *words])


def parse_description(description: bytes) -> Optional[Attributes]:
    """None for a key that no helper of git's has put there."""
    words = [word.partition(b"=") for word in description.split(b" ")]
    found = {name: unquote_to_bytes(value) for name, _, value in words[1:]}
    is_whole = words[0][0] == b"git" and set(found) <= set(NAMES)
    return found if is_whole and not any(set(value) & set(b"\n\0") for value in found.values()) else None


def parse_payload(payload: bytes) -> Attributes:
    lines = (line.partition(b"=") for line in payload.split(b"\n"))
    return {name: value for name, _, value in lines if name in KEPT and b"\0" not in value}


def lines_of(attributes: Attributes) -> bytes:
    return b"".join(name + b"=" + value + b"\n" for name, value in attributes.items())


# ---- Operations


def matching(locker: Locker, given: Attributes) -> list[tuple[Entry, Attributes]]:
    """Those that have each name as given, where it is given, and what each is of. The newest comes first. What has a
    host is never meant without one: the same path may be another host's."""
    parsed = ((entry, parse_description(entry.description)) for entry in locker.entries())
    return [(entry, names) for entry, names in parsed if names is not None
            and all(name not in given or given[name] == names.get(name) for name in NAMES)
            and (b"host" in given or not names.get(b"host"))]


def names_a_place(given: Attributes) -> bool:
    return b"protocol" in given and (b"host" in given or b"path" in given)


def get(given: Attributes) -> None:
    """Git is given nothing where nothing fits, or where it doesn't say for what."""
    if not names_a_place(given):
        return
    with Locker(KEYRING) as locker:
        for entry, names in matching(locker, given):
            kept = parse_payload(locker.payload(entry) or b"")
            if b"password" in kept and b"username" in names:
                print_bytes(lines_of({b"username": names[b"username"], **kept}))
                return


def seconds_to_keep(given: Attributes, timeout: int) -> int:
    """Not beyond the moment at which the password expires."""
    expiry = given.get(b"password_expiry_utc", b"")
    return min(timeout, int(expiry) - int(time.time())) if expiry.isdigit() and len(expiry) < 20 else timeout


def store(given: Attributes, timeout: int) -> None:
    """Nothing is kept of what isn't whole, or has expired."""
    seconds = seconds_to_keep(given, timeout)
    if seconds <= 0 or not names_a_place(given) or not {b"username", b"password"} <= set(given):
        return
    with Locker(KEYRING) as locker:
        locker.put(describe(given), lines_of({name: given[name] for name in KEPT if name in given}), seconds)


def erase(given: Attributes) -> None:
    """All that fit go. A password that git was refused goes, and not another one that has taken its place."""
    if not set(given) & set(NAMES):
        return
    with Locker(KEYRING) as locker:
        for entry, _ in matching(locker, given):
            kept = parse_payload(locker.payload(entry) or b"")
            if given.get(b"password") in (None, kept.get(b"password")):
                locker.drop(entry)


# ---- The program


def read_words(words: Sequence[str]) -> Optional[tuple[str, int]]:
    """The operation and the timeout; None where they are none that it takes."""
    timeout, rest = str(SECONDS), list(words)
    if rest and rest[0].startswith("--timeout="):
        timeout = rest.pop(0).partition("=")[2]
    elif len(rest) > 1 and rest[0] == "--timeout":
        timeout, rest = rest[1], rest[2:]
    is_number = timeout.isascii() and timeout.isdecimal() and len(timeout) <= len(str(MOST_SECONDS))
    if len(rest) != 1 or rest[0].startswith("-") or not is_number or int(timeout) > MOST_SECONDS:
        return None
    return rest[0], int(timeout)


def carry_out(operation: str, timeout: int) -> None:
    """An operation that isn't known is ignored: git may have more of them."""
    if operation == "get":
        get(read_attributes())
    elif operation == "store":
        store(read_attributes(), timeout)
    elif operation == "erase":
        erase(read_attributes())


def main(words: Optional[Sequence[str]] = None) -> int:
    """Answers the exit status."""
    words = sys.argv[1:] if words is None else words
    if list(words) in (["--help"], ["--version"]):
        print(USAGE if words[0] == "--help" else version_of(PROGRAM))
        return 0
    asked = read_words(words)
    if asked is None:
        complain(USAGE)
        return WRONG_WORDS
    keep_no_core()
    try:
        carry_out(*asked)
    except (OSError, Unusable) as error:
        complain(f"{PROGRAM}: {words_of(error)}")
        return FAILED
    except KeyboardInterrupt:
        return FAILED
    return 0
