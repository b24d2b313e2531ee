"""docker-credential-keyretain(1): a helper of the protocol of docker-credential-helpers. Whatever goes wrong is told on
standard output, as that protocol wants it, with the words by which its programs know an error."""
from __future__ import annotations

import json
import sys
from typing import Callable, NamedTuple, Optional, Sequence
from urllib.parse import quote_from_bytes, unquote_to_bytes

from .helper import Unusable, keep_no_core, print_bytes, read_all, version_of, words_of
from .locker import Entry, Locker

PROGRAM = "docker-credential-keyretain"
USAGE = f"Usage: {PROGRAM} <store|get|erase|list|version>"
FAILED = 1
KEYRING = "docker-credentials"

NOT_FOUND = "credentials not found in native keychain"
NO_SERVER = "no credentials server URL"
NO_USERNAME = "no credentials username"
NO_CREDENTIALS = "standard input is no JSON document with ServerURL, Username and Secret"


class Credentials(NamedTuple):
    """What is kept for a server."""

    username: str
    secret: str


# ---- Descriptions and payloads


def describe(server: bytes) -> str:
    """What a key is found by: one server has one username."""
    return f"docker server={quote_from_bytes(server, safe='')}"


def server_of(entry: Entry) -> Optional[str]:
    """None for a key that no helper of docker's has put there."""
    kind, _, server = entry.description.partition(b" server=")
    return unquote_to_bytes(server).decode(errors="replace") if kind == b"docker" else None


def parse(text: bytes, names: Sequence[str]) -> Optional[list[str]]:
    """The members of these names of a JSON object; an empty text for one that isn't there. None where it is none, or
    one of them no text."""
    try:
        members = json.loads(text)
    except (ValueError, RecursionError):
        return None
    values = [members.get(name, "") for name in names] if isinstance(members, dict) else [None]
    return values if all(isinstance(value, str) for value in values) else None


def credentials_of(locker: Locker, entry: Entry) -> Optional[Credentials]:
    """None where they are gone, or were put there by something else."""
    values = parse(locker.payload(entry) or b"", Credentials._fields)
    return None if values is None else Credentials(*values)


# ---- Operations


def read_server() -> bytes:
    server = read_all().strip()
    if not server:
        raise Unusable(NO_SERVER)
    return server


def print_json(value: object) -> None:
    print_bytes(json.dumps(value).encode() + b"\n")


def store() -> None:
    values = parse(read_all(), ("ServerURL", "Username", "Secret"))
    if values is None:
        raise Unusable(NO_CREDENTIALS)
    named, username, secret = values
    server = named.encode(errors="surrogatepass").strip()  # as it is read from a line
    if not server or not username:
        raise Unusable(NO_USERNAME if server else NO_SERVER)
    with Locker(KEYRING) as locker:
        payload = json.dumps(Credentials(username, secret)._asdict()).encode()
        locker.put(describe(server), payload)


def get() -> None:
    server = read_server()
    with Locker(KEYRING) as locker:
        found = [credentials_of(locker, entry) for entry in locker.named(describe(server))]
    if not found or found[0] is None:
        raise Unusable(NOT_FOUND)
    username, secret = found[0]
    print_json({"ServerURL": server.decode(errors="replace"), "Username": username, "Secret": secret})


def erase() -> None:
    """Where nothing is kept nothing is wrong: programs may ask each of several helpers."""
    server = read_server()
    with Locker(KEYRING) as locker:
        for entry in locker.named(describe(server)):
            locker.drop(entry)


def list_all() -> None:
    with Locker(KEYRING) as locker:
        kept = ((server_of(entry), credentials_of(locker, entry)) for entry in locker.entries())
        print_json({server: found.username for server, found in kept if server is not None and found is not None})


ACTIONS: dict[str, Callable[[], None]] = {"store": store, "get": get, "erase": erase, "list": list_all,
                                          "version": lambda: print(version_of(PROGRAM))}


def main(words: Optional[Sequence[str]] = None) -> int:
    """Answers the exit status."""
    words = sys.argv[1:] if words is None else words
    if list(words) == ["--help"]:
        print(USAGE)
        return 0
    keep_no_core()
    try:
        if len(words) != 1:
            raise Unusable(USAGE)
        action = ACTIONS.get("version" if words[0] == "--version" else words[0])
        if action is None:
            raise Unusable(f"{PROGRAM}: unknown action: {words[0]}")
        action()
    except (OSError, Unusable) as error:
        print(words_of(error))
        return FAILED
    except KeyboardInterrupt:
        return FAILED
    return 0
