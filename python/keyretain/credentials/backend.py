"""The backend `keyretain` of Python's keyring: keyretain-keyring(7)."""
from __future__ import annotations

import errno
import os
from collections.abc import Iterator
from contextlib import contextmanager
from typing import Optional
from urllib.parse import quote_from_bytes, unquote_to_bytes

from keyring.backend import KeyringBackend
from keyring.credentials import Credential, SimpleCredential
from keyring.errors import KeyringError, PasswordDeleteError, PasswordSetError

from ..places import advice, default_path
from .helper import words_of
from .locker import Entry, Locker

KEYRING = "python-keyring"
# Below backends that keep what they are given over a restart, which have 4.8 or 5. But above these where they would
# ask keyretain-secrets(1), and not find the collection `default` there, or no bus.
PRIORITY, WITHOUT_DEFAULT = 4.5, 5.5
SECONDS = 2  # that the session bus has to answer


def _is_without_default() -> bool:
    """Whether there is no session bus, or its secrets are keyretain-secrets', without `default`. What isn't running
    isn't started."""
    places = os.environ.get("DBUS_SESSION_BUS_ADDRESS"), os.environ.get("DISPLAY")  # by the second one is started
    if not any(places) and not os.path.exists(f"{os.environ.get('XDG_RUNTIME_DIR', '')}/bus"):
        return True
    try:
        from jeepney import DBusAddress, MessageFlag, new_method_call  # pylint: disable=import-outside-toplevel
        from jeepney.io.blocking import open_dbus_connection  # pylint: disable=import-outside-toplevel
        address = DBusAddress("/org/freedesktop/secrets", "org.freedesktop.secrets", "org.freedesktop.Secret.Service")
        found = []
        with open_dbus_connection(auth_timeout=SECONDS) as bus:
            for alias in ("keyretain", "default"):
                ask = new_method_call(address, "ReadAlias", "s", (alias,))
                ask.header.flags |= MessageFlag.no_auto_start
                found += bus.send_and_get_reply(ask, timeout=SECONDS).body
        return found[0].startswith("/org/") and found[1] == "/"
    except Exception:  # pylint: disable=broad-except # no jeepney, no bus, or what answers is another program
        return False


class _Priority:
    """An attribute of the class, for which keyring looks to see whether the backend can be used."""

    def __get__(self, instance: object, owner: object = None) -> float:
        if not os.path.exists(default_path()):
            raise RuntimeError(f"no socket of keyretaind(8) is there: {advice(None, errno.ENOENT)}")
        return WITHOUT_DEFAULT if _is_without_default() else PRIORITY


def _encode(text: str) -> bytes:
    """Any text of Python's."""
    return text.encode(errors="surrogatepass")


def _decode(kept: bytes) -> str:
    try:
        return kept.decode(errors="surrogatepass")
    except UnicodeDecodeError:
        return kept.decode(errors="replace")


def _quote(text: str) -> str:
    return quote_from_bytes(_encode(text), safe="")


def _describe(service: str, username: str) -> str:
    return f"keyring service={_quote(service)} username={_quote(username)}"


def _username_of(entry: Entry, service: str) -> Optional[str]:
    """None where the entry is another service's."""
    kind, _, rest = entry.description.partition(b" service=")
    kept, _, username = rest.partition(b" username=")
    is_it = kind == b"keyring" and kept.decode("ascii", "replace") == _quote(service)
    return _decode(unquote_to_bytes(username)) if is_it else None


@contextmanager
def _locker(failure: type[KeyringError] = KeyringError) -> Iterator[Locker]:
    """What goes wrong is raised as programs expect it."""
    try:
        with Locker(KEYRING) as locker:
            yield locker
    except OSError as error:
        raise failure(words_of(error)) from error


def _found(locker: Locker, service: str, username: Optional[str]) -> Iterator[tuple[Entry, str]]:
    """The entries of a service, or the one of this username, and whose each is. The newest comes first."""
    for entry in locker.entries():
        kept = _username_of(entry, service)
        if kept is not None and username in (None, kept):
            yield entry, kept


class Keyring(KeyringBackend):
    """Passwords as keys of keyretaind(8), which are gone when the daemon or the machine is started anew."""

    priority = _Priority()  # type: ignore[assignment]

    def _get(self, service: str, username: Optional[str]) -> Optional[SimpleCredential]:
        with _locker() as locker:
            for entry, kept in _found(locker, service, username):
                name, _, password = (locker.payload(entry) or b"").partition(b"=")
                if name == b"password":
                    return SimpleCredential(kept, _decode(password))
        return None

    def get_password(self, service: str, username: str) -> Optional[str]:
        """None where there is none."""
        found = self._get(service, username)
        return found.password if found else None

    def get_credential(self, service: str, username: Optional[str]) -> Optional[Credential]:
        """The newest of the service where no username is given."""
        return self._get(service, username)

    def set_password(self, service: str, username: str, password: str) -> None:
        """It is kept as long as the session, or without one as long as the daemon."""
        with _locker(PasswordSetError) as locker:
            locker.put(_describe(service, username), b"password=" + _encode(password))

    def delete_password(self, service: str, username: str) -> None:
        """PasswordDeleteError where there is none."""
        with _locker() as locker:
            for entry, _ in _found(locker, service, username):
                return locker.drop(entry)
        raise PasswordDeleteError("no such password")
