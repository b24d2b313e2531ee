"""Sessions that processes find by a name, as keyretain-session(1) and login managers make them. A keyring that was
joined is found by its name, so a name says which one is meant, and a serial whether it is still the same one."""
from __future__ import annotations

import contextlib
import os
import re
from typing import TYPE_CHECKING, NamedTuple, Optional, Union

from .errors import Refused

if TYPE_CHECKING:
    from .client import Client

VARIABLE = "KEYRETAIN_SESSION"
LARGEST_SERIAL = 0x7FFFFFFF
LONGEST_NAME = 4095
USER_MAY_SEARCH, GROUP_AND_OTHERS = 0x00080000, 0x00003F3F


class Session(NamedTuple):
    """What KEYRETAIN_SESSION says: SERIAL:NAME."""

    serial: int
    name: bytes


def parse_session(text: Union[str, bytes]) -> Optional[Session]:
    """None where the text is no serial with a name."""
    found = re.fullmatch(rb"([1-9][0-9]{0,9}):(.+)", os.fsencode(text), re.DOTALL)
    if not found or int(found[1]) > LARGEST_SERIAL or len(found[2]) > LONGEST_NAME:
        return None
    return Session(int(found[1]), found[2])


def _is_own(client: Client, context: int, ring: int) -> bool:
    """Whether the keyring is the effective user's, gives group and others nothing, and was there before: one that JOIN
    has just made is known by lacking the right to search, without which JOIN would not have found it."""
    found = re.match(rb"keyring;([0-9]+);[0-9]+;([0-9a-f]+);", client.describe(context, ring))
    if not found or int(found[1]) != os.geteuid():
        return False
    mask = int(found[2], 16)
    return bool(mask & USER_MAY_SEARCH) and not mask & GROUP_AND_OTHERS


def _enter(client: Client, context: int, session: Session) -> bool:
    try:
        ring = client.join(context, session.name)
    except Refused:
        return False
    with contextlib.suppress(Refused):
        if ring == session.serial and _is_own(client, context, ring):
            return True
    client.join(context)
    return False


def enter(client: Client, context: int, session: Session) -> bool:
    """Client.enter_session, of a session that was read. A context is used no more that may be in another user's: a JOIN
    whose answer isn't awaited any more may be carried out yet, and for one of its own there may be no memory."""
    client.doubtful.add(context)
    try:
        is_in = _enter(client, context, session)
    except BaseException:  # a signal's handler may raise any
        with contextlib.suppress(OSError):
            client.exit(context)
        raise
    client.doubtful.discard(context)
    return is_in
