"""Items of the Secret Service API as entries of a locker. The description is `secret NAME`, where NAME is the last word
of the item's path. The payload is a line of JSON, of what the item is, and then the secret."""
from __future__ import annotations

import json
import os
import time
from typing import NamedTuple, Optional

from .locker import Entry, Locker

KEYRING, KIND = "secret-service", "secret"
MOST = 1000  # items that are looked at: the newest
FIELDS = ("label", "attributes", "content_type", "created", "modified")


class Watch:
    """A connection on which the items are watched, for as long as it isn't closed."""

    def __init__(self) -> None:
        self._locker = Locker(KEYRING)
        self._news = self._locker.watched(MOST)
        try:
            next(self._news)
        except BaseException:
            self.close()
            raise

    def has_news(self) -> bool:
        """Whether something has happened to them since."""
        return next(self._news)

    def close(self) -> None:
        self._locker.__exit__()


class Item(NamedTuple):
    """What one is, and its secret."""

    name: str
    label: str
    attributes: dict[str, str]
    content_type: str
    created: int
    modified: int
    secret: bytes

    def fits(self, wanted: dict[str, str]) -> bool:
        """Whether it has all these attributes."""
        return all(self.attributes.get(name) == value for name, value in wanted.items())


def make(label: str, attributes: dict[str, str], content_type: str, secret: bytes) -> Item:
    """A new one, with a name that no other has."""
    now = int(time.time())
    return Item(os.urandom(16).hex(), label, attributes, content_type, now, now, secret)


def _is_text(value: object) -> bool:
    """Whether it can be a string of D-Bus."""
    return isinstance(value, str) and "\0" not in value and value.encode() is not None


def _parse(entry: Entry, payload: bytes) -> Optional[Item]:
    """None where somebody has put something else there."""
    kind, _, name = entry.description.decode("ascii", "replace").partition(" ")
    head, _, secret = payload.partition(b"\n")
    try:
        fields = json.loads(head)
        texts = [fields["label"], fields["content_type"], *sum(fields["attributes"].items(), ())]
        well = kind == KIND and len(bytes.fromhex(name)) == 16 and name.isalnum() and all(map(_is_text, texts)) \
            and all(type(fields[each]) is int and 0 <= fields[each] < 1 << 63 for each in ("created", "modified"))
        return Item(name, *(fields[field] for field in FIELDS), secret) if well else None
    except (ValueError, LookupError, TypeError, AttributeError, RecursionError):
        return None


def load() -> dict[str, Item]:
    """All that can be used at this moment, by their names."""
    with Locker(KEYRING) as locker:
        read = [_parse(entry, locker.payload(entry) or b"") for entry in locker.entries()[:MOST]]
    return {item.name: item for item in read if item is not None}


def keep(item: Item, seconds: int, is_new: bool) -> Optional[Item]:
    """For so many seconds, or without an end for 0. It is changed now, and answered so. One that isn't new is in its
    place: None where that is gone."""
    kept = item._replace(modified=int(time.time()))
    head = json.dumps({field: getattr(kept, field) for field in FIELDS})
    name, payload = f"{KIND} {item.name}", head.encode() + b"\n" + item.secret
    with Locker(KEYRING) as locker:
        if is_new:
            locker.put(name, payload, seconds)
        is_kept = is_new or any(locker.update(entry, payload, seconds) for entry in locker.named(name))
        return kept if is_kept else None


def drop(name: str) -> None:
    """Takes out the item of this name."""
    with Locker(KEYRING) as locker:
        for entry in locker.named(f"{KIND} {name}"):
            locker.drop(entry)
