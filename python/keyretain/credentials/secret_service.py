"""keyretain-secrets(1): org.freedesktop.secrets on the session bus, by the Secret Service API 0.2. One collection,
`session`, and nothing is kept here but how secrets cross the bus: each call reads the store anew. Its alias `keyretain`
tells it from others' collections of that name."""
from __future__ import annotations

import argparse
import ctypes
import re
import resource
import time
from typing import Any, Callable, Optional, Sequence

from jeepney import (
    DBusAddress, HeaderFields, Message, MessageFlag, MessageType, new_error, new_method_return, new_signal,
)

from .. import Client
from . import secret_items as items
from .helper import PR_SET_DUMPABLE, complain, version_of, words_of
from .secret_bus import Bus, field
from .secret_sessions import ENCRYPTED, PLAIN, Session, agree, seal, unseal

PROGRAM, FAILED, IS_ANOTHERS = "keyretain-secrets", 1, 3
NAME, ROOT = "org.freedesktop.secrets", "/org/freedesktop/secrets"
ALIAS, OWN_ALIAS, DEFAULT = "session", "keyretain", "default"
COLLECTION, ALIASES = f"{ROOT}/collection/{ALIAS}", f"{ROOT}/aliases"
NO_OTHER = f"the one collection is {ALIAS}: secret-tool --collection={OWN_ALIAS} names it, and {PROGRAM} --{DEFAULT} " \
    "has programs find it that name none"
SESSIONS, NOTHING = f"{ROOT}/session", "/"  # NOTHING is also the prompt that no call needs
INTERFACES = ("Secret.Service", "Secret.Collection", "Secret.Item", "Secret.Session", "DBus.Properties",
              "DBus.Introspectable")
SERVICE, COLLECTIONS, ITEM, SESSION, PROPERTIES, INTROSPECTABLE = (f"org.freedesktop.{it}" for it in INTERFACES)
SHORTEST_PAUSE, LONGEST_PAUSE = 0.1, 1.0
MOST_SESSIONS, MOST_OF_A_CLIENT, MOST_ATTRIBUTES, MOST_SECONDS = 1024, 64, 64, 0xffffffff
SECRET = "(oayays)"

# What each interface has: the signatures of what a call takes and answers.
METHODS = {
    SERVICE: {"OpenSession": ("sv", "vo"), "CreateCollection": ("a{sv}s", "oo"), "SearchItems": ("a{ss}", "aoao"),
              "Unlock": ("ao", "aoo"), "Lock": ("ao", "aoo"), "GetSecrets": ("aoo", f"a{{o{SECRET}}}"),
              "ReadAlias": ("s", "o"), "SetAlias": ("so", "")},
    COLLECTIONS: {"Delete": ("", "o"), "SearchItems": ("a{ss}", "ao"), "CreateItem": (f"a{{sv}}{SECRET}b", "oo")},
    ITEM: {"Delete": ("", "o"), "GetSecret": ("o", SECRET), "SetSecret": (SECRET, "")},
    SESSION: {"Close": ("", "")},
    PROPERTIES: {"Get": ("ss", "v"), "GetAll": ("s", "a{sv}"), "Set": ("ssv", "")},
    INTROSPECTABLE: {"Introspect": ("", "s")},
}
TYPE = re.compile(r"a*(?:[a-z]|\([^()]*\)|\{[^{}]*\})")  # one complete type of a signature
# The properties of each, and which may be set.
VALUES = {
    SERVICE: {"Collections": "ao"},
    COLLECTIONS: {"Items": "ao", "Label": "s", "Locked": "b", "Created": "t", "Modified": "t"},
    ITEM: {"Attributes": "a{ss}", "Label": "s", "Locked": "b", "Created": "t", "Modified": "t"},
}
SETTABLE = {"Attributes": "attributes", "Label": "label"}


class Failure(Exception):
    """A call that is refused: the error's name, and a text that has nothing of what was given."""


def typed(variant: tuple[str, Any], signature: str) -> Any:
    """The value of a variant that has to be of this type."""
    if variant[0] != signature:
        raise Failure("DBus.Error.InvalidArgs", f"a value that is not of the type {signature}")
    if signature == "a{ss}" and len(variant[1]) > MOST_ATTRIBUTES:
        raise Failure("DBus.Error.LimitsExceeded", f"more than {MOST_ATTRIBUTES} attributes")
    return variant[1]


def described(kind: str, children: Sequence[str]) -> str:
    """What an object of this interface has, as D-Bus tells it to busctl(1)."""
    lines = ["<node>"]
    for interface in dict.fromkeys((kind, PROPERTIES, INTROSPECTABLE)):
        lines.append(f' <interface name="{interface}">')
        for member, signatures in METHODS[interface].items():
            arguments = [f'<arg direction="{way}" type="{it}"/>' for way, types in zip(("in", "out"), signatures)
                         for it in TYPE.findall(types)]
            lines.append(f'  <method name="{member}">{"".join(arguments)}</method>')
        for name, type_ in VALUES.get(interface, {}).items():
            access = "readwrite" if interface == ITEM and name in SETTABLE else "read"
            lines.append(f'  <property name="{name}" type="{type_}" access="{access}"/>')
        lines.append(" </interface>")
    return "\n".join([*lines, *(f' <node name="{it}"/>' for it in children), "</node>"])


class Service:
    """The objects, and what each answers: a method `on_INTERFACE_MEMBER` takes the path and what was given."""

    def __init__(self, bus: Bus, seconds: int, is_default: bool) -> None:
        self._bus, self._seconds, self._began = bus, seconds, int(time.time())
        self._aliases = (ALIAS, OWN_ALIAS, DEFAULT) if is_default else (ALIAS, OWN_ALIAS)
        self._aliased = [f"{ALIASES}/{it}" for it in self._aliases]
        self._sessions: dict[str, Session] = {}
        self._opened, self._caller = 0, ""
        self._seen: dict[str, int] = {}  # how each item was, by a number that tells no secret
        self._has_looked = False
        self._clients: set[str] = set()  # who has called, and is still there
        self._watch: Optional[items.Watch] = None
        self._last_news = time.monotonic()

    def answer(self, message: Message) -> None:
        """Carries a call out, and says what came of it. No other exception's text is told, as it may have a secret."""
        try:
            sent = new_method_return(message, *self._carried_out(message))
        except Failure as failure:
            name, text = failure.args
            sent = new_error(message, f"org.freedesktop.{name}", "s", (text,))
        except Exception as error:  # pylint: disable=broad-except
            is_known = isinstance(error, OSError)
            if not is_known:
                complain(f"{PROGRAM}: {type(error).__name__}")
            text = words_of(error) if is_known else "it cannot be carried out"
            sent = new_error(message, "org.freedesktop.DBus.Error.Failed", "s", (text,))
        if not message.header.flags & MessageFlag.no_reply_expected:
            self._bus.send(sent)

    def _carried_out(self, message: Message) -> tuple[Optional[str], tuple[Any, ...]]:
        self._caller = field(message, HeaderFields.sender)
        if not self._bus.is_own(self._caller):
            raise Failure("DBus.Error.AccessDenied", "another user's")
        self._clients.add(self._caller)
        if message.body is None:
            raise Failure("DBus.Error.LimitsExceeded", "a message that is too long, or cannot be read")
        path, asked = field(message, HeaderFields.path), field(message, HeaderFields.interface)
        member, kind = field(message, HeaderFields.member), self._kind_of(path)
        if asked not in (None, kind, PROPERTIES, INTROSPECTABLE):
            raise Failure("DBus.Error.UnknownInterface", "the object has no such interface")
        those = (kind, PROPERTIES, INTROSPECTABLE)
        interface = next((it for it in those if asked in (None, it) and member in METHODS[it]), None)
        if interface is None:
            raise Failure("DBus.Error.UnknownMethod", "the object has no such method")
        taken, answered = METHODS[interface][member]
        if (field(message, HeaderFields.signature) or "") != taken:
            raise Failure("DBus.Error.InvalidArgs", f"{member} takes {taken or 'nothing'}")
        run: Callable[..., tuple[Any, ...]] = getattr(self, f"on_{interface.rpartition('.')[2]}_{member}")
        return answered or None, run(path, *message.body)

    def left(self, client: str) -> None:
        """What a client leaves behind that has gone."""
        self._sessions = {path: session for path, session in self._sessions.items() if session.owner != client}
        self._clients.discard(client)
        if not self._clients:
            self._end_watch()

    def _kind_of(self, path: str) -> str:
        """The interface of an object. Whether an item is there is seen when it is read."""
        if path in (ROOT, COLLECTION, *self._aliased):
            return SERVICE if path == ROOT else COLLECTIONS
        if path in (NOTHING, ALIASES, SESSIONS) or ROOT.startswith(f"{path}/") or COLLECTION.startswith(f"{path}/"):
            return INTROSPECTABLE
        if path.startswith(f"{COLLECTION}/"):
            return ITEM
        if path.startswith(f"{SESSIONS}/"):
            self._session(path)
            return SESSION
        raise Failure("Secret.Error.NoSuchObject", "no such object")

    def _session(self, path: str) -> Session:
        session = self._sessions.get(path)
        if session is None or session.owner != self._caller:
            raise Failure("Secret.Error.NoSession", "the caller has no such session")
        return session

    def patience(self) -> Optional[float]:
        """How many seconds to wait for a call before looking what others have changed; None while nobody listens. A
        tenth of the time since they have."""
        quiet = time.monotonic() - self._last_news
        return min(max(SHORTEST_PAUSE, quiet / 10), LONGEST_PAUSE) if self._clients else None

    def look(self) -> None:
        """Tells what others have changed. What can't be had now is looked for again later."""
        try:
            if self._watch is None or self._watch.has_news():
                watch = items.Watch()  # before the look, so that nothing is missed between them
                self._end_watch()
                self._watch, self._last_news = watch, time.monotonic()
                self._load()
        except OSError:
            self._end_watch()

    def _end_watch(self) -> None:
        if self._watch is not None:
            self._watch.close()
        self._watch = None

    def _load(self) -> dict[str, items.Item]:
        """Those that are there now, by their paths. What others have changed since the last look is told."""
        now = {f"{COLLECTION}/{name}": item for name, item in items.load().items()}
        before, self._seen = self._seen, {path: hash(repr(item)) for path, item in now.items()}
        if self._has_looked:
            self._tell_changes(before)
        self._has_looked = True
        return now

    def _tell_changes(self, before: dict[str, int]) -> None:
        gone, new = ([path for path in one if path not in other]
                     for one, other in ((before, self._seen), (self._seen, before)))
        changed = [path for path, mark in before.items() if self._seen.get(path, mark) != mark]
        for member, paths in (("ItemDeleted", gone), ("ItemCreated", new), ("ItemChanged", changed)):
            for path in paths:
                self._tell(COLLECTION, COLLECTIONS, member, "o", (path,))
        for path in changed:
            self._tell_properties(path, *SETTABLE)
        if gone or new:
            self._tell_items()

    def _item(self, path: str) -> items.Item:
        item = self._load().get(path)
        if item is None:
            raise Failure("Secret.Error.NoSuchObject", "no such item")
        return item

    def _keep(self, item: items.Item, *names: str) -> str:
        """Answers the path. The names are those of the properties that have changed."""
        path = f"{COLLECTION}/{item.name}"
        is_new = path not in self._seen
        kept = items.keep(item, self._seconds, is_new)
        if kept is None:
            raise Failure("Secret.Error.NoSuchObject", "no such item")
        self._seen[path] = hash(repr(kept))
        self._tell(COLLECTION, COLLECTIONS, "ItemCreated" if is_new else "ItemChanged", "o", (path,))
        if is_new:
            self._tell_items()
        else:
            self._tell_properties(path, *names)
        return path

    def _taken(self, secret: tuple[str, bytes, bytes, str]) -> bytes:
        """The secret that came by a session of the caller's."""
        session = self._session(secret[0])
        try:
            return unseal(session, secret[1], secret[2])
        except ValueError:
            raise Failure("DBus.Error.InvalidArgs", "a secret that is not of its session") from None

    def _given(self, item: items.Item, path: str) -> tuple[str, bytes, bytes, str]:
        return (path, *seal(self._session(path), item.secret), item.content_type)

    def _tell(self, path: str, interface: str, member: str, signature: str, body: tuple[Any, ...]) -> None:
        """A signal. No labels, attributes or secrets are in it, as who hears the bus isn't known."""
        self._bus.send(new_signal(DBusAddress(path, interface=interface), member, signature, body))

    def _tell_properties(self, path: str, *names: str) -> None:
        self._tell(path, PROPERTIES, "PropertiesChanged", "sa{sv}as", (ITEM, {}, [*names, "Modified"]))

    def _tell_items(self) -> None:
        values = {"Items": ("ao", list(self._seen))}
        self._tell(COLLECTION, PROPERTIES, "PropertiesChanged", "sa{sv}as", (COLLECTIONS, values, ["Modified"]))
        self._tell(ROOT, SERVICE, "CollectionChanged", "o", (COLLECTION,))

    def on_Service_OpenSession(self, _: str, algorithm: str, given: tuple[str, Any]) -> tuple[Any, ...]:
        own = sum(session.owner == self._caller for session in self._sessions.values())
        if own >= MOST_OF_A_CLIENT or len(self._sessions) >= MOST_SESSIONS:
            raise Failure("DBus.Error.LimitsExceeded", "too many sessions")
        if algorithm == PLAIN:
            typed(given, "s")
            answer, key = ("s", ""), None
        elif algorithm == ENCRYPTED:
            try:
                public, key = agree(typed(given, "ay"))
                answer = ("ay", public)
            except ValueError:
                raise Failure("DBus.Error.InvalidArgs", "no public number of this algorithm") from None
        else:
            raise Failure("DBus.Error.NotSupported", "no such algorithm")
        self._opened += 1
        path = f"{SESSIONS}/{self._opened}"
        self._sessions[path] = Session(self._caller, key)
        return answer, path

    def on_Service_CreateCollection(self, _: str, __: dict[str, Any], alias: str) -> tuple[Any, ...]:
        if alias in self._aliases:
            return COLLECTION, NOTHING
        raise Failure("DBus.Error.NotSupported", NO_OTHER)

    def on_Service_SearchItems(self, _: str, wanted: dict[str, str]) -> tuple[Any, ...]:
        return (*self.on_Collection_SearchItems(_, wanted), [])

    def on_Service_Unlock(self, _: str, objects: list[str]) -> tuple[Any, ...]:
        there = {*self._load(), COLLECTION, *self._aliased}
        return [path for path in objects if path in there], NOTHING

    def on_Service_Lock(self, _: str, __: list[str]) -> tuple[Any, ...]:
        return [], NOTHING

    def on_Service_GetSecrets(self, _: str, paths: list[str], session: str) -> tuple[Any, ...]:
        self._session(session)
        there = self._load()
        return ({path: self._given(there[path], session) for path in paths if path in there},)

    def on_Service_ReadAlias(self, _: str, name: str) -> tuple[Any, ...]:
        return (COLLECTION if name in self._aliases else NOTHING,)

    def on_Service_SetAlias(self, _: str, name: str, path: str) -> tuple[Any, ...]:
        if name not in self._aliases or path != COLLECTION:
            raise Failure("DBus.Error.NotSupported", NO_OTHER)
        return ()

    def on_Collection_Delete(self, _: str) -> tuple[Any, ...]:
        raise Failure("DBus.Error.NotSupported", f"the collection {ALIAS} stays")

    def on_Collection_SearchItems(self, _: str, wanted: dict[str, str]) -> tuple[Any, ...]:
        return ([path for path, item in self._load().items() if item.fits(wanted)],)

    def on_Collection_CreateItem(self, _: str, given: dict[str, Any], secret: Any, replaces: bool) -> tuple[Any, ...]:
        label = typed(given.get(f"{ITEM}.Label", ("s", "")), "s")
        attributes = typed(given.get(f"{ITEM}.Attributes", ("a{ss}", {})), "a{ss}")
        value, there = self._taken(secret), self._load()
        same = [item for item in there.values() if replaces and item.attributes == attributes]
        if same:
            item = same[0]._replace(label=label, secret=value, content_type=secret[3])
            return self._keep(item, "Label"), NOTHING
        if len(there) >= items.MOST:
            raise Failure("DBus.Error.LimitsExceeded", f"more than {items.MOST} items")
        return self._keep(items.make(label, attributes, secret[3], value)), NOTHING

    def on_Item_Delete(self, path: str) -> tuple[Any, ...]:
        items.drop(self._item(path).name)
        self._load()
        return (NOTHING,)

    def on_Item_GetSecret(self, path: str, session: str) -> tuple[Any, ...]:
        return (self._given(self._item(path), session),)

    def on_Item_SetSecret(self, path: str, secret: Any) -> tuple[Any, ...]:
        value = self._taken(secret)
        self._keep(self._item(path)._replace(secret=value, content_type=secret[3]))
        return ()

    def on_Session_Close(self, path: str) -> tuple[Any, ...]:
        del self._sessions[path]
        return ()

    def _properties(self, path: str, interface: str) -> dict[str, tuple[str, Any]]:
        """Those of an object's own interface, with their types."""
        kind = self._kind_of(path)
        if interface not in (kind, ""):
            raise Failure("DBus.Error.UnknownInterface", "the object has no properties of this interface")
        there = [self._item(path)] if kind == ITEM else list(self._load().values())
        values: dict[str, Any] = {
            "Collections": [COLLECTION], "Items": list(self._seen), "Label": ALIAS, "Locked": False,
            "Created": self._began, "Modified": max((it.modified for it in there), default=self._began)}
        if kind == ITEM:
            values.update(Label=there[0].label, Attributes=there[0].attributes, Created=there[0].created)
        return {name: (type_, values[name]) for name, type_ in VALUES.get(kind, {}).items()}

    def on_Properties_Get(self, path: str, interface: str, name: str) -> tuple[Any, ...]:
        found = self._properties(path, interface).get(name)
        if found is None:
            raise Failure("DBus.Error.UnknownProperty", "the object has no such property")
        return (found,)

    def on_Properties_GetAll(self, path: str, interface: str) -> tuple[Any, ...]:
        return (self._properties(path, interface),)

    def on_Properties_Set(self, path: str, interface: str, name: str, given: tuple[str, Any]) -> tuple[Any, ...]:
        self.on_Properties_Get(path, interface, name)
        if self._kind_of(path) != ITEM or name not in SETTABLE:
            raise Failure("DBus.Error.PropertyReadOnly", "the property stays as it is")
        value = typed(given, VALUES[ITEM][name])
        self._keep(self._item(path)._replace(**{SETTABLE[name]: value}), name)
        return ()


    def on_Introspectable_Introspect(self, path: str) -> tuple[Any, ...]:
        kind, above = self._kind_of(path), path.rstrip("/") + "/"
        own = [it for it, session in self._sessions.items() if session.owner == self._caller]
        paths = [COLLECTION, *self._aliased, *self._load(), SESSIONS, *own]
        below = dict.fromkeys(it[len(above):].partition("/")[0] for it in paths if it.startswith(above))
        return (described(kind, list(below)),)


def keep_unseen() -> None:
    """It leaves no core file, and no process but root's may look into its memory."""
    resource.setrlimit(resource.RLIMIT_CORE, (0, 0))
    if ctypes.CDLL(None, use_errno=True).prctl(PR_SET_DUMPABLE, 0, 0, 0, 0) != 0:
        raise OSError(ctypes.get_errno(), "PR_SET_DUMPABLE")


def look_for_daemon() -> None:
    """Says where there is none, which a unit has in its journal. Each call says so too."""
    try:
        Client(timeout=1).close()
    except OSError as error:
        complain(f"{PROGRAM}: {words_of(error)}")


def main(words: Optional[Sequence[str]] = None) -> int:
    """Answers the exit status."""
    parser = argparse.ArgumentParser(PROGRAM, description="Secrets of the session bus, kept by keyretaind(8).")
    parser.add_argument("--timeout", type=int, default=0, metavar="SECONDS", help="how long an item is kept; 0: no end")
    parser.add_argument("--default", action="store_true", help="serve the collection `default` too, which "
                        "programs use that name none")
    parser.add_argument("--version", action="version", version=version_of(PROGRAM))
    given = parser.parse_args(words)
    seconds = given.timeout
    if not 0 <= seconds <= MOST_SECONDS:
        parser.error(f"--timeout takes 0 to {MOST_SECONDS}")
    try:
        keep_unseen()
        bus = Bus(NAME)
        look_for_daemon()
        service = Service(bus, seconds, given.default)
        while True:
            message = bus.receive(service.patience())
            if message is None:
                service.look()
                continue
            gone = bus.gone(message)
            if gone is not None:
                service.left(gone)
            elif message.header.message_type is MessageType.method_call:
                service.answer(message)
    except EOFError:
        return 0  # the session has ended, and its bus with it
    except KeyboardInterrupt:
        return FAILED
    except FileExistsError as error:
        complain(f"{PROGRAM}: {error}")
        return IS_ANOTHERS
    except Exception as error:  # pylint: disable=broad-except
        complain(f"{PROGRAM}: {words_of(error) if isinstance(error, OSError) else type(error).__name__}")
    return FAILED
