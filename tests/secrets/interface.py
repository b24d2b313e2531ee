"""interface.py: each method, property, signal and error, by the Secret Service API 0.2."""
import os
import shutil
import xml.etree.ElementTree as ET

from stage import (COLLECTION, FOLDER, ITEM, NAME, PATIENCE, PROPERTIES, ROOT, SERVICE, SESSION, SESSION_COLLECTION,
                   Caller, bus, compare, conclude, daemon, run, secrets, skipped, text_of)
from cryptography.hazmat.primitives import hashes, hmac
from cryptography.hazmat.primitives.ciphers import Cipher, algorithms, modes
from jeepney import HeaderFields, MatchRule
from jeepney.bus_messages import message_bus

DIFFIE_HELLMAN = "dh-ietf1024-sha256-aes128-cbc-pkcs7"
ALIASED = f"{ROOT}/aliases/session"


def try_collections(caller):
    compare("the collections", ("ao", [SESSION_COLLECTION]), caller.get(ROOT, SERVICE, "Collections"))
    for alias in ("session", "keyretain"):
        compare(f"the alias {alias}", (SESSION_COLLECTION,), caller.call("ReadAlias", "s", alias))
    for alias in ("default", "login", ""):
        compare(f"the alias {alias!r}", ("/",), caller.call("ReadAlias", "s", alias))
        compare(f"a collection of the alias {alias!r}", "NotSupported",
                caller.call("CreateCollection", "a{sv}s", {}, alias))
    compare("the alias is set as it is", (), caller.call("SetAlias", "so", "session", SESSION_COLLECTION))
    compare("default is not set", "NotSupported", caller.call("SetAlias", "so", "default", SESSION_COLLECTION))
    compare("the collection that is there", (SESSION_COLLECTION, "/"),
            caller.call("CreateCollection", "a{sv}s", {}, "session"))
    compare("it stays", "NotSupported", caller.call("Delete", path=SESSION_COLLECTION, interface=COLLECTION))
    for path in (SESSION_COLLECTION, ALIASED):
        compare(f"{path} is unlocked", ("b", False), caller.get(path, COLLECTION, "Locked"))
    compare("no alias default", "NoSuchObject", caller.get(f"{ROOT}/aliases/default", COLLECTION, "Locked"))
    compare("unlock", ([SESSION_COLLECTION], "/"), caller.call("Unlock", "ao", [SESSION_COLLECTION, "/no/such"]))
    compare("nothing is locked", ([], "/"), caller.call("Lock", "ao", [SESSION_COLLECTION]))


def try_items(caller):
    session = caller.open_plain()
    item = caller.create(session, {"a": "b", "u": "v"}, b"s3cret\n\0")
    compare("its path", True, item.startswith(SESSION_COLLECTION + "/"))
    compare("the secret", (session, b"", b"s3cret\n\0", "text/plain"), caller.secret(item, session))
    compare("found by one attribute", ([item], []), caller.search({"a": "b"}))
    compare("by both", ([item], []), caller.search({"a": "b", "u": "v"}))
    compare("by none", ([item], []), caller.search({}))
    compare("not by another value", ([], []), caller.search({"a": "c"}))
    compare("in the collection", ([item],),
            caller.call("SearchItems", "a{ss}", {"u": "v"}, path=ALIASED, interface=COLLECTION))
    compare("replaced", item, caller.create(session, {"a": "b", "u": "v"}, b"two", replace=True))
    other = caller.create(session, {"a": "b", "u": "v"}, b"three")
    compare("not replaced", True, other != item)
    both = caller.call("GetSecrets", "aoo", [item, other, "/"], session)[0]
    compare("both secrets", {item: b"two", other: b"three"}, {path: secret[2] for path, secret in both.items()})
    compare("set", (), caller.call("SetSecret", "(oayays)", (session, b"", b"four", "x/y"), path=item, interface=ITEM))
    compare("as it was set", (session, b"", b"four", "x/y"), caller.secret(item, session))
    compare("label", ((), ("s", "new")),
            (caller.set(item, ITEM, "Label", ("s", "new")), caller.get(item, ITEM, "Label")))
    compare("attributes", ((), ("a{ss}", {"n": "m"})),
            (caller.set(item, ITEM, "Attributes", ("a{ss}", {"n": "m"})), caller.get(item, ITEM, "Attributes")))
    kept = caller.call("GetAll", "s", ITEM, path=item, interface=PROPERTIES)[0]
    compare("properties", {"Attributes", "Label", "Locked", "Created", "Modified"}, set(kept))
    compare("created, then changed", True, 0 < kept["Created"][1] <= kept["Modified"][1])
    compare("a property that stays", "PropertyReadOnly", caller.set(item, ITEM, "Created", ("t", 1)))
    compare("a label of another type", "InvalidArgs", caller.set(item, ITEM, "Label", ("u", 1)))
    compare("no such property", "UnknownProperty", caller.get(item, ITEM, "Colour"))
    for path in (item, other):
        compare("deleted", ("/",), caller.call("Delete", path=path, interface=ITEM))
        compare("gone", "NoSuchObject", caller.secret(path, session))
    compare("no items", ("ao", []), caller.get(SESSION_COLLECTION, COLLECTION, "Items"))


def try_sessions(caller):
    session = caller.open_plain()
    item = caller.create(session, {"a": "b"}, b"one")
    compare("no such algorithm", "NotSupported", caller.call("OpenSession", "sv", "rot13", ("s", "")))
    with Caller() as other:
        compare("another client's session", "NoSession", other.secret(item, session))
        compare("nor can it end it", "NoSession", other.call("Close", path=session, interface=SESSION))
    compare("closed", (), caller.call("Close", path=session, interface=SESSION))
    compare("a session that was closed", "NoSession", caller.secret(item, session))
    compare("nothing is put by it", "NoSession", caller.create(session, {}, b"two"))
    compare("deleted", ("/",), caller.call("Delete", path=item, interface=ITEM))


def try_encrypted(caller, prime):
    """HKDF by RFC 5869, of which the key of 16 bytes is the first block."""
    def hashed(key, text):
        one = hmac.HMAC(key, hashes.SHA256())
        one.update(text)
        return one.finalize()

    for wrong in (0, 1, prime - 1, prime, 1 << 1030):
        compare("a public number that gives the key away", "InvalidArgs",
                caller.call("OpenSession", "sv", DIFFIE_HELLMAN, ("ay", wrong.to_bytes(130, "big").lstrip(b"\0"))))
    own = pow(2, 77777, prime).to_bytes(128, "big")
    (kind, public), session = caller.call("OpenSession", "sv", DIFFIE_HELLMAN, ("ay", own))
    shared = pow(int.from_bytes(public, "big"), 77777, prime).to_bytes(128, "big")
    key = hashed(hashed(bytes(32), shared), b"\1")[:16]
    compare("its type", "ay", kind)
    start = bytes(range(16))
    cipher = Cipher(algorithms.AES(key), modes.CBC(start)).encryptor()
    sealed = cipher.update(b"eleven bits" + b"\5" * 5) + cipher.finalize()
    properties = {f"{ITEM}.Attributes": ("a{ss}", {"e": "f"})}
    item, _ = caller.call("CreateItem", "a{sv}(oayays)b", properties, (session, start, sealed, "text/plain"), False,
                          path=SESSION_COLLECTION, interface=COLLECTION)
    compare("by a plain session", b"eleven bits", caller.secret(item, caller.open_plain())[2])
    _, parameters, value, _ = caller.secret(item, session)
    cipher = Cipher(algorithms.AES(key), modes.CBC(parameters)).decryptor()
    compare("encrypted", b"eleven bits" + b"\5" * 5, cipher.update(value) + cipher.finalize())
    compare("another start each time", True, caller.secret(item, session)[1] != parameters)
    cipher = Cipher(algorithms.AES(key), modes.CBC(start)).encryptor()
    unpadded = cipher.update(bytes(16)) + cipher.finalize()
    for wrong in ((start, sealed[:-1]), (start[:-1], sealed), (start, b""), (start, unpadded)):
        compare("what is not of the session", "InvalidArgs", caller.call(
            "SetSecret", "(oayays)", (session, *wrong, "text/plain"), path=item, interface=ITEM))
    compare("deleted", ("/",), caller.call("Delete", path=item, interface=ITEM))


def try_signals(caller):
    with Caller() as hearer:
        rule = MatchRule(type="signal", path_namespace=ROOT)
        hearer.connection.send_and_get_reply(message_bus.AddMatch(rule), timeout=PATIENCE)
        session = caller.open_plain()
        item = caller.create(session, {"k": "attribute"}, b"s3cret", label="label")
        caller.create(session, {"k": "attribute"}, b"s3cret", replace=True)
        caller.call("Delete", path=item, interface=ITEM)
        heard, texts = [], ""
        while not heard or heard[-1] != ("CollectionChanged", SESSION_COLLECTION) or len(heard) < 7:
            message = hearer.connection.receive(timeout=PATIENCE)
            heard.append((message.header.fields[HeaderFields.member], message.body[0]))
            texts += repr(message.body)
    both = [("PropertiesChanged", COLLECTION), ("CollectionChanged", SESSION_COLLECTION)]
    compare("signals", [("ItemCreated", item), *both, ("ItemChanged", item), ("PropertiesChanged", ITEM),
                        ("ItemDeleted", item), *both],
            [one for one in heard if one[0] != "NameAcquired"])
    compare("no secret, label or attribute is sent to all", (False, False), ("s3cret" in texts, "'attribute'" in texts))


def group():
    """The second group of RFC 2409: 2^1024 - 2^960 - 1 + 2^64 * ([2^894 pi] + 129093)."""
    unity = 1 << 960  # pi by Machin's formula, with more digits than are wanted

    def arctangent(inverse):
        power = total = unity // inverse
        number, sign = 1, 1
        while power:
            power, number, sign = power // (inverse * inverse), number + 2, -sign
            total += sign * (power // number)
        return total

    pi = 4 * (4 * arctangent(5) - arctangent(239))
    return (1 << 1024) - (1 << 960) - 1 + (1 << 64) * ((pi >> 66) + 129093)


def try_default():
    """What a word of its user's adds: the alias by which programs ask that name no collection."""
    path = f"{ROOT}/aliases/default"
    with daemon(), bus(), secrets("--default"), Caller() as caller:
        compare("the alias default", (SESSION_COLLECTION,), caller.call("ReadAlias", "s", "default"))
        compare("it is there", ("b", False), caller.get(path, COLLECTION, "Locked"))
        compare("it is unlocked", ([path], "/"), caller.call("Unlock", "ao", [path]))
        compare("made, as by who finds none", (SESSION_COLLECTION, "/"),
                caller.call("CreateCollection", "a{sv}s", {}, "default"))
        compare("set as it is", (), caller.call("SetAlias", "so", "default", SESSION_COLLECTION))
        compare("no other", ("/",), caller.call("ReadAlias", "s", "login"))
        item = caller.create(caller.open_plain(), {"a": "b"}, b"s3cret", path=path)
        compare("an item", ([item], []), caller.search({"a": "b"}))


# What an object has by the Secret Service API: methods with what goes in and comes out, and properties.
WANTED = {
    SERVICE: ({"OpenSession": "sv>vo", "CreateCollection": "a{sv}s>oo", "SearchItems": "a{ss}>aoao",
               "Unlock": "ao>aoo", "Lock": "ao>aoo", "GetSecrets": "aoo>a{o(oayays)}", "ReadAlias": "s>o",
               "SetAlias": "so>"}, {"Collections": "ao read"}),
    COLLECTION: ({"Delete": ">o", "SearchItems": "a{ss}>ao", "CreateItem": "a{sv}(oayays)b>oo"},
                 {"Items": "ao read", "Label": "s read", "Locked": "b read", "Created": "t read",
                  "Modified": "t read"}),
    ITEM: ({"Delete": ">o", "GetSecret": "o>(oayays)", "SetSecret": "(oayays)>"},
           {"Attributes": "a{ss} readwrite", "Label": "s readwrite", "Locked": "b read", "Created": "t read",
            "Modified": "t read"}),
    SESSION: ({"Close": ">"}, {}),
}


def introspected(caller, path):
    """An object's own interface, with what it has, and the nodes below it."""
    answer = caller.call("Introspect", path=path, interface="org.freedesktop.DBus.Introspectable")
    if isinstance(answer, str):
        return answer, {}, []
    told = {it.get("name"): it for it in ET.fromstring(answer[0]).iter("interface")}
    own = next((name for name in told if name.startswith("org.freedesktop.Secret")), "")
    methods = {method.get("name"): ">".join("".join(arg.get("type") for arg in method.iter("arg")
                                                    if arg.get("direction") == way) for way in ("in", "out"))
               for method in (told[own].iter("method") if own else ())}
    values = {value.get("name"): f"{value.get('type')} {value.get('access')}"
              for value in (told[own].iter("property") if own else ())}
    return own, (methods, values), [it.get("name") for it in ET.fromstring(answer[0]).findall("node")]


def try_introspected(caller):
    """As busctl(1) and others look at it, from the root on."""
    session = caller.open_plain()
    item = caller.create(session, {"a": "b"}, b"s3cret")
    for path, below in (("/", ["org"]), ("/org", ["freedesktop"]), (f"{ROOT}/aliases", ["session", "keyretain"])):
        compare(f"introspected: {path}", ("", below), introspected(caller, path)[::2])
    compare("introspected: nodes", ["collection", "aliases", "session"], introspected(caller, ROOT)[2])
    for path, kind in ((ROOT, SERVICE), (SESSION_COLLECTION, COLLECTION), (ALIASED, COLLECTION), (item, ITEM),
                       (session, SESSION)):
        compare(f"introspected: {path}", (kind, WANTED[kind]), introspected(caller, path)[:2])
    compare("introspected: items", [item.rpartition("/")[2]], introspected(caller, SESSION_COLLECTION)[2])
    compare("introspected: none", "NoSuchObject", introspected(caller, "/org/example")[0])
    with Caller() as other:
        compare("introspected: another's session", [], introspected(other, f"{ROOT}/session")[2])
    for words in (["busctl", "--user", "tree", NAME], ["busctl", "--user", "introspect", NAME, ROOT],
                  ["gdbus", "introspect", "--session", "--dest", NAME, "--object-path", ROOT]):
        if shutil.which(words[0]):
            status, said, _ = run(words)
            compare(f"by {' '.join(words[:3])}", (0, True), (status, b"secrets" in said or b"OpenSession" in said))
        else:
            skipped(f"{words[0]}: it isn't there")
    compare("deleted", ("/",), caller.call("Delete", path=item, interface=ITEM))


def try_taken():
    """Another program has the name: who, what to do, and a status by which the unit doesn't try again."""
    with daemon(), bus(), Caller() as other:
        other.connection.send_and_get_reply(message_bus.RequestName(NAME), timeout=PATIENCE)
        status, _, told = run([f"{FOLDER}/bin/keyretain-secrets"])
        with open("/proc/self/comm", encoding="ascii") as comm:
            owner = f"{comm.read()[:-1]}'s (process {os.getpid()})"
        wanted = f"keyretain-secrets: {NAME} is {owner} on this bus. keyretain-secrets(1) shows how the bus starts " \
            "this program in its place; then end that one\n"
        compare("another program's", (3, wanted), (status, told.decode()))
    unit = text_of("contrib/systemd/user/keyretain-secrets.service")
    compare("the unit doesn't try again", True, "\nRestartPreventExitStatus=2 3\n" in unit)


def try_started():
    """By the bus, at the first call."""
    with daemon(), bus(services=f"{FOLDER}/share/keyretain"), Caller() as caller:
        compare("the bus starts it, and the call is answered", (SESSION_COLLECTION,),
                caller.call("ReadAlias", "s", "session"))


with daemon(), bus(), secrets(), Caller() as client:
    try_collections(client)
    try_items(client)
    try_sessions(client)
    try_encrypted(client, group())
    try_signals(client)
    try_introspected(client)
    compare("no such method", "UnknownMethod", client.call("Frobnicate"))
    compare("no such interface", "UnknownInterface", client.call("OpenSession", interface="org.example.No"))
try_default()
try_taken()
try_started()
conclude()
