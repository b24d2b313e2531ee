"""hostile.py: clients that send what is wrong, too long, or too much, that don't read, or are another user's; and an
environment that is another user's."""
import itertools
import os
import socket
import subprocess
import tempfile

from stage import (COLLECTION, FOLDER, ITEM, PATIENCE, ROOT, SESSION, SESSION_COLLECTION, Caller, attempt, bus, compare,
                   conclude, daemon, secrets, write)
from jeepney import DBusAddress, Endianness, Header, HeaderFields, Message, MessageType, message_bus, new_signal
from keyretain.credentials import secret_bus

SECRET = "s3cret-that-nobody-tells"
NOBODY = 65534


def try_types(caller):
    for member, interface, path in (("OpenSession", None, ROOT), ("CreateItem", COLLECTION, SESSION_COLLECTION),
                                    ("GetSecret", ITEM, f"{SESSION_COLLECTION}/x"), ("Unlock", None, ROOT)):
        for signature, body in (("", ()), ("i", (1,)), ("s", (SECRET,)), ("aai", ([[1], [2]],)),
                                ("v", (("v", ("s", SECRET)),)), ("(oayays)", (("/", b"", SECRET.encode(), "x"),))):
            named = {"path": path, **({"interface": interface} if interface else {})}
            compare(f"{member} of {signature!r}", "InvalidArgs", caller.call(member, signature, *body, **named))
    session = caller.open_plain()
    in_collection = {"path": SESSION_COLLECTION, "interface": COLLECTION}
    for name, value in (("Label", ("i", 1)), ("Attributes", ("a{sv}", {})), ("Attributes", ("s", SECRET))):
        compare("properties of other types", "InvalidArgs", caller.call(
            "CreateItem", "a{sv}(oayays)b", {f"{ITEM}.{name}": value}, (session, b"", b"x", ""), False,
            **in_collection))
    compare("a key for plain", "InvalidArgs", caller.call("OpenSession", "sv", "plain", ("ay", b"x")))
    compare("parameters for plain", "InvalidArgs", caller.call(
        "CreateItem", "a{sv}(oayays)b", {}, (session, b"x", b"x", ""), False, **in_collection))
    compare("what is above all", "UnknownMethod", caller.call("Close", path="/", interface=None))
    for path in (f"{ROOT}/prompt/1", f"{ROOT}/collection/login", f"{ROOT}/session/77"):
        compare(path, True, caller.call("Close", path=path, interface=None) in ("NoSuchObject", "NoSession"))
    compare("an item of no name", "NoSuchObject", caller.secret(f"{SESSION_COLLECTION}/a/b", session))


def try_sizes(caller):
    session = caller.open_plain()
    compare("the longest secret of a key, and more", "Failed", caller.create(session, {"a": "b"}, b"x" * 32768))
    compare("a long attribute", "Failed", caller.create(session, {"a": "b" * 40000}, b"x"))
    compare("many attributes", "LimitsExceeded", caller.create(session, {str(each): "" for each in range(65)}, b"x"))
    for size in (1 << 18, 1 << 22, 1 << 24):
        compare(f"a secret of {size} bytes", "LimitsExceeded", caller.create(session, {}, b"x" * size))
    compare("a path of many bytes", "LimitsExceeded", caller.call("Unlock", "ao", ["/" + "a" * 200000]))
    compare("nothing is kept", ([], []), caller.search({}))


def try_many(caller, process):
    with Caller() as many:
        opened = [many.call("OpenSession", "sv", "plain", ("s", "")) for _ in range(1000)]
        compare("sessions of one client", ["LimitsExceeded"] * (1000 - 64), opened[64:])
        compare("each is another", 64, len({path for _, path in opened[:64]}))
        compare("another client has its own", True, caller.open_plain().startswith(f"{ROOT}/session/"))
    for _ in range(20):  # of which no more than 16 could be there at once
        with Caller() as again:
            last = [again.call("OpenSession", "sv", "plain", ("s", "")) for _ in range(64)][-1]
    compare("a client that has gone has left none", True, last != "LimitsExceeded")
    before, answers = memory_of(process), set()
    for _ in range(1000):
        with Caller() as one:
            answers.add(one.call("ReadAlias", "s", "session"))
    compare("1000 connections", {(SESSION_COLLECTION,)}, answers)
    compare("nothing of them is kept", True, memory_of(process) < before + (4 << 10))


def memory_of(process):
    """KiB that are resident."""
    with open(f"/proc/{process.pid}/status", encoding="ascii") as file:
        return int(next(line.split()[1] for line in file if line.startswith("VmRSS")))


def try_stalled(caller):
    """A client that asks and never reads what it is answered."""
    session = caller.open_plain()
    item = caller.create(session, {"big": "one"}, b"y" * 30000)
    with Caller() as stalled:
        own = stalled.open_plain()
        for _ in range(300):
            stalled.connection.send(stalled.message("GetSecrets", "aoo", [item], own))
        compare("others are answered", b"y" * 30000, caller.secret(item, session)[2])


def try_forged(caller):
    """A signal that only the bus sends: its sender is the bus's word."""
    session = caller.open_plain()
    with Caller() as other:
        said = DBusAddress("/org/freedesktop/DBus", interface="org.freedesktop.DBus")
        message = new_signal(said, "NameOwnerChanged", "sss", (caller.connection.unique_name,) * 2 + ("",))
        message.header.fields[HeaderFields.destination] = "org.freedesktop.secrets"
        other.connection.send(message)
        other.open_plain()
    compare("the session is still there", (), caller.call("Close", path=session, interface=SESSION))


AS_NOBODY = """
import os, sys
os.setgroups([]); os.setgid(%d); os.setuid(%d)
sys.path.insert(0, sys.argv[1])
from jeepney import DBusAddress, new_method_call
from jeepney.io.blocking import open_dbus_connection
with open_dbus_connection(auth_timeout=60.) as bus:
    where = DBusAddress("/org/freedesktop/secrets", "org.freedesktop.secrets", "org.freedesktop.Secret.Service")
    for words in (("OpenSession", "sv", ("plain", ("s", ""))), ("SearchItems", "a{ss}", ({},))):
        print(bus.send_and_get_reply(new_method_call(where, *words), timeout=60).header.fields[4])
""" % (NOBODY, NOBODY)


def as_nobody():
    return subprocess.run(["/usr/bin/python3", "-c", AS_NOBODY, "/usr/lib/python3/dist-packages"], check=False,
                          text=True, capture_output=True, timeout=PATIENCE)


def try_other_user():
    if os.geteuid() != 0:
        print("skipped: another user's client, and another user's bus: not root")
        return
    with bus(everybody=True), secrets():
        compare("another user's client", "org.freedesktop.DBus.Error.AccessDenied\n" * 2, as_nobody().stdout)
        ended = subprocess.run([f"{FOLDER}/bin/keyretain-secrets"], capture_output=True, check=False, text=True,
                               timeout=PATIENCE, user=NOBODY, group=NOBODY, extra_groups=[])
        compare("another user's bus", (1, "keyretain-secrets: the session bus is another user's\n"),
                (ended.returncode, ended.stderr))


def try_forged_reply():
    """Who calls is said by the bus alone, and not by another's reply of the same number, if a bus let that through."""
    wire = secret_bus.Wire.__new__(secret_bus.Wire)
    wire._socket, peer = socket.socketpair()
    wire._serials, wire._early = itertools.count(), []
    for sender, uid in (":1.7", 0), (secret_bus.BUS, NOBODY):
        fields = {HeaderFields.reply_serial: 1, HeaderFields.sender: sender, HeaderFields.signature: "u"}
        head = Header(Endianness.little, MessageType.method_return, 0, 1, 0, 1, fields)
        peer.sendall(Message(head, (uid,)).serialise(1))
    compare("a reply that another client forges", NOBODY, wire.ask(message_bus.GetConnectionUnixUser(":1.9")))


def try_closed():
    """What may be looked into is its user's, which root's can't be told by: so another user runs it here."""
    ids = {"user": NOBODY, "group": NOBODY, "extra_groups": []} if os.geteuid() == 0 else {}
    with subprocess.Popen(["sleep", "60"], **ids) as plain:
        compare("the memory of a program", NOBODY if ids else os.geteuid(), os.stat(f"/proc/{plain.pid}/mem").st_uid)
        plain.kill()
    with bus(everybody=True, **ids), secrets(**ids) as process:
        compare("it serves", None, process.poll())
        compare("its memory is root's", 0, os.stat(f"/proc/{process.pid}/mem").st_uid)


def try_variables():
    """An environment that is another user's, as after su(1), names code to OpenSSL."""
    with tempfile.TemporaryDirectory(prefix="keyretain.") as folder:
        planted, settings, told = (f"{folder}/{name}" for name in ("planted.so", "planted.cnf", "has-run"))
        code = f'#include <stdio.h>\n__attribute__((constructor)) static void run(void) {{ fopen("{told}", "w"); }}\n'
        subprocess.run(["cc", "-shared", "-fPIC", "-x", "c", "-o", planted, "-"], check=True, input=code, text=True)
        write(settings, f"openssl_conf = a\n[a]\nproviders = b\n[b]\nc = d\ndefault = e\n[d]\nmodule = {planted}\n"
              "activate = 1\n[e]\nactivate = 1\n")
        begun = subprocess.run([f"{FOLDER}/bin/keyretain-secrets", "--version"], capture_output=True, check=False,
                               env={**os.environ, "OPENSSL_CONF": settings}, timeout=PATIENCE)
        compare("no code that variables of OpenSSL's name is run", (0, False), (begun.returncode, os.path.exists(told)))


with daemon(), bus() as broker:
    try_variables()
    with secrets() as process:
        with Caller() as client:
            for part in (try_types, try_sizes, try_stalled, try_forged):
                attempt(part, client)
            try_many(client, process)
        with open(f"/proc/{process.pid}/limits", encoding="ascii") as limits:
            cores = [line.split()[4:6] for line in limits if "core file" in line]
        compare("no core file", [["0", "0"]], cores)
        with open(f"/proc/{process.pid}/comm", encoding="ascii") as comm:
            compare("its name", "keyretain-secre\n", comm.read())
        second = subprocess.run([f"{FOLDER}/bin/keyretain-secrets"], capture_output=True, check=False, timeout=PATIENCE)
        compare("a second one", (3, f"keyretain-secrets: it runs already, as process {process.pid}\n"),
                (second.returncode, second.stderr.decode()))
        broker.kill()
        compare("it ends with the bus", 0, process.wait(PATIENCE))
        compare("it has told nothing", b"", process.stderr.read())
    attempt(try_other_user)
    attempt(try_closed)
attempt(try_forged_reply)
conclude()
