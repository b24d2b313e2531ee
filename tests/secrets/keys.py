"""keys.py: items that somebody takes away in the store, or changes there, that expire, or whose daemon ends."""
import os

from jeepney import HeaderFields, MatchRule, message_bus
from stage import ITEM, PATIENCE, RING, SESSION_COLLECTION, ROOT, Caller, bus, compare, conclude, \
    daemon, secrets, until
import keyretain
from keyretain.credentials import secret_items as items


def key_of(client, context, item):
    ring = client.search(context, keyretain.USER, "keyring", RING)
    return client.search(context, ring, "user", "secret " + item.rpartition("/")[2])


def try_taken(caller):
    session = caller.open_plain()
    with keyretain.Client(timeout=PATIENCE) as client:
        context = client.hello(os.geteuid(), os.getegid())
        for way in ("revoke", "invalidate"):
            item = caller.create(session, {"w": way}, b"s3cret")
            compare(f"{way}: there", b"s3cret", caller.secret(item, session)[2])
            getattr(client, way)(context, key_of(client, context, item))
            compare(f"{way}: gone at once", "NoSuchObject", caller.secret(item, session))
            compare(f"{way}: not found", ([], []), caller.search({"w": way}))
        item = caller.create(session, {"w": "meanwhile"}, b"s3cret")
        read = items.load()[item.rpartition("/")[2]]
        client.revoke(context, key_of(client, context, item))
        compare("what is revoked while it is changed", None, items.keep(read, 0, False))
        compare("isn't put there again", ("NoSuchObject", ([], [])),
                (caller.secret(item, session), caller.search({"w": "meanwhile"})))
        item = caller.create(session, {"w": "timeout"}, b"s3cret")
        client.set_timeout(context, key_of(client, context, item), 1)
        compare("it expires", True, until(lambda: caller.secret(item, session) == "NoSuchObject"))
        ring = client.search(context, keyretain.USER, "keyring", RING)
        heads = [b'{"label":%s,"attributes":{},"content_type":"","created":0,"modified":0}' % label
                 for label in (b"1", b'"\\u0000"', b'"\\ud800"')]
        for number, payload in enumerate((b"{}", b"[1]", b"\xff", *heads)):
            client.add(context, "user", f"secret {number:032}", payload + b"\n", ring)
        client.add(context, "user", "secret x", heads[0].replace(b"1", b'""') + b"\n", ring)
        compare("what somebody else has put there", ([], []), caller.search({}))


def item_told(hearer):
    """The next signal of an item, with its path."""
    while True:
        message = hearer.connection.receive(timeout=PATIENCE)
        if (member := message.header.fields[HeaderFields.member]).startswith("Item"):
            return member, message.body[0]


def try_others(caller):
    """What others do is told while the caller is there, and what it does itself is told once."""
    with Caller() as hearer, keyretain.Client(timeout=PATIENCE) as client:
        rule = MatchRule(type="signal", path_namespace=ROOT)
        hearer.connection.send_and_get_reply(message_bus.AddMatch(rule), timeout=PATIENCE)
        item = caller.create(caller.open_plain(), {"o": "p"}, b"one")
        compare("its own", ("ItemCreated", item), item_told(hearer))
        context = client.hello(os.geteuid(), os.getegid())
        key, ring = key_of(client, context, item), client.search(context, keyretain.USER, "keyring", RING)
        payload = client.read(context, key)
        client.update(context, key, payload[:-3] + b"two")
        compare("another changes it", ("ItemChanged", item), item_told(hearer))
        name = f"{77:032}"
        client.add(context, "user", f"secret {name}", payload, ring)
        compare("another makes one", ("ItemCreated", f"{SESSION_COLLECTION}/{name}"), item_told(hearer))
        client.unlink(context, key, ring)
        compare("another deletes it", ("ItemDeleted", item), item_told(hearer))
        client.clear(context, ring)
        compare("or all", ("ItemDeleted", f"{SESSION_COLLECTION}/{name}"), item_told(hearer))


with bus():
    with daemon(), secrets(), Caller() as one:
        try_others(one)
    with daemon() as server, secrets() as process, Caller() as one:
        try_taken(one)
        last = one.create(one.open_plain(), {"l": "m"}, b"s3cret")
        process.kill()
        process.wait()
        with secrets("--timeout", "2"):
            opened = one.open_plain()
            compare("it is there after a restart", b"s3cret", one.secret(last, opened)[2])
            short = one.create(opened, {"s": "t"}, b"s3cret")
            compare("the timeout of the program", True, until(lambda: one.search({"s": "t"}) == ([], [])))
            compare("is not that of others", ([last], []), one.search({}))
            server.kill()
            server.wait()
            compare("no daemon", "Failed", one.secret(last, opened))
            compare("nothing is put there", "Failed", one.create(opened, {}, b"s3cret"))
    with daemon(), secrets(), Caller() as one:
        compare("a new daemon has none", ([], []), one.search({}))
    with secrets() as process:
        compare("no daemon at the start", True, b"where no daemon is: unset it" in process.stderr.readline())
conclude()
