"""with_secretstorage.py: Python's SecretStorage, which encrypts what it sends; with the collection `session` by its
alias."""
import time

from stage import SESSION_COLLECTION, bus, compare, conclude, daemon, outcome, secrets
import secretstorage
from secretstorage.collection import Collection, get_all_collections, get_any_collection, get_collection_by_alias


def try_collections(connection):
    any_one = get_any_collection(connection)
    compare("any collection", SESSION_COLLECTION, any_one.collection_path)
    compare("all collections", ["session"], [one.get_label() for one in get_all_collections(connection)])
    compare("its label stays", ("DBusErrorResponse", "session"),
            (outcome(any_one.set_label, "new"), any_one.get_label()))
    compare("another collection", "DBusErrorResponse", outcome(secretstorage.create_collection, connection, "new"))
    compare("one that isn't there", "ItemNotFoundException", outcome(Collection, connection, f"{SESSION_COLLECTION}2"))
    compare("it stays unlocked", (None, False), (any_one.lock(), any_one.is_locked()))
    compare("it isn't deleted", ("DBusErrorResponse", False), (outcome(any_one.delete), any_one.is_locked()))


def try_items(connection, collection):
    empty = collection.create_item("", {}, b"")
    compare("an empty item", (b"", "", {}), (empty.get_secret(), empty.get_label(), empty.get_attributes()))
    compare("its times", True, time.time() - 600 < empty.get_created() <= empty.get_modified() < time.time() + 1)
    compare("a secret of another type", "TypeError", outcome(empty.set_secret, True))
    same = secretstorage.Item(connection, empty.item_path)
    other = collection.create_item("", {"a": "b"}, b"")
    compare("equal, and unequal", (True, False, True), (same == empty, other == empty, other != empty))
    for item in (empty, other):
        item.delete()


with daemon(), bus(), secrets():
    connection = secretstorage.dbus_init()
    compare("is there", True, secretstorage.check_service_availability(connection))
    collection = get_collection_by_alias(connection, "session")
    compare("no default", "ItemNotFoundException", outcome(get_collection_by_alias, connection, "default"))
    compare("unlocked", (False, True), (collection.is_locked(), collection.ensure_not_locked() is None))
    try_collections(connection)
    try_items(connection, collection)
    item = collection.create_item("a label", {"a": "b"}, b"s3cret \xff", content_type="x/y")
    compare("encrypted", b"s3cret \xff", item.get_secret())
    compare("what it is", ("a label", {"a": "b"}, "x/y", False),
            (item.get_label(), item.get_attributes(), item.get_secret_content_type(), item.is_locked()))
    compare("searched", [b"s3cret \xff"], [one.get_secret() for one in collection.search_items({"a": "b"})])
    compare("in all", [item], list(secretstorage.search_items(connection, {"a": "b"})))
    item.set_secret(b"two")
    item.set_label("new")
    item.set_attributes({"a": "c"})
    compare("changed", (b"two", "new", {"a": "c"}), (item.get_secret(), item.get_label(), item.get_attributes()))
    compare("not unlocked by anybody", False, item.unlock())
    item.delete()
    compare("deleted", "ItemNotFoundException", outcome(item.get_label))
    compare("all", [], list(collection.get_all_items()))
with daemon(), bus(), secrets("--default"):
    connection = secretstorage.dbus_init()
    collection = secretstorage.get_default_collection(connection)
    item = collection.create_item("a label", {"a": "b"}, b"s3cret")
    compare("the default collection", [b"s3cret"], [one.get_secret() for one in collection.search_items({"a": "b"})])
conclude()
