"""with_keyring.py: Python's keyring. Its backend SecretService wants the collection default where it is told of no
other: `preferred_collection` names one. Where keyretain-secrets has no default, the daemon's backend comes first."""
import os
import sys

from stage import SESSION_COLLECTION, bus, compare, conclude, daemon, outcome, run, secrets
from keyring.backends.SecretService import Keyring

with daemon(), bus(), secrets():
    one = Keyring()
    compare("without a word it wants the collection default", "DBusErrorResponse",
            outcome(one.set_password, "s", "u", "s3cret"))
    one.preferred_collection = SESSION_COLLECTION
    compare("none", None, one.get_password("s", "u"))
    one.set_password("s", "u", "s3cret")
    one.set_password("s", "v", "two")
    compare("each", ["s3cret", "two"], [one.get_password("s", user) for user in "uv"])
    one.set_password("s", "u", "three")
    compare("set anew", ("u", "three"), (lambda found: (found.username, found.password))(one.get_credential("s", "u")))
    one.delete_password("s", "u")
    compare("deleted", (None, "two"), (one.get_password("s", "u"), one.get_password("s", "v")))
    compare("none to delete", "PasswordDeleteError", outcome(one.delete_password, "s", "u"))


def command(*words, given=""):
    """The status of keyring(1), as README has it, and what is printed."""
    status, said, _ = run([sys.executable, "-B", "-m", "keyring", *words], given)
    return status, said.decode().rstrip("\n")


def chosen():
    """The backend that is taken, or tried first."""
    words = "import keyring; one = keyring.get_keyring(); print(type([*getattr(one, 'backends', [one])][0]).__module__)"
    return run([sys.executable, "-B", "-c", words])[1].decode().strip()


del os.environ["DBUS_SESSION_BUS_ADDRESS"]
with daemon():
    compare("the backend without a session bus", "keyretain.credentials.backend", chosen())
for options, backend in (((), "keyretain.credentials.backend"), (("--default",), "keyring.backends.SecretService")):
    with daemon(), bus(), secrets(*options):
        name = f"the command, {' '.join(options) or 'no default'}"
        compare(f"{name}: the backend", backend, chosen())
        compare(f"{name}: set", 0, command("set", "example.com", "alice", given="s3cret\n")[0])
        compare(f"{name}: get", (0, "s3cret"), command("get", "example.com", "alice"))
        compare(f"{name}: del", (0, 1), (command("del", "example.com", "alice")[0],
                                         command("get", "example.com", "alice")[0]))
conclude()
