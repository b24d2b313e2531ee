"""backend.py: the backend of Python's keyring, by what that library says of backends. Wants `keyring`, and PYTHONPATH
to name the folder where the package is installed."""
import os

import keyretain  # what is installed, before the next line finds that of the project
from helpers import compare, conclude, daemon, keepers, looking, outcome, until
import keyring
from keyring import backend, errors

NAME = "keyretain.credentials.backend"


def pair_of(credential):
    return credential and (credential.username, credential.password)


def try_found():
    """As programs find it: by its entry point, and only where a socket is there."""
    compare("the package that is tried", os.environ["PACKAGE"], os.path.dirname(os.path.dirname(keyretain.__file__)))
    with daemon():
        found = [one for one in backend.get_all_keyring() if type(one).__module__ == NAME]
        compare("it is found", 1, len(found))
        kind = type(found[0])
        for name in ("DBUS_SESSION_BUS_ADDRESS", "XDG_RUNTIME_DIR", "DISPLAY"):
            os.environ.pop(name, None)
        compare("its priority, without a session bus", (5.5, True), (kind.priority, kind.viable))
        os.environ["DBUS_SESSION_BUS_ADDRESS"] = "unix:path=/nonexistent"
        compare("its priority beside others", (4.5, True), (kind.priority, kind.viable))
    compare("no socket: it can't be used", False, kind.viable)
    compare("and isn't among those that can", [], [one for one in backend.KeyringBackend.get_viable_backends()
                                                   if one.__module__ == NAME])
    return found[0]


def try_passwords(one):
    strange = ("se rvice=\u00e9\n%", "us er\0\u00e9", "pass\nword \u20ac\0\ud800=")
    with daemon(), looking("python-keyring") as look:
        compare("none", None, one.get_password("s", "u"))
        compare("none to delete", "PasswordDeleteError", outcome(one.delete_password, "s", "u"))
        one.set_password("s", "u", "one")
        one.set_password("s", "v", "two")
        one.set_password("t", "u", "three")
        compare("each has its own", ["one", "two", "three"],
                [one.get_password(*which) for which in (("s", "u"), ("s", "v"), ("t", "u"))])
        compare("of another service", None, one.get_password("t", "v"))
        compare("a credential", ("u", "one"), pair_of(one.get_credential("s", "u")))
        compare("one of no username: the newest", ("v", "two"), pair_of(one.get_credential("s", None)))
        one.set_password("github", "u", "five")
        compare("of a service whose name another's begins with", (None, None),
                (one.get_password("git", "u"), one.get_credential("git", None)))
        one.delete_password("github", "u")
        one.set_password("s", "u", "four")
        compare("one that was set anew", ("u", "four"), pair_of(one.get_credential("s", None)))
        compare("no credential", None, one.get_credential("r", None))
        compare("what is kept", {"keyring service=s username=u": b"password=four",
                                 "keyring service=s username=v": b"password=two",
                                 "keyring service=t username=u": b"password=three"}, look())
        one.set_password(*strange)
        compare("any text", strange[2], one.get_password(*strange[:2]))
        compare("and its name", strange[1:], pair_of(one.get_credential(strange[0], None)))
        one.set_password("s", "u", "")
        compare("no text", "", one.get_password("s", "u"))
        compare("one that no key can have", "PasswordSetError", outcome(one.set_password, "s", "u", "x" * 32767))
        compare("the one before stays", "", one.get_password("s", "u"))
        one.delete_password("s", "u")
        compare("one that was deleted", None, one.get_password("s", "u"))
        compare("the others stay", "two", one.get_password("s", "v"))
        compare("a keeper holds them", True, until(lambda: len(keepers()) == 1))


def try_no_daemon(one):
    """A program that has it already."""
    for what, run, words in (("get", one.get_password, ("s", "u")), ("credential", one.get_credential, ("s", None)),
                             ("delete", one.delete_password, ("s", "u"))):
        compare(f"no daemon: {what}", "KeyringError", outcome(run, *words))
    compare("no daemon: set", "PasswordSetError", outcome(one.set_password, "s", "u", "s3cret"))
    try:
        one.set_password("s", "u", "s3cret")
    except errors.KeyringError as error:
        compare("one line, without the password", (False, False), ("\n" in str(error), "s3cret" in str(error)))
    os.environ["PYTHON_KEYRING_BACKEND"] = "keyring.backends.fail.Keyring"
    compare("no backend at all", "NoKeyringError", outcome(keyring.get_password, "s", "u"))


chosen = try_found()
try_passwords(chosen)
try_no_daemon(chosen)
conclude()
