"""sessions.py PATH: which sessions the Python client enters, on a daemon that nobody has used."""
import os
import subprocess
import sys

from compare import compare, conclude, skipped
import keyretain
from keyretain import SESSION

OWN, OTHER = os.geteuid(), os.geteuid() + 1
USER_MAY_SEARCH, GROUP_MAY_VIEW, OTHERS_MAY_VIEW = 0x00080000, 0x00000100, 0x00000001

LONGEST = "n" * 4095
PARSED = (
    ("5:name", (5, b"name")), ("2147483647:a:b", (2147483647, b"a:b")), (b"7:\xff\n", (7, b"\xff\n")),
    ("5:" + LONGEST, (5, LONGEST.encode())), ("5:" + LONGEST + "n", None),
    ("", None), ("name", None), ("5:", None), (":name", None), ("0:name", None), ("05:name", None), ("-5:name", None),
    ("+5:name", None), (" 5:name", None), ("2147483648:name", None), ("99999999999:name", None), ("\u0665:name", None),
)


def try_texts():
    for text, wanted in PARSED:
        compare(f"{text[:20]!r}", wanted, keyretain.parse_session(text))


def make(client, context, name, rights=USER_MAY_SEARCH):
    """A session of this context's, and its text."""
    serial = client.join(context, name)
    mask = int(client.describe(context, serial).split(b";")[3], 16)
    client.setperm(context, serial, mask | rights)
    return serial, f"{serial}:{name}"


def try_sessions(path):
    with keyretain.Client(path, timeout=20) as holder, keyretain.Client(path, timeout=20) as client:
        own, other = holder.hello(OWN, OWN), holder.hello(OTHER, OTHER)
        context = client.hello(OWN, OWN)
        serial, text = make(holder, own, "work")
        key = holder.add(own, "user", "token", b"s3", SESSION)
        for what, named in (("none", "5:none"), ("another serial", f"{serial + 1}:work"), ("no serial", "work"),
                            ("none that may be named", "5:.work"), ("nothing", "")):
            compare(what, False, client.enter_session(context, named))
            compare(f"{what}: its session is another one", False, client.get_id(context, SESSION) == serial)
        compare("one that is there", True, client.enter_session(context, text))
        compare("it is the session", serial, client.get_id(context, SESSION))
        compare("its key", b"s3", client.read(context, key))
        compare("another user's", False, client.enter_session(client.hello(OTHER, OTHER), text))
        os.environ["KEYRETAIN_SESSION"] = text
        compare("by the environment", True, client.enter_session(client.hello(OWN, OWN)))
        del os.environ["KEYRETAIN_SESSION"]
        compare("which says nothing", False, client.enter_session(client.hello(OWN, OWN)))
        for what, whose, rights in (("that another user has opened to all", other, 0x003F3F3F),
                                    ("of which the group may see anything", own, USER_MAY_SEARCH | GROUP_MAY_VIEW),
                                    ("of which others may see anything", own, USER_MAY_SEARCH | OTHERS_MAY_VIEW)):
            _, text = make(holder, whose, what, rights)
            compare(f"one {what}", False, client.enter_session(context, text))
        serial, text = make(holder, own, "lost")
        holder.revoke(own, serial)
        compare("one that was revoked", False, client.enter_session(context, text))
        compare("what is then the session", b"keyring", client.describe(context, SESSION).split(b";")[0])
        last = client.join(context)
        compare("one of that serial that is made just now", False, client.enter_session(context, f"{last + 1}:new"))
        compare("it had that serial", last + 2, client.get_id(context, SESSION))
        compare("has no name that others find", b"_ses", client.describe(context, SESSION).split(b";")[4])


def try_effective(path):
    """A program of root's that is another user for now enters that user's sessions."""
    if OWN != 0:
        return skipped("a session of another user's, whom root is for now: not root")
    with keyretain.Client(path, timeout=20) as holder, keyretain.Client(path, timeout=20) as client:
        _, text = make(holder, holder.hello(OTHER, OTHER), "effective")
        os.seteuid(OTHER)
        entered = client.enter_session(client.hello(OTHER, OTHER), text)
        os.seteuid(OWN)
        compare("a session of who root is for now", True, entered)


def try_groups(path):
    """The command has a context also where it has more groups than the daemon takes."""
    if OWN != 0:
        return skipped("the command with many groups: not root")
    environment = {**os.environ, "KEYRETAIN_SOCKET": path, "PYTHONPATH": sys.path[0]}
    with subprocess.Popen([sys.executable, "-B", "-m", "keyretain", "@u"], env=environment, stdout=subprocess.PIPE,
                          stderr=subprocess.STDOUT, extra_groups=range(5000, 5040)) as command:
        compare("40 groups", b"watching keyring;", command.stdout.readline()[:17])
        command.kill()


try_texts()
try_sessions(sys.argv[1])
try_effective(sys.argv[1])
try_groups(sys.argv[1])
conclude()
