"""Whether a keeper whose user stops it, before it is in the background, keeps who has started it waiting; what is left
of one that isn't stopped; that the user's systemd starts it, where it does; and in which order an entry is made."""
import errno
import os
import signal
import tempfile
import time
from contextlib import nullcontext

from helpers import compare, conclude, skipped, write
from servers import plain, reply, served
from keyretain.credentials import keeper, locker

ANSWER = '#!/bin/sh\necho $$ >"$0.pid"\n%s\nkill -STOP $$\n'


def hangs(*_):
    raise RuntimeError


def held(folder, word):
    """What holding comes to with a keeper that says this, and is stopped."""
    write(keeper.KEEPER, ANSWER % word, 0o755)
    signal.alarm(15)
    try:
        with keeper.holding("ring", folder + "/sock"):
            return "held"
    except (OSError, RuntimeError) as error:
        return type(error).__name__
    finally:
        signal.alarm(0)
        with open(keeper.KEEPER + ".pid", encoding="ascii") as pid:
            os.kill(int(pid.read()), signal.SIGKILL)


def left_by(folder):
    """How many descriptors and children are left where a keeper answers and ends."""
    write(keeper.KEEPER, "#!/bin/sh\necho 5:ring\n", 0o755)
    before = len(os.listdir("/proc/self/fd"))
    with keeper.holding("ring", folder + "/sock"):
        pass
    try:
        children = os.waitpid(-1, os.WNOHANG)
    except ChildProcessError:
        children = 0
    return len(os.listdir("/proc/self/fd")) - before, children


def begun_by(folder, manager, uid=os.geteuid()):
    """What was executed to have a keeper, where the user's systemd-run is this script: of the keeper its words, and the
    folder of the user's that it was told."""
    told = folder + "/told"
    for name, text in (("keyretain-keeper", f'#!/bin/sh\necho "keeper $* $XDG_RUNTIME_DIR" >>{told}\necho 5:ring\n'),
                       ("systemd-run", f'#!/bin/sh\necho "manager" >>{told}\n{manager}\n')):
        write(f"{folder}/{name}", text, 0o755)
    os.seteuid(uid)
    try:
        with keeper.holding("ring", "/sock"):
            pass
    finally:
        os.seteuid(os.getuid())
    with open(told, encoding="ascii") as lines:
        found = lines.read().split("\n")[:-1]
    os.remove(told)
    return found


def try_managed(folder):
    """A scope of the user's systemd has the keeper; where there is none, or it fails or says nothing, it is started all
    the same."""
    own = f"{folder}/{os.geteuid()}"
    keeper.MANAGERS, keeper.MANAGED, keeper.PATIENCE = folder, (folder + "/systemd-run", *keeper.MANAGED[1:]), 4
    words = "keeper --hold ring --socket /sock "
    compare("where there is no systemd", [words], begun_by(folder, "exit 1"))
    write(own + "/systemd/private", "")
    scope = '[ "$*" = "--user --scope --quiet --collect -- $6 --hold ring --socket /sock" ] || exit 1'
    compare("by systemd", ["manager", words + own], begun_by(folder, f'{scope}\nshift 5\nexec "$@"'))
    compare("one that fails", ["manager", words], begun_by(folder, "exit 1"))
    # it ends on its line: the shell would read on in the next script, which comes into the same file
    waits = f"while [ -e {folder}/told ]; do sleep 0.1; done; exit"
    compare("one that hangs", ["manager", words], begun_by(folder, waits))
    if os.geteuid() == 0:
        os.chmod(folder, 0o777)
        os.rename(own, f"{folder}/4001")
        compare("another user's", [words], begun_by(folder, f'{scope}\nshift 5\nexec "$@"', 4001))
    else:
        skipped("another user's manager: not root")


def asks_of_put():
    """What a locker asks to keep an entry where there is no keyring yet, but of contexts and sessions."""
    asked = []

    def serve(end):
        for tag, name, values in end.asks():
            asked.append((name, *(value for value in values if isinstance(value, (int, bytes)))))
            is_refused = name == "SEARCH"
            refused = reply(tag, b"", errno.ENOKEY)
            end.socket.sendall(refused if is_refused else reply(tag, plain(name, [])))

    with served(serve) as path:
        os.environ["KEYRETAIN_SOCKET"] = path
        with locker.Locker("lock") as opened:
            opened.put("one", b"s3", 900)
    return [ask for ask in asked if ask[0] not in ("HELLO", "THREAD", "EXIT", "SEARCH")]


def try_order():
    """A keyring goes where there is none of its name alone, and an entry is whole, with its
    timeout, before a link puts it there. All keys have the serial 77 here."""
    keeper.holding = lambda *_: nullcontext()
    compare("the asks that keep an entry", [
        ("ADD", b"keyring", b"lock", b"", -1), ("MOVE", 77, -1, -4, 1), ("ADD", b"user", b"one", b"s3", -1),
        ("SET_TIMEOUT", 77, 900), ("LINK", 77, 77)], asks_of_put())


signal.signal(signal.SIGALRM, hangs)
with tempfile.TemporaryDirectory(prefix="keyretain.") as folder:
    keeper.KEEPER = folder + "/keyretain-keeper"
    compare("what is left of one that ends: descriptors and children", (0, 0), left_by(folder))
    keeper.PATIENCE = 1
    begun = time.monotonic()
    compare("a keeper that has answered, and is stopped", "held", held(folder, "echo 5:ring"))
    compare("one that is stopped without a word", "TimeoutError", held(folder, ":"))
    compare("neither takes long", True, time.monotonic() - begun < 10)
    try_managed(folder)
try_order()
conclude()
