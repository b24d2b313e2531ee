"""replaced.py LIBRARY: what the libkeyutils LIBRARY makes of the serials that it knows where another daemon has taken
the place of the first, also in a PID namespace where none of them has a number; of a context that the daemon doesn't
know any more; and of a guard that has no place for it at first."""
import errno
import os
import signal
import socket
import subprocess
import sys
import tempfile

from servers import End, answer_all, client_of, compare, conclude, outcome, plain, reply, served

library = sys.argv[1]
CALLS = """
import ctypes, errno, os, sys, time
library, room = ctypes.CDLL(sys.argv[1], use_errno=True), ctypes.create_string_buffer(8)
def word(answer): return answer if answer >= 0 else errno.errorcode[ctypes.get_errno()]
path = os.environ["KEYRETAIN_SOCKET"]
first = os.stat(path).st_ino
key = library.keyctl_get_keyring_ID(-4, 0)
os.closerange(3, 64)
while os.stat(path).st_ino == first: time.sleep(0.01)
print(key, word(library.keyctl_read(key, room, 8)), word(library.keyctl_get_keyring_ID(-4, 0)),
      word(library.keyctl_read(key, room, 8)))
"""


def first(listener, path, other):
    """Serves one client: then the other daemon is there."""
    with End(listener.accept()[0]) as end:
        answer_all(end)
    os.rename(other, path)
    signal.pause()


def second(listener):
    while True:
        with End(listener.accept()[0]) as end:
            answer_all(end)


def daemon(path, serve, *words):
    """A process that listens at the path."""
    listener = socket.socket(socket.AF_UNIX)
    listener.bind(path)
    listener.listen(8)
    child = os.fork()
    if child == 0:
        try:
            listener.listen(8)  # who does so last is whom clients see
            serve(listener, *words)
        finally:
            os._exit(1)
    return child


def told(*words):
    """What the program says, which is run by these words."""
    with tempfile.TemporaryDirectory(prefix="keyretain.") as folder:
        path, other = folder + "/sock", folder + "/other"
        children = [daemon(other, second), daemon(path, first, path, other)]
        env = {**os.environ, "KEYRETAIN_SOCKET": path}
        try:
            return subprocess.run([*words, sys.executable, "-c", CALLS, library], env=env, stdout=subprocess.PIPE,
                                  timeout=60, text=True, check=False).stdout.strip()
        finally:
            for child in children:
                os.kill(child, signal.SIGKILL)
                os.waitpid(child, 0)


WANTED = "77 EKEYREVOKED 77 2"  # a serial of the daemon before, before and after the next one has told it
compare("a serial of the daemon before", WANTED, told())
apart = ["unshare", "--pid", "--fork"] if os.geteuid() == 0 else ["unshare", "--map-root-user", "--pid", "--fork"]
if subprocess.run([*apart, "true"], stderr=subprocess.DEVNULL, check=False).returncode == 0:
    compare("the same in another PID namespace", WANTED, told(*apart))
else:
    print("skipped: a PID namespace of its own: this user may have none")


AGAIN = """
import ctypes, errno, sys
library = ctypes.CDLL(sys.argv[1], use_errno=True)
answers = [library.keyctl_get_keyring_ID(-4, 0) for _ in range(2)]
print(*(answer if answer >= 0 else errno.errorcode[ctypes.get_errno()] for answer in answers))
"""


def forgetful(connections):
    """As a daemon that doesn't know the first connection's context any more."""
    def serve(end):
        connections.append(end)
        is_first = len(connections) == 1
        for tag, name, values in end.asks():
            is_lost = is_first and name != "HELLO"
            end.socket.sendall(reply(tag, b"", errno.ESRCH) if is_lost else reply(tag, plain(name, values)))
    return serve


def said_in(serve):
    """What two calls come to."""
    with served(serve) as path:
        said = subprocess.run([sys.executable, "-c", AGAIN, library], env={**os.environ, "KEYRETAIN_SOCKET": path},
                              stdout=subprocess.PIPE, timeout=30, text=True, check=False)
    return said.stdout.strip()


compare("a context that the daemon doesn't know: the next call has another one", "ESRCH 77", said_in(forgetful([])))


def crowded(connections, tells=True):
    """As a guard that refuses the first five connections for want of a place, and tells so or not."""
    def serve(end):
        connections.append(end)
        is_refused = len(connections) <= 5
        if is_refused and not tells:
            return
        for tag, name, values in end.asks():
            end.socket.sendall(reply(tag, b"", errno.EDQUOT) if is_refused else reply(tag, plain(name, values)))
            if is_refused:
                return
    return serve


compare("a place that is free later: the call waits for it", "77 77", said_in(crowded([])))
compare("connections that are ended without a word", "77 77", said_in(crowded([], tells=False)))
compare("where each one is ended so", "ECONNRESET ECONNRESET", said_in(lambda end: None))
with client_of(crowded([])) as client:
    compare("what the Python client is told", "EDQUOT", outcome(client.hello, 1, 1))
conclude()
