"""python.py PATH: calls of the Python client on a daemon that nobody has used, with what they answer; then the example
that watches a key."""
import os
import subprocess
import sys

sys.path.insert(0, os.path.join(os.path.dirname(__file__), "../../python"))
import keyretain


def say(what, run, *words):
    try:
        print(what, run(*words))
    except keyretain.Refused as refused:
        print(what, refused.name)
    except keyretain.Lost:
        print(what, "lost")


with keyretain.Client(sys.argv[1], timeout=20) as client:
    say("hello", client.hello, 1000, 1000, [7])
    say("thread", client.thread, 1)
    say("add", client.add, 1, "user", "alpha", b"s3", keyretain.USER)
    say("read", client.read, 1, 5)
    say("describe", client.describe, 1, 5)
    say("add", client.add, 1, "keyring", "ring", b"", keyretain.USER)
    say("link", client.link, 1, 5, 6)
    say("links", client.read_ring, 1, keyretain.USER)
    say("search", client.search, 1, keyretain.USER, "user", "alpha")
    say("request", client.request, 1, "user", "beta")
    say("open queue", client.open_queue, 4)
    say("watch", client.watch, 1, 5, 1, 9)
    say("filter", client.set_filter, 1, [(1, 0, 0, 2, 0, 0, 0, 0, 0, 0, 0)])
    say("update", client.update, 1, 5, b"new")
    say("timeout", client.set_timeout, 1, 5, 60)
    say("owner", client.chown, 1, 5, 7)
    say("mask", client.setperm, 1, 5, 0x3F3F0000)
    for note in client.read_queue(1):
        print("note", keyretain.describe_note(note))
    say("no more", client.read_queue, 1)
    for name in ("GET_ID", "GET_ID", "READ"):
        client.send(name, 1, *([keyretain.USER, 0] if name == "GET_ID" else [5]))
    for what in ("sent ahead", "sent ahead", "sent ahead"):
        say(what, client.receive)
    for key in (5, 99, 5, keyretain.USER):
        client.send("DESCRIBE", 1, key)
    for what in ("sent ahead", "sent ahead", "sent ahead", "sent ahead"):
        say(what, client.receive)
    say("unlink", client.unlink, 1, 5, keyretain.USER)
    say("clear", client.clear, 1, 6)
    say("read", client.read, 1, 5)
    for note in client.read_queue(1):
        print("note", keyretain.describe_note(note))
    say("join", client.join, 1, "session")
    say("revoke", client.revoke, 1, keyretain.SESSION)
    say("invalidate", client.invalidate, 1, 6)
    say("own keyring", client.get_id, 2, keyretain.THREAD, True)
    say("fork", client.fork, 2)
    say("exec", client.exec, 3)
    say("exit", client.exit, 3)
    say("close queue", client.close_queue, 1)
    say("leave", client.leave)
    say("left", client.read, 1, 5)

with keyretain.Client(sys.argv[1], timeout=20) as client:
    context = client.hello(os.geteuid(), os.getegid())
    key = client.add(context, "user", "watched", b"s3", keyretain.USER)
    client.setperm(context, key, 0x3F3F0000)
    example = subprocess.Popen([sys.executable, "-B", "-m", "keyretain", str(key)], stdout=subprocess.PIPE,
                               stderr=subprocess.STDOUT, text=True,
                               env={**os.environ, "KEYRETAIN_SOCKET": sys.argv[1], "PYTHONPATH": sys.path[0]})
    print(example.stdout.readline().split(";")[-1], end="")
    client.update(context, key, b"new")
    client.set_timeout(context, key, 60)
    client.invalidate(context, key)
    print(example.communicate(timeout=20)[0].replace(str(key), "KEY"), end="")
    print("status", example.returncode)
