"""watching.py PATH: what `python3 -m keyretain @s` watches in a session that is held, and that it says where that is
gone."""
import asyncio
import os
import subprocess
import sys

from compare import compare, conclude
import keyretain

path = sys.argv[1]


def watch(session, *words):
    environment = {**os.environ, "KEYRETAIN_SOCKET": path, "KEYRETAIN_SESSION": session,
                   "PYTHONPATH": os.path.dirname(os.path.dirname(keyretain.__file__))}
    return subprocess.Popen([sys.executable, "-B", "-m", "keyretain", *words, "@s"], env=environment,
                            stdout=subprocess.PIPE, stderr=subprocess.STDOUT, text=True)


async def first_note(client, context, ring):
    """Of a key that another task adds meanwhile."""
    queue = client.open_queue(8)
    client.watch(context, ring, queue)
    asyncio.get_running_loop().call_later(0.1, client.add, context, "user", "b", b"s3", keyretain.SESSION)
    async for note in client.notes_async(queue):
        return note


with keyretain.Client(path, timeout=20) as client:
    context = client.hello(os.geteuid(), os.getegid())
    ring = client.join(context, "watched")
    client.setperm(context, ring, 0x3F1F0000)
    with watch(f"{ring}:watched") as watching:
        compare("what is watched", "watched\n", watching.stdout.readline().split(";")[-1])
        key = client.add(context, "user", "a", b"s3", keyretain.SESSION)
        compare("the note of a key that is put there", f"{ring} link {key}\n", watching.stdout.readline())
        compare("a note in a loop of asyncio", "linked", asyncio.run(first_note(client, context, ring)).what)
        watching.stdout.readline()
        client.revoke(context, ring)
        compare("and of its end", f"{ring} rev\n", watching.stdout.readline())
        watching.kill()
with keyretain.Client(path, timeout=20) as client:
    context = client.hello(os.geteuid(), os.getegid())
    ring = client.join(context, "acted")
    client.setperm(context, ring, 0x3F1F0000)
    command = 'echo "at $KEYRETAIN_NOTE"; [ -n "${KEYRETAIN_NOTE##*link*}" ]'
    with watch(f"{ring}:acted", "--exec", command) as watching:
        watching.stdout.readline()
        key = client.add(context, "user", "a", b"s3", keyretain.SESSION)
        compare("a command at a note", f"at {ring} link {key}\n", watching.stdout.readline())
        told = f"keyretain: the command ended with 1: {ring} link {key}\n"
        compare("that fails", told, watching.stdout.readline())
        client.revoke(context, ring)
        compare("at the next note", f"at {ring} rev\n", watching.stdout.readline())
        watching.kill()
with watch("5:gone") as watching:
    compare("a session that is gone", (1, True), (watching.wait(20), "EKEYREVOKED" in watching.stdout.read()))
conclude()
