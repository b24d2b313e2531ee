"""keyretain-askpass, as it is installed: of which questions it knows the answer."""
import os
import socket
import subprocess

from helpers import FOLDER, PATIENCE, compare, conclude, daemon, run
import keyretain

PROGRAM, QUESTION = f"{FOLDER}/bin/keyretain-askpass", "Enter passphrase for /home/u/.ssh/id: "
LARGEST = 1 << 20  # the longest credential that systemd takes


def asked_by_systemd(address, uid=None):
    """The status and the answer where a systemd asks that connects from this address, as another user if one is
    named."""
    path = b"\0keyretain-credential-%d" % os.getpid()
    connect = f"import socket, sys; s = socket.socket(socket.AF_UNIX); {address!r} and s.bind({address!r}); " \
        f"s.connect({path!r}); sys.stdout.buffer.write(b''.join(iter(lambda: s.recv(65536), b'')))"
    with socket.socket(socket.AF_UNIX) as public:
        public.bind(path)
        public.listen()
        public.settimeout(PATIENCE)
        words = ["/usr/bin/python3", "-I", "-c", connect]
        with subprocess.Popen(words, stdout=subprocess.PIPE, user=uid, cwd="/") as systemd:
            with public.accept()[0] as asker:
                how = {"stdin": asker, "stdout": asker, "stderr": subprocess.DEVNULL, "timeout": PATIENCE}
                status = subprocess.run([PROGRAM, "--credential"], check=False, **how).returncode
            said = systemd.communicate(timeout=PATIENCE)[0]
    return status, said if len(said) <= LARGEST else "too long for systemd"


def try_credentials(client, context):
    """LoadCredential= of systemd, which takes no answer for an empty credential."""
    refused, unit = (1, "too long for systemd"), b"\0adf9d86b6eda275e/unit/a.service/"
    client.add(context, "user", "credential token", b"s3\0\n", keyretain.USER)
    compare("a credential", (0, b"s3\0\n"), asked_by_systemd(unit + b"token"))
    compare("one for which there is no key", refused, asked_by_systemd(unit + b"other"))
    for address in (b"", b"\0adf9d86b6eda275e/token", b"\0" + b"a" * 16 + b"/unit//token"):
        compare(f"no unit's address, {address}", refused, asked_by_systemd(address))
    if os.geteuid() == 0:
        compare("another user", refused, asked_by_systemd(unit + b"token", 65534))
    else:
        print("skipped: another user who asks for a credential: not root")


def try_planted(client, context):
    """The user keyring has a link to a keyring of another user's, who has put there what answers."""
    other, names = client.hello(54321, 54321), (f"askpass {QUESTION}", "credential token")
    shared = client.add(other, "keyring", "shared", b"", keyretain.USER)
    planted = [client.add(other, "user", name, b"of another user", shared) for name in names]
    for serial in (shared, *planted):
        client.setperm(other, serial, 0x3F3F3F3F)
    client.link(context, shared, keyretain.USER)
    compare("another user's answer", (1, b""), run([PROGRAM, QUESTION])[:2])
    compare("another user's credential", (1, "too long for systemd"),
            asked_by_systemd(b"\0adf9d86b6eda275e/unit/a.service/token"))
    client.unlink(context, shared, keyretain.USER)


with daemon(), keyretain.Client() as client:
    context = client.hello(os.geteuid(), os.getegid())
    compare("nobody has an answer", (1, b""), run([PROGRAM, QUESTION])[:2])
    compare("nor is an error one", (1, b""), run(["sh", "-c", 'exec "$0" "$1" 2>&-', PROGRAM, QUESTION])[:2])
    try_planted(client, context)
    ring = client.join(context, "asked")
    client.setperm(context, ring, 0x3F1F0000)
    client.add(context, "user", f"askpass {QUESTION}", b"of the user", keyretain.USER)
    client.link(context, keyretain.USER, keyretain.SESSION)
    compare("the user keyring's", (0, b"of the user\n", b""), run([PROGRAM, QUESTION]))
    compare("and another question", (1, b""), run([PROGRAM, QUESTION.strip()])[:2])
    try_credentials(client, context)
    client.add(context, "user", f"askpass {QUESTION}", b"of the session", keyretain.SESSION)
    inside = {"KEYRETAIN_SESSION": f"{ring}:asked"}
    compare("the session's", (0, b"of the session\n", b""), run([PROGRAM, QUESTION], environment=inside))
    compare("a confirmation", (2, b""), run([PROGRAM, QUESTION], environment={"SSH_ASKPASS_PROMPT": "confirm"})[:2])
    compare("no question", (2, b""), run([PROGRAM])[:2])
os.environ["KEYRETAIN_SOCKET"] = "/nonexistent"
compare("no daemon", (1, b""), run([PROGRAM, QUESTION])[:2])
conclude()
