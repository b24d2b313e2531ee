"""noise.py [SEED]: bytes that git, docker or a keyring may hold, against the parsers of the helpers; and that a
description says what it was made of. The same seed gives the same run."""
import io
import json
import random
import sys

from helpers import compare, conclude
from keyretain.credentials import docker, git
from keyretain.credentials.helper import Unusable
from keyretain.credentials.locker import Entry

ROUNDS = 20000
PIECES = (b"protocol=", b"host=", b"path=", b"username=", b"password=", b"git ", b"docker server=", b" ", b"=", b"%",
          b"%0", b"%0A", b"%00", b"\n", b"\r", b"\0", b"\xff", b"\xc3\xa9", b"{", b"}", b"[", b"\"", b"\\ud800",
          b":", b"a", b"ServerURL", b"[]", b"1e999", b"-", b"9" * 30)


def noise(pick):
    return b"".join(pick.choice(PIECES) for _ in range(pick.randrange(20)))


def attributes_of(text):
    """What is read, or None."""
    sys.stdin = io.TextIOWrapper(io.BytesIO(text))
    try:
        return git.read_attributes()
    except Unusable:
        return None


def is_clean(attributes):
    """Whether no value could begin a line of its own."""
    return not attributes or not any(b"\n" in part or b"\0" in part for pair in attributes.items() for part in pair)


def try_git(pick):
    faults = 0
    for _ in range(ROUNDS):
        given = attributes_of(noise(pick))
        faults += not is_clean(given) or not is_clean(git.parse_description(noise(pick)))
        faults += not is_clean(git.parse_payload(noise(pick)))
        if given is not None:
            known = {name: given[name] for name in git.NAMES if name in given}
            faults += git.parse_description(git.describe(given).encode()) != known
            kept = {name: given[name] for name in git.KEPT if name in given}
            faults += git.parse_payload(git.lines_of(kept)) != kept
            faults += git.seconds_to_keep(given, 900) > 900
    compare("git: what isn't read as it was written", 0, faults)


def try_docker(pick):
    faults = 0
    for _ in range(ROUNDS):
        text = noise(pick)
        values = docker.parse(text, ("ServerURL", "Username"))
        faults += values is not None and (not isinstance(json.loads(text), dict) or len(values) != 2)
        server = docker.server_of(Entry(1, docker.describe(text).encode()))
        faults += server != text.decode(errors="replace")
        docker.server_of(Entry(1, text))
    compare("docker: what isn't read as it was written", 0, faults)


seed = int(sys.argv[1]) if len(sys.argv) > 1 else 1
try_git(random.Random(seed))
try_docker(random.Random(seed))
conclude()
