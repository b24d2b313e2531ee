"""frames.py ASKS: runs the program ASKS (asks.c) against servers that are made for it, and compares what it sends and
what it prints with what is wanted."""
import ast
import re
import subprocess
import sys
import time

import servers
from servers import attempt, client_of, compare, conclude, keyretain, number, outcome, reply, served

program = sys.argv[1]


def answering(answer, asked):
    """A server that answers each ask by `answer(tag, name, values)`: bytes, or None to end the connection. What came is
    put into `asked`."""
    def serve(end):
        for tag, name, values in end.asks():
            asked.append((name, end.context, values))
            if (answered := answer(tag, name, values)) is None:
                return
            end.socket.sendall(answered)

    return serve


def run(mode, answer):
    """What the program prints, and what the server was asked."""
    asked = []
    with served(answering(answer, asked)) as path:
        printed = subprocess.run([program, path, mode], stdout=subprocess.PIPE, timeout=30, check=False).stdout
    return printed.decode(errors="replace").splitlines(), asked


def plain(tag, name, values):
    """As a daemon that knows every key: numbers are 77, bytes are their ask's name."""
    is_bytes = keyretain.ASKS[name].answer == "bytes"
    return reply(tag, name.encode() if is_bytes else servers.plain(name, values))


def every_ask():
    """The asks that the program has, as it spells them: their names, contexts and values."""
    printed, _ = run("all", plain)
    spelled = (re.match(r"([A-Z_]+) (\d+) (\[.*\]): \d+$", line) for line in printed)
    return [(it[1], int(it[2]), ast.literal_eval(it[3])) for it in spelled if it]


ALL_ASKED = every_ask()
# What the buffers of asks that answer bytes hold afterwards, in order: the first has too little room, one isn't there.
# Where there is room a null byte stands behind a description.
BUFFERS = ["untouched", "DESCRIBE", "READ", None, "READ_QUEUE"]


def wanted_lines():
    lines, buffers = [], iter(BUFFERS)
    for name, context, values in ALL_ASKED:
        what, form = f"{name} {context} {values}", keyretain.ASKS[name].answer
        lines.append(f"{what}: " + {"number": "77", "serial": "77", "nothing": "0", "bytes": str(len(name))}[form])
        if form == "bytes" and (buffer := next(buffers)):
            lines.append(f"{what}: {buffer}")
    return [*lines, "a name of 65536 bytes: EINVAL", "a payload of 65536 bytes: EINVAL"]


def try_all():
    compare("every ask is made", set(keyretain.ASKS), {name for name, _, _ in ALL_ASKED})
    printed, asked = run("all", plain)
    compare("every ask: what is sent", ALL_ASKED, asked)
    compare("every ask: what is printed", wanted_lines(), printed)


def late():
    """Replies to REVOKE come late, before that to the next other ask."""
    kept = []

    def answer(tag, name, values):
        if name == "REVOKE":
            kept.append(reply(tag, b"", 126 if values == [5] else 0))
            return b""
        sent = b"".join(kept) + plain(tag, name, values)
        kept.clear()
        return sent

    return answer


def try_late():
    """Each call has its own answer all the same."""
    printed, _ = run("late", late())
    compare("late replies", ["hello: 77", "interrupted: EINTR", "the next: 77", "out of patience: ETIMEDOUT",
                             "out of patience again: ETIMEDOUT", "the next: 77"], printed)


def try_first():
    """A first call that is interrupted."""
    def answer(tag, name, values):
        time.sleep(0.2)
        return plain(tag, name, values)

    compare("an interrupted first call", ["interrupted: EINTR", "the next: 77", "another: 77"], run("first", answer)[0])


def try_restarted():
    def answer(tag, name, values):
        if name == "CLEAR":
            time.sleep(0.2)
        return plain(tag, name, values)

    compare("signals that end no call", ["hello: 77", "signals: 0"], run("restarted", answer)[0])


def try_child():
    for mode in "fork", "fork-old":
        compare(f"a call in a child, {mode}", ["hello: 77", "in the child: ECONNRESET, broken", "in the parent: 77"],
                run(mode, plain)[0])


def try_statuses():
    for status, name in keyretain.STATUSES.items():
        printed, _ = run("one", lambda tag, *_: reply(tag, b"", status))
        compare(f"status {status}", [f"one: {name}", f"one more: {name}"],
                [line.replace("ENOTSUP", "EOPNOTSUPP") for line in printed])


def try_broken():
    """Replies that are none, and servers that go: an error once, and then that the connection is lost."""
    four = b"\1\0\0\0"
    cases = {
        "the end": (None, "ECONNRESET"), "no status": (lambda tag: reply(tag, b"", 7), "EPROTO"),
        "an error with a body": (lambda tag: reply(tag, b"x", 1), "EPROTO"),
        "no number": (lambda tag: reply(tag, b""), "EPROTO"),
        "a long number": (lambda tag: reply(tag, four + b"\0"), "EPROTO"),
        "a serial of 0": (lambda tag: reply(tag, bytes(4)), "EPROTO"),
        "a serial of 2^31": (lambda tag: reply(tag, b"\0\0\0\x80"), "EPROTO"),
        "a serial of 2^32 - 1": (lambda tag: reply(tag, b"\xff" * 4), "EPROTO"),
        "a short length": (lambda tag: b"\3\0\0\0" + bytes(20), "EPROTO"),
        "a great length": (lambda tag: b"\x09\0\4\0" + bytes(20), "EPROTO"),
        "two replies": (lambda tag: reply(tag, four) * 2, "EPROTO"),
        "another tag": (lambda tag: reply(tag + 1, four), "EPROTO"),
        "a tag of 0": (lambda tag: reply(0, four), "EPROTO"),
        "a tag's low half": (lambda tag: reply(tag + (1 << 32), four), "EPROTO"),
    }
    for case, (spell, error) in cases.items():
        printed, _ = run("one", lambda tag, *_: spell and spell(tag))
        compare(case, [f"one: {error}, broken", "one more: ECONNRESET, broken"], printed[:2])


def try_python():
    """The same asks by the Python client."""
    asked = []
    with client_of(answering(plain, asked)) as client:
        answers = [client.ask(name, context, *values) for name, context, values in ALL_ASKED]
    wanted = {"number": 77, "serial": 77, "nothing": None}
    compare("the Python client: what is sent", ALL_ASKED, asked)
    compare("the Python client: the answers", [wanted.get(keyretain.ASKS[name].answer, name.encode())
                                               for name, _, _ in ALL_ASKED], answers)


def try_python_serials():
    """Numbers that no key has: an id of them would name something else, or nothing."""
    calls = (("GET_ID", lambda client: client.get_id(1, -4)), ("READ", lambda client: client.read_ring(1, 5)),
             ("READ_QUEUE", lambda client: client.read_queue(1)))
    for serial in (0, 1 << 31, (1 << 32) - 1):
        for name, call in calls:
            is_note = name == "READ_QUEUE"
            body = number(1 | 2 << 24) + number(16) + number(5) + number(serial) if is_note else number(serial)
            with client_of(answering(lambda tag, *_: reply(tag, body), [])) as client:
                got = outcome(call, client)
            wanted = [keyretain.Note(0, "linked", 5, 0)] if is_note and serial == 0 else "Malformed"
            compare(f"{name}, serial {serial}, to the Python client", wanted, got)


def give_up(client, run, *words):
    """What a call answers that has little patience."""
    client.timeout = 0.1
    answered = outcome(run, *words)
    client.timeout = 20
    return answered


def try_python_late():
    """Calls of the Python client that are out of patience, and an ask between others that were sent ahead."""
    with client_of(answering(late(), [])) as client:
        answers = [give_up(client, client.revoke, 1, 5), give_up(client, client.revoke, 1, 6), client.read(1, 7),
                   client.describe(1, 8), give_up(client, client.revoke, 1, 5), client.get_id(1, 9)]
        for name, values in (("READ", [7]), ("THREAD", [])):
            client.send(name, 1, *values)
        answers += [client.describe(1, 8), client.receive(), client.receive(), client.read(1, 7)]
    late_one = "TimeoutError"
    compare("late replies to the Python client", [
        late_one, late_one, b"READ", b"DESCRIBE", late_one, 77, b"DESCRIBE", b"READ", 77, b"READ"], answers)


def try_python_first():
    """A first call of the Python client that no frame holds, and one that is out of patience."""
    with client_of(answering(late(), [])) as client:
        answers = [outcome(client.update, 1, 5, bytes(65536)), give_up(client, client.revoke, 1, 6),
                   client.read(1, 7), client.read(1, 7)]
    compare("a first call of the Python client", ["ValueError", "TimeoutError", b"READ", b"READ"], answers)


for case in (try_python, try_python_serials, try_python_late, try_python_first, try_all, try_late, try_first,
             try_restarted, try_child, try_statuses, try_broken):
    attempt(case)
conclude()
