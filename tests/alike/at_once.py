"""at_once.py PATH ASKS SEED: 16 clients of one daemon at once, which nobody else uses, with so many asks in all. Each
is a process that sends up to 64 asks ahead. What must hold in whatever order they are served is checked afterwards, of
what each client was answered, and when: one ask stands before another if it was answered before the other was sent.

Prints each answer that can't be, and last how many were compared."""
import bisect
import mmap
import os
import pickle
import random
import struct
import sys
import time
import traceback
from collections import defaultdict
from typing import NamedTuple

from compare import compare, conclude, outcome
from daemons import connect
import keyretain
import versions

path, asks, seed = sys.argv[1], int(sys.argv[2]), int(sys.argv[3])
CLIENTS, AHEAD, BOARD = 16, 64, 512
OPEN, USER, THREAD = 0x3F3F3F3F, -4, -1
UPDATED = 1

# What an ask may be refused with, by keyretain-protocol(7); an empty look-up is ENOKEY.
LOOKED_UP = {"ENOKEY", "EKEYREVOKED", "EKEYEXPIRED", "EACCES"}
MAY_BE = {
    "HELLO": {"EINVAL"}, "FORK": {"ESRCH", "EINVAL"}, "EXIT": {"ESRCH"}, "LEAVE": set(), "OPEN_QUEUE": {"ENFILE"},
    "ADD": LOOKED_UP | {"ENOTDIR"}, "UPDATE": LOOKED_UP, "READ": LOOKED_UP, "DESCRIBE": LOOKED_UP, "SETPERM": LOOKED_UP,
    "REVOKE": LOOKED_UP, "INVALIDATE": LOOKED_UP, "LINK": LOOKED_UP | {"EDEADLK", "ELOOP"},
    "UNLINK": LOOKED_UP | {"ENOENT"}, "GET_ID": LOOKED_UP, "SEARCH": LOOKED_UP, "WATCH": LOOKED_UP | {"EBUSY"},
    "READ_QUEUE": {"EAGAIN"},
}


class Event(NamedTuple):
    """An ask as its client saw it: when it was sent and answered, and a number, bytes, None or an error's name."""

    client: int
    sent: int
    got: int
    uid: int
    name: str
    values: list
    answer: object


# ---- A client


class Client:
    """Asks at random, and takes down what it is answered."""

    def __init__(self, number, board):
        self.number, self.board = number, board
        self.chance = random.Random(f"{seed} {number}")
        self.version = 1 + number % 2
        self.end = connect(path)
        self.end.settimeout(120)
        self.received, self.events, self.made = b"", [], 0
        self.uid = 1000 + number % 4
        self.context = self.ask("HELLO", 0, self.uid, self.uid, [])
        self.own, self.queue, self.written = [], self.ask("OPEN_QUEUE", 0, 4096), {}

    def exchange(self, batch):
        sent = time.monotonic_ns()
        frames = [versions.encode_ask(*asked, self.version, at) for at, asked in enumerate(batch)]
        self.end.sendall(b"".join(frames))
        answers = []
        for name, _, values in batch:
            while (reply := versions.decode_reply(self.received, self.version)) is None:
                piece = self.end.recv(65536)
                if not piece:
                    raise ConnectionResetError("the daemon has ended the connection")
                self.received += piece
            self.received = self.received[reply.length:]
            answers.append(outcome(keyretain.answer_of, name, reply))
        got = time.monotonic_ns()
        for (name, _, values), answer in zip(batch, answers):
            self.events.append(Event(self.number, sent, got, self.uid, name, list(values), answer))
        return answers

    def ask(self, name, context, *values):
        return self.exchange([(name, context, values)])[0]

    def unique(self):
        self.made += 1
        return f"{self.number}.{self.made}".encode()

    def of_board(self):
        return struct.unpack_from("<i", self.board, 4 * self.chance.randrange(BOARD))[0] or 2**31 - 1

    def put_on_board(self, serial):
        struct.pack_into("<i", self.board, 4 * self.chance.randrange(BOARD), serial)

    def key(self):
        return self.chance.choice(self.own[-20:]) if self.own and self.chance.random() < 0.3 else self.of_board()

    def draw(self):
        """One ask in the client's context."""
        draws = (
            (8, lambda: ("ADD", (b"user", self.unique(), self.unique(), self.chance.choice((USER, THREAD))))),
            (12, lambda: ("READ", (self.key(),))), (8, lambda: ("UPDATE", (self.key(), self.unique()))),
            (4, lambda: ("DESCRIBE", (self.key(),))), (1, lambda: ("REVOKE", (self.key(),))),
            (1, lambda: ("INVALIDATE", (self.key(),))), (3, lambda: ("LINK", (self.key(), THREAD))),
            (2, lambda: ("UNLINK", (self.key(), THREAD))), (1, lambda: ("GET_ID", (USER, 0))),
            (2, lambda: ("WATCH", (self.key(), self.queue, self.chance.randrange(256)))),
            (1, lambda: ("SEARCH", (USER, b"user", b"none", 0))), (1, lambda: ("FORK", ())))
        return self.chance.choices([draw for _, draw in draws], [weight for weight, _ in draws])[0]()

    def turn(self):
        """Up to 64 asks ahead, and then what their answers lead to: the owner opens half of the new keys to all."""
        drawn = [self.draw() for _ in range(self.chance.choice((1, 1, 4, 16, AHEAD)))]
        batch = [(name, self.context, values) for name, values in drawn]
        follow = []
        for (name, _, _), answer in zip(batch, self.exchange(batch)):
            if name == "ADD" and isinstance(answer, int):
                self.own.append(answer)
                if self.chance.random() < 0.5:
                    follow.append(("SETPERM", self.context, (answer, OPEN)))
            if name == "FORK" and isinstance(answer, int):
                follow.append(("EXIT", answer, ()))
        follow.append(("READ_QUEUE", 0, (self.queue, 1 << 16)))
        for (name, _, values), answer in zip(follow, self.exchange(follow)):
            if name == "SETPERM" and answer is None:
                self.put_on_board(values[0])

    def run(self, count):
        while len(self.events) < count:
            self.turn()
        self.ask("LEAVE", 0)
        return self.events


def run_clients():
    """The events of all clients, each in a process, which begin together."""
    board, begin, ends = mmap.mmap(-1, 4 * BOARD), os.pipe(), []
    for number in range(CLIENTS):
        read, write = os.pipe()
        if os.fork() == 0:
            try:
                client = Client(number, board)
                os.close(begin[1])
                os.read(begin[0], 1)
                with os.fdopen(write, "wb") as out:
                    pickle.dump(client.run(asks // CLIENTS), out)
            except Exception:
                traceback.print_exc()
            finally:
                os._exit(0)
        os.close(write)
        ends.append(os.fdopen(read, "rb"))
    os.close(begin[1])
    events = []
    for end in ends:
        with end:
            events.append(pickle.load(end))
    return events


# ---- What must hold


class Faults:
    """The answers that can't be: the first few are told."""

    def __init__(self):
        self.count = 0

    def see(self, what, event):
        self.count += 1
        if self.count <= 10:
            print(f"can't be: {what}: {event}")


def accepted(event):
    return not isinstance(event.answer, str)


def check_statuses(events, faults):
    for it in events:
        if not accepted(it) and it.answer not in MAY_BE[it.name]:
            faults.see("no such refusal", it)


def check_numbers(events, names, faults):
    """Numbers that these asks answer rise: in each client, and between two of which one was answered before the other
    was sent. None comes twice."""
    given = [it for it in events if it.name in names and accepted(it)]
    if len({it.answer for it in given}) != len(given):
        faults.see(f"a number of {names} came twice", "")
    answered = sorted(given, key=lambda it: it.got)
    highest, at = 0, 0
    for it in sorted(given, key=lambda it: it.sent):
        while at < len(answered) and answered[at].got < it.sent:
            highest = max(highest, answered[at].answer)
            at += 1
        if it.answer <= highest:
            faults.see(f"{highest} had been given", it)
    for one, other in zip(given, given[1:]):
        if one.client == other.client and one.answer >= other.answer:
            faults.see(f"behind {one.answer}", other)


class Key:
    """What was asked of a key."""

    def __init__(self):
        self.made, self.writes, self.reads, self.named = None, [], [], []
        self.ended, self.revoked = None, None  # when that was first answered


def keys_of(events):
    keys = defaultdict(Key)
    for it in events:
        if it.name == "ADD" and accepted(it):
            keys[it.answer].made = it
            keys[it.answer].writes.append(it)
        if not it.values or it.name in ("ADD", "HELLO", "SEARCH", "OPEN_QUEUE", "READ_QUEUE") or it.values[0] <= 2:
            continue
        key = keys[it.values[0]]
        key.named.append(it)
        if it.name == "UPDATE" and accepted(it):
            key.writes.append(it)
        if it.name == "READ" and accepted(it):
            key.reads.append(it)
        if it.name == "REVOKE" and accepted(it):
            key.revoked = min(key.revoked or it.got, it.got)
        if it.name == "INVALIDATE" and accepted(it):
            key.ended = min(key.ended or it.got, it.got)
    return keys


def check_ended(key, faults):
    """Once the answer to REVOKE or INVALIDATE was there, nobody gets at the key any more."""
    for it in key.named:
        gone = it.name != "UNLINK" or it.answer == "ENOKEY"
        if key.ended and it.sent > key.ended and it.answer != "ENOKEY":
            faults.see("the key was invalidated", it)
        if key.revoked and it.sent > key.revoked and gone and it.answer not in ("EKEYREVOKED", "ENOKEY"):
            faults.see("the key was revoked", it)


def check_reads(key, faults):
    """A READ gives what was written last, where it is clear what that was: no other write stands between the two."""
    if len(key.writes) > 1:
        key.writes.sort(key=lambda it: it.sent)
    by_payload = {it.values[2] if it.name == "ADD" else it.values[1]: it for it in key.writes}
    for read in key.reads:
        write = by_payload.get(read.answer)
        if write is None or write.sent > read.got:
            faults.see("nobody had written that", read)
            continue
        first = bisect.bisect_right(key.writes, write.got, key=lambda it: it.sent)
        if any(it.got < read.sent for it in key.writes[first:]):
            faults.see("something else had been written since", read)


def check_own(key, opened, faults):
    """A key that was never opened to others is read by its user alone."""
    if key.made is None or key.made.answer in opened:
        return
    for it in key.named:
        if it.name in ("READ", "UPDATE") and accepted(it) and it.uid != key.made.uid:
            faults.see("the key was never given away", it)
    for it in key.named:
        if it.name == "DESCRIBE" and accepted(it):
            wanted = b"user;%d;%d;" % (key.made.uid, key.made.uid)
            if not (it.answer.startswith(wanted) and it.answer.endswith(b";" + key.made.values[1])):
                faults.see("the key has another description", it)


def check_notes(events, keys, faults):
    """A queue has a note for each update that stands between its watch and its read, and for none that doesn't meet it.
    A queue of which records were lost isn't looked at."""
    watched, counts, lost = {}, defaultdict(int), False
    for it in events:  # of one client, in order
        if it.name == "WATCH" and accepted(it):
            watched[it.values[0]] = it
        if it.name != "READ_QUEUE" or not accepted(it):
            continue
        for note in keyretain.decode_notes(it.answer):
            lost |= isinstance(note, keyretain.Loss)
            counts[note.key] += isinstance(note, keyretain.Note) and note.what == "updated" if not lost else 0
    last = max((it for it in events if it.name == "READ_QUEUE"), key=lambda it: it.got)
    for serial, watch in {} if lost else watched.items():
        updates = [it for it in keys[serial].writes if it.name == "UPDATE"]
        least = sum(it.sent > watch.got and it.got < last.sent for it in updates)
        most = sum(it.got > watch.sent and it.sent < last.got for it in updates)
        if not least <= counts[serial] <= most:
            faults.see(f"{counts[serial]} notes of {least} to {most} updates", watch)


def main():
    clients = run_clients()
    events, faults = [it for client in clients for it in client], Faults()
    check_statuses(events, faults)
    for names in (("ADD",), ("HELLO", "FORK"), ("OPEN_QUEUE",)):
        check_numbers(events, names, faults)
    keys = keys_of(events)
    opened = {it.values[0] for it in events if it.name == "SETPERM" and accepted(it)}
    for key in keys.values():
        check_ended(key, faults)
        check_reads(key, faults)
        check_own(key, opened, faults)
    for client in clients:
        check_notes(client, keys, faults)
    reads = sum(len(key.reads) for key in keys.values())
    print(f"{len(events)} asks of {CLIENTS} clients, {reads} READs accepted, {len(keys)} keys")
    compare("answers that can't be", 0, faults.count)
    compare("READs are accepted", True, reads > len(events) // 50)
    conclude()


main()
