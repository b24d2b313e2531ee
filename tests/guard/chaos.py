#!/usr/bin/env python3
"""chaos.py GUARD_PID SOCKET SECONDS SEED: clients of three uids that send good frames, broken ones, noise and pieces,
read, don't read, half-close and vanish. Replies to good frames are checked as long as a connection wasn't spoilt. Wants
root."""

import os
import random
import socket
import struct
import sys
import time

from daemons import become, connect, received, until
from versions import frame, hello

pid, path, seconds, seed = int(sys.argv[1]), sys.argv[2], float(sys.argv[3]), int(sys.argv[4])
chance = random.Random(seed)
EPERM, EINVAL, ESRCH, EDQUOT = 1, 22, 3, 122
UIDS = [4001, 4002, 4003]


def ask(op, context=0, body=b'', tag=None):
    return frame(op, context, body, 1 if tag is None else 2, tag or 0)


class Maker:
    """a child of a uid that connects when it is told to"""
    def __init__(self, uid):
        self.ours, theirs = socket.socketpair()
        if os.fork() == 0:
            self.ours.close()
            become(uid)
            while theirs.recv(1):
                with connect(path) as sock:
                    socket.send_fds(theirs, [b'x'], [sock.fileno()])
            os._exit(0)
        theirs.close()

    def make(self):
        self.ours.send(b'x')
        return socket.socket(fileno=socket.recv_fds(self.ours, 1, 1)[1][0])


class Client:
    def __init__(self, uid):
        self.uid, self.sock = uid, makers[uid].make()
        self.sock.setblocking(False)
        self.out, self.have, self.wanted = b'', b'', []
        self.spoilt = self.shut = False
        self.deaf = chance.random() < 0.15
        self.refused = 0
        self.is_answered = False

    def write(self):
        for _ in range(chance.randrange(1, 30)):
            tag = None if chance.random() < 0.5 else chance.getrandbits(64)
            kind = chance.randrange(12)
            if kind < 3 and self.refused < 60:
                self.refused += 1
                self.out += hello(*chance.choice([(self.uid + 1, self.uid), (self.uid, 0), (0, 0)]), tag=tag)
                self.wanted.append((EPERM, tag))
            elif kind < 5:
                self.out += hello(self.uid, self.uid, [self.uid] * chance.randrange(3), tag=tag)
                self.wanted.append((None, tag))                      # 0, or EINVAL from the 65th on
            elif kind < 8:
                self.out += ask(262, 1 << 31, bytes(chance.randrange(0, 9)) if chance.random() < 0.02 else
                                struct.pack('<H4sH1sI', 4, b'user', 1, b'k', 3000) + b'p' * 3000
                                + struct.pack('<i', -4), tag)
                if len(self.out) and self.out[-1] == 0:
                    self.spoilt = True
                self.wanted.append((ESRCH, tag))
            elif kind < 10:
                self.out += hello(self.uid, 2**32 - 1, tag=tag)
                self.wanted.append((EINVAL, tag))
            elif kind == 10 and chance.random() < 0.05:
                self.out += chance.randbytes(chance.randrange(1, 200))
                self.spoilt = True
                return
            else:
                self.out += ask(259, 1 << 31, tag=tag)
                self.wanted.append((ESRCH, tag))

    def send(self):
        try:
            sent = self.sock.send(self.out[:chance.choice([1, 3, 10, 100, 4096, 1 << 17])])
            self.out = self.out[sent:]
        except BlockingIOError:
            pass
        except OSError:
            return False
        return True

    def read(self):
        try:
            piece = self.sock.recv(chance.choice([1, 8, 100, 65536]))
        except BlockingIOError:
            return True
        except OSError:
            return False
        if not piece:
            return False
        self.have += piece
        while len(self.have) >= 4 and len(self.have) >= 4 + (size := struct.unpack('<I', self.have[:4])[0]):
            frame, self.have = self.have[4:4 + size], self.have[4 + size:]
            if not self.wanted:
                assert self.spoilt, 'a reply too many'
                continue
            status, tag = self.wanted.pop(0)
            got = struct.unpack('<I', frame[:4])[0]
            if got == EDQUOT and not self.is_answered:
                counts['places'] += 1  # each is held by one that has gone, which a busy guard hasn't seen yet
                return False
            self.is_answered = True
            if not self.spoilt:
                assert got == status or (status is None and got in (0, EINVAL)), (got, status)
                assert tag is None or struct.unpack('<Q', frame[4:12])[0] == tag
                counts['replies'] += 1
            elif tag is not None or status is not None:
                # what came before the fault is answered in order still
                assert got == status or status is None or got in (0, EINVAL, EPERM, ESRCH), (got, status)
        return True


def turn(client):
    """Lets a client do something, and answers whether it goes on."""
    act = chance.random()
    if not client.out and not client.shut and act < 0.3:
        client.write()
    goes_on = client.send() if client.out and not client.shut else True
    if goes_on and not client.deaf:
        goes_on = client.read()
    if goes_on and act > 0.995 and not client.shut:
        client.sock.shutdown(socket.SHUT_WR)
        client.shut = True
    return goes_on and act >= 0.002


def descriptors():
    return len(os.listdir(f'/proc/{pid}/fd'))


counts = {'replies': 0, 'clients': 0, 'places': 0}
makers = {uid: Maker(uid) for uid in UIDS}
clients, before = [], descriptors()
finish = time.monotonic() + seconds
while time.monotonic() < finish:
    if len(clients) < 40 and chance.random() < 0.3:
        clients.append(Client(chance.choice(UIDS)))
        counts['clients'] += 1
    for client in list(clients):
        if not turn(client):
            client.sock.close()
            clients.remove(client)
for client in clients:
    client.sock.close()
assert until(lambda: descriptors() <= before), (descriptors(), before)
sock = makers[4001].make()
sock.settimeout(60)
sock.sendall(hello(4002, 1) + hello(4001, 4001))
first = received(sock, 20)
assert struct.unpack('<II', first[:8]) == (4, EPERM) and struct.unpack('<II', first[8:16]) == (8, 0), first
assert counts['replies'] > counts['places'], counts
print(f'chaos: {counts["clients"]} clients, {counts["replies"]} replies passed, 0 failed', flush=True)
os._exit(0)
