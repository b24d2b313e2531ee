"""Of the guard: daemons that are busy, gone, slow, or lie."""
import contextlib
import os
import socket
import struct
import time

from daemons import PATIENCE, listening, received, unread, until
from versions import number, reply
from stage import (
    EINVAL, EPERM, ESRCH, GID, NOBODY, UID, WHO, Running, asked, check, descriptors, hello, kill, read_key, ticks)


def try_busy_daemon():
    """A daemon whose queue of connections is full: clients wait for it, and waiting costs nothing."""
    run = Running(daemon=False)
    listener = listening(run.private, 0)
    clients = [run.one(*WHO) for _ in range(3)]
    for client in clients:
        client.send(hello(UID, GID))
    cpu = ticks(run)
    time.sleep(1)
    check('waiting costs little', ticks(run) - cpu <= 5, True)
    check('and keeps nothing open', descriptors(run) < 20, True)
    for _ in clients:
        end, _ = listener.accept()
        end.settimeout(PATIENCE)
        check('what comes when there is room', end.recv(4096), hello(UID, GID))
        end.sendall(ACCEPTED)
        end.shutdown(socket.SHUT_WR)
    check('all are answered', [client.reply() for client in clients], [(0, b'\1\0\0\0')] * 3)
    check('and all are ended', [client.reply() for client in clients], ['end'] * 3)
    listener.close()


def try_daemon_gone():
    run = Running(daemon=False)
    client = run.one(*WHO)
    client.send(hello(UID, GID))
    check('no daemon', client.reply(), 'end')
    run.start_daemon()
    client = run.one(*WHO)
    check('a daemon', client.status(hello(UID, GID)), 0)
    kill(run.daemon)
    check('the daemon is killed', client.reply(), 'end')
    os.unlink(run.private)
    run.start_daemon()
    check('a daemon again', run.one(*WHO).status(hello(UID, GID)), 0)


class Liar:
    """A daemon that answers what it is told to."""

    def __init__(self, path, answers):
        self.listener, self.answers = listening(path), answers

    def serve(self):
        end, _ = self.listener.accept()
        end.settimeout(PATIENCE)
        asked = end.recv(65536)
        end.sendall(self.answers)
        return end, asked


def try_lying_daemon():
    """What no daemon answers ends the connection: above all a HELLO that was made void, and is accepted."""
    for name, answers, wanted in (
            ('a void HELLO that is accepted', ACCEPTED, 'end'),
            ('a reply of 3 bytes', struct.pack('<II', 3, EINVAL), 'end'),
            ('a reply of 262153 bytes', struct.pack('<II', 262153, EINVAL), 'end'),
            ('a reply too many', REFUSED + REFUSED, (EPERM, 'end')),
            ('what it should answer', REFUSED, (EPERM, None))):
        run = Running(daemon=False)
        liar = Liar(run.private, answers)
        client = run.one(*WHO)
        client.send(hello(UID + 1, GID))
        end, asked = liar.serve()
        check(f'{name}: what it was asked', asked, hello(NOBODY, GID))
        first = client.reply()
        if isinstance(wanted, str):
            check(name, first, wanted)
        else:
            check(name, first if isinstance(first, str) else first[0], wanted[0])
            if wanted[1]:
                check(f'{name}: then', client.reply(), wanted[1])
        end.close()
        liar.listener.close()
        run.end()


ACCEPTED = reply(0, number(1), version=1)
REFUSED = reply(0, b'', EINVAL, 1)


class Told(Liar):
    """A daemon that does each step when it is told to, and a client of it."""

    def __init__(self):
        self.run = Running(daemon=False)
        super().__init__(self.run.private, b'')
        self.client, self.hello = self.run.one(*WHO), hello(UID, GID)

    def meet(self):
        """The daemon's end and the client, once that has greeted and is answered."""
        self.client.send(self.hello)
        end, asked = self.serve()
        check('the first ask', asked, self.hello)
        end.sendall(ACCEPTED)
        check('the first reply', self.client.reply()[0], 0)
        self.client.wait_until_read()
        return end, self.client

    def end(self):
        self.listener.close()
        self.run.end()


def try_sent_ahead():
    """What a client sends while it waits for a reply goes on behind what it sent before, once, and nothing is lost."""
    end, client = (told := Told()).meet()
    first, second, third = read_key(1, 5), read_key(2, 6, 7), hello(UID + 1, GID)
    client.send(first)
    check('one ask', received(end, len(first)), first)
    client.send(second, third[:17])
    time.sleep(0.1)  # the guard has no cause to look
    end.sendall(ACCEPTED)
    check('its reply', client.reply(), (0, b'\1\0\0\0'))
    check('the next ask, once', received(end, len(second)), second)
    end.sendall(reply(7))
    check('its reply, too', client.reply(True), (0, 7, b''))
    client.send(third[17:], first)
    void = hello(NOBODY, GID)
    check('an ask in two pieces, and one behind it', received(end, len(void + first)), void + first)
    end.sendall(REFUSED + ACCEPTED)
    check('their replies', (client.reply()[0], client.reply()[0]), (EPERM, 0))
    end.settimeout(0.2)
    with contextlib.suppress(TimeoutError):
        check('nothing twice', end.recv(1), 'nothing')


def fill(sock, piece):
    """Sends until no more is taken; how often all of a piece was."""
    sock.setblocking(False)
    sent, end, many = 0, time.monotonic() + 0.5, piece * (1 + 65536 // len(piece))
    while time.monotonic() < end:
        try:
            sent += sock.send(many[sent % len(piece):])
            end = time.monotonic() + 0.5
        except BlockingIOError:
            time.sleep(0.01)
    sock.settimeout(PATIENCE)
    return sent // len(piece)


def wait_for_bytes(sock, count):
    """Until so many have come, which stay unread."""
    until(lambda: unread(sock) >= count)


def try_full_sides():
    """While one side takes nothing, what goes to the other goes on."""
    refusal = reply(0, b'', ESRCH, 1)
    end, client = (told := Told()).meet()
    client.send(read_key(1, 5) * 100)
    wait_for_bytes(end, 100 * len(read_key(1, 5)))
    end.sendall(refusal)  # from then on the guard reads both sides
    check('asks that the daemon does not read are held back', fill(client.sock, read_key(1, 5)) > 1000, True)
    wait_for_bytes(end, 1000 * len(read_key(1, 5)))
    end.sendall(refusal * 999)
    check('and its replies go on', [client.reply()[0] for _ in range(1000)], [ESRCH] * 1000)
    told.end()
    end, client = (told := Told()).meet()
    client.send(read_key(1, 5) * 100)
    wait_for_bytes(end, 100 * len(read_key(1, 5)))
    long = reply(0, bytes(200000), version=1)
    check('replies that the client does not read are held back', 0 < fill(end, long) < 100, True)
    received(end, 100 * len(read_key(1, 5)))
    client.send(told.hello)
    check('and its asks go on', received(end, len(told.hello)), told.hello)


def try_late_reply():
    """A reply that comes before its ask is nobody's, and is not taken for that of the next."""
    end, client = (told := Told()).meet()
    end.sendall(ACCEPTED)
    time.sleep(0.1)
    client.send(told.hello)
    check('a reply too many, later', client.reply(), 'end')


def try_ends():
    """Where one side ends the other sees an end, and no reset."""
    end, client = (told := Told()).meet()
    client.send(told.hello)
    check('asked', received(end, len(told.hello)), told.hello)
    end.close()
    check('a daemon that ends', client.sock.recv(1), b'')
    told.end()
    end, client = (told := Told()).meet()
    client.close()
    check('a client that ends', end.recv(1), b'')
    end.close()
