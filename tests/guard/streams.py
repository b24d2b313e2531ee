"""Of the guard: asks in pieces, many at once and broken ones, and clients that half-close or take nothing."""
import contextlib
import os
import random
import select
import signal
import socket
import struct
import time

from daemons import PATIENCE
from stage import (
    EINVAL, EPERM, ESRCH, EXEC, GID, HELLO, IS_SANITIZED, NOBODY, ROOT, UID, WHO, Running, add, ask, check,
    check_soon, descriptors, hello, kill, read_key, skipped, ticks, wait_for_replies)


SO_PASSRIGHTS = 83


def try_pieces():
    run = Running()
    for version in (1, 2):
        def tag(n): return None if version == 1 else n
        client = run.one(*WHO)
        stream = (hello(UID, GID, tag=tag(1)) + hello(9, GID, tag=tag(2)) + ask(EXEC, 1 << 31, tag=tag(3))
                  + hello(UID, 9, [GID], tag=tag(4)) + hello(UID, GID, [GID, GID], tag=tag(5)))
        client.send_apart(stream)
        got = [client.reply(version == 2) for _ in range(5)]
        check(f'byte by byte, version {version}', [r[0] for r in got], [0, EPERM, ESRCH, EPERM, 0])
        if version == 2:
            check('tags', [r[1] for r in got], [1, 2, 3, 4, 5])


def draw_asks(chance, uid, gid, context, serial):
    """200 asks of both versions, at most 64 refused HELLOs among them, and the replies that they are to get."""
    stream, wanted, refused = b'', [], 0
    for _ in range(200):
        tag = None if chance.random() < 0.5 else chance.getrandbits(64)
        kind = chance.randrange(5)
        if kind == 0 and refused < 64:
            refused += 1
            foreign = [(uid + 1, gid, []), (uid, 9999, []), (uid, gid, [9999]), (0 if uid else 1, 0, [])]
            stream, status, answer = stream + hello(*chance.choice(foreign), tag=tag), EPERM, b''
        elif kind == 1:
            stream, status, answer = stream + hello(NOBODY, gid, tag=tag), EINVAL, b''
        elif kind == 2:
            stream, status, answer = stream + ask(EXEC, 1 << 31, tag=tag), ESRCH, b''
        elif kind == 3:
            stream, status, answer = stream + read_key(context, serial, tag), 0, b'x' * 3000
        else:
            stream, status, answer = stream + hello(uid, gid, [9999] * 33, tag), EINVAL, b''
        wanted.append((status, tag, answer))
    return stream, wanted


def exchange(client, chance, stream, tags):
    """Sends a stream in random pieces, and reads as randomly: the replies to asks with these tags."""
    at, got = 0, []
    client.sock.setblocking(False)
    while len(got) < len(tags):
        select.select([client.sock], [client.sock] if at < len(stream) else [], [], PATIENCE)
        with contextlib.suppress(BlockingIOError):
            at += client.sock.send(stream[at:at + chance.choice([1, 2, 3, 7, 20, 500, 5000])])
        with contextlib.suppress(BlockingIOError):
            piece = client.sock.recv(chance.choice([1, 5, 100, 65536]))
            if not piece:
                break
            client.have += piece
        while len(client.have) >= 4 and len(client.have) >= 4 + struct.unpack('<I', client.have[:4])[0]:
            reply = client.reply(tags[len(got)] is not None)
            got.append(reply if len(reply) == 3 else (reply[0], None, reply[1]))
    return got


def try_pipelines():
    """Long random pipelines of asks of both versions in random pieces, with refused HELLOs among them."""
    run = Running()
    chance = random.Random(5)
    for _ in range(12):
        client = run.one(*WHO)
        context = client.context(UID, GID)
        serial = client.serial(add(context, b'big', b'x' * 3000))
        stream, wanted = draw_asks(chance, UID, GID, context, serial)
        check('pipeline', exchange(client, chance, stream, [it[1] for it in wanted]), wanted)
        client.close()


def try_many_refused():
    """More refused HELLOs in flight than are remembered: it ends, behind good replies."""
    run = Running('--hello-seconds', '600')
    client, began = run.one(*WHO), time.monotonic()
    client.send(*[hello(UID + 1, GID) for _ in range(1000)])
    check('1000 refused at once', set(client.rest()[0]), {EPERM})
    def told():
        return open(run.errors.name).read().count('refused:')

    before = told()
    time.sleep(1.1)  # another second
    client = run.one(*WHO)
    check('one more, a second later', client.status(hello(UID + 1, GID)), EPERM)
    check_soon('it is told', lambda: told() > before, True)
    check('1000 refused, one by one', {client.status(hello(UID + 1, GID)) for _ in range(1000)}, {EPERM})
    check('and then an own one', client.status(hello(UID, GID)), 0)
    run.end()
    seconds = int(time.monotonic() - began) + 2
    check('ten a second are told, and no more', 0 < told() <= 10 * seconds, True)


def try_bad_frames():
    run = Running()
    good = hello(UID, GID) + hello(UID + 1, GID) + ask(EXEC, 1 << 31)
    bad = {
        'length 0': b'\0\0\0\0', 'length 7': b'\7\0\0\0', 'length 65537': struct.pack('<I', 65537),
        'length -1': b'\xff' * 4, 'version 0': struct.pack('<IHHI', 8, 0, EXEC, 0),
        'version 3': struct.pack('<IHHI', 8, 3, EXEC, 0), 'version 257': struct.pack('<IHHI', 8, 257, EXEC, 0),
        'no room for a tag': struct.pack('<IHHI', 8, 2, EXEC, 0), 'operation 12': ask(12), 'operation 33': ask(33),
        'operation 255': ask(255), 'operation 268': ask(268), 'operation 65535': ask(65535), 'operation 512': ask(512),
        'HELLO without a body': ask(HELLO), 'HELLO of 11 bytes': ask(HELLO, 0, b'\0' * 11),
        'HELLO with a byte too many': ask(HELLO, 0, struct.pack('<III', UID, GID, 0) + b'x'),
        'HELLO with a group too many': ask(HELLO, 0, struct.pack('<IIII', UID, GID, 0, GID)),
        'HELLO with a group too few': ask(HELLO, 0, struct.pack('<III', UID, GID, 1)),
        'HELLO with 2^30 groups': ask(HELLO, 0, struct.pack('<III', UID, GID, 1 << 30)),
        'HELLO with 2^32-1 groups': ask(HELLO, 0, struct.pack('<III', UID, GID, 2**32 - 1)),
        'tagged HELLO without a body': ask(HELLO, tag=3),
        'tagged HELLO, too long': ask(HELLO, 0, struct.pack('<III', UID, GID, 0) + b'x', tag=3),
        'EXEC with a body': ask(EXEC, 0, b'x'),
    }
    for name, frame in bad.items():
        for pieces in (False, True):
            client = run.one(*WHO)
            if pieces:
                client.send_apart(good + frame)
            else:
                client.send(good, frame, hello(UID, GID) * 3)
            check(name, client.rest(), ([0, EPERM, ESRCH], 'end'))
            client.close()
            client = run.one(*WHO)
            client.send(frame)
            check(name + ', alone', client.reply(), 'end')


def try_halves():
    run = Running()
    client = run.one(*WHO)
    client.send(hello(UID, GID), hello(UID + 1, GID), ask(EXEC, 1 << 31), hello(UID, GID)[:-1])
    client.sock.shutdown(socket.SHUT_WR)
    check('half-closed within a frame', client.rest(), ([0, EPERM, ESRCH], 'end'))
    client = run.one(*WHO)
    client.sock.shutdown(socket.SHUT_WR)
    check('half-closed at once', client.reply(), 'end')
    client = run.one(*WHO)
    context = client.context(UID, GID)
    serial = client.serial(add(context, b'k', b'y' * 30000))
    check('a reply in many parts', client.ask(read_key(context, serial)), (0, b'y' * 30000))
    client.send(*[read_key(context, serial)] * 200)
    client.sock.shutdown(socket.SHUT_WR)
    got = 0
    while not isinstance(reply := client.reply(), str):
        got += reply == (0, b'y' * 30000)
    check('half-closed, 6 MB of replies', (got, reply), (200, 'end'))


def try_odd_clients():
    run = Running()
    client = run.one(*WHO)
    client.context(UID, GID)
    client.sock.shutdown(socket.SHUT_RD)
    client.send(hello(UID, GID))
    check('after one that reads no more', run.one(*WHO).status(hello(UID, GID)), 0)
    client = run.one(*WHO)
    client.sock.send(b'!', socket.MSG_OOB)
    client.send(hello(UID + 1, GID))
    reply = client.reply()
    check('a byte out of band is nothing or the end', reply == 'end' or reply[0] == EPERM, True)
    client = run.one(*WHO)
    if refuses_descriptors():
        try:
            socket.send_fds(client.sock, [hello(UID, GID)], [0])
            check('descriptors that are sent along', 'taken', 'refused')
        except PermissionError:
            check('and then none', client.status(hello(UID, GID)), 0)
    else:
        for _ in range(100):
            socket.send_fds(client.sock, [hello(UID, GID)[:10]], [0, 1, 2])
            client.send(hello(UID, GID)[10:])
            if client.reply()[0] not in (0, EINVAL):
                check('descriptors that are sent along', 'refused', 0)
    check('descriptors that are sent along are not kept', descriptors(run) < 40, True)


def refuses_descriptors():
    """Whether a socket can have descriptors refused here, which Linux can since 6.16."""
    try:
        return socket.socket(socket.AF_UNIX).getsockopt(socket.SOL_SOCKET, SO_PASSRIGHTS) >= 0
    except OSError:
        return False


def lingering():
    """A socket with something to send that nobody takes: whoever closes its last descriptor waits for hours. And the
    other end, with which that ends."""
    with socket.socket() as listening:
        listening.setsockopt(socket.SOL_SOCKET, socket.SO_RCVBUF, 4096)
        listening.bind(('127.0.0.1', 0))
        listening.listen(1)
        sock = socket.socket()
        sock.setsockopt(socket.SOL_SOCKET, socket.SO_SNDBUF, 4096)
        sock.setsockopt(socket.SOL_SOCKET, socket.SO_LINGER, struct.pack('ii', 1, 30000))
        sock.connect(listening.getsockname())
        other = listening.accept()[0]
    sock.setblocking(False)
    try:
        while True:
            sock.send(b'x' * 65536)
    except BlockingIOError:
        return sock, other


def send_lingering(path, tell):
    """In a child, until it is killed: connects, sends such a socket, and says whether it could, once disconnected."""
    sock, other = lingering()
    client = socket.socket(socket.AF_UNIX)
    client.settimeout(PATIENCE)
    client.connect(path)
    try:
        socket.send_fds(client, [b'x'], [sock.fileno()])
        could = b'1'
        sock.close()
    except OSError:
        could = b'0'
    with contextlib.suppress(OSError):
        client.recv(1)
    os.write(tell, could)
    signal.pause()
    other.close()


def is_served(run):
    client = run.one(*WHO)
    client.sock.settimeout(2)
    try:
        return client.status(hello(UID, GID)) == 0
    except TimeoutError:
        return False
    finally:
        client.close()


def try_lingering():
    """Clients above the limit of their uid have sent such a socket before they are disconnected. The guard is there for
    the others."""
    if not refuses_descriptors():
        return skipped('what is sent to hold up the guard: no descriptors can be refused here')
    run = Running('--per-uid', '1')
    first = run.one()
    first.context(os.geteuid(), os.getegid())
    told, tell = os.pipe()
    children = []
    for _ in range(20):
        children.append(os.fork())
        if children[-1] == 0:
            first.sock.close()  # what is forked has it too
            send_lingering(run.public, tell)
    check('sockets that are sent to hold up the guard', [os.read(told, 1) for _ in children].count(b'1'), 0)
    first.close()
    check_soon('others are served', lambda: is_served(run), True)
    for child in children:
        os.kill(child, signal.SIGKILL)
        os.waitpid(child, 0)
    os.close(told)
    os.close(tell)


def spends_nothing(name, run):
    before = ticks(run)
    time.sleep(0.5)
    check(name, ticks(run) - before <= 2, True)


def try_waiting():
    """What the kernel tells over and over costs nothing: a byte out of band, which can't be looked at, and a side that
    has ended while the other has to take something first."""
    run = Running()
    client = run.one(*WHO)
    client.sock.send(b'!', socket.MSG_OOB)
    spends_nothing('a byte out of band', run)
    client.context(UID, GID)
    client.sock.send(b'!', socket.MSG_OOB)
    spends_nothing('a byte out of band, later', run)
    gone, half = run.many(2, *WHO)
    for it in gone, half:
        it.context(UID, GID)
    run.daemon.send_signal(signal.SIGSTOP)
    for it in gone, half:
        it.send(hello(UID, GID))
    gone.close()
    half.sock.shutdown(socket.SHUT_WR)
    spends_nothing('clients that end before their replies', run)
    run.daemon.send_signal(signal.SIGCONT)
    check('one that has ended its asks is answered', (half.reply()[0], half.reply()), (0, 'end'))
    deaf = run.one(*WHO)
    context = deaf.context(UID, GID)
    serial = deaf.serial(add(context, b'k', b'y' * 30000))
    deaf.send(*[read_key(context, serial)] * 100)
    wait_for_replies(deaf)
    kill(run.daemon)
    spends_nothing('a daemon that ends before its replies are taken', run)
    check('they can be taken still', deaf.reply(), (0, b'y' * 30000))


def try_never_reads():
    run = Running('--per-uid', '40')
    before = run.memory()
    stuck = []
    for _ in range(30):
        client = run.one(*WHO)
        context = client.context(UID, GID)
        serial = client.serial(add(context, b'k', b'z' * 30000))
        client.sock.setblocking(False)
        sent = 0
        with contextlib.suppress(BlockingIOError):
            while sent < 4 << 20:
                sent += client.sock.send(read_key(context, serial) * 100)
        stuck.append(client)
    time.sleep(0.5)
    check('what never reads is held back', sent < 4 << 20, True)
    other = run.one(*(4002, 4002, []) if ROOT else WHO)
    replies = {other.status(hello((4002 if ROOT else UID), (4002 if ROOT else GID))) for _ in range(200)}
    check('the others are served', replies <= {0, EINVAL}, True)
    check('memory for 30 that never read', run.memory() - before < (64 if IS_SANITIZED else 8) << 10, True)
    begun, spent = ticks(run), 3
    while spent > 2 and ticks(run) - begun < 2000: # on a busy machine it may still be at what was sent
        cpu = ticks(run)
        time.sleep(1)
        spent = ticks(run) - cpu
    check('no spinning', spent <= 2, True)
    for client in stuck[:15]:
        client.close()
    for client in stuck[15:]:     # and those that go on reading get it all
        client.sock.setblocking(True)
        client.sock.settimeout(PATIENCE)
        if client.reply()[1] != b'z' * 30000:
            check('goes on reading', 'wrong', 'right')
    other.close()
    for client in stuck:
        client.close()
    check('all lanes are free again', run.one(*WHO).status(hello(UID, GID)), 0)
    check_soon('descriptors', lambda: descriptors(run) < 12, True)
