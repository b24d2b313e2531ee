"""Of the guard: what is told on standard error, and where that is full, closed or gone."""
import contextlib
import os
import re
import socket
import subprocess
import time

from stage import (
    EDQUOT, EPERM, GID, ROOT, TMP, UID, USER_A, USER_B, WHO, Running, by_root, check, check_soon, hello, kill)


def try_full_log():
    """Refusals are told to a pipe that nobody reads and that is full."""
    reader, writer = os.pipe()
    os.set_blocking(writer, False)
    with contextlib.suppress(BlockingIOError):
        while os.write(writer, b'x' * 4096):
            pass
    os.set_blocking(writer, True)
    run = Running()
    kill(run.guard)
    run.guard = subprocess.Popen(run.words, stdout=subprocess.PIPE, stderr=writer)
    run.guard.stdout.readline()
    client = run.one(*WHO)
    check('refused, with a log that is full', client.status(hello(UID + 1, GID)), EPERM)
    check('and then an own one', client.status(hello(UID, GID)), 0)
    os.close(reader)
    os.close(writer)
    check('ends, with a log that is gone', run.end(), 0)


def try_log():
    run = Running()
    client = run.one(*WHO)
    check('refused', client.status(hello(UID + 5, GID, [9999, 9998])), EPERM)
    check('refused, tagged', client.status(hello(UID, 9999, tag=3), tagged=True), EPERM)
    run.end()
    told = [re.sub(r'pid \d+', 'pid N', line) for line in open(run.errors.name)]
    check('what is told', told, [
        f'refused: uid {UID}, gid {GID} (pid N) named uid {UID + 5}, gid {GID}, 2 groups\n',
        f'refused: uid {UID}, gid {GID} (pid N) named uid {UID}, gid 9999, 0 groups\n',
        'ends, and the sessions of 1 connections with it\n'])


@by_root('refusals of two users')
def try_told_beside():
    """A uid that is refused over and over, and says nothing, doesn't have another one's refusals go unsaid."""
    run = Running('--per-uid', '1')
    held = [run.one(uid, uid, []) for uid in (USER_A, USER_B)]
    for client, uid in zip(held, (USER_A, USER_B)):
        client.context(uid, uid)
    silent = run.many(65, USER_A, USER_A, [])
    late = run.one(USER_B, USER_B, [])
    more = run.many(65, USER_A, USER_A, [])
    check('told all the same', late.status(hello(USER_B, USER_B)), EDQUOT)
    for client in silent + more:
        client.close()


def told_by(run):
    return open(run.errors.name).read().replace(run.private, 'PATH')


def try_told_daemon():
    """A daemon that isn't there, takes no connection, or has no lane is told once for each client."""
    run = Running(daemon=False)
    check('no daemon', run.one(*WHO).status(hello(UID, GID)), 'end')
    check('is told', told_by(run), 'the daemon at PATH: No such file or directory\n')
    listener = socket.socket(socket.AF_UNIX)
    listener.bind(run.private)
    check('one that does not listen', run.one(*WHO).status(hello(UID, GID)), 'end')
    check('is told', told_by(run).splitlines()[1:], ['the daemon at PATH: Connection refused'])
    listener.listen(0)
    clients = run.many(2, *WHO)
    for client in clients:
        client.send(hello(UID, GID))
    check_soon('one whose queue is full', lambda: told_by(run).splitlines()[2:3],
               ['the daemon at PATH: too many wait for it'])
    check_soon('one that takes nobody', lambda: told_by(run).splitlines()[3:], [
        'the daemon at PATH: no answer, as where it has no free lane or no memory'])
    listener.close()
    run.end()
    run = Running(lanes=1)
    client = run.one(*WHO)
    client.context(UID, GID)
    waiting = run.one(*WHO)
    waiting.send(hello(UID, GID))
    check_soon('a daemon without a free lane', lambda: told_by(run),
               'the daemon at PATH: no answer, as where it has no free lane or no memory\n')
    client.close()
    check('and then it is served', waiting.reply()[0], 0)


def try_few_lines():
    """Ten lines a second at most are told, however many are refused, and what is wrong with the daemon among them."""
    run = Running()
    client = run.one(*WHO)
    begun = time.monotonic()
    for _ in range(4):
        client.send(*[hello(UID + 1, GID)] * 60)
        check('refused at once', {client.reply()[0] for _ in range(60)}, {EPERM})
    told = told_by(run).splitlines()
    check('eight lines in each second at most', 8 <= len(told) <= 8 * (time.monotonic() - begun + 2), True)
    kill(run.daemon)
    os.unlink(run.private)
    for _ in range(20):
        run.one(*WHO).status(*[hello(UID + 1, GID)] * 60)
    check('the daemon is told of', told_by(run).splitlines()[len(told):].count(
        'the daemon at PATH: No such file or directory') > 0, True)


def try_outputs():
    """Standard output and error that are files, devices, full, closed: the filter of system calls is on."""
    for name in ('/dev/null', '/dev/full', f'{TMP}/out', None):
        run = Running(daemon=False)
        kill(run.guard)
        run.start_daemon()
        out = open(name, 'w') if name else None
        run.guard = subprocess.Popen(run.words, stdout=out, stderr=out) if name else subprocess.Popen(
            ['sh', '-c', 'exec "$@" >&- 2>&-', 'sh', *run.words])
        check_soon(f'output {name}: listens', lambda: os.path.exists(run.public) and is_open(run.public), True)
        client = run.one(*WHO)
        check(f'output {name}', client.status(hello(UID + 1, GID)), EPERM)
        check(f'output {name}: own', client.status(hello(UID, GID)), 0)
        if ROOT and not name:
            check('closed outputs are no sockets', [os.readlink(f'/proc/{run.guard.pid}/fd/{n}') for n in (1, 2)],
                  ['/dev/null'] * 2)
        check(f'output {name}: end', run.end(), 0)


def is_open(path):
    with socket.socket(socket.AF_UNIX) as it:
        return it.connect_ex(path) == 0
