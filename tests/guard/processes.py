"""Of the guard: the guard as a process: its paths, words and sockets, its filter, and its memory."""
import contextlib
import os
import re
import resource
import signal
import socket
import struct
import subprocess
import time

from compare import outcome
from daemons import PATIENCE, listening, until
from stage import (
    EPERM, GID, GUARD, IS_SANITIZED, NO_FILTER, ROOT, TMP, UID, WHO, Running, add, check, connect_as, hello, kill,
    read_key, skipped, wait_for_replies)
from streams import refuses_descriptors


def try_confined():
    run = Running()
    status = open(f'/proc/{run.guard.pid}/status').read()
    if not IS_SANITIZED:
        check('a filter of system calls', re.search(r'^Seccomp:\s+(\d)', status, re.M).group(1), '2')
        check('no new privileges', re.search(r'^NoNewPrivs:\s+(\d)', status, re.M).group(1), '1')
        check('a thread for each place', re.search(r'^Threads:\s+(\d+)', status, re.M).group(1), str(1 + 64))
    for thread in os.listdir(f'/proc/{run.guard.pid}/task'):
        status = open(f'/proc/{run.guard.pid}/task/{thread}/status').read()
        if not IS_SANITIZED and not re.search(r'^Seccomp:\s+2$', status, re.M):
            check('a filter of system calls for each thread', 'none', 'one')
    if ROOT:
        skipped('who may look into it: root may')
    else:
        try:
            open(f'/proc/{run.guard.pid}/environ').close()
            check('its own user looks into it', 'looked', 'refused')
        except PermissionError:
            check('its own user looks into it', 'refused', 'refused')


def begun(*words):
    """How a guard ends that can't begin: its status, and what it prints."""
    ended = subprocess.run([GUARD, *words, *NO_FILTER], capture_output=True, timeout=PATIENCE)
    return ended.returncode, ended.stdout


def try_paths():
    run = Running()
    check('line', run.line, b'listening ' + run.public.encode() + b'\n')
    check('mode', oct(os.stat(run.public).st_mode & 0o777), '0o666')
    no_socket = (3, b'error: socket\n')
    check('a second one', begun('--listen', run.public, '--daemon', run.private), no_socket)
    kill(run.guard)
    check('a killed one leaves its path', os.path.exists(run.public), True)
    run.start_guard()
    check('it is taken over', run.one(*WHO).status(hello(UID, GID)), 0)
    busy = listening(f'{TMP}/busy', 0)
    waiting = [socket.socket(socket.AF_UNIX, socket.SOCK_STREAM | socket.SOCK_NONBLOCK) for _ in range(4)]
    for it in waiting:
        it.connect_ex(f'{TMP}/busy')
    check('one listens there and is busy', begun('--listen', f'{TMP}/busy', '--daemon', run.private), no_socket)
    check('SIGTERM', run.end(), 0)
    check('the path is gone', os.path.exists(run.public), False)
    run.start_guard()
    run.guard.send_signal(signal.SIGINT)
    check('SIGINT', run.guard.wait(PATIENCE), 0)
    check('the path is gone, too', os.path.exists(run.public), False)
    open(run.public, 'w').close()
    check('a file is no stale socket', begun('--listen', run.public, '--daemon', run.private), no_socket)
    check('it is left there', os.path.exists(run.public), True)
    told = subprocess.run(run.words, capture_output=True, timeout=PATIENCE).stderr
    check('what is told of it', told, f'keyretain-guard: {run.public}: Address already in use\n'.encode())


def try_few_threads():
    """Memory for less than its threads: it says so, and listens nowhere."""
    if IS_SANITIZED:
        return skipped('few threads: a sanitizer has memory of its own')
    words = [GUARD, '--listen', f'{TMP}/few', '--daemon', f'{TMP}/none', '--connections', '256']
    ended = subprocess.run(words, capture_output=True, timeout=PATIENCE, preexec_fn=lambda:
                           resource.setrlimit(resource.RLIMIT_AS, (64 << 20, 64 << 20)))
    check('few threads', (ended.returncode, ended.stdout), (3, b'error: threads\n'))
    ended = subprocess.run(words, capture_output=True, timeout=PATIENCE, preexec_fn=lambda:
                           resource.setrlimit(resource.RLIMIT_NOFILE, (12, 12)))
    check('few files', (ended.returncode, ended.stdout), (3, b'error: socket\n'))
    check('few threads, few files: no path', os.path.exists(f'{TMP}/few'), False)


def try_usage():
    both = ('--daemon', 'x', '--listen', 'y')
    for words in ((), ('--listen', 'x'), ('--daemon', 'x'), (*both, '--connections', '257'), (*both, 'z'),
                  (*both, '--per-uid', '-1'), ('--daemon', 'x' * 200, '--listen', 'y'), (*both, '--mode', '8'),
                  (*both, '--trust', '4294967295'), (*both, '--unknown'), (*both, '--connections', '0'),
                  (*both, '--per-uid', '0'), (*both, '--per-uid', ' 5'), (*both, *('--trust', '1') * 17),
                  ('--daemon', 'x' * 108, '--listen', 'y')):
        check(f'usage: {words}', begun(*words), (2, b''))
    check('a path that is too long', begun('--listen', 'x' * 200, '--daemon', 'y')[0], 3)
    check('a path that is too long by one', begun('--listen', 'x' * 108, '--daemon', 'y')[0], 3)
    check('version', begun('--version')[1][:15], b'keyretain-guard')
    check('help', begun('--help')[1][:23], b'usage: keyretain-guard ')


def passed_to_guard(passed, *words, count='1', others=0):
    """A guard that has got this socket, as systemd passes it: its pid. It is told of so many, and of a process whose
    number is greater than its own by `others`."""
    child = os.fork()
    if child == 0:
        for output in (1, 2):
            os.dup2(os.open('/dev/null', os.O_WRONLY), output)
        os.dup2(passed.fileno(), 3)
        os.set_inheritable(3, True)
        os.environ.update(LISTEN_PID=str(os.getpid() + others), LISTEN_FDS=count)
        os.execv(GUARD, [GUARD, *words, *NO_FILTER])
    return child


def try_passed_socket():
    run = Running()
    path = f'{TMP}/passed'
    child = passed_to_guard(listening(path), '--daemon', run.private)
    check('a passed socket', connect_as(path, *WHO)[0].status(hello(UID, GID)), 0)
    if refuses_descriptors():
        client = connect_as(path, *WHO)[0]
        check('a passed socket: descriptors', outcome(socket.send_fds, client.sock, [b'x'], [0]), 'PermissionError')
    check('a passed socket: another uid', connect_as(path, *WHO)[0].status(hello(UID + 1, GID)), EPERM)
    os.kill(child, signal.SIGTERM)
    check('ends', os.waitpid(child, 0)[1], 0)
    check('and leaves the path, which is not its own', os.path.exists(path), True)


def try_killed():
    """It is killed in the midst, and begun again on the same socket, as systemd does: nobody's places are lost."""
    run = Running()
    path = f'{TMP}/killed'
    passed = listening(path, 64)
    for _ in range(3):
        child = passed_to_guard(passed, '--daemon', run.private, '--per-uid', '4')
        made = connect_as(path, *WHO, count=6)
        check('4 of 6', [client.status(hello(UID, GID)) for client in made].count(0), 4)
        check('one is served', made[0].status(hello(UID, GID)), 0)
        os.kill(child, signal.SIGKILL)
        os.waitpid(child, 0)
        check('all have ended', {client.reply() for client in made}, {'end'})


def refuses_passed(name, passed, **told):
    child = passed_to_guard(passed, '--daemon', f'{TMP}/none', **told)
    if not until(lambda: os.waitid(os.P_PID, child, os.WEXITED | os.WNOHANG | os.WNOWAIT)):
        os.kill(child, signal.SIGKILL)
    check(f'passed: {name}', os.waitstatus_to_exitcode(os.waitpid(child, 0)[1]), 3)


def try_passed_nonsense():
    """What is passed is a socket of another kind, or doesn't listen, or is another process's, or not the only one."""
    refuses_passed('one of the network', socket.create_server(('127.0.0.1', 0)))
    refuses_passed('one that does not listen', socket.socket(socket.AF_UNIX))
    refuses_passed('one of packets', listening(f'{TMP}/packets', kind=socket.SOCK_SEQPACKET))
    good = listening(f'{TMP}/good')
    refuses_passed("another process's", good, others=1)
    refuses_passed('one of two', good, count='2')
    refuses_passed('none', good, count='0')


def count_in_memory(pid, text):
    found = 0
    for line in open(f'/proc/{pid}/maps'):
        where, rights = line.split()[:2]
        low, high = (int(n, 16) for n in where.split('-'))
        if 'r' in rights and '[v' not in line:
            with open(f'/proc/{pid}/mem', 'rb', 0) as memory:
                memory.seek(low)
                with contextlib.suppress(OSError):
                    found += memory.read(high - low).count(text)
    return found


def try_secrets():
    """No payload is left in the guard's memory."""
    if not ROOT or IS_SANITIZED:
        return skipped('payloads in memory: not root, or sanitized')
    run = Running()
    secret = b'GUARDSECRET' + os.urandom(24).hex().encode()
    clients = []
    for n in range(8):
        client = run.one(*WHO) if n < 4 else run.one(4002, 4002, [])
        own = (UID, GID) if n < 4 else (4002, 4002)
        context = client.context(*own)
        status, answer = client.ask(add(context, b'k%d' % n, secret * 400))
        serial = struct.unpack('<I', answer)[0]
        client.send(*[read_key(context, serial)] * 50)
        wait_for_replies(client)
        for _ in range(50):
            assert secret in client.reply()[1]
        clients.append(client)
    broken = run.one(4003, 4003, [])  # what it sends ends it: more than the guard reads at once
    broken.send(b'\0\0\0\0', secret * 400)
    check('a broken frame', broken.reply(), 'end')
    for _ in range(50): # it may just have been about to wipe the last
        time.sleep(0.1)
        found = count_in_memory(run.guard.pid, secret[:30])
        if found == 0:
            break
    check('secrets in memory', found, 0)
