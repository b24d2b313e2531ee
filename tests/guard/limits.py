"""Of the guard: places: how many a user has, who is ended, and that none is lost."""
import contextlib
import os
import random
import re
import resource
import select
import signal
import time

from daemons import PATIENCE, unread
from stage import (
    EDQUOT, EPERM, GID, GROUP_A, HELLO, IS_SANITIZED, NOBODY, ROOT, UID, USER_A, USER_B, WHO, Running, add, alive, ask,
    by_root, check, check_soon, connect_as, descriptors, hello, is_alive, read_key, skipped, ticks, wait_for_replies)


def try_limit_of_one():
    """One uid's connections."""
    run = Running('--per-uid', '4')
    made = run.many(10, *WHO)
    check('4 of 10', [client.status(hello(UID, GID)) for client in made].count(0), 4)
    check_soon('who got no place is ended', lambda: alive(made), 4)
    run.end()
    run = Running('--connections', '240')
    made = run.many(64, *WHO)
    check('64, without the option', [client.status(hello(UID, GID)) for client in made], [0] * 64)
    check('and no more', [run.one(*WHO).status(hello(UID, GID)) for _ in range(2)], [EDQUOT] * 2)
    run.end()
    run = Running('--per-uid', '16')
    made = run.many(300, *WHO)
    check_soon('16 of 300', lambda: alive(made), 16)
    check('they are the first', alive(made[:16]), 16)
    if ROOT:
        check('another uid gets in', run.one(USER_B, 4002).status(hello(USER_B, 4002)), 0)
    made[0].close()
    check_soon('a place is free again', lambda: run.one(*WHO).status(hello(UID, GID)), 0)
    run.end()
    run = Running('--per-uid', '2', '--trust', str(UID))
    check('a trusted uid has no limit', [client.status(hello(UID, GID)) for client in run.many(6, *WHO)], [0] * 6)


def try_too_many():
    """Who gets no place is told so in reply to its first ask, in the version of that, and then ended."""
    run = Running('--per-uid', '1')
    first = run.one(*WHO)
    first.context(UID, GID)
    for tag in (None, 7, 2**64 - 1):
        client = run.one(*WHO)
        wanted = (EDQUOT, b'') if tag is None else (EDQUOT, tag, b'')
        client.send(hello(UID, GID, tag=tag), add(1, b'name', b'payload', tag=tag))
        check(f'a client too many, tag {tag}', client.reply(tag is not None), wanted)
        check('and then its end', client.reply(), 'end')
    client = run.one(*WHO)
    check('another ask', (client.status(add(1, b'name', b'payload')), client.reply()), (EDQUOT, 'end'))
    for name, bytes_ in (('half a head', hello(UID, GID)[:11]), ('half a head, tagged', hello(UID, GID, tag=7)[:19]),
                         ('version 3', ask(HELLO, version=3) + b'x' * 20), ('nothing but zeros', b'\0' * 40)):
        client = run.one(*WHO)
        client.send(bytes_)
        check(f'a client too many that sends {name}', client.reply(), 'end')
    crowd = run.many(40, *WHO)
    time.sleep(0.5) # all are there before one asks
    check('a crowd, whose asks come later', [client.status(hello(UID, GID)) for client in crowd], [EDQUOT] * 40)
    silent = run.many(12, *WHO)
    check_soon('silent ones are ended', lambda: alive(silent), 0)
    check('the first is served meanwhile', first.status(hello(UID, GID)), 0)
    check_soon('descriptors', lambda: descriptors(run) <= descriptors_at_rest(run) + 2, True)
    run.end()
    told = [re.sub(r'pid \d+', 'pid N', line) for line in open(run.errors.name)]
    check('what is told of them', set(told), {f'refused: uid {UID} (pid N) has 1 of 64 places\n',
                                              'ends, and the sessions of 1 connections with it\n'})


def try_untaken():
    """What a client doesn't take, which counts as the guard's memory: of all places no more than its unit allows."""
    run = Running()
    client = run.one(*WHO)
    context = client.context(UID, GID)
    client.send(read_key(context, client.serial(add(context, b'name', b'p' * 32767))) * 20)
    wait_for_replies(client)
    check('bytes that are kept', unread(client.sock) < 100000, True)
    if not IS_SANITIZED:  # which runs long as it is
        ended = select.poll()
        ended.register(client.sock, select.POLLRDHUP)
        check_soon('who takes nothing of it is ended', lambda: bool(ended.poll(0)), True)
    run.end()


def descriptors_at_rest(run):
    """As many as a guard has that nobody has connected to."""
    other = Running(*run.options, daemon=False)
    count = descriptors(other)
    other.end()
    return count


@by_root('the last places')
def try_last_places():
    """Who has many gets no more of the last ones."""
    run = Running('--connections', '40', '--per-uid', '30')
    made = []
    for uid, wanted in ((USER_A, 20), (USER_B, 16), (USER_B + 1, 4)):
        made.append(run.many(wanted, uid, uid, []))
        check(f'what uid {uid} gets', [client.status(hello(uid, uid)) for client in made[-1]], [0] * wanted)
        if uid <= USER_B:
            check('and no more', run.one(uid, uid, []).status(hello(uid, uid)), EDQUOT)
        time.sleep(1)  # so that it isn't a line too many
    check_soon('and that all are taken is told', lambda: 'all 40 places are taken: who comes waits\n' in
               open(run.errors.name).read(), True)


def churn(run, who, seconds, chance):
    """Connects, greets and closes again, beside others that do so; how often it was served."""
    served, end = 0, time.monotonic() + seconds
    while time.monotonic() < end:
        try:
            made = run.many(chance.randrange(1, 7), *who)
        except OSError:
            continue
        for client in chance.sample(made, len(made)):
            served += client.status(hello(*who[:2] if ROOT else (UID, GID))) == 0
            client.close()
    return served


def try_limit_after_churn():
    """Connections come and go on all places at once: none is lost by the count, and none is had beyond it."""
    run = Running('--per-uid', '4', '--connections', '12')
    children, before = [], descriptors(run)
    for seed in range(4):
        child = os.fork()
        if child == 0:
            other = (USER_A + 100 + seed, USER_A, []) if ROOT and seed > 1 else WHO
            os._exit(0 if churn(run, other, 3, random.Random(seed)) else 1)
        children.append(child)
    check('all were served meanwhile', [os.waitpid(child, 0)[1] for child in children], [0] * 4)
    def served():
        made = run.many(10, *WHO)
        statuses = [client.status(hello(UID, GID)) for client in made]
        for client in made:
            client.close()
        return statuses.count(0)

    check_soon('4 of 10, afterwards', served, 4)  # once the daemon has let go of the others
    check_soon('descriptors, afterwards', lambda: descriptors(run), before)
    for _ in range(4 if ROOT else 0):
        others = [client for n in range(3) for client in run.many(4, USER_B + n, USER_B, [])]
        statuses = [client.status(hello(USER_B + n // 4, USER_B)) for n, client in enumerate(others)]
        check('all 12 places', statuses, [0] * 12)
        os.kill(run.guard.pid, signal.SIGSTOP)  # so that it sees all ends at once
        for client in others:
            client.close()
        os.kill(run.guard.pid, signal.SIGCONT)
        check_soon('descriptors', lambda: descriptors(run), before)


def try_sigterm_when_busy():
    """It ends at once whatever its clients do: who is silent, who asks, who takes no replies."""
    run = Running('--per-uid', '64')
    made = run.many(30, *WHO)
    for n, client in enumerate(made):
        if n % 3:
            context = client.context(UID, GID)
            serial = client.serial(add(context, b'k%d' % n, b'z' * 30000))
            client.sock.setblocking(False)
            with contextlib.suppress(BlockingIOError):
                while n % 3 == 2:
                    client.sock.send(read_key(context, serial) * 100)
                client.sock.send(read_key(context, serial))
    check('SIGTERM', run.end(), 0)
    check('the path is gone', os.path.exists(run.public), False)
    for client in made:
        client.sock.settimeout(PATIENCE)
    def is_over(client):
        while not isinstance(client.reply(), str):
            pass
        return True
    check('and all have ended', all(map(is_over, made)), True)


@by_root('limits of many uids')
def try_limit_of_all():
    """All connections, of many uids."""
    run = Running('--connections', '20', '--per-uid', '8')
    made = [c for uid in range(5000, 5010) for c in run.many(10, uid, uid)]
    check_soon('20 for all, and the rest waits', lambda: [alive(made[10 * n:10 * n + 10]) for n in range(4)],
               [8, 8, 10, 10])
    cpu = ticks(run)
    root = run.one()
    root.send(hello(0, 0))
    root.sock.settimeout(0.5)
    with contextlib.suppress(TimeoutError):
        check('root waits too', root.reply(), 'nothing')
    check('waiting costs nothing', ticks(run) - cpu <= 2, True)
    check("the daemon's own socket", connect_as(run.private)[0].status(hello(1, 1)), 0)
    for client in made:
        client.close()
    root.sock.settimeout(PATIENCE)
    check('and is served', root.reply()[0], 0)


def try_silence():
    run = Running('--hello-seconds', '4')
    began = time.monotonic()
    silent, greeted, slow, refused = (run.one(*WHO) for _ in range(4))
    greeted.context(UID, GID)
    slow.send(hello(UID, GID)[:9])
    check('refused', refused.status(hello(UID + 1, GID)), EPERM)
    living = alive([silent, greeted, slow, refused])
    if time.monotonic() < began + 3:
        check('not yet', living, 4)
    check_soon('after its time', lambda: [is_alive(c) for c in (silent, greeted, slow, refused)],
               [False, True, False, False])
    check('the greeted one', greeted.status(hello(UID, GID)), 0)


def try_one_place():
    """Nothing of a client stays in its place: that it has greeted, that it was ended, or that the rest of a frame is to
    come, as which a HELLO of the next one would pass."""
    run = Running('--hello-seconds', '2', '--connections', '1')
    for _ in range(2):
        greeted = run.one(*WHO)
        check('one that greets', greeted.status(hello(UID, GID)), 0)
        greeted.close()
        check('a silent one in its place', run.one(*WHO).reply(), 'end')
    broken = run.one(*WHO)
    check('one that greets after a silent one', broken.status(hello(UID, GID)), 0)
    broken.send(hello(UID + 1, GID), add(1, b'k', b'x' * 1000)[:40])
    check('one that ends in the midst of a frame', broken.reply()[0], EPERM)
    broken.close()
    following = run.one(*WHO)
    check('the next one, who names another', following.status(hello(UID + 1, GID)), EPERM)
    check('and itself', following.status(hello(UID, GID)), 0)
    run.end()
    if not ROOT:
        return skipped('users of one place: not root')
    run = Running('--connections', '1', '--trust', str(USER_B))
    for _ in range(2):
        trusted = run.one(USER_B, USER_B, [])
        check('a trusted uid names another', trusted.status(hello(1234, 77)), 0)
        trusted.close()
        following = run.one(USER_A, GROUP_A, [])
        check('who follows it names another', following.status(hello(1234, 77)), EPERM)
        check('and the trusted one', following.status(hello(USER_B, USER_B)), EPERM)
        check('and itself', following.status(hello(USER_A, GROUP_A)), 0)
        following.close()


def flood(client):
    """Asks on, without a HELLO that passes, and takes no replies. Whether it was ended."""
    client.sock.setblocking(False)
    end, sent = time.monotonic() + PATIENCE, 0
    while sent < 4 << 20 and time.monotonic() < end:
        try:
            sent += client.sock.send(hello(NOBODY, 0) * 100)
        except BlockingIOError:
            time.sleep(0.05)
        except OSError:
            return True
    return False


def try_deaf():
    """Who greets nobody, asks on and takes no replies is ended as the silent are, though the daemon waits for it, or it
    for the daemon."""
    run = Running('--hello-seconds', '4')
    deaf = run.one(*WHO)
    check('a deaf one is ended', flood(deaf), True)
    check('and lets others in', run.one(*WHO).status(hello(UID, GID)), 0)
    deaf.close()
    check_soon('its place is free', lambda: descriptors(run) < 12, True)
    run.daemon.send_signal(signal.SIGSTOP)
    waiting = run.one(*WHO)
    check('one that a stopped daemon keeps is ended', flood(waiting), True)
    check_soon('its place is free, too', lambda: descriptors(run) < 12, True)
    run.daemon.send_signal(signal.SIGCONT)
    check('and then the next is served', run.one(*WHO).status(hello(UID, GID)), 0)


def try_few_files():
    run = Running('--per-uid', '64', limit=lambda: resource.setrlimit(resource.RLIMIT_NOFILE, (24, 24)))
    made = []
    for _ in range(40):
        made += run.many(1, *WHO)
        made[-1].send(hello(UID, GID))
    time.sleep(0.2)
    cpu = ticks(run)
    time.sleep(0.5)
    check('few descriptors: no spinning', ticks(run) - cpu <= 2, True)
    served = 0
    while made:
        client = made.pop(0)
        reply = client.reply()
        served += reply != 'end' and reply[0] == 0
        client.close()
    check('few descriptors: all are served in the end', served, 40)


def try_more_files():
    """Fewer descriptors than it wants, and more are to be had: then no place is lost."""
    run = Running('--per-uid', '40', '--connections', '128',
                  limit=lambda: resource.setrlimit(resource.RLIMIT_NOFILE, (24, 1024)))
    check('more descriptors', [client.status(hello(UID, GID)) for client in run.many(40, *WHO)], [0] * 40)
