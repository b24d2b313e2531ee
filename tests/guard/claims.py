"""Of the guard: who may say what of itself."""
import ctypes
import os
import shutil
import struct
import subprocess

from daemons import become, leave_users
from stage import (
    CLIENT, EINVAL, EPERM, ESRCH, GROUP_A, ROOT, TMP, USER_A, USER_B, Running, add, by_root, check, hello, read_key,
    skipped, ticks)


def try_own():
    run = Running()
    me, group = os.geteuid(), os.getegid()
    who = (USER_A, GROUP_A, [4100, 4200]) if ROOT else ()
    uid, gid, extra = (USER_A, GROUP_A, [4100, 4200]) if ROOT else (me, group, os.getgroups()[:2])
    as_gid = [('a group as gid', 0, uid, it) for it in extra[:1]]
    if uid != gid and uid not in os.getgroups():
        as_gid.append(('the uid as gid', EPERM, uid, uid))
    for tag in (None, 7):
        client = run.one(*who)
        for name, wanted, *claim in (
                ('own', 0, uid, gid), ('own, with groups', 0, uid, gid, extra),
                ('own, own gid among the groups', 0, uid, gid, [gid]), *as_gid, ('another uid', EPERM, uid + 1, gid),
                ('uid 0', EPERM, 0 if ROOT else 1, gid), ('another gid', EPERM, uid, 7777),
                ('gid 0', EPERM, uid, 0 if ROOT else 1), ('another group', EPERM, uid, gid, [*extra, 7777]),
                ('another group, first', EPERM, uid, gid, [7777, *extra]), ('32 groups', 0, uid, gid, [gid] * 32),
                ('32 groups, the last foreign', EPERM, uid, gid, [gid] * 31 + [7777]),
                ('33 groups', EINVAL, uid, gid, [gid] * 33), ('33 foreign groups', EINVAL, uid, gid, [5] * 33),
                ('1000 groups', EINVAL, uid, gid, [5] * 1000), ('no uid', EINVAL, 2**32 - 1, gid),
                ('no gid', EINVAL, uid, 2**32 - 1), ('no group', EINVAL, uid, gid, [2**32 - 1]),
                ('own, after all these', 0, uid, gid)):
            check(name, client.status(hello(*claim, tag=tag), tagged=tag is not None), wanted)
    check('ends well', run.end(), 0)


@by_root('a peer in 65,000 groups')
def try_many_groups():
    """A peer in more groups than a HELLO can name, as a user namespace may give it: what others wait for is short."""
    run = Running()
    client, named = run.one(USER_A, GROUP_A, range(5000, 70000)), list(range(69968, 70000))
    before = ticks(run)
    check('32 of 65,000 groups', [client.status(hello(USER_A, GROUP_A, named)) for _ in range(10)], [0] * 10)
    check('they take less than a second', (ticks(run) - before) / os.sysconf('SC_CLK_TCK') < 1, True)
    check('one of them as gid', client.status(hello(USER_A, named[0])), 0)
    check('31 of them and a foreign one', client.status(hello(USER_A, GROUP_A, named[1:] + [7777777])), EPERM)
    check('a foreign gid', client.status(hello(USER_A, 7777777, named)), EPERM)
    check('ends well', run.end(), 0)


@by_root('other uids')
def try_root():
    run = Running('--trust', '4009', '--trust', str(USER_B))
    client = run.one()
    check('root may not name others', client.status(hello(1234, 77, [5, 6])), EPERM)
    check('but itself', client.status(hello(0, 0)), 0)
    client = run.one(USER_B, 1, [])
    check('a trusted uid may name any', client.status(hello(1234, 77, [5, 6])), 0)
    client = run.one(USER_A, 1, [])
    check('another may not', client.status(hello(1234, 77, [5, 6])), EPERM)
    user_a = run.one(USER_A, GROUP_A, [])
    context = user_a.context(USER_A, GROUP_A)
    status, answer = user_a.ask(add(context, b'k', b'secret'))
    check('adds', status, 0)
    user_b = run.one(4003, 4003, [])
    other = user_b.context(4003, 4003)
    check('a stranger may not read', user_b.ask(read_key(other, struct.unpack('<I', answer)[0]))[0], 13)
    check("nor by user_a's context", user_b.ask(read_key(context, struct.unpack('<I', answer)[0]))[0], ESRCH)
    # who was root when it connected stays so: the kernel tells who connected
    groups = list(range(100000, 165530))
    many = run.one(USER_A, GROUP_A, groups)
    check('65530 groups: the last', many.status(hello(USER_A, groups[-1], [groups[0], groups[-1]])), 0)
    check('65530 groups: another', many.status(hello(USER_A, groups[-1] + 1)), EPERM)


@by_root('user namespaces')
def try_namespace():
    """A client in a user namespace of its own, in which it is uid 0."""
    def be_root():
        ctypes.CDLL(None).prctl(4, 1, 0, 0, 0)
        if not leave_users(f'0 {USER_A} 1', f'0 {GROUP_A} 1'):
            raise OSError(ctypes.get_errno(), 'unshare')
        assert os.geteuid() == 0

    run = Running()
    made = run.many(1, USER_A, GROUP_A, [GROUP_A], before=be_root)
    if not made:
        return skipped('user namespaces: not allowed here')
    check('uid 0 of a namespace', made[0].status(hello(0, 0)), EPERM)
    check('its uid outside', made[0].status(hello(USER_A, GROUP_A)), 0)


@by_root('an inherited connection')
def try_inherited():
    """A connection that a root process made and its child of another uid has inherited, as by su(1)."""
    for options, wanted in ((['--trust', '0'], 0), ([], EPERM)):
        run = Running(*options)
        client = run.one()
        check('root greets', client.status(hello(0, 0)), 0)
        child = os.fork()
        if child == 0:
            become(USER_B)
            os._exit(client.status(hello(USER_A, USER_A)))
        check(f'an inherited connection, {options}', os.waitstatus_to_exitcode(os.waitpid(child, 0)[1]), wanted)
        run.end()


@by_root('another uid after a connection')
def try_changed_uid():
    """A process that changes its uid stays who it was when it connected."""
    run = Running()
    client = run.one(USER_A, GROUP_A, [])
    os.seteuid(USER_B)
    check('the new uid', client.status(hello(USER_B, 4001)), EPERM)
    check('the old uid', client.status(hello(USER_A, GROUP_A)), 0)
    os.seteuid(0)


@by_root('a guard in a user namespace')
def try_strangers():
    """A guard in a user namespace that has one id alone: all others have one number there, and are refused."""
    run = Running(limit=lambda: leave_users('0 0 1', '0 0 1') or os._exit(77))
    if run.guard.poll() is not None or not run.line:
        skipped('a guard in a user namespace: not allowed here')
    else:
        check('a stranger', run.one(USER_A, GROUP_A, []).status(hello(65534, 65534)), 'end')
        check('a strange group', run.one(0, GROUP_A, []).status(hello(0, 65534)), EPERM)
        check('one that it knows', run.one().status(hello(0, 0)), 0)


@by_root('two users')
def try_two_users():
    """By the client program: two users share a daemon, and neither can claim to be the other."""
    run = Running()
    program = f'{TMP}/keyretain'
    shutil.copy(CLIENT, program)
    os.chmod(program, 0o755)

    def does(uid, script):
        return subprocess.run([program, '--socket', run.public, 'script'], input=script, capture_output=True, text=True,
                              user=uid, group=uid, extra_groups=[]).stdout

    held = run.one(USER_A, USER_A, [])
    held.context(USER_A, USER_A)
    check('user A', does(USER_A, f'hello {USER_A} {USER_A}\nadd user token s3 @u\n'), '2\n5\n')
    check('user B as user A', does(USER_B, f'hello {USER_A} {USER_A}\n'), 'error 1 EPERM\n')
    check('user B as root', does(USER_B, 'hello 0 0\n'), 'error 1 EPERM\n')
    check("user B, of user A's key", does(USER_B, f'hello {USER_B} {USER_B}\nprint 5\n'), '3\nerror 13 EACCES\n')
    check('user A again', does(USER_A, f'hello {USER_A} {USER_A}\nprint 5\n'), '4\ns3\n')
