"""profiles.py SCRIPT: what keyretain-seccomp makes of profiles: each call but the three keeps its rules, and pipe2(2)
and ioctl(2) do where they aren't for pipes of notes."""
import itertools
import json
import os
import subprocess
import sys
import tempfile

from compare import compare, conclude, write

CALLS = {'add_key', 'request_key', 'keyctl'}
# Second arguments: those for pipes of notes (O_NOTIFICATION_PIPE; IOC_WATCH_QUEUE_SET_SIZE and _SET_FILTER), others.
OF_NOTES = {'pipe2': ((0x80, 0x80080), (0, 0x80000, 0x4000, 2**64 - 0x81)),
            'ioctl': ((0x5760, 0x5761), (0, 0x5401, 0x575f, 0x5762, 2**40 + 0x5760, 2**64 - 1))}
HOLDS = {'SCMP_CMP_EQ': lambda is_, at: is_ == at['value'], 'SCMP_CMP_LT': lambda is_, at: is_ < at['value'],
         'SCMP_CMP_GT': lambda is_, at: is_ > at['value'],
         'SCMP_CMP_MASKED_EQ': lambda is_, at: is_ & at['value'] == at['valueTwo']}
INSTALLED = '/usr/share/containers/seccomp.json'


def run(script, *words):
    return subprocess.run([sys.executable, '-B', script, *words], capture_output=True, text=True)


def made(script, value, *words):
    """What it makes of a file with this value."""
    with tempfile.TemporaryDirectory() as folder:
        path = os.path.join(folder, 'in.json')
        with open(path, 'w', encoding='utf-8') as file:
            file.write(value if isinstance(value, str) else json.dumps(value))
        return run(script, *words, path)


def each_rule(profile):
    """Each rule by a call's name, with all else that it says."""
    for rule in profile.get('syscalls') or []:
        for name in rule.get('names') or [rule['name']]:
            yield name, {key: value for key, value in rule.items() if key not in ('names', 'name')}


def rules_of(profile):
    """Each call with its rules, in their order; but for those of which the second argument counts."""
    rules = {}
    for name, rest in each_rule(profile):
        if name not in OF_NOTES:
            rules.setdefault(name, []).append(json.dumps(rest, sort_keys=True))
    return rules


def matching(profile, call, *given):
    """What the rules say that match a call with these arguments."""
    for name, rest in each_rule(profile):
        if name == call and all(HOLDS[at['op']](given[at['index']], at) for at in rest.pop('args', None) or []):
            yield rest


def try_second(name, before, after):
    for call, (of_notes, others) in OF_NOTES.items():
        for given in itertools.product((0, 1), of_notes):
            rules = [rule for rule in matching(after, call, *given) if rule not in LOOKS]
            compare(f'{name}: {call} {given[1]:x}', [{'action': 'SCMP_ACT_NOTIFY'}], rules)
        for given in itertools.product((0, 1), others):
            compare(f'{name}: {call} {given[1]:x}', list(matching(before, call, *given)),
                    list(matching(after, call, *given)))
    indices = [[at['index'] for at in rest.get('args') or []] for _, rest in each_rule(after)]
    compare(f'{name}: arguments that a rule names twice', [], [it for it in indices if len(it) > len({*it})])


def try_profile(script, name, profile):
    got = made(script, profile, '--agent', '/a')
    compare(f'{name}: {got.stderr}', 0, got.returncode)
    after = json.loads(got.stdout)
    rules, before = rules_of(after), rules_of(profile)
    handed_over = ['{"action": "SCMP_ACT_NOTIFY"}']
    compare(f'{name}: the three calls', True, all([rules.pop(call, None) == handed_over for call in CALLS]))
    try_second(name, profile, after)
    compare(f'{name}: all others', {call: rule for call, rule in before.items() if call not in CALLS}, rules)
    compare(f'{name}: the agent', ('/a', 'keyretain with notes'),
            (after.pop('listenerPath'), after.pop('listenerMetadata')))
    same = ({key: value for key, value in some.items() if key != 'syscalls'} for some in (after, profile))
    compare(f'{name}: all else', next(same), next(same))


# Of a rule that looks at the second argument itself.
LOOKS = [{'action': 'SCMP_ACT_LOG', 'looks': True}]


def try_environment(script):
    """It may be another user's, as after su(1)."""
    with tempfile.TemporaryDirectory() as folder:
        write(f'{folder}/argparse.py', 'raise SystemExit("the code of another user")\n')
        os.mkdir(f'{folder}/LC_MESSAGES')
        with open(f'{folder}/LC_MESSAGES/messages.mo', 'wb') as file:
            file.write(b'\xde\x12\x04\x95')  # what tells of messages is broken off behind it
        environment = {**os.environ, 'PYTHONPATH': folder, 'LANGUAGE': folder}
        got = subprocess.run([script, '--help'], env=environment, capture_output=True, text=True)
    compare(f'variables that name a folder: {got.stderr}', 0, got.returncode)


def main(script):
    try_environment(script)
    try_profile(script, 'no rules', {'defaultAction': 'SCMP_ACT_ALLOW'})
    try_profile(script, 'none', {'defaultAction': 'SCMP_ACT_ERRNO', 'defaultErrnoRet': 38, 'syscalls': None, 'x': [1]})
    try_profile(script, 'rules', {'syscalls': [
        {'names': ['read', 'keyctl', 'write'], 'action': 'SCMP_ACT_ALLOW', 'args': []},
        {'names': ['add_key', 'request_key'], 'action': 'SCMP_ACT_ERRNO', 'errnoRet': 1, 'includes': {'caps': ['X']}},
        {'name': 'keyctl', 'action': 'SCMP_ACT_ALLOW'}, {'name': 'open', 'action': 'SCMP_ACT_ALLOW'},
        {'names': ['pipe2', 'close', 'ioctl'], 'action': 'SCMP_ACT_ALLOW', 'comment': 'both'},
        {'name': 'ioctl', 'action': 'SCMP_ACT_TRAP', 'args': [{'index': 0, 'value': 0, 'op': 'SCMP_CMP_EQ'}]},
        {'names': ['ioctl'], 'looks': True, 'args': [{'index': 1, 'value': 0x5700, 'op': 'SCMP_CMP_GT'}],
         'action': 'SCMP_ACT_LOG'},
        {'names': ['write'], 'action': 'SCMP_ACT_LOG', 'args': [{'index': 0, 'value': 1, 'op': 'SCMP_CMP_EQ'}]}]})
    compare('an agent that is there', True, made(script, {'listenerPath': '/other'}).returncode != 0)
    compare('all calls are handed over', True, made(script, {'defaultAction': 'SCMP_ACT_NOTIFY'}).returncode != 0)
    compare('no JSON', True, made(script, 'x').returncode != 0)
    compare('no object', True, made(script, '[]').returncode != 0)
    compare('no file', True, run(script, '/nowhere').returncode != 0)
    bundle = json.loads(made(script, {'process': {'args': ['x']}}, '--bundle').stdout)
    filter_of = bundle['linux']['seccomp']
    compare('a bundle without a filter', True, filter_of['defaultAction'] == 'SCMP_ACT_ALLOW' and
          filter_of['listenerPath'] == '/run/keyretain-agent.sock' and
          set(filter_of['syscalls'][0]['names']) == CALLS and len(filter_of['syscalls']) == 4 and
          bundle['process'] == {'args': ['x']})
    own = {'linux': {'seccomp': {'defaultAction': 'SCMP_ACT_ERRNO', 'architectures': ['SCMP_ARCH_X86_64']}, 'y': 1}}
    kept = json.loads(made(script, own, '--bundle').stdout)['linux']
    compare('a bundle with one', True, kept['seccomp']['defaultAction'] == 'SCMP_ACT_ERRNO' and kept['y'] == 1 and
          kept['seccomp']['architectures'] == ['SCMP_ARCH_X86_64'])
    if os.path.exists(INSTALLED):
        with open(INSTALLED, encoding='utf-8') as file:
            try_profile(script, 'the profile that is installed', json.load(file))
    else:
        print(f'skipped: the profile of containers-common: no {INSTALLED}')
    conclude()


if __name__ == '__main__':
    main(sys.argv[1])
