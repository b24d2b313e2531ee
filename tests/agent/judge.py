"""judge.py JUDGE COUNT SEED: states that are changed at random, judged by JUDGE and by Python's own reader of JSON."""
import json
import random
import re
import subprocess
import sys

SEEDS = [
    '{"ociVersion":"1.0.2-dev","fds":["seccompFd"],"pid":4422,"metadata":"keyretain","state":{"id":"g1","pid":4422}}',
    '{ "fds": ["x", "seccompFd"], "y": [1, -2.5e+3, 0, {"z": null}, true, false, []], "state": {"annotations": '
    '{"a\\"b": "\\u0041\\\\\\/\\b\\n"}, "id": "a_b+c-d.e"} }',
    '{"state":{"id":"\\u0061b"},"fds":["seccompF\\u0064"],"x":"\u00e4\\ud83d\\ude00"}',
]
LIKELY = ['{', '}', '[', ']', '"', ',', ':', '\\', '\\u0061', '0', '-1', '1.5', 'e', ' ', '\t', 'null', '"fds"',
          '"id":"b"', '"seccompFd"', '"state":{}', '\x7f', '/', '\u00e9']


def no_constant(word):
    raise ValueError(word)


def all_of(pairs, name):
    return [value for key, value in pairs if key == name]


def object_of(pairs):
    if len({name for name, _ in pairs}) != len(pairs):
        raise ValueError('a name twice')
    return 'object', pairs


def number_of(word):
    """As many as RFC 8259 expects of everybody: whole ones of 64 bits, and others within the range of doubles."""
    if abs(float(word)) == float('inf') or word.lstrip('-').isdigit() and not -2**63 <= int(word) < 2**63:
        raise ValueError('a number out of range')
    return float(word)


def wanted(text):
    """What RFC 8259 and the rules of keyretain-agent(8) make of a text. Half of a surrogate pair is no character."""
    try:
        value = json.loads(text, object_pairs_hook=object_of, parse_constant=no_constant, parse_int=number_of,
                           parse_float=number_of)
        json.dumps(value, ensure_ascii=False).encode()
    except (ValueError, RecursionError):
        return 'refused'
    if not isinstance(value, tuple):
        return 'refused'
    fds, states = all_of(value[1], 'fds'), all_of(value[1], 'state')
    if len(fds) != 1 or len(states) != 1 or not isinstance(fds[0], list) or not isinstance(states[0], tuple):
        return 'refused'
    if not all(isinstance(name, str) for name in fds[0]) or fds[0].count('seccompFd') != 1:
        return 'refused'
    ids = all_of(states[0][1], 'id')
    if len(ids) != 1 or not isinstance(ids[0], str) or not re.fullmatch(r'[A-Za-z0-9_+.-]{1,255}', ids[0]):
        return 'refused'
    return f"{ids[0]} {len(fds[0])} {fds[0].index('seccompFd')}"


def changed(text, some):
    for _ in range(some.randrange(4)):
        at = some.randrange(len(text) + 1)
        kind = some.randrange(3)
        if kind == 0:
            text = text[:at] + some.choice(LIKELY) + text[at:]
        elif kind == 1:
            text = text[:at] + text[at + some.randrange(1, 8):]
        else:
            text = text[:at] + some.choice(LIKELY) + text[at + 1:]
    return text


def main(judge, count, seed):
    some = random.Random(seed)
    texts = [changed(some.choice(SEEDS), some) for _ in range(count)]
    lines = ''.join(text.encode().hex() + '\n' for text in texts)
    said = subprocess.run([judge], input=lines, capture_output=True, text=True, check=True).stdout.splitlines()
    wants = [wanted(text) for text in texts]
    different = [row for row in zip(texts, wants, said) if row[1] != row[2]]
    for text, want, got in different[:5]:
        print(f'fails: {text!r}: wanted {want}, got {got}')
    taken = sum(want != 'refused' for want in wants)
    if len(said) != count or taken * 20 < count or taken * 20 > count * 19:
        print(f'fails: {len(said)} answers, {taken} of them taken')
        different.append(None)
    print(f'judge: {count - len(different)} passed, {len(different)} failed')
    return len(different) != 0


if __name__ == '__main__':
    sys.exit(main(sys.argv[1], int(sys.argv[2]), int(sys.argv[3])))
