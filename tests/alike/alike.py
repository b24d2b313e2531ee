"""alike.py ASKS SEED FOLDER NAME=PROGRAM ..: the same lines by each way to ask, which must all print the same. ASKS is
how many are made in all, by all ways. FOLDER is one of scripts NAME.in whose answers are in NAME.out, or `-`.

Last it says how many plays were compared and how many were different. What differs is told with the seed and the
episode, from which the same lines are drawn again."""
import os
import random
import struct
import sys
from pathlib import Path

from compare import compare, conclude
from draw import Lines
from lines import ask_of
import ways

asks, seed, folder = int(sys.argv[1]), int(sys.argv[2]), sys.argv[3]
for word in sys.argv[4:]:
    setattr(ways.Programs, *word.split("=", 1))
EPISODE, CLIENTS = 400, 3  # lines, and clients that take turns
made = 0

WHOLE = [ways.Script, ways.RemoteScript, ways.Frames1, ways.Frames2, ways.Python, ways.Library]
OF_CALLS = [ways.Script, ways.SystemCalls]
if ways.Programs.guard:
    WHOLE.append(ways.FramesOfBoth)
    OF_CALLS.append(ways.GuardedSystemCalls)
OF_CALLS = OF_CALLS if ways.Programs.session else [ways.Script]


def begin_as(user):
    """What a session of system calls begins with, as contexts.c, sessions.c and tracees.c ask for it."""
    hello = f"hello {user} {os.getegid()} {' '.join(map(str, sorted(os.getgroups())[:32]))}".strip()
    return [hello, "join mark", "setperm @s 3f1b0000", "setperm @s 3f080000", hello, "context 2", "fork", "context 3",
            "join work", "setperm @s 3f1b0000", "link @u @s", "fork", "context 2", "fork", "context 4"]


def draw_lines(way, lines, count, before):
    """Draws lines one by one, each behind the answer to the one before."""
    drawn, answers = [*before], way.play(before)
    while len(drawn) < count + len(before):
        line = lines.draw()
        answer, = way.play([line])
        lines.note(line, answer)
        drawn.append(line)
        answers.append(answer)
    return drawn, answers


def short(text):
    return text if len(text) < 200 else f"{text[:100]} .. {len(text)} bytes"


def compare_all(what, drawn, answers, kinds, skip=0):
    """Each kind of way, on a store of its own."""
    global made
    made += len(drawn)
    for kind in kinds:
        way = kind()
        try:
            others = way.play(drawn[skip:])
        finally:
            way.end()
        made += len(drawn) - skip
        at = next((i for i, (one, other) in enumerate(zip(answers[skip:], others)) if one != other), None)
        where = "" if at is None else f", line {at + skip + 1} of {len(drawn)}: {short(drawn[at + skip])}"
        before = "" if at is None else " | ".join(map(short, drawn[max(0, at + skip - 6):at + skip]))
        wanted, got = (None, None) if at is None else (short(answers[at + skip]), short(others[at]))
        compare(f"{what}, {kind.name}{where} (before it: {before})", wanted, got)


def try_whole(episode):
    """All that a script can ask, by one client."""
    way = ways.Frames2()
    lines = Lines(random.Random(f"{seed} whole {episode}"))
    drawn, answers = draw_lines(way, lines, EPISODE, ["moment 1000000000", "hello 1000 1000"])
    way.end()
    compare_all(f"seed {seed}, whole {episode}", drawn, answers, WHOLE)


def try_calls(episode):
    """What keyctl(2) and its kin can ask, in one context."""
    for user, before, kinds in (
            (os.geteuid(), begin_as(os.geteuid()), OF_CALLS),
            (os.geteuid(), begin_as(os.geteuid())[:1], [ways.Script, ways.Keyutils])):
        way = ways.Frames2()
        lines = Lines(random.Random(f"{seed} calls {episode} {len(before)}"), of_calls=True)
        drawn, answers = draw_lines(way, lines, EPISODE, ["moment 1000000000", *before])
        way.end()
        compare_all(f"seed {seed}, calls {episode}", drawn, answers, kinds[:1])
        compare_all(f"seed {seed}, calls {episode}", drawn, answers, kinds[1:], skip=1 + len(before))


def play_clients(kinds, guarded, choose):
    """Clients of one daemon, each by its kind of way, that take turns: what `choose` says of a client and a line, until
    that is None, is played and told to it."""
    daemon = ways.Daemon(guarded)
    clients = [kind(daemon) for kind in kinds]
    try:
        while (chosen := choose()) is not None:
            client, line, told = chosen
            told(*clients[client].play([line]))
    finally:
        for client in clients:
            client.end()
        daemon.end()


def draw_for_clients(name):
    """Lines of several clients, which name each other's keys, with their answers."""
    chance, drawn, answers = random.Random(f"{seed} {name}"), [], []
    sources = [Lines(chance) for _ in range(CLIENTS)]
    for source in sources:
        source.others, source.has_no_context = sources, True

    def choose():
        if len(drawn) == EPISODE:
            return None
        client = chance.randrange(CLIENTS)
        line = sources[client].draw()

        def told(answer):
            sources[client].note(line, answer)
            drawn.append((client, line))
            answers.append(answer)
        return client, line, told

    play_clients([ways.Frames2] * CLIENTS, False, choose)
    return drawn, answers


def try_clients(episode):
    """Several clients of one daemon that take turns, each by the same way, and each by another."""
    global made
    name = f"clients {episode}"
    drawn, answers = draw_for_clients(name)
    made += len(drawn)
    for kinds in ([ways.Frames1] * CLIENTS, [ways.Python, ways.Library, ways.Frames1]):
        others, rest = [], iter(drawn)
        play_clients(kinds, bool(ways.Programs.guard), lambda: next(((*it, others.append) for it in rest), None))
        made += len(drawn)
        at = next((i for i, (one, other) in enumerate(zip(answers, others)) if one != other), None)
        where = "" if at is None else f", line {at + 1}: client {drawn[at][0]}, {short(drawn[at][1])}"
        wanted, got = (None, None) if at is None else (short(answers[at]), short(others[at]))
        compare(f"seed {seed}, {name}, {', '.join(it.name for it in kinds)}{where}", wanted, got)


def read_script(name):
    """The lines of a script, and what they print. `rlist` is played as `print`, which gives a keyring's serials as
    bytes. None where another way can't have a line: one that isn't UTF-8, has a null byte or no command, or sets a
    moment that no clock has."""
    try:
        given, wanted = (Path(f"{folder}/{name}.{kind}").read_text(encoding="utf-8") for kind in ("in", "out"))
        lines = [it for it in given.splitlines() if it.strip() and not it.startswith("#")]
        answers = wanted.splitlines()
        for at, line in enumerate(lines):
            if line.startswith("rlist "):
                lines[at] = f"print {line[6:]}"
                serials = [int(it) for it in answers[at].split() if it.isdigit()]
                if serials and len(serials) == len(answers[at].split()):
                    answers[at] = f":hex:{struct.pack(f'<{len(serials)}I', *serials).hex()}"
            kind, value = ask_of(lines[at])
            if "\0" in line or (kind == "moment" and value > 1 << 62):
                return None
    except (KeyError, ValueError, IndexError):
        return None
    return (lines, answers) if len(lines) == len(answers) else None


def try_scripts():
    """Scripts whose answers were worked out by hand, and begin at moment 0."""
    ways.Daemon.first_moment = 0
    names = sorted(it[:-3] for it in os.listdir(folder) if it.endswith(".in"))
    played = [(name, *script) for name in names if (script := read_script(name))]
    for name, lines, answers in played:
        compare_all(f"script {name}", lines, answers, WHOLE)
    print(f"{len(played)} of {len(names)} scripts were played")
    ways.Daemon.first_moment = ways.FIRST_MOMENT


def main():
    if folder != "-":
        try_scripts()
    episode = 0
    while made < asks:
        try_whole(episode)
        try_calls(episode)
        try_clients(episode)
        episode += 1
    print(f"{made} asks in {episode} episodes")
    conclude()


main()
