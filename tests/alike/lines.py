"""The lines of scripts, as keyretain(1) has them: what each asks, how one is drawn, and what is printed for its
answer."""
import keyretain

RINGS = {"@t": -1, "@p": -2, "@s": -3, "@u": -4, "@us": -5}
LEFT = 0xFFFFFFFF

# ---- What reads a value: takes its words off the front of those that are left


def key(words):
    word = words.pop(0)
    return RINGS.get(word) or int(word)


def destination(words):
    return key(words) if words else 0


def number(words):
    return int(words.pop(0))


def mask(words):
    return int(words.pop(0), 16)


def watch(words):
    word = words.pop(0)
    return -1 if word == "off" else int(word)


def text(words):
    return words.pop(0).encode()


def name(words):
    return text(words) if words else b""


def data(words):
    word = words.pop(0)
    return bytes.fromhex(word[4:]) if word.startswith("hex:") else word.encode()


def flag(words):
    return 1 if words and words.pop(0) else 0


def groups(words):
    taken, words[:] = [int(it) for it in words], []
    return taken


def entries(words):
    taken, words[:] = [(*[int(part, 16) for part in it.split(":")], *[0] * 7) for it in words], []
    return taken


# ---- The commands

# Of each: how often it is drawn, whether keyctl(2) and its kin can ask it, how its words are drawn (draw.py), and its
# ask with what reads each value, or the value itself.
COMMANDS = {
    "add": (16, True, lambda it: f"{it.type()} {it.name()} {it.data()} {it.ring()}", "ADD", text, text, data, key),
    "newring": (8, True, lambda it: f"{it.one('ring', 'r2', 'r3', '.dot')} {it.ring()}",
                "ADD", b"keyring", text, b"", key),
    "print": (10, True, lambda it: it.key(), "READ", key),
    "rdescribe": (5, True, lambda it: it.key(), "DESCRIBE", key),
    "update": (5, True, lambda it: f"{it.key()} {it.data()}", "UPDATE", key, data),
    "link": (7, True, lambda it: f"{it.key()} {it.ring()}", "LINK", key, key),
    "unlink": (2, True, lambda it: it.link(), "UNLINK", key, key),
    "move": (6, True, lambda it: f"{it.link()} {it.ring()}{it.one('', ' excl')}", "MOVE", key, key, key, flag),
    "search": (6, True, lambda it: f"{it.ring()} {it.match()}{it.destination()}",
               "SEARCH", key, text, text, destination),
    "request": (6, True, lambda it: f"{it.match()}{it.destination()}", "REQUEST", text, text, destination),
    "setperm": (5, True, lambda it: f"{it.victim()} {it.mask()}", "SETPERM", key, mask),
    "chown": (2, True, lambda it: f"{it.victim()} {it.user()}", "CHOWN", key, number, LEFT),
    "chgrp": (2, True, lambda it: f"{it.victim()} {it.user('2000')}", "CHOWN", key, LEFT, number),
    "timeout": (3, True, lambda it: f"{it.victim()} {it.one(0, 1, 2, 5, 1000, LEFT)}", "SET_TIMEOUT", key, number),
    "revoke": (1, True, lambda it: it.victim(), "REVOKE", key),
    "invalidate": (1, True, lambda it: it.victim(), "INVALIDATE", key),
    "clear": (1, True, lambda it: it.victim(), "CLEAR", key),
    "restrict": (0.5, True, lambda it: it.victim(), "RESTRICT_KEYRING", key, b""),
    "id": (5, True, lambda it: f"{it.one(*RINGS, it.key())}{it.one('', ' create')}", "GET_ID", key, flag),
    "moment": (4, True, lambda it: it.next_moment(), "moment", number),
    "hello": (2, False, lambda it: f"{it.user(LEFT)} {it.user()}{it.one('', '', ' 2000', ' 2000' * 33)}",
              "HELLO", number, number, groups),
    "context": (5, False, lambda it: it.one(*it.contexts[-5:], *it.contexts[-5:], "77"), "context", number),
    "thread": (2, False, lambda it: "", "THREAD"),
    "fork": (1.5, False, lambda it: "", "FORK"),
    "exec": (0.5, False, lambda it: "", "EXEC"),
    "exit": (0.5, False, lambda it: "", "EXIT"),
    "leave": (0.05, False, lambda it: "", "LEAVE"),
    "join": (2, False, lambda it: it.session(), "JOIN", name),
    "open": (2, False, lambda it: it.one(1, 2, 8, 8, 4096, 0, 4097), "OPEN_QUEUE", number),
    "closeq": (0.5, False, lambda it: it.queue(), "CLOSE_QUEUE", number),
    "watch": (6, False, lambda it: f"{it.ring()} {it.queue()} {it.one('off', 0, 1, 7, 7, 255, 255, 256)}",
              "WATCH", key, number, watch),
    "filter": (1, False, lambda it: f"{it.queue()} {it.entries()}", "SET_FILTER", number, entries),
    "readq": (4, False, lambda it: f"{it.queue()} {it.one(4096, 4096, 64, 16, 15, 8, 0)}",
              "READ_QUEUE", number, number),
}


def ask_of(line):
    """The name of the ask and its values; or `context` or `moment`, with a number."""
    word, *words = line.split()
    _, _, _, asked, *readers = COMMANDS[word]
    values = [reader(words) if callable(reader) else reader for reader in readers]
    if words:
        raise ValueError(line)
    return (asked, values[0]) if asked == word else (asked, values)


def printed(name, answer):
    """What is printed for an answer: a number, bytes, None, or the name of an error."""
    if isinstance(answer, str):
        number = next(status for status, it in keyretain.STATUSES.items() if it == answer)
        return f"error {number} {answer}"
    if isinstance(answer, int):
        return str(answer)
    if answer is None:
        return "ok"
    if name == "READ_QUEUE":
        return answer.hex()
    is_text = name == "DESCRIBE" or all(0x20 <= byte < 0x7F for byte in answer)
    return answer.decode() if is_text else f":hex:{answer.hex()}"


class Player:
    """Carries lines out by `ask`, which answers a number, bytes, None, or the name of an error. `at` takes a moment."""

    def __init__(self, ask, at):
        self.ask, self.at, self.context = ask, at, 0

    def play(self, line):
        """What is printed for a line."""
        name, values = ask_of(line)
        if name == "context":
            self.context = values
            return "ok"
        if name == "moment":
            self.at(values)
            return "ok"
        answer = self.ask(name, self.context, values)
        if name == "HELLO" and isinstance(answer, int):
            self.context = answer
        return printed(name, answer)
