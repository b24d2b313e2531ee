"""Lines at random. What is drawn next depends on what the lines before were answered: so keys are named that are
there."""
from lines import COMMANDS, RINGS

# The first 14 are of types that the kernel has as well.
TYPES = ["user"] * 8 + ["logon"] * 3 + ["keyring"] * 3 + ["trusted", ".user", "u" * 32]
NAMES = ["a", "b", "c", "k:1", "k:2", "ring", ":x", ".dot", "_tid", "d" * 4095, "d" * 4096]
MASKS = ["3f3f3f3f", "3f3f3f3f", "3f010000", "3f000000", "3f1b0000", "3f0b0b0b", "01010101", "8", "0", "40", "3f3f3f40"]
SPECIAL = [*RINGS, *RINGS, "0", "1", "2", "2147483647"]
USERS = ["1000", "1000", "1001", "0"]
SESSIONS = ["work", "work", "other", ".x", "n" * 4096]
KEPT = 40  # keys, contexts and queues that are named again


class Lines:
    """Draws lines; `note` is told what each was answered. `of_calls`: what keyctl(2) and its kin can ask, in one
    context and as the kernel answers it."""

    def __init__(self, chance, of_calls=False, others=()):
        self.chance, self.of_calls = chance, of_calls
        self.keys, self.contexts, self.queues = [], [1], [1]
        self.links, self.named, self.has_no_context = [], [], False
        self.others = others  # further sources, whose keys are named too
        self.moment = 1_000_000_000
        self.table = [(word, draw) for word, (_, is_call, draw, *_) in COMMANDS.items() if is_call or not of_calls]
        self.weights = [COMMANDS[word][0] for word, _ in self.table]

    def draw(self):
        if self.has_no_context and self.chance.random() < 0.8:
            is_known = self.chance.random() < 0.7
            return f"context {self.one(*self.contexts)}" if is_known else f"hello {self.one(*USERS)} 1000"
        word, draw = self.chance.choices(self.table, self.weights)[0]
        return f"{word} {draw(self)}".rstrip()

    def note(self, line, answer):
        word, *rest = line.split(" ")
        self.has_no_context = answer == "error 3 ESRCH" or word in ("exit", "leave") and answer == "ok"
        if word in ("add", "newring") and answer.isdigit():
            self.links.append((answer, rest[-1]))
            self.named.append(" ".join(rest[:2]) if word == "add" else f"keyring {rest[0]}")
        if word == "link" and answer == "ok":
            self.links.append((rest[0], rest[1]))
        del self.links[:-KEPT], self.named[:-KEPT]
        if not answer.isdigit():
            return
        into = {"hello": self.contexts, "thread": self.contexts, "fork": self.contexts, "open": self.queues,
                "add": self.keys, "newring": self.keys, "id": self.keys, "join": self.keys}.get(word)
        if into is not None and answer not in into:
            into.append(answer)
            del into[:-KEPT]

    # What stands in lines

    def key(self):
        if self.links and self.chance.random() < 0.2:
            return self.chance.choice(self.links)[0]
        keys = self.chance.choice([self, *self.others]).keys
        if keys and self.chance.random() < 0.75:
            return self.chance.choice(keys[-12:] if self.chance.random() < 0.7 else keys)
        return self.chance.choice([*RINGS][2:] if self.of_calls else SPECIAL)

    def ring(self):
        if self.links and self.chance.random() < 0.2:
            return self.chance.choice(self.links)[1]
        return self.chance.choice([*RINGS]) if self.chance.random() < 0.6 else self.key()

    def victim(self):
        """A key that may go: a keyring with a name seldom, as all that follows would be refused."""
        return self.chance.choice(self.keys) if self.keys and self.chance.random() < 0.95 else self.key()

    def link(self):
        """A key, and a keyring that may link it."""
        if self.links and self.chance.random() < 0.8:
            return " ".join(self.chance.choice(self.links))
        return f"{self.key()} {self.ring()}"

    def match(self):
        """A type and a description."""
        if self.named and self.chance.random() < 0.8:
            return self.chance.choice(self.named)
        return f"{self.type()} {self.name()}"

    def type(self):
        return self.chance.choice(TYPES[:14] if self.of_calls else TYPES)

    def name(self):
        return self.chance.choice(NAMES[:6] if self.chance.random() < 0.9 else NAMES)

    def data(self):
        if self.chance.random() < 0.02 and not self.of_calls:
            return "x" * self.chance.choice([32767, 32768])
        if self.chance.random() < 0.3:
            return "hex:" + self.chance.randbytes(self.chance.randrange(20)).hex()
        return f"s{self.chance.randrange(1000)}"

    def mask(self):
        return self.chance.choice(MASKS)

    def queue(self):
        return self.chance.choice(self.queues) if self.chance.random() < 0.9 else "99"

    def one(self, *words):
        return self.chance.choice(words)

    def user(self, *others):
        return self.one(*USERS, *others)

    def session(self):
        return self.one("", *SESSIONS)

    def destination(self):
        return f" {self.ring()}" if self.chance.random() < 0.3 else ""

    def entries(self):
        return " ".join(self.entry() for _ in range(self.one(1, 1, 2, 17)))

    def entry(self):
        drawn = self.one("1", "1", "0", "2"), self.one("0", "0", "100", "300"), self.one("0", "ff00", "300", "7f")
        return f"{':'.join(drawn)}:{self.chance.randrange(256):x}"

    def next_moment(self):
        self.moment += self.chance.choice([0, 1, 1, 2, 5])
        return self.moment
