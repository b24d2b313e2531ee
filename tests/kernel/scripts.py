"""Scripts at random. What is drawn next depends on what is there, by world.py, and on what was drawn at the beginning
for the whole script: how often each command comes, how many users and names there are, how wild masks and ids are."""
import random

USERS = [("1000", "1000"), ("1001", "1000"), ("1002", "1002"), ("1000", "7"), ("3000000005", "3000000007")]
OUTSIDE = 1_900_000_000  # the uids and gids outside which those of a namespace are: nobody's
OF_SESSION = "1900200000"  # a user that isn't mapped to another, for calls under keyretain-session
EMPTY = "''"  # no bytes: only calls can say that
GROUPS = ["", "", " 7", " 1001", " 1000 1002", " 7 8 9 1001"]
RINGS = ["ring", "r2", "r3", "r4", "r5", "r6", "r7", "r8"]
NAMES = ["a", "b", "c", "k:1", "k:2"]
ODD_NAMES = [":x", ".dot", "x.y", "_tid", "_ses", "_uid.1000", "_uid_ses.1001", "d" * 4095, "d" * 4096, "a" * 300, "k:"]
ODD_TYPES = ["trusted", ".user", "u" * 31, "u" * 32, "users", "keyrings"]
SESSIONS = ["work", "work", "other", "third"]
ODD_SESSIONS = [".x", "n" * 4095, "n" * 4096, "_ses", "_uid.1000", "_tid", "ring", "r2"]
MASKS = ["3f3f3f3f"] * 3 + ["3f010000", "3f1f0000", "1f3f0000", "3f0b0000", "3f080000", "083f0000", "3f000000",
                            "3f3f0000", "3f1f1f00", "3f1f001f", "003f0000", "00003f3f", "37373737", "3f20001b"]
BYTES = [0, 1, 2, 4, 8, 0xb, 0x10, 0x1b, 0x1f, 0x20, 0x2b, 0x37, 0x3f, 0x3f, 0x3f]
WORDS = {"add": 16, "newring": 9, "print": 9, "rdescribe": 5, "update": 5, "link": 8, "unlink": 4, "move": 5,
         "search": 8, "request": 6, "setperm": 5, "chown": 1.5, "chgrp": 1.5, "timeout": 3, "revoke": 1.5,
         "invalidate": 1.2, "clear": 1, "restrict": 0.6, "id": 5, "wait": 1, "hello": 1.5, "context": 6, "thread": 1.5,
         "fork": 1.5, "exec": 0.7, "exit": 0.7, "join": 3}
NOTES = {"watch": 9, "readq": 7, "filter": 0.5}  # where there are queues
ROOM = 65536  # of a read
MOST = 14  # contexts


class Drawer:
    """Draws lines, of what `world` has. `root`: among all users, where user keyrings stay as they are."""

    def __init__(self, world, seed, root=False, calls=False, most=MOST, notes=False):
        self.world, self.chance, self.root, self.most = world, random.Random(seed), root, most
        chance = self.chance
        self.users = chance.sample(USERS, chance.choice([1, 2, 2, 3, 4]))
        self.sessions = SESSIONS
        if root:  # scripts run side by side, and nobody else may be touched
            first = OUTSIDE + 4 * (int(seed) % 1000)
            self.users = [("0", "0"), (str(first), str(first)), (str(first + 1), str(first))]
            self.sessions = [f"keyretain-{seed}-{it}" for it in SESSIONS]
        self.odd_types, self.odd_names = ODD_TYPES, ODD_NAMES[:4] + ODD_NAMES[7:] if root else ODD_NAMES
        if calls:
            self.odd_types, self.odd_names = [*ODD_TYPES, EMPTY, EMPTY], [*ODD_NAMES, EMPTY, EMPTY, EMPTY]
            self.users = [(OF_SESSION, OF_SESSION)]
        self.calls = calls
        self.names = chance.sample(NAMES, chance.choice([2, 3, 5]))
        self.odd = chance.choice([0.01, 0.03, 0.1])
        self.naive = not root and chance.random() < 0.08
        self.special = chance.choice([0.15, 0.3, 0.5])
        self.harm = chance.choice([0, 0, 0.3, 1])  # of user keyrings
        self.deep = chance.random() < 0.3
        words = WORDS | (NOTES if notes and self.likely(0.6) else {})
        self.weights = {word: weight * chance.choice([0.3, 1, 1, 2.5]) for word, weight in words.items()}
        self.weights["wait"] *= chance.choice([0, 0, 1, 3])
        if not self.weights["wait"]:
            self.weights["timeout"] /= 2
        self.weights["hello"] *= not calls
        self.waiting = []

    def draw(self):
        """The next line."""
        if self.waiting:
            return self.waiting.pop(0)
        world = self.world
        if not world.contexts:
            return self.hello()
        if world.context.ended:
            live = [it for it, context in world.contexts.items() if not context.ended]
            return f"context {self.one(live)}" if live and len(world.contexts) <= self.most else self.hello()
        word = self.one(list(self.weights), self.weights.values())
        return getattr(self, word, lambda: f"{word} {self.words(word)}")().rstrip()

    def words(self, word):
        key, ring = self.key, self.ring
        return {
            "add": lambda: f"{self.match(True)} {self.data()} {ring()}",
            "newring": lambda: f"{self.ring_name()} {ring()}",
            "print": key, "rdescribe": key, "revoke": self.victim, "invalidate": self.victim,
            "update": lambda: f"{self.payload_key()} {self.data()}",
            "link": lambda: f"{self.ring() if self.deep or self.likely(0.4) else key()} {ring()}",
            "unlink": self.linked, "move": lambda: f"{self.linked()} {ring()}{self.flag()}",
            "search": lambda: f"{ring()} {self.match()}{self.destination()}",
            "request": lambda: f"{self.match()}{self.destination()}",
            "setperm": lambda: f"{self.victim()} {self.mask()}",
            "chown": lambda: f"{self.victim()} {self.one(self.users)[0]}",
            "chgrp": lambda: f"{self.victim()} {self.either(*[it[1] for it in self.users], '1001', '7')}",
            "timeout": lambda: f"{self.victim()} {self.seconds()}",
            "clear": lambda: self.victim() if self.likely(0.5) else ring(),
            "restrict": lambda: f"{self.victim()}{self.restriction()}",
            "watch": lambda: f"{key()} {self.queue()} {self.either('off', 0, 255, *range(1, 9))}",
            "readq": lambda: f"{self.queue()} {ROOM}",
            "filter": lambda: " ".join([self.queue(), *(self.entry() for _ in range(self.either(1, 1, 2, 16, 17)))]),
            "id": lambda: f"{self.either(self.attached(), self.attached(), key())}{self.either('', ' create')}",
        }[word]()

    # ---- Contexts

    def hello(self):
        if len(self.world.contexts) > self.most:
            return "rdescribe @u"
        uid, gid = self.one(self.users)
        is_new = uid not in {str(it.uid) for it in self.world.contexts.values()}
        if is_new and self.likely(0.9) and not (self.root and uid == "0"):
            self.waiting += ["id @u", "id @us"]
        if self.root or self.calls:
            self.waiting.append(f"join {self.one(self.sessions)}")
        elif not self.naive and self.likely(0.9):
            self.waiting.append(self.join())
        if self.likely(0.3) and not (self.root and uid == "0"):
            self.waiting.append("link @u @s")
        return f"hello {uid} {gid}{self.one(GROUPS) if not self.calls else ''}"

    def context(self):
        live = [it for it, context in self.world.contexts.items() if not context.ended]
        return f"context {self.one(live)}"

    def thread(self):
        return "thread" if len(self.world.contexts) <= self.most else "rdescribe @t"

    def fork(self):
        return "fork" if len(self.world.contexts) <= self.most else "rdescribe @p"

    def exec(self):
        self.waiting += ["exec"] if self.likely(0.95) else []  # the second lets go what the first one's file keeps
        return "exec"

    def exit(self):
        live = [it for it in self.world.contexts.values() if not it.ended]
        uid = self.world.context.uid
        may = sum(it.uid == uid for it in live) > 1 or len(live) > 1 and self.likely(0.03)
        return "exit" if may else "rdescribe @s"

    def join(self):
        if self.likely(0.3):
            return "join"
        return f"join {self.odd_session() if self.strange() else self.one(self.sessions)}"

    def odd_session(self):
        return self.one(ODD_SESSIONS[:1] if self.root else ODD_SESSIONS)

    def wait(self):
        return f"wait {self.either(1, 1, 2)}"

    # ---- Words

    def one(self, those, weights=None):
        return self.chance.choices(list(those), list(weights) if weights else None)[0]

    def either(self, *those):
        return self.one(those)

    def likely(self, chance):
        return self.chance.random() < chance

    def strange(self):
        return self.likely(self.odd)

    def named(self, holds=lambda key: True):
        """A key that a script can name by its number, rather one that is there and was made last."""
        keys = [key for key in self.world.numbered.values() if holds(key) and (not key.gone or self.likely(0.15))]
        if not keys:
            return None
        return f"${self.one(keys[-6:] if self.likely(0.5) else keys).number}"

    def attached(self):
        words = ["@t", "@p", "@s", "@s", "@s", "@u", "@us"]
        return self.one(words[:5] if self.root and self.world.context.uid == 0 else words)

    def key(self):
        if self.strange():
            return self.either("0", "1", "2147483647")
        if not self.likely(self.special):
            return self.named() or self.attached()
        return self.attached()

    def payload_key(self):
        return self.likely(0.7) and self.named(lambda key: not key.is_ring) or self.key()

    def ring(self):
        if self.likely(0.04):
            return self.key()
        if not self.likely(self.special):
            return self.named(lambda key: key.is_ring) or self.attached()
        return self.attached()

    def victim(self):
        """A key that may go: a user keyring or an attached one seldom, as all that follows would be refused."""
        named = self.named(lambda key: not key.of_user)
        if self.likely(0.85) and named:
            return named
        if self.root:
            return named or "@t"
        if self.likely(self.harm):
            return self.key()
        return self.named(lambda key: not key.of_user) or "@t"

    def flag(self):
        return self.one(["", " excl"] + [" 2", " 3"] * (self.calls and self.strange()))

    def restriction(self):
        return f" {self.either('keyring', 'user', 'trusted', EMPTY)}" if self.calls and self.likely(0.2) else ""

    def linked(self):
        """A key, and a keyring that may link it."""
        rings = [key for key in self.world.numbered.values() if key.links and not key.gone]
        if rings and self.likely(0.8):
            ring = self.one(rings)
            keys = [key for key in ring.links.values() if key.number]
            if keys:
                return f"${self.one(keys).number} ${ring.number}"
        return f"{self.key()} {self.ring()}"

    def match(self, new=False):
        """A type and a name."""
        if self.strange():
            return f"{self.type()} {self.one(self.odd_names)}"
        keys = [key for key in self.world.numbered.values() if not key.gone or self.likely(0.2)]
        if keys and self.likely(0.3 if new else 0.75):
            key = self.one(keys)
            return f"{key.type} {key.name}"
        return f"{self.type()} {self.one(self.names)}"

    def type(self):
        if self.strange():
            return self.one(self.odd_types)
        return self.either("user", "user", "user", "logon", "keyring")

    def ring_name(self):
        if self.strange():
            return self.one(self.odd_names)
        return self.one(RINGS if self.deep else RINGS[:3])

    def data(self):
        if self.likely(0.02):
            return "x" * self.either(4096, 4097, 32767, 32768)
        if self.likely(0.15):
            return "hex:" + self.chance.randbytes(self.chance.randrange(20)).hex()
        return f"s{self.chance.randrange(1000)}"

    def mask(self):
        if self.strange():
            return self.either("40000000", "3f3f3f40", "ffffffff", "0")
        if self.likely(0.4):
            return "".join(f"{self.one(BYTES):02x}" for _ in range(4))
        return self.one(MASKS)

    def seconds(self):
        return self.one([0, 1000, 4294967295] + [1, 1, 1, 2, 2] * bool(self.weights["wait"]))

    def queue(self):
        return self.either("1", "1", "2")

    def entry(self):
        """What a filter lets pass: a type, what `info` must be in the bits of a mask, and subtypes."""
        info, mask = self.either((0, 0), (0, 0), (0x300, 0xff00), (0x100, 0x100), (0, 0x200))
        if self.strange():
            info, mask = self.either((0x10, 0x7f), (1, 0), (0x300, 0x200), (0x10000, 0x10000))
        types = self.either(1, 1, 1, 0, 2, 0xffffff) if self.strange() else 1
        return f"{types:x}:{info:x}:{mask:x}:{self.either(0xffffffff, 0x1ff, self.chance.randrange(512)):x}"

    def destination(self):
        return f" {self.key() if self.likely(0.1) else self.ring()}" if self.likely(0.25) else ""
