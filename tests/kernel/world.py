"""What is known of the keys while a script runs: what lines that were accepted here have made of them. By it lines are
drawn, and rules say in which state they hold. It judges nothing."""
from dataclasses import dataclass, field

TYPES = "user", "logon", "keyring"
VIEW, READ, WRITE, SEARCH, LINK, SETATTR = 1, 2, 4, 8, 16, 32
DEPTH = 7  # the last level of possession


@dataclass(eq=False)
class Key:
    type: str
    name: str
    uid: int
    gid: int
    mask: int
    of_user: bool = False  # a user keyring, or a user-session keyring
    of_join: bool = False
    number: int = 0  # by which scripts name it, and 0 while no line has answered it
    expiry: int | None = None
    revoked: bool = False
    closed: bool = False
    gone: bool = False
    invalidated: bool = False
    kept: bool = False  # whether it was a thread, process or session keyring when it was invalidated
    changed: bool = False  # its mask or owner
    regrouped: bool = False
    watched: bool = False
    watches: bool = False  # whether it was a thread, process or session keyring of who set a watch
    full: bool = False
    uid_of: int | None = None  # the user whose it is
    links: dict = field(default_factory=dict)  # of a keyring, by type and name

    @property
    def is_ring(self):
        return self.type == "keyring"

    @property
    def match(self):
        return self.type, self.name


@dataclass(eq=False)
class Process:
    ring: Key | None = None
    split: bool = False  # whether a process keyring was made while there were several threads
    made_there: bool = False  # whether a refused line has made one in Linux


@dataclass(eq=False)
class Context:
    uid: int
    gid: int
    groups: tuple
    process: Process
    session: Key | None
    thread: Key | None = None
    ended: bool = False
    joined: bool = False  # whether the session is its own, or one that was handed on
    joined_itself: bool = False  # whether it isn't the first of its process, and has joined a session
    given: bool = False  # whether its maker had a thread keyring
    made_there: bool = False  # whether a refused line has made a thread keyring in Linux
    is_first: bool = True  # of its process
    strays: bool = False  # whether its session is another thread's, where system calls are answered
    lost: set = field(default_factory=set)  # of @t, @p and @s what was invalidated


class World:
    def __init__(self, of_calls=False):
        self.of_calls = of_calls  # whether system calls are answered here
        self.keys, self.contexts, self.users, self.numbered, self.now = [], {}, {}, {}, 0
        self.current, self.executed, self.left = 0, False, False
        self.entered = set()  # users whose user keyrings were named
        self.outlived, self.strayed = set(), set()  # users whose last context ended; rules that have left the two apart

    @property
    def keeps(self):
        """Whether Linux may keep what is gone here."""
        return self.executed or self.left or bool(self.outlived) or any(key.kept or key.watches for key in self.keys)

    # ---- What words stand for

    @property
    def context(self):
        return self.contexts.get(self.current)

    def attached(self, word):
        it = self.context
        user = self.users.get(it.uid, (None, None)) if it else (None, None)
        return it and {"@t": it.thread, "@p": it.process.ring, "@s": it.session, "@u": user[0], "@us": user[1]}[word]

    def key(self, word):
        """The key that a word stands for, gone ones too."""
        if word.startswith("@"):
            return self.attached(word)
        return self.numbered.get(int(word[1:])) if word.startswith("$") else None

    def is_alive(self, key):
        return not key.revoked and not self.is_expired(key) and not key.gone

    def is_expired(self, key):
        return key.expiry is not None and key.expiry <= self.now

    # ---- Rights

    def levels(self, context=None):
        """The levels of possession."""
        it = context or self.context
        level = [key for key in (it.thread, it.process.ring, it.session) if key]
        seen = set(level)
        for _ in range(DEPTH + 1):
            yield level
            level = [key for ring in level if ring.is_ring and self.is_alive(ring) and
                     (self.byte(ring, it) | ring.mask >> 24) & SEARCH for key in ring.links.values()]
            level = [key for key in dict.fromkeys(level) if key not in seen]
            seen.update(level)

    def possessed(self, context=None):
        return {key for level in self.levels(context) for key in level}

    def byte(self, key, context=None):
        """The byte of the mask that counts beside the possessor's."""
        it = context or self.context
        is_of_group = key.gid == it.gid or key.gid in it.groups
        return key.mask >> (16 if key.uid == it.uid else 8 if is_of_group else 0) & 0x3F

    def rights(self, key, context=None):
        it = context or self.context
        return self.byte(key, it) | (key.mask >> 24 if key in self.possessed(it) else 0)

    def below(self, head):
        """A keyring and all that its links reach."""
        seen, waiting = {head: 0}, [head]
        for ring in waiting:
            for key in ring.links.values():
                if key not in seen:
                    seen[key] = seen[ring] + 1
                    waiting.append(key)
        return seen

    # ---- What accepted lines change

    def make(self, type_, name, mask, **more):
        it = self.context
        key = Key(type_, name, it.uid, it.gid, mask, **more)
        self.keys.append(key)
        return key

    def making(self, word):
        """The keyring that a word stands for, made where it may be."""
        key = self.key(word)
        if key is None and word == "@t":
            key = self.context.thread = self.make("keyring", "_tid", 0x3f010000)
        elif key is None and word == "@p":
            process = self.context.process
            key = process.ring = self.make("keyring", "_pid", 0x3f010000)
            process.split = sum(it.process is process and not it.ended for it in self.contexts.values()) > 1
        return key

    def drop(self):
        """Marks what no attachment reaches as gone."""
        live = [it for it in self.contexts.values() if not it.ended]
        waiting = [key for it in live for key in (it.thread, it.process.ring, it.session) if key]
        for uid in self.live_users():
            waiting += [key for key in self.users[uid] if key]
        seen = set(waiting)
        for ring in waiting:
            new = [key for key in ring.links.values() if key not in seen]
            seen.update(new)
            waiting += new
        for key in self.keys:
            key.gone = key.gone or key not in seen

    def accept(self, word, words, key, number=0):
        """Takes down a line that was accepted. `key` is that which it answered, where one is known; a number is that of
        a context. Returns the key that it answered."""
        key = getattr(self, f"do_{word}", lambda *_: None)(words, key or number)
        self.drop()
        return key

    def do_hello(self, words, number):
        uid, gid, *groups = map(int, words)
        live = self.live_users()
        self.contexts[number] = Context(uid, gid, tuple(groups), Process(), None)
        self.current = number
        if uid not in live:
            own = self.make("keyring", f"_uid.{uid}", 0x1f3f0000, of_user=True, uid_of=uid)
            session = self.make("keyring", f"_uid_ses.{uid}", 0x1f3f0000, of_user=True, uid_of=uid)
            session.links[own.match] = own
            self.users[uid] = [own, session]
        self.context.session = self.users[uid][1]

    def live_users(self):
        return {it.uid for it in self.contexts.values() if not it.ended}

    def do_thread(self, _, number, process=None):
        it = self.context
        given = not process and bool(it.thread or it.given or it.made_there or "@t" in it.lost)
        lost = it.lost & ({"@s"} if process else {"@s", "@p"})
        self.contexts[number] = Context(it.uid, it.gid, it.groups, process or it.process, it.session, joined=it.joined,
                                        given=given, lost=lost, is_first=bool(process),
                                        strays=it.strays or it.joined_itself)

    def do_fork(self, _, number):
        self.do_thread(_, number, Process())

    def do_exec(self, _, __):
        it = self.context
        for other in self.contexts.values():
            other.ended = other.ended or (other.process is it.process and other is not it)
        it.thread = it.process.ring = None
        it.lost &= {"@s"}
        it.is_first, it.strays, it.joined_itself = True, it.strays or it.joined_itself, False
        it.given = it.made_there = it.process.made_there = it.process.split = False
        self.executed = True

    def do_exit(self, _, __):
        it = self.context
        it.ended = True
        self.outlived |= {it.uid} - self.live_users()
        # the thread that began the process stays where others go on
        self.left = self.left or any(not other.ended and other.process is it.process
                                     for other in self.contexts.values())

    def do_add(self, words, key):
        type_, name, _, ring = words
        into = self.making(ring)
        found = into.links.get((type_, name))
        if found and self.is_alive(found) and type_ != "keyring":
            found.expiry = None
            return found
        key = self.make(type_, name, 0x3d010000 if type_ == "logon" else 0x3f010000)
        into.links[key.match] = key
        return key

    def do_newring(self, words, key):
        return self.do_add(["keyring", words[0], "", words[1]], key)

    def do_id(self, words, key):
        return self.making(words[0]) if len(words) > 1 else self.key(words[0])

    def do_join(self, words, key):
        if not isinstance(key, Key):
            name = words[0] if words else "_ses"
            key = self.make("keyring", name, 0x3f130000 if words else 0x3f030000, of_join=True)
        it = self.context
        it.session, it.joined, it.joined_itself = key, True, not it.is_first
        for other in self.contexts.values():
            other.strays |= it.is_first and other.process is it.process and other is not it and not other.joined_itself
        self.context.lost.discard("@s")
        return key

    def do_update(self, words, _):
        self.key(words[0]).expiry = None

    def do_revoke(self, words, _):
        key = self.key(words[0])
        key.revoked = True
        key.links.clear()

    def do_invalidate(self, words, _):
        key = self.key(words[0])
        key.invalidated = True
        for ring in self.keys:
            if ring.links.get(key.match) is key:
                del ring.links[key.match]
        for it in self.contexts.values():
            own = {"@t": it.thread, "@p": it.process.ring, "@s": it.session}
            lost = {word for word, ring in own.items() if ring is key}
            it.lost |= lost
            key.kept = key.kept or bool(lost) and not it.ended
        for it in self.contexts.values():
            it.thread = None if it.thread is key else it.thread
            it.session = None if it.session is key else it.session
            it.process.ring = None if it.process.ring is key else it.process.ring
        for user in self.users.values():
            user[:] = [None if it is key else it for it in user]

    def do_chown(self, words, _):
        self.key(words[0]).uid = int(words[1])
        self.key(words[0]).changed = True

    def do_chgrp(self, words, _):
        self.key(words[0]).gid = int(words[1])
        self.key(words[0]).changed = self.key(words[0]).regrouped = True

    def do_setperm(self, words, _):
        self.key(words[0]).mask = int(words[1], 16)
        self.key(words[0]).changed = True

    def do_timeout(self, words, _):
        seconds = int(words[1])
        self.key(words[0]).expiry = self.now + seconds if seconds else None

    def do_clear(self, words, _):
        self.key(words[0]).links.clear()

    def do_link(self, words, _):
        key, ring = self.key(words[0]), self.making(words[1])
        key = key or self.key(words[0])
        ring.links[key.match] = key

    def do_unlink(self, words, _):
        self.key(words[1]).links.pop(self.key(words[0]).match, None)

    def do_move(self, words, _):
        key, source, to = self.key(words[0]), self.key(words[1]), self.making(words[2])
        if source is not to:
            source.links.pop(key.match, None)
            to.links[key.match] = key

    def do_restrict(self, words, _):
        self.key(words[0]).closed = True

    def do_watch(self, words, _):
        self.making(words[0])
        self.key(words[0]).watched = True
        for key in next(self.levels()):
            key.watches = key.watches or words[2] != "off"

    def do_search(self, words, key):
        if len(words) > 3 and words[3] != "0" and isinstance(key, Key):
            self.making(words[3]).links[key.match] = key
        return key if isinstance(key, Key) else None

    def do_request(self, words, key):
        return self.do_search(["", *words], key)
