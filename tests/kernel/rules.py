"""Where Linux answers otherwise: one row for each rule, and nothing else is let pass."""
from typing import Callable, NamedTuple

from scripts import EMPTY, OF_SESSION
from world import SEARCH, TYPES, Key

# Where a word that is -1, -2 or -3 may make a keyring: in Linux, and here.
MAKING = {"add": (3,), "newring": (1,), "link": (0, 1), "move": (0, 2), "clear": (0,), "chown": (0,), "chgrp": (0,),
          "setperm": (0,), "timeout": (0,), "search": (3,), "request": (2,), "id": (0,), "watch": (0,)}
MADE_HERE = {"add": (3,), "newring": (1,), "link": (1,), "move": (2,), "search": (3,), "request": (2,), "id": (0,)}


SETATTR = 7 << 24 | 1  # of a note, its type and subtype: linux/watch_queue.h


class Line(NamedTuple):
    """A line in its state. `linux` and `here` are None while nobody has answered."""
    world: object
    word: str
    words: list
    linux: object = None
    here: object = None
    held: bool = False

    @property
    def refused(self):
        """Whether both refuse."""
        return isinstance(self.linux, str) and isinstance(self.here, str)

    def places(self, table):
        if self.word == "id" and len(self.words) < 2:
            return []
        return [self.words[at] for at in table.get(self.word, ()) if at < len(self.words)]

    def missing(self, table):
        """The words @t and @p by which a keyring would be made."""
        return [it for it in self.places(table) if it in ("@t", "@p") and self.world.attached(it) is None]

    @property
    def named(self):
        """The keys that the line names."""
        return [key for key in map(self.world.key, self.ids) if key]

    @property
    def is_of_users(self):
        """Whether it asks for a user keyring, or what is possessed depends on one in place of a session keyring."""
        return (bool({"@u", "@us", "@s"} & set(self.words)) or self.word in ("request", "join")
                or not self.world.context.joined)

    @property
    def ids(self):
        counts = {"add": (3,), "newring": (1,), "search": (0, 3), "request": (2,), "join": (), "link": (0, 1),
                  "unlink": (0, 1), "move": (0, 1, 2)}
        return [self.words[at] for at in counts.get(self.word, (0,)) if at < len(self.words)]

    @property
    def heads(self):
        """Where the line searches."""
        it = self.world.context
        if self.word == "search":
            head = self.world.key(self.words[0])
            return [head] if head else []
        if self.word == "request":
            return [key for key in (it.thread, it.process.ring, it.session) if key]
        return []

    @property
    def match(self):
        at = {"search": 1, "add": 0, "request": 0}.get(self.word)
        return tuple(self.words[at:at + 2]) if at is not None else ("keyring", *self.words[:1])

    @property
    def reached(self):
        """All that the line names, or comes upon from there or on the way to it."""
        world = self.world
        found = dict.fromkeys(self.named)
        if self.word == "join":
            return [key for key in world.keys if key.match == ("keyring", *self.words)]
        for key in [*self.named, *self.heads, *[it for level in [next(iter(world.levels()))] for it in level]]:
            found.update(world.below(key))
        return list(found)

    @property
    def matches(self):
        """Keys that a search could answer, once for each head that reaches them."""
        return [key for head in self.heads for key in self.world.below(head) if key.match == self.match]


# ---- States


def makes_more(it):
    """-1 or -2 is missing where Linux makes it and this service doesn't; or it is the head, which comes first."""
    return bool(set(it.missing(MAKING)) - set(it.missing(MADE_HERE))) or (
        len(it.missing(MAKING)) > len(it.missing(MADE_HERE)))


def keeps_made(it):
    """A refused line has made a keyring."""
    context = it.world.context
    return (context.made_there and "@t" in it.words or context.process.made_there and "@p" in it.words
            or (context.made_there or context.process.made_there) and it.word == "request")


def has_no_session(it):
    """The session keyring is the user-session keyring, for want of another."""
    return "@s" in it.places(MAKING) and not it.world.context.joined


def of_group(it):
    """A user keyring whose group is still that with which it was made: it is described, or its group counts."""
    context = it.world.context
    if it.word in ("rdescribe", "chgrp"):
        return any(key.of_user and not key.regrouped for key in it.named)
    return any(key.of_user and not key.regrouped and key.uid != context.uid and
               (key.gid == context.gid or key.gid in context.groups) for key in it.reached)


def spoilt(it):
    """A user keyring of this uid is dead, or its mask keeps a search out."""
    world = it.world
    users = [key for key in world.keys if key.of_user and key.uid_of == world.context.uid]
    return it.is_of_users and any(not world.is_alive(key) or key.changed or key.invalidated for key in users)


def outlives(it):
    """The last context of a user has ended."""
    world = it.world
    return bool(world.outlived) and (it.held or world.context.uid in world.outlived and it.is_of_users or any(
        key.of_user and (key.gone or key.uid_of in world.outlived) for key in it.reached))


def not_entered(it):
    """No context of this user has named a user keyring or a session yet."""
    return it.word == "request" and it.world.context.uid not in it.world.entered


def made_anew(it):
    world = it.world
    return it.is_of_users and any(
        key.of_user and key.invalidated and key.uid_of == world.context.uid for key in world.keys)


def updates(it):
    """ADD on a match, where the keyring is possessed and the match isn't, or the other way round."""
    found = updated(it)
    if not found:
        return False
    possessed = it.world.possessed()
    return (it.words[3].startswith("@") or it.world.key(it.words[3]) in possessed) != (found in possessed)


def updated(it):
    """The match that ADD updates."""
    if it.word not in ("add", "newring"):
        return None
    ring = it.world.key(it.words[-1])
    found = ring and ring.links.get(it.match)
    return found if found and it.world.is_alive(found) and not found.is_ring else None


def dead_in_search(it):
    return it.word == "search" and dead_matches(it)


def dead_in_request(it):
    return it.word == "request" and dead_matches(it)


def dead_matches(it):
    """A match that is dead, or may not be searched; or a keyring that may not be."""
    world = it.world
    return (
        any(not world.is_alive(key) or not world.rights(key) & SEARCH for key in it.matches) or
        any(not world.rights(key) & SEARCH or not world.is_alive(key) for head in it.heads
            for key in world.below(head) if key.is_ring))


def revives(it):
    if it.word != "add":
        return False
    ring = it.world.key(it.words[3])
    found = ring and ring.links.get(it.match)
    return bool(found) and it.world.is_expired(found) and not found.revoked


def expired_ring(it):
    return any(key.is_ring and it.world.is_expired(key) for key in it.reached)


def other_match(it):
    if it.word not in ("unlink", "move"):
        return False
    key, ring = it.world.key(it.words[0]), it.world.key(it.words[1])
    found = key and ring and ring.links.get(key.match)
    return bool(found) and found is not key


def any_ring_of_name(it):
    return it.word == "join" and any(
        not key.of_join or not it.world.is_alive(key) for key in it.reached if not key.gone)


def same_session(it):
    return it.word == "join" and it.linux == 0


def two_matches(it):
    """Several keys could be the answer, below the keyring that has one first; a link of either may be refused."""
    world = it.world
    if (isinstance(it.linux, str) or isinstance(it.here, str)) and not it.places(MAKING):
        return False
    for head in it.heads:
        found = {key for key in world.below(head) if key.match == it.match and world.is_alive(key)}
        if found:
            return len(found) > 1
    return False


def head_counts(it):
    """A search below which something is possessed and something isn't, or a keyring that -4 or -5 names."""
    if it.word not in ("search", "request"):
        return False
    possessed = it.world.possessed()
    below = {key for head in it.heads for key in it.world.below(head) if key.is_ring or key.match == it.match}
    return 0 < len(below & possessed) < len(below) or bool({"@u", "@us"} & set(it.words[:1]) and below - possessed)


def reads(it):
    return it.word == "print"


def reads_by_special(it):
    return it.word == "print" and it.words[0].startswith("@")


def unknown_type(it):
    return it.word in ("add", "search", "request") and it.match[0] not in TYPES


def order_of_add(it):
    """A type, name or payload that is refused here before the keyring is looked up."""
    if it.word not in ("add", "newring"):
        return False
    type_, name, data = (*it.words[:3],) if it.word == "add" else ("keyring", it.words[0], "")
    length = len(data) // 2 - 2 if data.startswith("hex:") else len(data)
    return (type_ not in TYPES or (type_ == "keyring") != (length == 0) or length > 32767 or len(name) > 4095
            or type_ == "logon" and name.find(":") < 1 or type_ == "keyring" and name[0] == ".")


def destination(it):
    at = {"search": 3, "request": 2}.get(it.word)
    if at is None or len(it.words) <= at:
        return False
    to = it.world.key(it.words[at])
    return bool(to) and not to.is_ring


def closed_match(it):
    return bool(updated(it)) and it.world.key(it.words[3]).closed


def in_place(it):
    if it.word != "move":
        return False
    return it.world.key(it.words[1]) is it.world.key(it.words[2]) is not None


def held(it):
    return it.held and (it.world.executed or it.world.left)


def lost_attachment(it):
    """An invalidated thread, process or session keyring."""
    lost = it.world.context.lost
    return (it.held and any(key.kept for key in it.world.keys) or any(
        key.kept for key in (it.reached if it.word == "join" else it.named)) or bool(
        lost and (lost & set(it.words) or it.word in ("request", "join"))))


def unsearchable(it):
    """A key that is possessed, and may not be searched."""
    world = it.world
    if not world.context:
        return False
    return any(key in world.possessed() and not world.rights(key) & SEARCH for key in it.reached)


def no_group_byte(it):
    world = it.world
    it_ = world.context
    return any(key.uid != it_.uid and not key.mask & 0x3F00 and (key.gid == it_.gid or key.gid in it_.groups)
               for key in it.reached)


def by_number(it):
    """-4 or -5 where it isn't possessed."""
    world = it.world
    named = [world.attached(word) for word in it.ids if word in ("@u", "@us")]
    return any(key and key not in world.possessed() for key in named)


def later_process_ring(it):
    """A process keyring that was made behind a thread; a thread keyring for a new thread."""
    world, context = it.world, it.world.context
    split = [process.ring for process in {other.process for other in world.contexts.values()} if process.split]
    return (context.given and ("@t" in it.words or it.word == "request")
            or context.process.split and ("@p" in it.words or it.word == "request")
            or any(ring and set(it.reached) & set(world.below(ring)) for ring in split))


def long_update(it):
    return it.word == "update" and len(it.words[1]) > 4096


def nested(it):
    world = it.world
    if it.word not in ("link", "move", "search", "request"):
        return False
    keys = it.named + it.matches
    return any(key.is_ring and max(world.below(key).values()) >= 4 for key in keys)


def wrong_mask(it):
    return it.word == "setperm" and bool(int(it.words[1], 16) & ~0x3F3F3F3F)


def big_ids(it):
    return it.word == "rdescribe" and any(max(key.uid, key.gid) > 0x7FFFFFFF for key in it.named)


def follows_first(it):
    """A thread whose session is that of its process's first, which joined another later or wasn't its maker."""
    world = it.world
    return world.of_calls and (world.context.strays or it.here == "ENOKEY" and any(
        other.strays for other in world.contexts.values()))  # what only that thread's own session keeps in Linux


def unnamed_session(it):
    return it.world.of_calls and (it.match[-1:] == ("_ses",) or any(
        key.of_join and key.name == "_ses" for key in it.named))


def restricts_by_type(it):
    return it.word == "restrict" and len(it.words) > 1


def no_name(it):
    return it.word in ("add", "search", "request", "newring") and it.match[-1] == EMPTY


def session_left(it):
    return it.world.of_calls and any(key.gone for key in it.reached)


def first_ended(it):
    return it.world.of_calls and it.world.left


def notes_of_closing(it):
    """Without setattr notes of closed keyrings both have the same."""
    def others(notes):
        return [note for note in notes if not (note[0] == SETATTR and note[2] != "?" and note[2].closed)]

    return it.word == "readq" and isinstance(it.linux, list) and others(it.linux) == others(it.here)


def watch_holds(it):
    """A key that is gone here, where somebody has set a watch."""
    return it.held and any(key.watches for key in it.world.keys)


def full(it):
    """A keyring with as many links as it may have here."""
    return it.word in ("add", "newring", "link", "move") and it.world.key(it.words[-1]).full


class Rule(NamedTuple):
    """`page` is the rule's name in PROFILE.md, whose table has what is done `there`, in Linux, and `here`, and where in
    the kernel's code. `whose`: `Linux` departs from the manual that is named; `open` is what no manual says; by
    `manual` Linux does what the manual that is named says, or is nearer to it. `state` says where the rule holds,
    `linux` and `mine` what is answered then: names of errors, `ok`, `error` for any, `*` for anything. `parts`: a line
    in that state leaves the two apart whatever they answer. `of_calls`: where system calls are answered. `of_notes`:
    where the kernel has notes."""

    page: str
    state: Callable
    linux: str
    mine: str
    there: str
    here: str
    code: str
    whose: str
    probe: str
    parts: bool = False
    of_calls: bool = False
    of_notes: bool = False


H = "hello 1000 1000; "
C = f"hello {OF_SESSION} {OF_SESSION}; join; "
# A key that is two keyrings deep on one side and one deep on the other, and the other way round.
BOTH_WAYS = "; ".join(["", "newring h1 @s", "newring a $2", "newring c $2", "newring x $3", "add user k deep $5",
                       "add user k flat $4", "newring h2 @s", "newring a $8", "newring c $8", "newring x $10",
                       "add user k flat $9", "add user k deep $11", "search $2 user k", "search $8 user k"])
NESTED = "; ".join(["newring r1 @u", *(f"newring r{at} ${at - 1}" for at in range(2, 8)), "link $1 @t"])

RULES = {
    "S1": Rule(
        "threads of a supervisor", follows_first, "*", "*", "keeps the session that it was made with",
        "a thread that has joined none has that of its process's first", "cred.c, copy_creds", "open",
        C + "join a; thread; join b; context 2; id @s", of_calls=True),
    "S2": Rule(
        "names of sessions", unnamed_session, "*", "*", "`_ses`", "`_ses.` and 32 digits",
        "process_keys.c, install_session_keyring_to_cred", "open", C + "rdescribe @s", of_calls=True),
    "S4": Rule(
        "threads of a supervisor", first_ended, "*", "EKEYREVOKED EACCES ENOKEY",
        "has its session also where its maker's first thread ends", "EKEYREVOKED, where it hasn't asked before",
        "cred.c, copy_creds", "open", C + "join a; thread; fork; exit; context 3; update @s x", of_calls=True),
    "S3": Rule(
        "sessions that are left", session_left, "*", "*", "gone at once", "gone some seconds later", "key.c, key_put",
        "open", C + "join a; join b; rdescribe $2", of_calls=True),
    "S5": Rule(
        "closed keyrings", restricts_by_type, "error", "error",
        "RESTRICT_KEYRING with a type: EINVAL after the look-up", "before it", "keyctl.c, keyctl_restrict_keyring",
        "open", C + "restrict 999 keyring", of_calls=True),
    "S6": Rule(
        "empty description", no_name, "error", "error",
        "ADD: EINVAL after the look-up of the ring; SEARCH and REQUEST: nothing is found, after all look-ups",
        "EINVAL, or by a client ENOKEY, first", "key.c, key_create_or_update", "open", C + "add user '' x 999",
        of_calls=True),
    "U3": Rule(
        "first session keyring", has_no_session, "*", "*",
        "where none was joined, the first ask on -3 that may make something makes a new session keyring, also if it"
        " is refused", "it changes the user-session keyring, which all contexts of the uid share",
        "process_keys.c, lookup_user_key", "manual: session-keyring(7)", H + H + "id @us; add user k s @s; print @us",
        parts=True),
    "K19": Rule(
        "made on demand", makes_more, "*", "*",
        "also by CLEAR, SETPERM, CHOWN, SET_TIMEOUT and as the key of LINK and MOVE",
        "ENOKEY: made by GET_ID with creation, as a destination, and as the keyring into which ADD, LINK or MOVE links",
        "keyctl.c, KEY_LOOKUP_CREATE", "open", H + "clear @t", parts=True),
    "K33": Rule(
        "mask bits", wrong_mask, "EINVAL", "error", "EINVAL before the look-up", "EINVAL after it",
        "keyctl.c, keyctl_setperm_key", "open", H + "setperm 999 40000000"),
    "K29": Rule(
        "update range", long_update, "EINVAL", "*", "UPDATE above 4096 bytes is EINVAL, before the look-up",
        "it takes 32767", "keyctl.c, keyctl_update_key", "Linux: keyctl(2)",
        H + "add user k v @u; update $1 " + "x" * 4097),
    "T2": Rule(
        "great ids", big_ids, "ok", "ok", "DESCRIBE tells a uid or gid above 2147483647 as negative", "as it is",
        "keyctl.c, keyctl_describe_key", "Linux: keyctl(2)",
        "hello 3000000005 3000000007; id @t create; rdescribe @t"),
    "T1": Rule(
        "group of user keyrings", of_group, "*", "*",
        "none: DESCRIBE tells 65534, and the group byte counts for nobody",
        "the gid of the uid's first context, whichever client's",
        "process_keys.c, look_up_user_keyrings", "open", H + "id @u; setperm @u 1f3f3f00; hello 1001 1000; print $1"),
    "F4": Rule(
        "known types", unknown_type, "*", "ENODEV",
        "SEARCH and REQUEST: ENOKEY, after all look-ups; ADD: ENODEV after that of the ring", "ENODEV first",
        "key.c, key_type_lookup", "open", H + "request trusted k"),
    "F5": Rule(
        "order of an ADD", order_of_add, "error", "error",
        "look-up of the ring, ENODEV, ENOTDIR, EINVAL of payload, EPERM, EINVAL of a `logon` description",
        "ENODEV and EINVAL first", "key.c, key_create_or_update", "open", H + "add keyring r x 999"),
    "U6": Rule(
        "joining by name", same_session, "ok", "ok", "JOIN of the session that one has answers 0", "its serial",
        "process_keys.c, join_session_keyring", "Linux: keyctl(2)", H + "join work; setperm @s 3f1b0000; join work"),
    "U8": Rule(
        "moves in place", in_place, "ok", "*", "accepted also where the key isn't linked", "ENOENT",
        "keyring.c, key_move", "open", H + "add user k v @t; move $1 @us @us"),
    "U9": Rule(
        "closed keyrings", closed_match, "EPERM", "*", "ADD on a match in a closed keyring is EPERM",
        "it updates the match", "key.c, key_create_or_update", "Linux: keyctl(2)",
        H + "newring r @u; add user k v $1; restrict $1; add user k w $1"),
    "U1": Rule(
        "place of a link", other_match, "*", "*", "UNLINK and MOVE take out another key of equal type and description",
        "ENOENT", "keyring.c, __key_unlink_begin", "Linux: keyctl(2)",
        H + "newring a @u; add user k 1 $1; add user k 2 @u; unlink $3 $1"),
    "N1": Rule(
        "closed keyrings", notes_of_closing, "*", "*", "RESTRICT_KEYRING gives a setattr note", "none",
        "keyring.c, keyring_restrict", "open",
        H + "newring r @u; watch $1 1 1; restrict $1; readq 1 65536", of_notes=True),
    "N2": Rule(
        "watches hold nothing", watch_holds, "*", "*",
        "a watch keeps the thread, process and session keyrings of its maker alive", "they drop",
        "kernel/watch_queue.c, add_watch_to_object", "open",
        H + "join a; watch @u 1 1; join b; rdescribe $1", of_notes=True),
    "U13": Rule(
        "full keyrings", full, "*", "ENFILE", "no limit of links", "ENFILE from 65535 on, but where one is displaced",
        "keyring.c, __key_link_begin", "Linux: keyctl(2)", H + "newring r @u; fill 65535 $1; add user more v $1"),
    "U14": Rule(
        "user keyrings stay", made_anew, "*", "*", "one that was invalidated is made anew at the next look-up",
        "ENOKEY, until the last context of the uid has ended", "process_keys.c, look_up_user_keyrings",
        "manual: user-keyring(7)", H + "invalidate @u; " + H + "id @u"),
    "U15": Rule(
        "user keyrings stay", outlives, "*", "*",
        "they stay, with what they link, when the uid's last process has ended", "they drop with its last context",
        "process_keys.c, look_up_user_keyrings", "Linux: user-keyring(7)",
        H + "id @u; hello 1001 1001; context 1; exit; context 2; print $1"),
    "U16": Rule(
        "user keyrings stay", not_entered, "*", "*",
        "there are none before something names one, and REQUEST makes none", "HELLO makes them",
        "process_keys.c, get_user_session_keyring_rcu", "manual: user-keyring(7)",
        H + "request keyring _uid_ses.1000"),
    "U11": Rule(
        "invalidated at once", lost_attachment, "*", "*",
        "an invalidated thread, process or session keyring stays attached, and none is made in its place",
        "another is made", "process_keys.c, lookup_user_key", "Linux: thread-keyring(7)",
        H + "id @t create; invalidate @t; id @t create"),
    "U10": Rule(
        "exec ends the others", held, "*", "*",
        "the old keyrings live on while the program runs, as its file was opened with them; so do those of a first "
        "thread that ends before the others", "they drop", "exec.c, do_open_execat", "Linux: process-keyring(7)",
        H + "add user k v @t; exec; rdescribe $1"),
    "U12": Rule(
        "refusals change nothing", keeps_made, "*", "*",
        "a refused ask leaves the thread or process keyring that it made", "nothing is made",
        "process_keys.c, lookup_user_key", "open", H + "add logon a v @t; id @t"),
    "K28": Rule(
        "late process keyring", later_process_ring, "*", "*",
        "older threads don't get it; a new thread gets a thread keyring where its maker has one",
        "all contexts of the process share it; THREAD and FORK give none", "process_keys.c, copy_creds",
        "Linux: process-keyring(7)",
        H + "thread; id @p create; context 2; id @p"),
    "U5": Rule(
        "user keyrings stay", spoilt, "ENOKEY", "*",
        "where one of the two is dead, or its mask keeps its user from a search, -4 and -5 are both ENOKEY",
        "the other stays good", "process_keys.c, look_up_user_keyrings", "Linux: keyctl(2)",
        H + "id @u; revoke @us; id @u"),
    "P2": Rule(
        "dead matches are displaced", revives, "*", "*", "ADD on an expired match updates and revives it",
        "a new key displaces it, as it does a revoked match and a keyring", "keyring.c, find_key_to_update",
        "manual: core.rst",
        H + "add user k v @u; timeout $1 1; wait 1; add user k w @u"),
    "U2": Rule(
        "possession of a match", updates, "*", "*", "ADD on a match needs WRITE on it with the keyring's possession",
        "with its own: a second ADD to -4 is EACCES in a session that doesn't link it",
        "keyring.c, find_key_to_update", "open", H + "join; add user k one @u; add user k two @u"),
    "U7": Rule(
        "joining by name", any_ring_of_name, "*", "*",
        "JOIN takes any keyring of that name, also one that ADD made, a user keyring or an expired one",
        "those that JOIN made", "keyring.c, find_keyring_by_name", "manual: keyctl(2)",
        H + "newring work @u; setperm $1 3f3f0000; join work"),
    "F6": Rule(
        "order of a search's refusals", destination, "error", "ENOTDIR",
        "ENOTDIR of a destination only where a key was found", "before the search", "keyring.c, __key_link_begin",
        "open", H + "add user k v @u; search @u user z $1"),
    "F3": Rule(
        "order of a look-up", reads, "error", "error",
        "READ: all faults of the look-up are ENOKEY; EACCES and EOPNOTSUPP go before death", "as for every ask",
        "keyctl.c, keyctl_read_key", "Linux: keyctl(2)", H + "print 0"),
    "F7": Rule(
        "reading by possession", reads_by_special, "ok", "EACCES",
        "what a special id names is read without READ and SEARCH", "EACCES", "keyctl.c, keyctl_read_key",
        "Linux: keyctl(2)", H + "join; setperm @s 25000000; print @s"),
    "K27": Rule(
        "numbers of user keyrings aren't possessed", by_number, "*", "EACCES ENOKEY EKEYREVOKED EKEYEXPIRED",
        "-4 and -5 are possessed for the call, with what they link",
        "by levels alone: where none has them the other bytes of their masks count",
        "process_keys.c, lookup_user_key", "open",
        H + "join; setperm @u 1f000000; id @u"),
    "K26": Rule(
        "group byte counts alone", no_group_byte, "*", "*", "a group byte 00 falls back to the other byte",
        "it counts", "permission.c, key_task_permission", "Linux: keyrings(7)",
        H + "add user k v @u; setperm $1 3f3f003f; hello 1001 1000; rdescribe $1"),
    "K25": Rule(
        "possession without rights", unsearchable, "*", "*", "a key without SEARCH isn't possessed",
        "it is, but the links of such a keyring don't count", "process_keys.c, lookup_user_key", "manual: keyrings(7)",
        H + "join; add user k v @s; setperm $2 37000000; rdescribe $2"),
    "K30": Rule(
        "nesting depth", nested, "*", "*", "ELOOP from 7 nested links on, and for deep cycles",
        "from 6 on, and EDEADLK", "keyring.c, keyring_detect_cycle", "open", H + NESTED),
    "K32": Rule(
        "order of a search", two_matches, "ok EDEADLK ELOOP EACCES", "ok EDEADLK ELOOP EACCES",
        "one keyring, then depth-first by hash",
        "breadth-first by link order", "keyring.c, search_nested_keyrings", "Linux: keyrings(7)",
        H + "join" + BOTH_WAYS),
    "P1": Rule(
        "expired keyrings are not followed", expired_ring, "*", "*", "its links are followed",
        "they aren't, neither for possession nor in a search",
        "keyring.c, search_nested_keyrings", "open",
        H + "join; newring r @s; add user k v $2; timeout $2 1; wait 1; search @s user k"),
    "P3": Rule(
        "possessor byte", head_counts, "*", "*", "in a search the head's possession counts for all below",
        "each key's own", "keyring.c, keyring_search_iterator", "open",
        H + "join; newring r @s; setperm $2 3f3f0000; add user k v $2; setperm $3 3f000000; link $3 @s; link $2 @u;"
        " unlink $2 @s; search $2 user k"),
    "F1": Rule(
        "three keyrings of a request", dead_in_request, "error", "error",
        "an expired match is skipped; a dead or unsearchable one is the fault only where each attached keyring has "
        "one", "faults are joined", "process_keys.c, search_cred_keyrings_rcu", "Linux: request_key(2)",
        H + "join; add user k v @s; timeout $2 1; wait 1; request user k"),
    "F2": Rule(
        "fault of a search", dead_in_search, "error", "error", "that of the match seen last",
        "EKEYREVOKED before EKEYEXPIRED before EACCES, whatever the order of the matches",
        "keyring.c, keyring_search_iterator", "open",
        H + "join; add user k v @s; revoke $2; newring r @s; add user k w $3; timeout $4 1; wait 1; search @s user k"),
}


def table():
    """The lines of PROFILE.md's table, by the names of the rules."""
    rows = [f"| {it.page} | {it.there} | {it.here} | {it.whose} | {it.code} |" for it in RULES.values()]
    return ["| Rule | Linux | Here | Whose | In the kernel's code |", "|---|---|---|---|---|", *sorted(rows)]


def fits(pattern, answer):
    name = answer if isinstance(answer, str) else "ok"
    return pattern == "*" or name in pattern.split() or pattern == "error" and isinstance(answer, str)


def explaining(line):
    """The first rule that explains a difference."""
    return next((name for name, it in RULES.items() if name in line.world.strayed or it.of_calls <= line.world.of_calls
                 and fits(it.linux, line.linux) and fits(it.mine, line.here) and it.state(line)), None)


def parting(line):
    """The rule by which a line would leave the two apart."""
    return next((name for name, rule in RULES.items() if rule.parts and rule.state(line)), None)


def goes_on(play, line):
    """Whether the two stay together over a difference: nothing changes, or the same."""
    finds = line.word in ("search", "request") and not line.places(MAKING)
    if line.refused or finds or line.word in ("print", "rdescribe", "readq"):
        return True
    if line.word == "join" and line.linux == 0 and isinstance(line.here, Key):
        play.world.accept("join", line.words, line.here)
        return True
    return line.word == "id" and len(line.words) < 2
