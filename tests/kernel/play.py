"""A script on both sides, line by line."""
import time

from sides import BYTES, CAPACITY, NUMBERED, PATIENCE, QUEUES, records, serials
from lines import RINGS
from rules import MAKING, Line
from world import Key, World

EPOCH = 1_000_000  # the moment here at which scripts begin
TICK = 0.012  # seconds, the most by which the kernel's count of seconds is late
SETTLED = 8  # times that the kernel is waited for, at least
REMOVAL = 0  # WATCH_TYPE_META, WATCH_META_REMOVAL_NOTIFICATION


class Late(Exception):
    """A second went by that no line waited for."""


class Difference(Exception):
    """A line that the two answer otherwise."""

    def __init__(self, line, linux, here):
        super().__init__(f"{line[:100]}: Linux {show(linux)}, here {show(here)}")
        self.line, self.linux, self.here = line, linux, here


def show(answer):
    if isinstance(answer, (bytes, str)):
        text = answer.decode("latin-1") if isinstance(answer, bytes) else answer
        return repr(text) if len(text) < 80 else f"{text[:60]!r} .. {len(text)} bytes"
    if isinstance(answer, (list, tuple)):
        return " ".join(map(show, answer)) if isinstance(answer, list) else f"({', '.join(map(show, answer))})"
    return "ok" if answer is None else f"${answer.number}" if isinstance(answer, Key) else str(answer)


class Play:
    """Carries lines out. `linux` and `here` have the keys by serials of either side."""

    def __init__(self, kernel, other, pace=1, of_calls=False):
        self.world, self.pace = World(of_calls), pace
        self.linux, self.here = {}, {}  # keys by serial
        self.of_linux, self.of_here = {}, {}  # serials by key
        self.places = {}  # contexts there and here by the number of a context in the script
        self.seconds = {}  # of the kernel's clock, by the script's
        self.buried, self.kept = set(), set()  # keys that are gone here, and known to be gone there too, or to be kept
        self.last = None, None
        self.held = False  # whether the line names a key that is kept
        self.kernel, self.other = kernel, other
        self.other.set_moment(EPOCH)
        self.has_notes = kernel.notes and not of_calls
        for _ in QUEUES if self.has_notes else ():
            self.other.say(f"open {CAPACITY}")

    def end(self):
        self.kernel.end()
        self.other.end()

    # ---- Pairs of serials

    def pair(self, key, linux, here):
        """Takes a key down by both serials, and gives it the next number."""
        self.linux[linux], self.here[here] = key, key
        self.of_linux[key], self.of_here[key] = linux, here
        key.number = len(self.linux)
        self.world.numbered[key.number] = key

    def serial(self, of):
        def found(word):
            if word in RINGS:
                return RINGS[word]
            return of[self.world.numbered[int(word[1:])]] if word.startswith("$") else int(word)
        return found

    # ---- Lines

    def play(self, line):
        """Carries a line out on both sides; raises where they differ. Returns what Linux answers."""
        word, *words = line.split()
        if word == "wait":
            return self.wait(int(words[0]))
        if word == "context":
            self.world.current = int(words[0])
            return None
        if word in ("hello", "thread", "fork", "exec", "exit"):
            return self.control(word, words)
        if self.world.context is None or self.world.context.ended:
            return None
        there, mine = self.places[self.world.current]
        if word == "fill":
            return self.fill(there, mine, *words)
        here = self.other.answer(mine, word, words, self.serial(self.of_here))
        if {"@u", "@us", "@s"} & set(words):
            self.world.entered.add(self.world.context.uid)
        self.bury(word, words)
        if word == "timeout":
            words = [words[0], self.timeout(int(words[1]))]
        linux = self.kernel.answer(there, word, words, self.serial(self.of_linux))
        if self.world.now + 1 in self.seconds and time.time() >= self.seconds[self.world.now + 1]:
            raise Late()
        if word == "invalidate" and linux is None:
            self.kernel.collect()
        self.last = linux, here
        linux = self.judge(line, linux, here)
        self.await_notes()
        return linux

    def fill(self, there, mine, count, ring):
        """Adds many keys to a keyring, of which no more is known than that it is full."""
        linux = self.kernel.fill(there, int(count), self.serial(self.of_linux)(ring))
        here = self.other.fill(mine, int(count), self.serial(self.of_here)(ring))
        if linux or here:
            raise Difference(f"fill {count} {ring}", linux, here)
        self.world.key(ring).full = True

    def judge(self, line, linux, here):
        """Whether both answers are one; then what the line changes is taken down."""
        word, *words = line.split()
        if word == "readq":
            there, mine = self.notes(linux, "=", self.linux), self.notes(here, "<", self.here)
            if there != mine:
                raise Difference(line, there, mine)
            return linux
        if isinstance(linux, str) or isinstance(here, str):
            if isinstance(linux, str) and isinstance(here, str):
                self.made(word, words)
            if linux != here:
                raise Difference(line, linux, here)
            return linux
        if word in BYTES:
            self.compare_bytes(line, linux, here)
            return linux
        key = None
        if word in NUMBERED:
            key = self.here.get(here)
            if self.linux.get(linux) is not key or linux == 0 or word == "join" and self.may_be_another(words, key):
                raise Difference(line, self.linux.get(linux, linux), key or here)
        made = self.world.accept(word, words, key or self.unpaired(word, words))
        if word in NUMBERED and key is None:
            self.pair(made, linux, here)
        elif key is not None and made is not key:
            raise AssertionError(f"the world has lost its way: {line}, {made}, {key}")
        return linux

    def made(self, word, words):
        """Takes down what a refused line makes in Linux."""
        missing = Line(self.world, word, words).missing(MAKING)
        self.world.context.made_there |= "@t" in missing
        self.world.context.process.made_there |= "@p" in missing

    def may_be_another(self, words, key):
        """Whether JOIN may have come upon a keyring that no line has answered."""
        return key is None and any(it.match == ("keyring", *words) and not it.number and not it.gone
                                   for it in self.world.keys)

    def unpaired(self, word, words):
        """The key that a search answers, where no line has answered it yet."""
        if word not in ("search", "request"):
            return None
        found = Line(self.world, word, words).matches + self.world.keys
        match = tuple(words[1:3] if word == "search" else words[:2])
        return next((key for key in found if not key.number and not key.gone and key.match == match), None)

    def compare_bytes(self, line, linux, here):
        word, *words = line.split()
        key = self.world.key(words[0]) if not words[0].isdigit() else None
        if word != "print" or key is None or not key.is_ring:
            if linux != here:
                raise Difference(line, linux, here)
            return
        there, mine = serials(linux, "="), serials(here, "<")
        if there is None or mine is None or len(there) != len(mine):
            raise Difference(line, [self.linux.get(it, it) for it in there or []],
                             [self.here.get(it, it) for it in mine or []])
        lone = [it for it in there if it not in self.linux], [it for it in mine if it not in self.here]
        if len(lone[0]) == len(lone[1]) == 1:
            unnamed = [it for it in key.links.values() if not it.number]
            self.pair(unnamed[0], lone[0][0], lone[1][0])
        if {self.linux.get(it) for it in there} != {self.here.get(it) for it in mine}:
            raise Difference(line, [self.linux.get(it, it) for it in there], [self.here.get(it, it) for it in mine])

    def notes(self, data, order, keys):
        """Notes with keys for serials, without removal records of keys that Linux keeps, or whose serial no line has
        answered, so that nobody can tell."""
        if isinstance(data, str):
            return [] if data == "EAGAIN" else data
        found = [(kind, info, *[keys.get(it, "?" if it else 0) for it in those])
                 for kind, info, *those in records(data, order)]
        return [it for it in found if it[0] != REMOVAL or it[2] not in self.kept | {"?"}]

    def control(self, word, words):
        """Contexts that come and go."""
        number, sides = len(self.places) + 1, (self.kernel, self.other)
        if word == "hello":
            self.places[number] = [side.hello(words) for side in sides]
        else:
            here = self.places[self.world.current]
            if word in ("thread", "fork"):
                self.places[number] = [side.make(place, word) for side, place in zip(sides, here)]
            else:
                for side, place in zip(sides, here):
                    side.control(place, word)
        self.last = number, number
        self.world.accept(word, words, None, number)
        self.await_notes()

    # ---- What the kernel does later

    def bury(self, word, words):
        """Waits until the kernel has let go what is gone here, where a line could come upon it."""
        gone = {self.world.key(it) for it in words if it.startswith("$") and self.world.key(it).gone}
        if word == "join" and words:
            gone = {key for key in self.world.keys if key.gone and key.match == ("keyring", words[0])}
        self.await_gone(gone)
        self.held = bool(gone & self.kept)

    def await_notes(self):
        """Waits for the removal records of watched keys, which come a little after these have gone."""
        gone = {key for key in self.world.keys if key.gone and key.watched} - self.buried - self.kept
        if self.has_notes and gone:
            self.await_gone({key for key in gone if key.number})
            self.kernel.collect()
            self.buried |= gone - self.kept

    def await_gone(self, gone):
        """Waits until the kernel has let go these keys, or has kept them so long that something must hold them."""
        for key in gone - self.buried - self.kept:
            # where nothing is known to keep it, it goes however busy the machine is
            until = time.monotonic() + (0 if self.world.keeps else PATIENCE)
            at = 0
            # one whose serial no line has answered can't be looked for
            while is_kept := self.kernel.is_there(self.of_linux[key]) if key.number else at < SETTLED / 2:
                if at >= SETTLED and time.monotonic() > until:
                    break
                self.kernel.settle()
                at += 1
            (self.kept if is_kept else self.buried).add(key)

    # ---- Time

    def timeout(self, seconds):
        """The seconds after which a key expires there: each second of the script's has one of the kernel's clock."""
        if not 0 < seconds < 100:
            return str(seconds)
        if time.time() % 1 < TICK:
            time.sleep(TICK)
        now = time.time()
        first = self.world.now + 1
        if first not in self.seconds:
            start = int(now) + self.pace + (now % 1 > 0.6)
            for at in range(3):
                self.seconds.setdefault(first + at, start + at * self.pace)
        due = self.seconds.get(self.world.now + seconds) or self.seconds[first] + (seconds - 1) * self.pace
        self.seconds.setdefault(self.world.now + seconds, due)
        if due <= now:
            raise Late()
        return str(due - int(now))

    def wait(self, seconds):
        self.world.now += seconds
        self.other.set_moment(EPOCH + self.world.now)
        due = max((due for at, due in self.seconds.items() if at <= self.world.now), default=0)
        time.sleep(max(0, due + TICK - time.time()))
        self.seconds = {at: due for at, due in self.seconds.items() if at > self.world.now}
