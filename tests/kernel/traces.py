"""Short scripts in which both sides answer the same, as text: what each line asks, and what is answered."""
import collections

from sides import RINGS, serials
import scripts

LINES, CONTEXTS, LONGEST, DRAWN = 14, 3, 60, 15
LEFT = 4294967295
HEAD = """\
Each trace is on a store of its own, and its answers are those that Linux gave and keyretain gives. A line is
    MOMENT CONTEXT ASK FIELD .. -> REPLY
with the asks and the fields of FORMAT.md in their order: numbers decimal, texts as they are, payloads in hexadecimal
(`-` for none), `-` for no name, a destination 0 for none, groups behind their count. A serial is keyretain's, for which
Linux gave another number. REPLY is `error NUMBER NAME`, `nothing`, `context N`, `serial N`, `bytes HEX`, or of a
keyring `serials N ..` in keyretain's order, of which Linux gave the same set."""


class Teller:
    """Tells a script's lines, with keyretain's serials."""

    def __init__(self, play, epoch):
        self.play, self.epoch = play, epoch

    def id(self, word):
        return str(RINGS.get(word) or self.play.serial(self.play.of_here)(word))

    def tell(self, line):
        """The ask of a line, before it is played; None for one that asks nothing."""
        word, *words = line.split()
        if word in ("wait", "context"):
            return None
        world = self.play.world
        context = 0 if word == "hello" else world.current
        return f"{self.epoch + world.now} {context} {getattr(self, f'tell_{word}', self.tell_ids)(word, words)}"

    @staticmethod
    def data(word):
        data = bytes.fromhex(word[4:]) if word.startswith("hex:") else word.encode()
        return data.hex() or "-"

    def tell_ids(self, word, words):
        names = {"print": "READ", "rdescribe": "DESCRIBE", "restrict": "RESTRICT_KEYRING"}
        return " ".join([names.get(word, word.upper()), *map(self.id, words)])

    def tell_hello(self, _, words):
        return " ".join(["HELLO", *words[:2], str(len(words) - 2), *words[2:]])

    def tell_add(self, _, words):
        return f"ADD {words[0]} {words[1]} {self.data(words[2])} {self.id(words[3])}"

    def tell_newring(self, _, words):
        return f"ADD keyring {words[0]} - {self.id(words[1])}"

    def tell_id(self, _, words):
        return f"GET_ID {self.id(words[0])} {len(words) - 1}"

    def tell_join(self, _, words):
        return f"JOIN {words[0] if words else '-'}"

    def tell_update(self, _, words):
        return f"UPDATE {self.id(words[0])} {self.data(words[1])}"

    def tell_chown(self, _, words):
        return f"CHOWN {self.id(words[0])} {words[1]} {LEFT}"

    def tell_chgrp(self, _, words):
        return f"CHOWN {self.id(words[0])} {LEFT} {words[1]}"

    def tell_setperm(self, _, words):
        return f"SETPERM {self.id(words[0])} {int(words[1], 16)}"

    def tell_timeout(self, _, words):
        return f"SET_TIMEOUT {self.id(words[0])} {words[1]}"

    def tell_move(self, _, words):
        return f"MOVE {' '.join(map(self.id, words[:3]))} {len(words) - 3}"

    def tell_search(self, _, words):
        return f"SEARCH {self.id(words[0])} {words[1]} {words[2]} {self.id(words[3]) if len(words) > 3 else 0}"

    def tell_request(self, _, words):
        return f"REQUEST {words[0]} {words[1]} {self.id(words[2]) if len(words) > 2 else 0}"


def reply(word, here, is_ring, numbers):
    """What is answered, as text."""
    if isinstance(here, str):
        return f"error {numbers[here]} {here}"
    if here is None:
        return "nothing"
    if word in ("hello", "thread", "fork"):
        return f"context {here}"
    if isinstance(here, int):
        return f"serial {here}"
    if word == "print" and is_ring:
        return " ".join(["serials", *map(str, serials(here, "<"))])
    return f"bytes {here.hex() or '-'}"


def drawn(drawer):
    """A line that is short."""
    for _ in range(50):
        line = drawer.draw()
        if len(line) < LONGEST and not (drawer.waiting and drawer.waiting[0] == "exec"):
            return line
    return "id @s"


def choose(traces, count):
    """Those that show most pairs of ask and outcome that the others don't."""
    seen, chosen = collections.Counter(), []
    while traces and len(chosen) < count:
        best = max(traces, key=lambda it: sum(1 / (1 + seen[pair]) ** 2 for pair in it[1]))
        traces.remove(best)
        chosen.append(best[0])
        seen.update(best[1])
    return chosen, seen
