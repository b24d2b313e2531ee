"""noise.py [SEED CONNECTIONS]: the Python client against servers that answer at random: wrong lengths, tags and
statuses, frames that are cut short, bytes that nobody asked for, time-outs and ends. Whatever comes, a call answers, or
raises what the package says; an answer is of the call's own ask; and no more is kept than a frame. The same seed gives
the same run. Prints a line for each fault, how many asks were made, and last how many were compared."""
import collections
import inspect
import random
import struct
import sys

from servers import compare, conclude, keyretain, number, reply
from keyretain import connection

DOCUMENTED = (keyretain.Refused, keyretain.Lost, keyretain.Malformed, TimeoutError)
CALLS = [name for name, method in vars(keyretain.Client).items()
         if inspect.isfunction(method) and not name.startswith("_")
         and name not in ("ask", "send", "receive", "close", "peer", "notes", "notes_async")]
LONGEST = 4 + keyretain.LONGEST_REPLY
WORDS = {"type": "user", "description": "some", "payload": b"s3", "entries": [(1, 0, 0, 2, 0, 0, 0, 0, 0, 0, 0)],
         "mask": 0x3F3F0000, "capacity": 4, "buffer": bytearray(64)}


class Server:
    """Stands in the place of a socket and of its poll. `sent` has the bodies that went out for each tag, as long as all
    that went out were frames."""

    def __init__(self, dice):
        self.dice, self.out, self.sent = dice, bytearray(), collections.defaultdict(list)
        self.sends_frames = True

    def fileno(self):
        return -1

    def close(self):
        pass

    def register(self, *_):
        pass

    def poll(self, _):
        return [] if self.dice.random() < 0.01 else [(3, 1)]

    def body_of(self, name):
        """A body as it should be, or something like it."""
        dice, form = self.dice, keyretain.ASKS[name].answer
        body = {"number": dice.randbytes(4), "serial": self.serial(), "nothing": b"",
                "bytes": dice.randbytes(4 * dice.randrange(9))}[form]
        if name == "READ_QUEUE" and dice.random() < 0.8:
            body = b"".join(self.record() for _ in range(dice.randrange(4)))
        return body + dice.randbytes(dice.randrange(6)) if dice.random() < 0.05 else body

    def serial(self):
        return self.dice.randbytes(4) if self.dice.random() < 0.1 else number(self.dice.randrange(1, 1 << 31))

    def record(self):
        dice = self.dice
        word = dice.choice((1, 1, 1, 0, 2)) | dice.choice((0, 1, 2, 7, 8, 255)) << 24
        info = dice.choice((16, 16, 16, 8, 0, 127)) | dice.randrange(256) << 8
        return struct.pack("<IIII", word, info, 5, 6)[:dice.choice((16, 16, 16, 16, 8, 5))]

    def send(self, piece, _):
        """One whole ask, or a part, of which the rest comes next."""
        dice = self.dice
        if (chance := dice.random()) < 0.01:
            raise BrokenPipeError(32, "gone")
        if chance < 0.02:
            raise BlockingIOError(11, "full")
        if chance < 0.03 and len(piece) > 1:
            return dice.randrange(1, len(piece))
        if len(piece) >= 12:
            self.answer(piece)
        return len(piece)

    def answer(self, ask):
        dice = self.dice
        _, version, operation, _ = struct.unpack_from("<IHHI", ask)
        name = keyretain.name_of(operation)
        if name is None or version != 2:
            return  # the rest of a frame that was sent in parts
        tag = struct.unpack_from("<Q", ask, 12)[0] if len(ask) >= 20 else 0
        status = 0 if dice.random() < 0.7 else dice.choice([*keyretain.STATUSES, dice.getrandbits(32), 4])
        body = b"" if status and dice.random() < 0.9 else self.body_of(name)
        if dice.random() < 0.03:
            tag = dice.choice((tag + 1, max(tag, 1) - 1, dice.getrandbits(64)))
        self.sent[tag].append(body)
        whole, chance = reply(tag, body, status), dice.random()
        self.sends_frames = self.sends_frames and chance > 0.04
        if chance < 0.02:
            length = dice.choice((0, 3, 11, len(whole) - 3, dice.getrandbits(32)))
            whole = number(length) + whole[4:]
        elif chance < 0.04:
            whole = dice.choice((b"", whole[:7], dice.randbytes(30), whole * 2))
        self.out += whole

    def recv_into(self, room):
        dice = self.dice
        if (chance := dice.random()) < 0.005:
            raise ConnectionResetError(104, "reset")
        if not self.out:
            if chance < 0.5:
                return 0
            raise BlockingIOError(11, "nothing there")
        length = min(len(room), len(self.out)) if chance < 0.7 else dice.randrange(1, len(self.out) + 1)
        room[:length] = self.out[:length]
        del self.out[:length]
        return length


def client_of(server):
    """A client whose connections are to this server."""
    connection._open_socket = lambda: server
    connection._connect = lambda *_: None
    connection.peer_of = lambda _: keyretain.Peer(1, 0, 0)
    connection.select.poll = lambda: server
    return keyretain.Client("/nowhere", 20, trust="any")


def words_of(name, dice):
    parameters = list(inspect.signature(getattr(keyretain.Client, name)).parameters.values())[1:]
    return [WORDS.get(one.name, dice.choice((1, 5, 3))) for one in parameters if one.default is one.empty]


class Run:
    """One connection, and what is found wrong on it."""

    def __init__(self, seed, faults):
        self.dice, self.faults = random.Random(seed), faults
        self.server = Server(self.dice)
        self.client = client_of(self.server)
        self.ahead = []  # the tags of asks whose answers receive() is to give

    def send_ahead(self):
        self.ahead.append(self.client.send("READ", 1, 5))

    def receive(self):
        """TimeoutError leaves the answer to the next call."""
        tag = self.ahead[0]
        try:
            answer = self.client.receive()
        except keyretain.Refused:
            del self.ahead[0]
            raise
        del self.ahead[0]
        self.look_at("receive", answer, tag)

    def call(self, name):
        words = words_of(name, self.dice)
        answer = getattr(self.client, name)(*words)
        if name == "read_into":
            answer = bytes(words[-1][:answer])
        self.look_at(name, answer, self.client._connection._last)

    def look_at(self, name, answer, tag):
        if self.server.sends_frames and isinstance(answer, bytes) and answer not in self.server.sent[tag]:
            self.faults[f"{name} has another's answer"] += 1

    def step(self):
        """One call, whatever comes of it."""
        name, chance = self.dice.choice(CALLS), self.dice.random()
        try:
            if chance < 0.1:
                self.send_ahead()
            elif chance < 0.2 and self.ahead:
                self.receive()
            else:
                self.call(name)
        except DOCUMENTED:
            pass
        except Exception as error:
            self.faults[f"{name} raises {type(error).__name__}: {error}"] += 1
        if len(self.client._connection._received) > connection.PIECE + LONGEST:
            self.faults["more is kept than a frame"] += 1


def main():
    seed, connections = map(int, sys.argv[1:] or (1, 4000))
    faults, poll, asks = collections.Counter(), connection.select.poll, 0
    for number in range(seed, seed + connections):
        run = Run(number, faults)
        for _ in range(run.dice.randrange(1, 25)):
            run.step()
            asks += 1
    connection.select.poll = poll
    print(f"{asks} asks on {connections} connections")
    compare("faults", {}, dict(faults))
    conclude()


if __name__ == "__main__":
    main()
