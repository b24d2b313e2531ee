"""memory.py PATH SIZE CLIENTS [ASK]: so many clients of a daemon under a limit of memory add keys with payloads of so
many bytes, side by side, until each was refused with ENOMEM often. Where an ask is named, each then gives some keys
back, and asks that until it was refused often once more. Prints `kept` if each of them was, every other answer was that
of an ask that is accepted, each still has its connection and its first key, and each can add a key once all have given
theirs back; else what was wrong."""
import signal
import struct
import sys
import threading

from asks import encode_ask
from daemons import connect, received

path, size, count = sys.argv[1], int(sys.argv[2]), int(sys.argv[3])
then = sys.argv[4] if len(sys.argv) > 4 else None
AHEAD = 4 if size > 2000 else 64  # asks that are sent in one piece
ENOUGH = 256  # refusals with which a client is content
ENOMEM = 12
USER_KEYRING = -4
LONGEST = bytes(32767)  # the longest payload
GIVEN_BACK = 1 << 20  # bytes of payloads that are given back before another ask takes memory
PLACES = 64  # keyrings and queues of a client whose asks want some
signal.alarm(60)


class Wrong(Exception):
    pass


class Client(threading.Thread):
    """A connection of a uid of its own, and what it has added."""

    def __init__(self, name):
        super().__init__(daemon=True)
        self.name, self.serials, self.named, self.asked, self.refusals, self.wrong = str(name), [], {}, 0, 0, None
        self.end = connect(path)
        self.end.settimeout(20)
        self.uid = 1000 + name
        self.context = int.from_bytes(self.ask("HELLO", (self.uid, self.uid, ())), "little")
        self.places = [self.make_place(number) for number in range(PLACES if then in ("LINK", "WATCH") else 0)]

    def answer(self):
        """The status and the body of the next reply."""
        head = received(self.end, 8)
        if len(head) < 8:
            raise Wrong(f"its connection has ended: {len(self.serials)} keys, {self.refusals} refusals")
        length, status = struct.unpack("<II", head)
        return status, received(self.end, length - 4)

    def ask(self, name, fields):
        """The body of the reply to an ask that is accepted."""
        self.end.sendall(encode_ask(name, 0 if name == "HELLO" else self.context, fields))
        status, body = self.answer()
        if status != 0:
            raise Wrong(f"{name} is answered with status {status}: {len(self.serials)} keys, {self.refusals} refusals")
        return body

    def make_place(self, number):
        """A keyring that links may be put into, or a queue that keys may be watched by."""
        if then == "WATCH":
            return int.from_bytes(self.ask("OPEN_QUEUE", (1,)), "little")
        return int.from_bytes(self.ask("ADD", (b"keyring", f"ring {number}".encode(), b"", USER_KEYRING)), "little")

    def ask_some(self, name, all_fields):
        """Asks these, sent in one piece, and returns the bodies of the accepted ones, and None for each refused one."""
        self.end.sendall(b"".join(encode_ask(name, self.context, fields) for fields in all_fields))
        bodies = []
        for _ in all_fields:
            status, body = self.answer()
            if status not in (0, ENOMEM):
                raise Wrong(f"{name} is answered with status {status}")
            bodies.append(body if status == 0 else None)
        self.refusals += bodies.count(None)
        return bodies

    def add(self):
        """Adds some keys to the user keyring."""
        names = [str(self.asked + number).encode() for number in range(AHEAD)]
        bodies = self.ask_some("ADD", [(b"user", name, bytes(size), USER_KEYRING) for name in names])
        added = [(name, int.from_bytes(body, "little")) for name, body in zip(names, bodies) if body is not None]
        self.named.update((serial, name) for name, serial in added)
        self.serials.extend(serial for _, serial in added)
        self.asked += AHEAD

    def fields_of(self, number):
        """What the ask that is named wants as its ask of this number: of a key that isn't the first."""
        serial = self.serials[1 + number % (len(self.serials) - 1)]
        place = self.places[number // (len(self.serials) - 1) % PLACES] if self.places else 0
        return {"UPDATE": (serial, LONGEST), "ADD": (b"user", self.named[serial], LONGEST, USER_KEYRING),
                "LINK": (serial, place), "WATCH": (serial, place, 5), "OPEN_QUEUE": (4096,)}[then]

    def ask_more(self):
        """Gives some keys back, and asks what is named until it was refused often."""
        for _ in range(min(GIVEN_BACK // (size + 100), len(self.serials) - 3)):
            self.ask("UNLINK", (self.serials.pop(), USER_KEYRING))
        ahead, self.refusals, asked = 4 if LONGEST in self.fields_of(0) else 64, 0, 0
        while self.refusals < ENOUGH:
            self.ask_some(then, [self.fields_of(asked + number) for number in range(ahead)])
            asked += ahead

    def run(self):
        try:
            while self.refusals < ENOUGH:
                self.add()
            if then is not None:
                self.ask_more()
        except (OSError, Wrong) as wrong:
            self.wrong = wrong

    def read_first(self):
        """Reads its first key, for whose reply it gives other keys back where there is no memory. Returns the
        status."""
        status, body = ENOMEM, b""
        while status == ENOMEM:
            self.end.sendall(encode_ask("READ", self.context, (self.serials[0],)))
            status, body = self.answer()
            if status == 0 and body != bytes(size):
                raise Wrong("its first key has another payload")
            if status != ENOMEM or len(self.serials) < 2:
                return status
            self.ask("UNLINK", (self.serials.pop(), USER_KEYRING))

    def check(self):
        """It has added keys, and reads its first one, if there is memory once it has given its others back."""
        if self.wrong:
            raise self.wrong
        if sum(len(client.named) for client in clients) < 2 * AHEAD * count:
            raise Wrong("they could add next to nothing")
        self.ask("UNLINK", (self.serials.pop(), USER_KEYRING))
        if self.read_first() not in (0, ENOMEM):
            raise Wrong("its first key is gone")

    def keep_first(self):
        """Gives back all its keys but the first."""
        while len(self.serials) > 1:
            some, self.serials = self.serials[1 : AHEAD + 1], self.serials[:1] + self.serials[AHEAD + 1 :]
            self.end.sendall(b"".join(encode_ask("UNLINK", self.context, (key, USER_KEYRING)) for key in some))
            if any(self.answer()[0] for _ in some):
                raise Wrong("a key of its own is gone")

    def check_first(self):
        """Once all have given back their other keys there is memory for the reply."""
        status = self.read_first()
        if status != 0:
            raise Wrong(f"its first key is read with status {status}")


clients = [Client(name) for name in range(count)]
for client in clients:
    client.add()  # before one of them has taken all memory
for client in clients:
    client.start()
for client in clients:
    client.join()
for step in (Client.check, Client.keep_first, Client.check_first, lambda it: it.ask("CLEAR", (USER_KEYRING,)),
             lambda it: it.ask("ADD", (b"user", b"again", bytes(size), USER_KEYRING))):
    for client in clients:
        try:
            step(client)
        except (OSError, Wrong) as wrong:
            print(f"client {client.name}: {wrong}")
            sys.exit(1)
print("kept")
