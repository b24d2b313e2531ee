"""attacks.py PATH CASE NUMBER: clients that mean a daemon harm, or want much of it. Each case prints how many answers
were just what docs/FORMAT.md says, and what the first other one was. No other client may be there meanwhile."""
import contextlib
import itertools
import random
import select
import signal
import socket
import struct
import sys
import threading
import time

from asks import ASKS, HELLO, accepted, encode_ask, frame, is_reply, keyretain, refused, reply, status_without_context
from daemons import received

path, case, number = sys.argv[1], sys.argv[2], int(sys.argv[3])
PATIENCE = 10  # seconds that one call may wait
SHORT = 0.3  # seconds in which nothing is to come
SILENCE = 60  # seconds without an answer, after which a case is over
LONGEST = bytes(range(256)) * 127 + bytes(255)  # the longest payload
signal.alarm(SILENCE)


def connect():
    end = socket.socket(socket.AF_UNIX)
    for wait in (socket.SO_SNDTIMEO, socket.SO_RCVTIMEO):
        end.setsockopt(socket.SOL_SOCKET, wait, struct.pack("ll", PATIENCE, 0))
    end.connect(path)
    return end


def rest(end):
    """All that comes until the daemon ends the connection. It may do so with bytes of ours that it has not read."""
    got = b""
    with contextlib.suppress(ConnectionResetError):
        while piece := end.recv(1 << 20):
            got += piece
    return got


def ask(end, asked, length):
    end.sendall(asked)
    return received(end, length)


def number_of(end, asked):
    """The number that an accepted ask answers."""
    got = ask(end, asked, 12)
    answer = int.from_bytes(got[8:], "little")
    if got != accepted(answer):
        raise OSError(f"{asked.hex()} is answered {got.hex()}")
    return answer


def hello(end):
    """A new context: HELLO, accepted."""
    return number_of(end, HELLO)


class Answers:
    """How many were as they must be, and the first other one."""

    def __init__(self):
        self.right, self.wrong, self.lock = 0, None, threading.Lock()

    def see(self, wanted, got, what=""):
        signal.alarm(SILENCE)
        with self.lock:
            if wanted == got:
                self.right += 1
            elif self.wrong is None:
                self.wrong = f"{what} wanted {wanted!r:.200} got {got!r:.200}"

    def __str__(self):
        return f"{self.right}" if self.wrong is None else f"{self.right}, and {self.wrong}"


answers = Answers()


def see_others():
    """A hundred clients that come and go: THREAD in a context that each has not."""
    for _ in range(100):
        with connect() as end:
            answers.see(refused(3), ask(end, frame(257, 0), 8), "another client")


def first_context():
    """Context numbers rise by one: the one behind that of a client which comes and goes."""
    with connect() as end:
        return hello(end) + 1


def cut_short():
    """One after the other: HELLO and a beginning of ADD, then the end. Every second one ends its side alone, and
    reads to the end; the others are gone once they have their reply."""
    context = first_context()
    add = encode_ask("ADD", 1, (b"user", b"alpha", b"s3", -4))
    for i in range(number):
        with connect() as end:
            end.sendall(HELLO + add[:1 + i % (len(add) - 1)])
            if i % 2:
                got = end.recv(12, socket.MSG_WAITALL)
            else:
                end.shutdown(socket.SHUT_WR)
                got = rest(end)
        answers.see(accepted(context + i), got, f"connection {i}")


def side_by_side():
    """All in mid-frame at the same time; then all are gone."""
    context = first_context()
    ends = [connect() for _ in range(number)]
    for i, end in enumerate(ends):
        answers.see(context + i, hello(end), f"connection {i}")
        end.sendall(HELLO[:1 + i % (len(HELLO) - 1)])
    for end in ends:
        end.close()


def never_reads():
    """Clients that ask for the longest payload as long as their bytes are taken, and read nothing. Another one is
    served while they stand. Then the first one reads all its replies, and the others are gone."""
    waiting = {}
    for _ in range(number):
        end = connect()
        context = hello(end)
        made = ask(end, encode_ask("ADD", context, (b"user", b"long", LONGEST, -4)), 12)
        serial = int.from_bytes(made[8:], "little")
        answers.see(accepted(serial), made, "ADD")
        waiting[end] = [encode_ask("READ", context, (serial,)), 0]
    while taking := select.select([], waiting, [], SHORT)[1]:
        for end in taking:
            end.send(waiting[end][0])
            waiting[end][1] += 1
    see_others()
    answers.see([], select.select([], waiting, [], 0)[1], "they can go on:")
    reader, *others = waiting
    reader.shutdown(socket.SHUT_WR)
    for end in others:
        end.close()
    answers.see(True, rest(reader) == accepted(LONGEST) * waiting[reader][1], f"{waiting[reader][1]} replies that wait")


def full_socket():
    """A client that sends its READs of the longest payload in one write, and reads nothing: its socket is full soon.
    Another one is served all the same. Then the first one reads all its replies."""
    with connect() as end:
        context = hello(end)
        serial = number_of(end, encode_ask("ADD", context, (b"user", b"long", LONGEST, -4)))
        end.sendall(encode_ask("READ", context, (serial,)) * number)
        answers.see([end], select.select([end], [], [], PATIENCE)[0], "the first reply")
        time.sleep(SHORT)
        see_others()
        wanted = accepted(LONGEST)
        for i in range(number):
            answers.see(wanted, end.recv(len(wanted), socket.MSG_WAITALL), f"reply {i}")


def slow():
    """A client that sends a byte a second; 100 others are served in each of these seconds."""
    slow_one = connect()
    for i in range(number):
        slow_one.sendall(HELLO[i:i + 1])
        until = time.monotonic() + 1
        see_others()
        answers.see(False, bool(select.select([slow_one], [], [], max(0, until - time.monotonic()))[0]), "too early")
    context = first_context()
    got = ask(slow_one, HELLO[number:], 12)
    answers.see(accepted(context), got, "the slow client")


def noise():
    """A thousand times HELLO and a thousand random bytes, and all of these in one connection. The length that they
    begin with is none of a frame: the daemon ends the connection."""
    source = random.Random(20)
    pieces = [source.getrandbits(8000).to_bytes(1000, "little") for _ in range(number)]
    context = first_context()
    for i, piece in enumerate([*pieces, b"".join(pieces)]):
        assert not 8 <= int.from_bytes(piece[:4], "little") <= 65536
        with connect() as end:
            with contextlib.suppress(BrokenPipeError, ConnectionResetError):
                end.sendall(HELLO + piece)
            answers.see(accepted(context + i), rest(end), f"piece {i}")


def see_frame(operation, body):
    """HELLO, then the frame in a context that the client has not, and in its own in version 2: a fault ends the
    connection without a reply, and else there is one for each, whose status is known in the first case."""
    with connect() as end:
        context = hello(end)
        end.sendall(frame(operation, 0, body) + frame(operation, context, body, 2, context << 32))
        end.shutdown(socket.SHUT_WR)
        got = rest(end)
    what = f"operation {operation}, body {body.hex()}:"
    fields = keyretain.decode_body(ASKS[operation].name, body) if operation in ASKS else None
    if fields is None:
        answers.see(b"", got, what)
        return
    split = 4 + int.from_bytes(got[:4], "little")
    status = status_without_context(operation, fields)
    first = is_reply(operation, got[:split]) and int.from_bytes(got[4:8], "little")
    second = is_reply(operation, got[split:], 2, context << 32)
    answers.see((status, True), (first, second), f"{what} {got.hex()}:")


def frames():
    """Each operation, and five numbers of none, with three bodies of each length: zeros, random bytes, and the fields
    of the operation where they can have the length, else random bytes again."""
    source = random.Random(21)
    for operation in [*ASKS, 12, 33, 255, 268, 65535]:
        for length in range(number + 1):
            noises = [source.getrandbits(8 * length + 8).to_bytes(length + 1, "little")[1:] for _ in range(2)]
            fitting = ASKS[operation].of_length(length) if operation in ASKS else None
            for body in (bytes(length), noises[0], noises[1] if fitting is None else fitting):
                see_frame(operation, body)


def any_asks(source, context, ring, serial):
    """Asks in this context about its user keyring and a key there, each with the status and the body of its reply.
    What is refused is refused for its key, its context, its queue or its range."""
    payload = b"s3"
    while True:
        if source.randrange(4) == 0:
            length = source.randint(1, 4000)
            payload = source.getrandbits(8 * length).to_bytes(length, "little")
            yield "UPDATE", context, (serial, payload), 0, b""
        yield source.choice((
            ("READ", context, (serial,), 0, payload), ("GET_ID", context, (-4, 0), 0, struct.pack("<I", ring)),
            ("DESCRIBE", context, (serial,), 0, b"user;1000;1000;3f010000;mixed"), ("EXEC", context, (), 0, b""),
            ("SEARCH", context, (-4, b"user", b"mixed", 0), 0, struct.pack("<I", serial)),
            ("READ", context, (2147483647,), 126, b""), ("READ", 0, (serial,), 3, b""),
            ("READ_QUEUE", 0, (0, 64), 9, b""), ("OPEN_QUEUE", 0, (4097,), 22, b"")))


def send_in_pieces(end, stream, source):
    """Sends all of it, in pieces of any length up to 5000 bytes, and ends this side."""
    at = 0
    while at < len(stream):
        piece = stream[at:at + source.choice((1, 7, 100, source.randint(1, 5000)))]
        end.sendall(piece)
        at += len(piece)
    end.shutdown(socket.SHUT_WR)


def mixed():
    """Asks of both versions on one connection, sent ahead in pieces while the replies are read. Each has its reply, in
    order, in its version and with its tag, which may be another ask's too."""
    source = random.Random(22)
    asks, wanted = [], []
    with connect() as end:
        context = hello(end)
        ring = number_of(end, encode_ask("GET_ID", context, (-4, 0)))
        serial = number_of(end, encode_ask("ADD", context, (b"user", b"mixed", b"s3", -4)))
        for name, where, values, status, body in itertools.islice(any_asks(source, context, ring, serial), number):
            version, tag = source.randint(1, 2), source.choice((0, 7, 1 << 32, (1 << 64) - 1, source.getrandbits(64)))
            asks.append(encode_ask(name, where, values, version, tag))
            wanted.append((f"{name}, version {version}", reply(tag, body, status, version)))
        sender = threading.Thread(target=send_in_pieces, args=(end, b"".join(asks), source))
        sender.start()
        for what, its_reply in wanted:
            answers.see(its_reply, end.recv(len(its_reply), socket.MSG_WAITALL), what)
        sender.join()
        answers.see(b"", rest(end), "behind the last reply")


def queue_up():
    """More connections than lanes, which are all taken: none of the others has a reply. Once the first ones end, each
    is served."""
    lanes = 16
    first = [connect() for _ in range(lanes)]
    contexts = [hello(end) for end in first]
    begun, served = threading.Semaphore(0), []

    def wait_and_ask():
        begun.release()
        with connect() as end:
            served.append(hello(end))

    workers = [threading.Thread(target=wait_and_ask) for _ in range(number - lanes)]
    for worker in workers:
        worker.start()
    for _ in workers:
        begun.acquire()
    time.sleep(SHORT)
    answers.see([], served[:], "served without a lane:")
    for end in first:
        end.close()
    for worker in workers:
        worker.join()
    for context in range(contexts[0], contexts[0] + number):
        answers.see(1, (contexts + served).count(context), f"context {context}")


def lanes():
    """As many connections as there are lanes, each of which has its reply while all stay, and one more, which has
    none until another one ends."""
    ends = [connect() for _ in range(number)]
    for end in ends:
        answers.see(refused(3), ask(end, frame(257, 0), 8), "a lane")
    with connect() as more:
        more.sendall(frame(257, 0))
        answers.see([], select.select([more], [], [], SHORT)[0], "one more than the lanes has a reply:")
        ends.pop().close()
        answers.see(refused(3), more.recv(8, socket.MSG_WAITALL), "one more than the lanes")
    for end in ends:
        end.close()


CASES = (cut_short, side_by_side, never_reads, full_socket, slow, noise, frames, mixed, queue_up, lanes)
try:
    {run.__name__.replace("_", "-"): run for run in CASES}[case]()
    print(answers)
except OSError as error:
    print(f"{answers}, and then {error!r}")
