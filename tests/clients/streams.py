"""streams.py: what the Python client leaves on its connection when a call ends early, forks, waits or is told
nonsense."""
import contextlib
import ctypes
import importlib
import os
import pickle
import select
import signal
import socket
import stat
import struct
import subprocess
import sys
import threading
import time

import servers
from keyretain import connection
from servers import answer_all, attempt, client_of, compare, outcome, plain, reply, served, told_by
import keyretain


class Interrupted(BaseException):
    """What no clause for OSErrors or Exceptions catches."""


def interrupt(*_):
    raise Interrupted


class alarm:
    """Within it a signal comes after so many seconds, and again each `every`."""

    def __init__(self, handler, seconds, every=0.0):
        self.handler, self.times = handler, (seconds, every)

    def __enter__(self):
        signal.signal(signal.SIGALRM, self.handler)
        signal.setitimer(signal.ITIMER_REAL, *self.times)

    def __exit__(self, *_):
        signal.setitimer(signal.ITIMER_REAL, 0)


def unless_interrupted(run, *words):
    try:
        return run(*words)
    except Interrupted:
        return "interrupted"


def bare_fork():
    """fork(2) itself, of which Python isn't told."""
    return ctypes.CDLL(None).fork()


def in_child(run, fork=os.fork):
    """What it answers in a child, as text."""
    return told_by(lambda write: os.write(write, str(outcome(run)).encode()), fork)


# ---- Forks


def try_children():
    """A child, also of another thread and one that has its parent's number, can't ask on the parent's connection."""
    answers, getpid = [], os.getpid
    with client_of() as client:
        answers.append(in_child(lambda: client.read(1, 5)))
        thread = threading.Thread(target=lambda: answers.append(in_child(lambda: client.read(1, 5))))
        thread.start()
        thread.join()
        answers.append(in_child(lambda: client.send("READ", 1, 5)))
        answers.append(in_child(lambda: client.read(1, 5), bare_fork))
        os.getpid = lambda: 1
        with keyretain.Client(client.path, 20) as other:
            answers.append(in_child(lambda: other.read(1, 5)))
        os.getpid = getpid
        compare("the parent's answer afterwards", b"9", client.read(1, 9))
    compare("asks in children", ["Lost"] * 5, answers)


def try_children_ahead():
    """An answer that has come for the parent isn't the child's, also where Python isn't told of the fork."""
    with client_of() as client:
        client.send("READ", 1, 5)
        client.read(1, 6)  # with its answer comes the one before
        compare("an answer that has come, in a child", ["Lost"] * 2,
                [in_child(client.receive, fork) for fork in (os.fork, bare_fork)])
        compare("the parent has it afterwards", b"5", client.receive())


def try_held():
    """A child that lives doesn't keep the parent's connection from ending."""
    ended = threading.Event()

    def serve(end):
        answer_all(end)
        ended.set()

    with client_of(serve) as client:
        client.read(1, 5)
        child = os.fork()
        if child == 0:
            time.sleep(60)
            os._exit(0)
        client.close()
        compare("the end of a connection whose child lives", True, ended.wait(20))
        os.kill(child, signal.SIGKILL)
        os.waitpid(child, 0)


# ---- Exceptions


def try_cut_frames():
    """A handler raises while a frame is half sent: nothing follows it, and each later call says so."""
    going, got = threading.Event(), []

    def serve(end):
        going.wait(20)
        try:
            got.extend(name for _, name, _ in end.asks())
        except Exception:
            got.append("half a frame")
        going.clear()

    with client_of(serve) as client:
        with alarm(interrupt, 1):
            sent = outcome(unless_interrupted, lambda: [client.send("UPDATE", 1, 5, bytes(60000)) for _ in range(100)])
        going.set()
        compare("calls after half a frame", ["interrupted", "Lost", "Lost", "Lost"], [
            sent, outcome(client.send, "REVOKE", 1, 7), outcome(client.read, 1, 7), outcome(client.receive)])
        compare("the last ask that came", True, not any(name == "REVOKE" for name in got))


def try_late_replies():
    """A handler raises while a reply is awaited: the next call has its own answer all the same."""
    def serve(end):
        kept = b""
        for tag, name, values in end.asks():
            kept += reply(tag, plain(name, values))
            if values != [5]:
                end.socket.sendall(kept)
                kept = b""

    with client_of(serve) as client:
        with alarm(interrupt, 0.2):
            first = outcome(unless_interrupted, client.read, 1, 5)
        client.send("READ", 1, 6)
        compare("a call that was interrupted", ["interrupted", b"6", b"7"],
                [first, outcome(client.receive), outcome(client.read, 1, 7)])


def try_parts():
    """Nothing but its head stays of a reply that came in part, and that nobody awaits any more."""
    def serve(end):
        rest = b""
        for tag, name, values in end.asks():
            whole = rest + reply(tag, plain(name, values) * 9)
            sent = len(whole) - 4 * (values == [5])
            end.socket.sendall(whole[:sent])
            rest = whole[sent:]

    with client_of(serve, 1) as client:
        compare("a reply that came in part", ["TimeoutError", bytes(5), b"6" * 9],
                [outcome(client.read, 1, 5), bytes(client._connection._received[16:]), outcome(client.read, 1, 6)])


class Steps:
    """Raises at the step of this number of the Python code of the client, from 1 on."""

    def __init__(self, number):
        self.left = number

    def trace(self, frame, event, _):
        if "python" not in frame.f_code.co_filename:
            return None
        frame.f_trace_opcodes, frame.f_trace_lines = True, False
        if event == "opcode":
            self.left -= 1
            if self.left == 0:
                raise Interrupted
        return self.trace

    def run(self, call):
        sys.settrace(self.trace)
        try:
            return unless_interrupted(call)
        finally:
            sys.settrace(None)


def own_answers(client):
    """Whether each of the next calls has its own answer; or the connection is lost, and stays so."""
    answers = [outcome(client.read, 1, key) for key in (7, 8, 9)]
    return answers in ([b"7", b"8", b"9"], ["Lost"] * 3)


def try_every_step(what, call):
    """The call is ended at each of its steps in turn, as a handler might."""
    number, ended, wrong = 0, True, []
    with served() as path:
        while ended:
            number += 1
            with keyretain.Client(path, 20) as client:
                ended = Steps(number).run(lambda: call(client)) == "interrupted"
                if not own_answers(client):
                    wrong.append(number)
    compare(f"{what}: more than 50 steps", True, number > 50)
    compare(f"{what}: steps after which an answer is another's", [], wrong)


def ahead(client):
    for key in (1, 2):
        client.send("READ", 1, key)
    return [client.receive(), client.receive()]


# ---- What is wiped


@contextlib.contextmanager
def kept_of(name, made):
    """What a function of the connection is given first, or what it makes, for as long as the block lasts."""
    plain, kept = getattr(connection, name), []

    def keeping(*words):
        answer = plain(*words)
        kept.append(answer if made else words[0])
        return answer

    setattr(connection, name, keeping)
    try:
        yield kept
    finally:
        setattr(connection, name, plain)


def in_pieces(status):
    """Answers each ask in two pieces, or for None with the first alone."""
    def serve(end):
        for tag, _, _ in end.asks():
            whole = reply(tag, b"" if status else b"a secret" * 100, status or 0)
            end.socket.sendall(whole[:12])
            time.sleep(0.05)
            if status is not None:
                end.socket.sendall(whole[12:])

    return serve


def deaf(end):
    """Ends the connection where it has read a little."""
    end.socket.recv(16)


def try_wiped():
    """What was sent, and what has come, is overwritten whichever way a call ends."""
    for what, serve, call in (("answered", in_pieces(0), lambda client: client.read(1, 5)),
                              ("refused", in_pieces(13), lambda client: client.update(1, 5, b"a secret" * 1000)),
                              ("late", in_pieces(None), lambda client: client.update(1, 5, b"a secret" * 1000)),
                              ("lost", deaf, lambda client: client.update(1, 5, b"a secret" * 8000))):
        with client_of(serve, timeout=0.5) as client, kept_of("make_ask", True) as sent, \
                kept_of("_joined", False) as come, kept_of("_behind", False) as behind:
            outcome(call, client)
            compare(f"{what}: an ask that was made", 1, len(sent))
            compare(f"{what}: asks of which something is left", 0, sum(map(any, sent)))
            client.close()
            compare(f"{what}: pieces of replies of which something is left", 0, sum(map(any, [*come, *behind])))


# ---- Sending ahead


def try_ahead():
    """A server that stops reading while its replies aren't taken."""
    def serve(end):
        for tag, _, values in end.asks():
            end.socket.sendall(reply(tag, b"%05d" % values[0] + bytes(32000)))

    with client_of(serve, timeout=10) as client:
        sent = outcome(lambda: [client.send("READ", 1, key) for key in range(250)][-1])
        compare("asks sent ahead", 250, sent)
        answers = outcome(lambda: [client.receive()[:5] for _ in range(250)])
        compare("their answers", [b"%05d" % key for key in range(250)], answers)


def try_large_ahead():
    """The same where the server stops in the midst of a long ask."""
    def serve(end):
        for tag, name, values in end.asks():
            end.socket.sendall(reply(tag, plain(name, values) + bytes(32000 if name == "READ" else 0)))

    with client_of(serve, timeout=10) as client:
        def send():
            client.send("READ", 1, 5)
            return client.send("UPDATE", 1, 5, bytes(60000))

        compare("long asks sent ahead", 120, outcome(lambda: [send() for _ in range(60)][-1]))
        compare("the last answer", "None", str(outcome(lambda: [client.receive() for _ in range(120)][-1])))


def try_too_far():
    with client_of() as client:
        outcomes = [outcome(client.send, "READ", 1, 5) for _ in range(258)]
        compare("asks that may be ahead", [*range(1, 257), "TooFarAhead", "TooFarAhead"], outcomes)
        compare("one more when one is taken", [b"5", 257], [client.receive(), client.send("READ", 1, 6)])
        compare("an ask between", b"7", client.read(1, 7))
        compare("the last of them", b"6", [client.receive() for _ in range(256)][-1])
        compare("none is left", "IndexError", outcome(client.receive))
        for _ in range(200):
            client.send("READ", 1, 5)
        client.read(1, 7)  # with its answer come all before it
        compare("those whose answers have come count too", [*[int] * 56, str],
                [type(outcome(client.send, "READ", 1, 5)) for _ in range(57)])


def try_answered_then_gone():
    """Two asks are answered, and then the daemon goes."""
    def serve(end):
        for tag, name, values in end.asks():
            end.socket.sendall(reply(tag, plain(name, values)))
            if values == [2]:
                return

    with client_of(serve) as client:
        for key in (1, 2):
            client.send("READ", 1, key)
        compare("what came before the end", [b"1", b"2", "IndexError", "Lost"],
                [client.receive(), client.receive(), outcome(client.receive), outcome(client.read, 1, 3)])


def answer_two_at_once(second):
    """A server that sends its answers to two asks as one piece, and goes. The second is made of an ask's tag."""
    def serve(end):
        (tag, name, values), (other, *_) = (ask for _, ask in zip(range(2), end.asks()))
        end.socket.sendall(reply(tag, plain(name, values)) + second(other))

    return serve


def try_two_at_once():
    """What has come is answered after the daemon has gone; but nothing is after bytes that are no reply."""
    def outcomes(second):
        with client_of(answer_two_at_once(second)) as client:
            for key in (1, 2):
                client.send("READ", 1, key)
            return [outcome(client.receive), outcome(client.read, 1, 3), *[outcome(client.receive) for _ in range(2)]]

    compare("an answer that came before the end", [b"1", "Lost", b"2", "Lost"], outcomes(lambda tag: reply(tag, b"2")))
    compare("one that came before noise", ["Malformed", "Lost", "Lost", "Lost"],
            outcomes(lambda tag: reply(tag + 1, b"2")))


# ---- Time


def seconds_of(run, *words):
    """What a call comes to, and whether it took less than five seconds."""
    start = time.monotonic()
    answered = outcome(run, *words)
    return answered, time.monotonic() - start < 5


def drip(end):
    for tag, _, values in end.asks():
        for byte in reply(tag, bytes(200)):
            end.socket.sendall(bytes([byte]))
            time.sleep(0.1)


def silent(end):
    for _ in end.asks():
        pass


def try_deadlines():
    late = ("TimeoutError", True)
    for what, serve in (("drips", drip), ("is silent", silent)):
        with client_of(serve, timeout=0.5) as client:
            compare(f"a server that {what}", late, seconds_of(client.read, 1, 5))
            with alarm(lambda *_: None, 0.1, 0.1):
                compare(f"a server that {what}, and signals", late, seconds_of(client.read, 1, 5))
            client.timeout = 0
            compare(f"a server that {what}, at once", late, seconds_of(client.read, 1, 5))
    for seconds in (3e6, float("inf")):  # more than poll(2) takes
        with client_of(timeout=seconds) as client:
            compare(f"a patience of {seconds} seconds", b"5", outcome(client.read, 1, 5))


def try_one_look():
    """Without time one look is made: what has come is answered."""
    with client_of() as client:
        client.send("READ", 1, 5)
        select.select([client._connection._socket], [], [], 20)
        client.timeout = 0
        compare("an answer that has come, at once", b"5", outcome(client.receive))


def try_backlog():
    """A daemon that accepts nobody, and then does."""
    with servers.tempfile.TemporaryDirectory(prefix="keyretain.") as folder, socket.socket(socket.AF_UNIX) as listener:
        listener.bind(folder + "/sock")
        listener.listen(0)
        waiting = [keyretain.Client(folder + "/sock", 20)]
        compare("a full backlog", ("TimeoutError", True), seconds_of(keyretain.Client, folder + "/sock", 0.5))
        with alarm(lambda *_: None, 0.1, 0.1):
            compare("a full backlog, and signals", ("TimeoutError", True),
                    seconds_of(keyretain.Client, folder + "/sock", 0.5))
        threading.Timer(0.5, lambda: waiting.append(listener.accept()[0])).start()
        compare("a place that is free later", "Client", type(keyretain.Client(folder + "/sock", 20)).__name__)
        waiting[0].close()


# ---- Nonsense


def answering(*replies):
    """A server whose replies are these bytes, or what these make of an ask's tag."""
    def serve(end):
        for (tag, *_), spelled in zip(end.asks(), replies):
            end.socket.sendall(spelled(tag))

    return serve


def try_nonsense():
    """Replies that are none end the connection, which says so ever after."""
    cases = {
        "bytes behind a reply": lambda tag: reply(tag, b"5") + b"\0", "two replies": lambda tag: reply(tag, b"5") * 2,
        "another's reply": lambda tag: reply(tag + 1, b"5"), "an unknown status": lambda tag: reply(tag, b"", 4),
        "an error with a body": lambda tag: reply(tag, b"x", 1), "a short length": lambda tag: b"\3\0\0\0" + bytes(20),
        "a great length": lambda tag: b"\x09\0\4\0" + bytes(20),
    }
    decode, decoded = connection.decode_reply, []
    connection.decode_reply = lambda *given: decoded.append(decode(*given)) or decoded[-1]
    for what, spelled in cases.items():
        with client_of(answering(spelled, lambda tag: reply(tag, b"6"))) as client:
            compare(f"{what}", ["Malformed", "Lost", "Lost"],
                    [outcome(client.read, 1, 5), outcome(client.read, 1, 6), outcome(client.read, 1, 7)])
    connection.decode_reply = decode
    compare("what is left of them", {b""}, {bytes(it.body).strip(b"\0") for it in decoded if it})


def try_listings():
    """A keyring or a queue that reads as something else."""
    def answer(body):
        return answering(lambda tag: reply(tag, body))

    for body in (b"12345", b"1"):
        with client_of(answer(body)) as client:
            compare(f"a keyring of {len(body)} bytes", "Malformed", outcome(client.read_ring, 1, 5))
    for number in (0, 1 << 31, (1 << 32) - 1):
        with client_of(answer(struct.pack("<I", number))) as client:
            compare(f"the serial {number}", "Malformed", outcome(client.get_id, 1, keyretain.USER))
    with client_of(answer(struct.pack("<I", (1 << 31) - 1))) as client:
        compare("the highest serial", (1 << 31) - 1, outcome(client.get_id, 1, keyretain.USER))
    with client_of(answer(struct.pack("<IIII", 0x01000001, 16, (1 << 31) - 1, 0))) as client:
        compare("a note of it", [keyretain.Note(0, "updated", (1 << 31) - 1, 0)], outcome(client.read_queue, 1))
    # docs/FORMAT.md, of both the same
    with client_of(answer(bytes(262140))) as client:
        compare("the length of the longest answer", 262140, len(outcome(client.read, 1, 5)))
    for body in (b"\x01\0\0\1", b"\x05\0\0\0\x10\0\0\0" + bytes(8), b"\1\0\0\1\x10\0\0\0" + bytes(4),
                 struct.pack("<IIII", 0x01000001, 16, 1 << 31, 0), struct.pack("<IIII", 0x01000001, 16, 5, 1 << 31),
                 struct.pack("<IIQ", 0, 16, 1 << 31), struct.pack("<IIQQ", 0, 24, 5, 0)):
        with client_of(answer(body)) as client:
            compare(f"notes of {len(body)} bytes", "Malformed", outcome(client.read_queue, 1))


def try_values():
    """What fits no frame is a ValueError or a TypeError, and nothing is sent."""
    with client_of() as client:
        compare("values out of their width", ["ValueError"] * 5 + ["TypeError"] * 2,
                [outcome(client.read, 1, 1 << 31), outcome(client.read, -1, 5), outcome(client.open_queue, 1 << 32),
                 outcome(client.join, 1, "a" * 65536), outcome(client.update, 1, 5, bytes(65536)),
                 outcome(client.update, 1, 5, 7), outcome(client.ask, "READ", 1)])
        compare("an ask behind them", b"5", client.read(1, 5))
        # 16 bytes of head, an id and a count: what is left of the 65536 of a frame
        compare("the longest payload, and a byte more", [None, "ValueError"],
                [outcome(client.update, 1, 5, bytes(65536 - 16 - 4 - 4 + more)) for more in (0, 1)])


def sockets():
    """The descriptors that are sockets."""
    found = set()
    for number in range(256):
        with contextlib.suppress(OSError):
            if stat.S_ISSOCK(os.fstat(number).st_mode):
                found.add(number)
    return found


def try_pickled():
    """What a worker of multiprocessing raises comes to its parent."""
    for error in (keyretain.Refused("READ", 13), keyretain.Lost("gone"), keyretain.Malformed("noise"),
                  keyretain.TooFarAhead(256)):
        copied = outcome(lambda: pickle.loads(pickle.dumps(error)))  # pylint: disable=cell-var-from-loop
        compare(f"a copy of {error!r}", (type(error), str(error), vars(error), error.args),
                (type(copied), str(copied), getattr(copied, "__dict__", None), getattr(copied, "args", None)))


def try_standard():
    """What is written to a standard output that was closed must not go to the daemon; nor is a connection for programs
    that are executed."""
    with served() as path:
        for first in (0, 2):
            def ask():
                for number in range(first, 3):  # pylint: disable=cell-var-from-loop
                    os.close(number)
                before = sockets()
                with keyretain.Client(path, 20) as client:
                    client.read(1, 5)
                    return [(end > 2, os.get_inheritable(end)) for end in sockets() - before]

            compare(f"a connection where {first} to 2 are closed", "[(True, False)]", in_child(ask))


def try_reused():
    """A program that closes all its descriptors, and has something else under the number: that isn't told anything, and
    isn't closed."""
    def ask():
        with keyretain.Client(path, 2) as client:
            client.read(1, 5)
            number, = sockets() - before
            ours, theirs = socket.socketpair()
            os.dup2(ours.fileno(), number)
            theirs.setblocking(False)
            asked = outcome(client.add, 1, "user", "token", b"secret", -4)
        return asked, outcome(theirs.recv, 64), os.path.sameopenfile(number, ours.fileno())

    with served() as path:
        before = sockets()
        compare("a number that is another socket's", "('Lost', 'BlockingIOError', True)", in_child(ask))


def try_pipe_signal():
    """A program for which SIGPIPE is as at first isn't ended by a daemon that goes."""
    gone = threading.Event()

    def serve(end):
        end.socket.close()
        gone.set()

    def ask():
        signal.signal(signal.SIGPIPE, signal.SIG_DFL)
        with served(serve) as path, keyretain.Client(path, 20) as client:
            gone.wait(20)
            return [outcome(client.read, 1, key) for key in (5, 6)]

    compare("a daemon that goes, with SIGPIPE as at first", "['Lost', 'Lost']", in_child(ask))


def try_words():
    """The command's words are checked before anything is asked."""
    environment = {**os.environ, "KEYRETAIN_SOCKET": "/nowhere", "PYTHONPATH": sys.path[0]}
    ended = subprocess.run([sys.executable, "-B", "-m", "keyretain", "99999999999"], env=environment, text=True,
                           stderr=subprocess.PIPE, check=False)
    compare("the status for a number that is none", (2, 1), (ended.returncode, ended.stderr.count("\n")))
    key_of = importlib.import_module("keyretain.__main__").key_of
    for word, key in (("2147483648", None), ("0", None), ("-4", None), ("x", None), ("\u0665", None), ("", None),
                      ("@u", -4), ("2147483647", 2147483647), ("05", 5)):
        compare(f"the key of {word!r}", key, key_of(word))
    printable = importlib.import_module("keyretain.__main__").printable
    compare("what a terminal would obey", "a\\x1b[2J\\x0a\\xff b", printable(b"a\x1b[2J\n\xff b"))


if __name__ == "__main__":
    for case in (try_wiped, try_children, try_children_ahead, try_held, try_cut_frames, try_late_replies, try_parts,
                 try_ahead, try_large_ahead, try_too_far, try_answered_then_gone, try_two_at_once, try_deadlines,
                 try_one_look, try_backlog, try_nonsense, try_listings, try_values, try_pickled, try_standard,
                 try_reused, try_pipe_signal, try_words):
        attempt(case)
    try_every_step("an ask", lambda client: client.read(1, 5))
    try_every_step("asks sent ahead", ahead)
    servers.conclude()
