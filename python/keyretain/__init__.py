"""A client of keyretaind(8), by Python's standard library alone.

    import os, keyretain
    with keyretain.Client() as client:
        context = client.hello(os.geteuid(), os.getegid())
        client.enter_session(context)  # of keyretain-session(1) or login
        serial = client.add(context, "user", "token", b"s3", keyretain.USER)
        print(client.read(context, serial))  # b's3'

A call that the daemon refuses raises Refused, with the error's number; a
connection that can't be used any more raises Lost, bytes that are no reply
Malformed, and a daemon that takes too long TimeoutError: all are OSErrors.
What fits no frame is a ValueError, and nothing is sent. A Client is one
connection: its contexts and queues end with it. It isn't locked: one thread
at a time, and never a handler of a signal. keyretain-protocol(7) has each
ask with its errors.

The client wipes its own copies of its asks and replies. The program's own
are objects of Python: to leave none, give payloads as a bytearray, read by
Client.read_into(), and wipe both.

Notes tell what happens to a key. Client.notes() and notes_of() wait for them,
and notes_async() does in a loop of asyncio:

    import os, keyretain
    with keyretain.Client() as client:
        context = client.hello(os.geteuid(), os.getegid())
        serial = client.add(context, "user", "watched", b"s3", keyretain.USER)
        queue = client.open_queue(64)
        client.watch(context, serial, queue)
        client.invalidate(context, serial)  # as another program may
        for note in keyretain.notes_of(client, queue):
            print(keyretain.describe_note(note).split()[1])  # inv, gc

    python3 -I -m keyretain KEY

watches a key, by its serial or as @t, @p, @s, @u or @us, for the caller's
uid in the session that it is in, and prints its notes as keyctl(1) does.
"""
from .client import PATIENCE, Client, notes_of
from .connection import AHEAD
from .errors import STATUSES, Lost, Malformed, Refused, TooFarAhead
from .frames import (
    ASKS, ENTRY, LEAVE_AS_IT_IS, LONGEST_ASK, LONGEST_REPLY, NUMBERS, PROCESS, SESSION, SHORTEST_REPLY, THREAD, USER,
    USER_SESSION, Ask, Reply, answer_of, decode_body, decode_reply, decode_serials, encode_ask, encode_body,
    frame, name_of,
)
from .notes import SUBTYPES, Loss, Note, Removal, decode_notes, describe_note
from .places import SYSTEM_PATH, Peer, advice, default_path
from .sessions import Session, parse_session

__version__ = "0.1.0"

__all__ = [
    "AHEAD", "ASKS", "ENTRY", "LEAVE_AS_IT_IS", "LONGEST_ASK", "LONGEST_REPLY", "NUMBERS", "PATIENCE", "PROCESS",
    "SESSION", "SHORTEST_REPLY", "STATUSES", "SUBTYPES", "SYSTEM_PATH", "THREAD", "USER", "USER_SESSION",
    "Ask", "Client", "Loss", "Lost", "Malformed", "Note", "Peer", "Refused", "Removal", "Reply", "Session",
    "TooFarAhead", "advice", "answer_of", "decode_body", "decode_notes", "decode_reply", "decode_serials",
    "default_path", "describe_note", "encode_ask", "encode_body", "frame", "name_of", "notes_of", "parse_session",
]
