"""calls.py LIBRARY: carries lines out by the functions of a libkeyutils, or for `-` by the system calls themselves, and
prints what is printed for each answer. A text that the kernel ends with a null byte is printed without it."""
import ctypes
import sys

import keyretain
from lines import Player
from ways import name_of_error

KEYCTL, ADD_KEY, REQUEST_KEY = 250, 248, 249  # of x86-64
ROOM = 1 << 18
room = ctypes.create_string_buffer(ROOM)
here = ctypes.CDLL(None if sys.argv[1] == "-" else sys.argv[1], use_errno=True)


def system_call(number, *words):
    here.syscall.restype = ctypes.c_long
    words = [ctypes.c_long(it) if isinstance(it, int) else it for it in words]
    return here.syscall(ctypes.c_long(number), *words)


def library_call(number, *words):
    words = [ctypes.c_long(it) if isinstance(it, int) else it for it in words]
    name = {ADD_KEY: "add_key", REQUEST_KEY: "request_key", KEYCTL: "keyctl"}[number]
    function = getattr(here, name)
    function.restype = ctypes.c_long if number == KEYCTL else ctypes.c_int32
    return function(*words)


call = system_call if sys.argv[1] == "-" else library_call


def ask(name, _, values):
    number = keyretain.ASKS[name].number
    if name == "ADD":
        answer = call(ADD_KEY, values[0], values[1], values[2], len(values[2]), values[3])
    elif name == "REQUEST":
        answer = call(REQUEST_KEY, values[0], values[1], None, values[2])
    elif name in ("READ", "DESCRIBE"):
        answer = call(KEYCTL, number, values[0], room, ROOM)
    elif name == "UPDATE":
        answer = call(KEYCTL, number, values[0], values[1], len(values[1]))
    else:  # what isn't given is NULL
        answer = call(KEYCTL, number, *[None if it == b"" else it for it in (*values, 0, 0, 0)][:4])
    if answer == -1:
        return name_of_error()
    if name == "DESCRIBE":
        return room.raw[:answer - 1]
    form = keyretain.ASKS[name].answer
    return room.raw[:answer] if form == "bytes" else None if form == "nothing" else answer


player = Player(ask, None)
for line in sys.stdin:
    print(player.play(line.rstrip("\n")), flush=True)
