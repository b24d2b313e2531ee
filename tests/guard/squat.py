#!/usr/bin/env python3
"""squat.py SOCKET NAME: makes a session of this name that everybody may join and read, says so, and once its input ends
says how many keys others have put into it."""

import os
import sys

import keyretain

SESSION, ALL_RIGHTS = -3, 0x3F3F3F3F
with keyretain.Client(sys.argv[1], timeout=20) as client:
    context = client.hello(os.geteuid(), os.getegid())
    ring = client.join(context, sys.argv[2])
    client.setperm(context, SESSION, ALL_RIGHTS)
    print("ready", flush=True)
    sys.stdin.read()
    print(f"{len(client.read(context, ring)) // 4} keys", flush=True)
