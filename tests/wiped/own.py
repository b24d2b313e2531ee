"""own.py SOCKET DESCRIPTION: own.c by the Python client."""
import os
import sys
from pathlib import Path

sys.path.insert(0, str(Path(__file__).resolve().parents[2] / "python"))
import keyretain  # noqa: E402

own, at = bytearray(65536), 0
payload = memoryview(own)[:int(os.read(0, 8), 16)]
while at < len(payload):
    at += os.readv(0, [payload[at:]])
client = keyretain.Client(sys.argv[1], trust="any")
context = client.hello(1000, 1000)
key = client.add(context, "user", sys.argv[2], payload, keyretain.USER)
own[:] = bytes(len(own))
is_well = client.read_into(context, key, own) == len(payload)
client.update(context, key, payload)
client.send("UPDATE", context, key, payload)
client.receive()
own[:] = bytes(len(own))
is_well = is_well and client.read_into(context, key, bytearray(4)) == len(payload)  # there is no room for it
print("done" if is_well else "failed", flush=True)
os.read(0, 1)
