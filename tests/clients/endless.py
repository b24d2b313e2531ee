"""endless.py LIBRARY: a scan by the libkeyutils LIBRARY of what a daemon says that has no end: each key is a keyring of
65000 others."""
import os
import subprocess
import sys

from servers import compare, conclude, plain, reply, served

SCAN = """
import ctypes, resource, sys
library = ctypes.CDLL(sys.argv[1], use_errno=True)
found = library.find_key_by_type_and_desc(b"user", b"none", 0)
print(found, resource.getrusage(resource.RUSAGE_SELF).ru_maxrss < 128 << 10)
"""
LINKS = b"".join(number.to_bytes(4, "little") for number in range(1000, 66000))


def serve(end):
    for tag, name, values in end.asks():
        body = LINKS if name == "READ" else b"keyring;%d;0;3f3f0000;x" % os.geteuid() if name == "DESCRIBE" else None
        if name == "REQUEST":
            end.socket.sendall(reply(tag, b"", 126))
        else:
            end.socket.sendall(reply(tag, plain(name, values) if body is None else body))


def scan(seconds):
    with served(serve) as path:
        environment = {**os.environ, "KEYRETAIN_SOCKET": path}
        try:
            return subprocess.run([sys.executable, "-c", SCAN, sys.argv[1]], env=environment, stdout=subprocess.PIPE,
                                  timeout=seconds, text=True, check=False).stdout.strip()
        except subprocess.TimeoutExpired:
            return "no end"


compare("a scan that would have no end: no key, in less than 128 MiB", "-1 True", scan(90))
conclude()
