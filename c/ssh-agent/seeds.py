#!/usr/bin/env python3
"""seeds.py FOLDER: writes what ssh-add sends to an agent that answers all, a file for each run of it: each message with
its length, for keys and certificates of ssh-keygen."""
import base64
import os
import socket
import struct
import subprocess
import sys
import tempfile
import threading

KINDS = (("ed25519", "ed25519", "256"), ("p256", "ecdsa", "256"), ("p384", "ecdsa", "384"), ("p521", "ecdsa", "521"),
         ("rsa", "rsa", "1024"))


def serve(listener: socket.socket, heard: list) -> None:
    while True:
        end = listener.accept()[0]
        with end:
            while len(head := end.recv(4, socket.MSG_WAITALL)) == 4:
                message = end.recv(struct.unpack(">I", head)[0], socket.MSG_WAITALL)
                heard.append(head + message)
                end.sendall(struct.pack(">IB", 1, 6))


def main(folder: str) -> None:
    os.makedirs(folder)
    with tempfile.TemporaryDirectory() as room, socket.socket(socket.AF_UNIX) as listener:
        listener.bind(f"{room}/agent")
        listener.listen()
        heard: list = []
        threading.Thread(target=serve, args=(listener, heard), daemon=True).start()
        environment = {**os.environ, "SSH_AUTH_SOCK": f"{room}/agent"}
        for name, kind, bits in KINDS:
            key = f"{room}/{name}"
            subprocess.run(["ssh-keygen", "-q", "-t", kind, "-b", bits, "-N", "", "-f", key], check=True)
            subprocess.run(["ssh-keygen", "-q", "-s", key, "-I", "x", f"{key}.pub"], check=True)
            for words in ([], ["-c", "-t", "60"], ["-d"]):
                subprocess.run(["ssh-add", "-q", *words, key], env=environment, check=False, stderr=subprocess.DEVNULL)
            for public in f"{key}.pub", f"{key}-cert.pub":
                with open(public, encoding="ascii") as text:
                    blob = base64.b64decode(text.read().split()[1])
                request = struct.pack(">BI", 13, len(blob)) + blob + struct.pack(">I4sI", 4, b"data", 2)
                heard.insert(len(heard) // 2, struct.pack(">I", len(request)) + request)
            with open(f"{folder}/{name}", "wb") as file:
                file.write(b"".join(heard))
            heard.clear()


main(sys.argv[1])
