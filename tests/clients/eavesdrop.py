"""eavesdrop.py UID PATH [deaf]: becomes UID, and serves at PATH: says yes to everything, and prints a line for each
ask: its number, and of HELLO (256) the uid. Prints `listening` first. One that is deaf accepts nothing."""
import os
import signal
import socket
import sys
import threading

from daemons import become
from servers import End, keyretain, number, reply

OTHERS = {"nothing": b"", "bytes": b"keyring;0;0;3f1b0000;x"}  # what isn't a number


def serve(end):
    for tag, name, values in end.asks():
        print(keyretain.ASKS[name].number, values[0] if name == "HELLO" else "", flush=True)
        end.socket.sendall(reply(tag, OTHERS.get(keyretain.ASKS[name].answer, number(9))))
    end.socket.close()


become(int(sys.argv[1]))
listener = socket.socket(socket.AF_UNIX)
listener.bind(sys.argv[2])
os.chmod(sys.argv[2], 0o777)
listener.listen(8)
print("listening", flush=True)
while sys.argv[3:] == ["deaf"]:
    signal.pause()
while True:
    threading.Thread(target=serve, args=(End(listener.accept()[0]),), daemon=True).start()
