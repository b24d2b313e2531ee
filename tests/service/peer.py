"""peer.py send PATH WAY HEX: sends bytes to a server and prints what comes back, in hexadecimal. WAY is whole; bytes,
one a write; open, which does not end its side; dies, which reads nothing; flood, which sends the bytes again and again
while they are taken, and reads nothing.
peer.py answer PATH HEX: a server of one connection, which answers the first bytes that come with these, and ends."""
import select
import signal
import socket
import sys

job, path, *words = sys.argv[1:]
signal.alarm(20)
end = socket.socket(socket.AF_UNIX)

if job == "answer":
    end.bind(path)
    end.listen(1)
    client, _ = end.accept()
    client.recv(65536)
    client.sendall(bytes.fromhex(words[0]))
    sys.exit()

way, asks = words[0], bytes.fromhex(words[1])
end.connect(path)
if way == "flood":
    for _ in range(200000):
        if not select.select([], [end], [], 0.5)[1]:
            break
        end.send(asks)
    sys.exit()
for piece in [asks[i:i + 1] for i in range(len(asks))] if way == "bytes" else [asks]:
    end.sendall(piece)
if way != "dies":
    if way != "open":
        end.shutdown(socket.SHUT_WR)
    while piece := end.recv(65536):
        sys.stdout.write(piece.hex())
