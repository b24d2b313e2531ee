"""passed.py PATH MODE UID PROGRAM WORD ..: becomes the program, with a socket that listens at the path, as systemd
does. The socket's file is that user's."""
import os
import socket
import sys

listening = socket.socket(socket.AF_UNIX, socket.SOCK_STREAM)
listening.bind(sys.argv[1])
os.chown(sys.argv[1], int(sys.argv[3]), -1)
os.chmod(sys.argv[1], int(sys.argv[2], 8))
listening.listen(16)
os.dup2(listening.fileno(), 3)
os.set_inheritable(3, True)
os.environ.update(LISTEN_FDS='1', LISTEN_PID=str(os.getpid()))
os.execv(sys.argv[4], sys.argv[4:])
