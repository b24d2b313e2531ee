"""served.py FOLDER read|flush|getattr COMMAND ..: runs a command while a file system of FUSE is at a folder, with one
file, `file`. Its server doesn't answer READ, FLUSH, or GETATTR of the file, and makes FOLDER.held then. Ends with the
command's status; with 77 where there can be no such file system."""
import ctypes
import errno
import os
import struct
import subprocess
import sys

LOOKUP, GETATTR, OPEN, INIT = 1, 3, 14, 26
HELD = {"read": 15, "flush": 25, "getattr": GETATTR}


def answer(opcode, node, body):
    """What the server says; None for what it doesn't know."""
    mode = 0o40755 if node == 1 and opcode == GETATTR else 0o100755
    attributes = struct.pack("=6Q10I", node, 1, 0, 0, 0, 0, 0, 0, 0, mode, 1, 0, 0, 0, 4096, 0)
    if opcode == INIT:
        return struct.pack("=4I2HI", 7, 31, 0, 0, 0, 0, 4096) + bytes(40)
    if opcode == OPEN:
        return bytes(16)
    if opcode == LOOKUP and body == b"file\0":
        return struct.pack("=4Q2I", 2, 0, 0, 0, 0, 0) + attributes
    return struct.pack("=Q2I", 0, 0, 0) + attributes if opcode == GETATTR else None


def serve(device):
    while ask := os.read(device, 1 << 17):
        _, opcode, unique, node = struct.unpack_from("=IIQQ", ask)
        if opcode == HELD[sys.argv[2]] and node != 1:
            open(sys.argv[1] + ".held", "wb").close()
            continue
        said = answer(opcode, node, ask[40:])
        error = 0 if said is not None else -errno.ENOENT if opcode == LOOKUP else -errno.ENOSYS
        os.write(device, struct.pack("=IiQ", 16 + len(said or b""), error, unique) + (said or b""))


def main():
    folder, system = sys.argv[1].encode(), ctypes.CDLL(None)
    try:
        device = os.open("/dev/fuse", os.O_RDWR)
    except OSError:
        return 77
    options = f"fd={device},rootmode=40000,user_id=0,group_id=0,allow_other"
    if system.mount(b"x", folder, b"fuse", 0, options.encode()) < 0:
        return 77
    server = os.fork()
    if server == 0:
        serve(device)
    os.close(device)
    status = subprocess.call(sys.argv[3:])
    os.kill(server, 9)
    system.umount2(folder, 2)
    return status


sys.exit(main())
