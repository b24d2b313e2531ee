"""hostile.py SOCKET SEED: runtimes that send what no runtime does. The agent ends each connection, and soon."""
import contextlib
import os
import random
import socket
import sys
import time

from compare import compare, conclude
import daemons

GOOD = b'{"fds":["seccompFd"],"state":{"id":"h"}}'
SECONDS = 20  # in which a connection must end; the agent's patience is two


def connect(path):
    client = daemons.connect(path)
    client.settimeout(SECONDS)
    return client


def send(client, data, descriptors=()):
    with contextlib.suppress(OSError):  # the agent has had enough
        if descriptors:
            socket.send_fds(client, [data[:1]], descriptors)
            data = data[1:]
        client.sendall(data)


def has_ended(client):
    """The agent says nothing, and ends the connection."""
    try:
        return client.recv(1) == b''
    except ConnectionError:
        return True
    except OSError:
        return False
    finally:
        client.close()


def sends(path, name, data, descriptors=()):
    client = connect(path)
    send(client, data, descriptors)
    compare(name, True, has_ended(client))


def main(path, seed):
    some = random.Random(seed)
    null, pipe = os.open('/dev/null', os.O_RDWR), os.pipe()
    sends(path, 'a file as the listener', GOOD, [null])
    sends(path, 'a pipe as the listener', GOOD, [pipe[0]])
    sends(path, 'an event as the listener, which is no file either', GOOD, [os.eventfd(0)])
    sends(path, '16 descriptors', GOOD, [null] * 16)
    sends(path, '17 descriptors', GOOD, [null] * 17)
    sends(path, '250 descriptors', GOOD, [null] * 250)
    sends(path, 'a byte that begins no object', b'x')
    sends(path, 'brackets without end', b'{"a":' * 100)
    sends(path, 'a deep array', b'{"a":' + b'[' * 100000)
    sends(path, 'more than a mebibyte', b'{"a":"' + b'x' * (1 << 20))
    sends(path, 'a text of a mebibyte, and nothing more', b'{"a":"' + b'x' * ((1 << 20) - 7))
    sends(path, 'an object, and then much', GOOD + b'x' * 100000, [null])
    is_ended = has_ended(connect(path))
    compare('a silent one', True, is_ended)
    if is_ended:  # else each of those to come is waited for
        drips(path)
        many_silent(path)
    descriptors_in_pieces(path, null)
    for _ in range(200):
        data = bytearray(GOOD)
        for _ in range(some.randrange(6)):
            data[some.randrange(len(data))] = some.randrange(256)
        client = connect(path)
        send(client, bytes(data[:some.randrange(len(data) + 1)]), [null] * some.randrange(3))
        client.shutdown(socket.SHUT_WR)
        compare('random bytes', True, has_ended(client))
    conclude()


def drips(path):
    """A byte now and then: the time counts from the connection on."""
    client, began = connect(path), time.monotonic()
    client.settimeout(0.05)
    for byte in GOOD * 20:
        send(client, bytes([byte]) if byte != ord('}') else b' ')
        try:
            if client.recv(1) == b'':
                break
        except TimeoutError:
            continue
        except OSError:
            break
    compare('one that drips', True, time.monotonic() - began < SECONDS)
    client.close()


def descriptors_in_pieces(path, null):
    """Descriptors with each byte: too many in all."""
    client = connect(path)
    with contextlib.suppress(OSError):
        for byte in GOOD:
            socket.send_fds(client, [bytes([byte])], [null] * 3)
    compare('descriptors with each byte', True, has_ended(client))


def many_silent(path):
    """More than the agent looks at together; those that wait get their turn."""
    clients = [connect(path) for _ in range(40)]
    compare('40 silent ones', True, all([has_ended(client) for client in clients]))


if __name__ == '__main__':
    main(sys.argv[1], int(sys.argv[2]))
