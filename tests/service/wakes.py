"""wakes.py PATH CLIENTS: so many clients of a daemon with as many lanes ask while one of them has it search long, and
then nobody asks. Each client is in turn the one that searches. Prints `woken` if each of the others is answered soon
all the same: its thread slept by then, and only who gave the turn back could wake it. Else prints what was wrong."""
import sys
import time

from asks import Client, keyretain
from compare import outcome

RINGS = 20000  # a search of all of them takes some milliseconds
ROUNDS = 20
LATER = 0.001  # seconds after which the others ask


def wait_for_others(clients, searcher):
    """One client has the daemon search, and the others ask meanwhile."""
    searcher.send("SEARCH", searcher.context, keyretain.USER, "user", "none", 0)
    time.sleep(LATER)
    others = [client for client in clients if client is not searcher]
    for client in others:
        client.send("GET_ID", client.context, keyretain.USER, 0)
    if (found := outcome(searcher.receive)) != "ENOKEY":
        raise OSError(f"the search comes to {found}")
    for client in others:
        client.receive()


def main():
    clients = [Client(1000) for _ in range(int(sys.argv[2]))]
    ring = clients[0].add(clients[0].context, "keyring", "all", b"", keyretain.USER)
    clients[0].many("ADD", [("keyring", str(number), b"", ring) for number in range(RINGS)])
    for searcher in clients:
        for _ in range(ROUNDS):
            wait_for_others(clients, searcher)


try:
    main()
    print("woken")
except TimeoutError:
    print("an answer doesn't come")
except OSError as error:
    print(error)
