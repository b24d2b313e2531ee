"""mesh.py PATH: a client of a daemon nests keyrings six levels deep, each of which links all of the next level, and
then asks what has the daemon walk over all of them. Prints `walked` if each answer is right and comes soon: there are
4,096,000,000 ways down, so a walk that comes to a keyring once for each way would not end. Nor would a search in time
that looks for each key of its name anew whether it is possessed. Else prints what was wrong."""
import asks
from asks import keyretain
from compare import outcome

LEVELS, WIDTH = 6, 40
MATCHES, OWN = 4000, 16000


class Client(asks.Client):
    def keyring(self, name, ring):
        return self.add(self.context, "keyring", name, b"", ring)

    def says(self, name, *values):
        """What an ask is refused with, or `ok`."""
        answered = outcome(self.ask, name, self.context, *values)
        return answered if isinstance(answered, str) else "ok"


def nest(client):
    """Makes the keyrings, and links each to all of the level above. Returns those of each level."""
    levels, above = [], [keyretain.THREAD]
    for level in range(LEVELS):
        rings = [client.keyring(f"{level}.{place}", above[0]) for place in range(WIDTH)]
        client.many("LINK", [(ring, other) for other in above[1:] for ring in rings])
        levels.append(rings)
        above = rings
    return levels


def search():
    """What a search is refused with that comes to many keys which only their possessor finds. Who searches possesses
    many keyrings, in none of which they are."""
    owner, searcher = Client(1000), Client(1000)
    head, own = (it.keyring("head", keyretain.THREAD) for it in (owner, searcher))
    rings = owner.many("ADD", [(b"keyring", b"%d" % it, b"", head) for it in range(MATCHES)])
    keys = owner.many("ADD", [(b"user", b"x", b"s", ring) for ring in rings])
    owner.many("SETPERM", [(it, 0x3f3f0000) for it in (head, *rings)] + [(it, 0x3f000000) for it in keys])
    searcher.many("ADD", [(b"keyring", b"%d" % it, b"", own) for it in range(OWN)])
    return searcher.says("SEARCH", head, b"user", b"x", 0)


def walk():
    """The answers that are wrong."""
    client, other = Client(1000), Client(2000)
    key = other.add(other.context, "user", "secret", b"s3", keyretain.USER)
    levels = nest(client)
    below = client.add(client.context, "user", "below", b"s4", levels[-1][0])
    client.many("LINK", [(below, ring) for ring in levels[-1][1:]])
    nest(other)
    # both before the first walk: a further keyring has the daemon take room for a walk anew, and what a walk takes it
    # gives back
    rings = [client.keyring(name, keyretain.USER) for name in ("beside", "beside again")]
    said = []
    for ring in rings:
        said += [("EACCES", client.says("READ", key)),
                 ("EACCES", other.says("READ", below)),
                 ("ENOKEY", client.says("SEARCH", keyretain.THREAD, b"user", b"none", 0)),
                 ("ENOKEY", client.says("REQUEST", b"user", b"none", 0)),
                 ("EDEADLK", client.says("LINK", levels[0][0], levels[-1][0])),
                 ("ok", client.says("LINK", levels[0][0], ring))]
    said += [("ok", other.says("READ", key)), ("EACCES", search())]
    return [f"{got} for {wanted}" for wanted, got in said if got != wanted]


try:
    print(", ".join(walk()) or "walked")
except TimeoutError:
    print("an answer takes long")
except OSError as error:
    print(error)
