"""with_secret_tool.py: secret-tool of libsecret, whose manual page says what each word does."""
from stage import Caller, bus, compare, conclude, daemon, run, secrets


def tool(*words, given=""):
    return run(["secret-tool", *words], given)


with daemon(), bus(), secrets():
    compare("nothing", (1, b""), tool("lookup", "a", "b")[:2])
    compare("store", 0, tool("store", "--collection=session", "--label=a label", "a", "b", "u", "v", given="s3cret")[0])
    compare("lookup", (0, b"s3cret"), tool("lookup", "a", "b")[:2])
    compare("lookup of another", (1, b""), tool("lookup", "a", "c")[:2])
    tool("store", "--collection=session", "--label=two", "a", "c", "u", "v", given="other")
    status, found, names = tool("search", "--all", "u", "v")
    compare("search", (0, {"label = a label", "secret = s3cret", "label = two", "secret = other"}), (
        status, {line for line in found.decode().split("\n") if line.startswith(("label", "secret"))}))
    tool("store", "--collection=session", "--label=new", "a", "b", "u", "v", given="anew")
    compare("stored anew", (0, b"anew"), tool("lookup", "a", "b")[:2])
    status, _, told = tool("store", "--label=x", "d", "e", given="s3cret")
    compare("no default collection", (1, True, False), (status, b"session" in told, b"s3cret" in told))
    compare("nothing is kept there", (1, b""), tool("lookup", "d", "e")[:2])
    compare("clear", 0, tool("clear", "a", "b")[0])
    compare("cleared", (1, b""), tool("lookup", "a", "b")[:2])
    compare("the other stays", (0, b"other"), tool("lookup", "a", "c")[:2])
    compare("by the name of its own", 0, tool("store", "--collection=keyretain", "--label=x", "k", "l", given="own")[0])
    compare("it is there", (0, b"own"), tool("lookup", "k", "l")[:2])
with daemon(), bus(), secrets("--default"):
    compare("with a default: as typed", 0, tool("store", "--label=x", "d", "e", given="s3cret")[0])
    compare("with a default: lookup", (0, b"s3cret"), tool("lookup", "d", "e")[:2])
    compare("with a default: clear", (0, 1), (tool("clear", "d", "e")[0], tool("lookup", "d", "e")[0]))
conclude()
