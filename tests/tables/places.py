"""How the tables compare: with the file and the line of what differs."""
import collections
import re

import compare as lib
from rows import text_of

# Of what is compared the file, by how its name begins.
FILES = {"FORMAT": "docs/FORMAT.md", "vector": "docs/FORMAT.md", "keyretain-protocol(7)": "man/keyretain-protocol.7",
         "keyretain(1)": "man/keyretain.1", "the asks of the code": "crates/krs_types/src/ask.rt",
         "the row of the code": "crates/krs_types/src/ask.rt", "the commands": "crates/krs_commands/src/command.rt",
         "keyretain --help": "crates/krs_commands/src/command.rt", "completion": "contrib/bash-completion/keyretain",
         "the Python client, errors": "python/keyretain/errors.py", "the C client, errors": "c/common/frames.c",
         "the Python client": "python/keyretain/client.py", "the C client": "c/library/asks.c",
         "rows.c": "c/common/rows.c", "krs_admission.h": "c/supervisor/krs_admission.h",
         "bench/results": "bench/results/0.1.0.txt", "COSTS": "docs/COSTS.md",
         "C-FUNCTIONS": "docs/printed/C-FUNCTIONS.md"}
# Words that say nothing of the line.
NOISE = {"errors", "wanted", "got", "None"}


def place_of(what, differs):
    """FILE:LINE: the line that has the most words of what differs and of what is compared. A word counts for less the
    more lines have it."""
    name = next((it for it in FILES if what.startswith(it)), None)
    if not name:
        return what
    path, words = FILES[name], {*re.findall(r"\w+", what.removeprefix(name) + differs)} - NOISE
    lines = [words & {*re.findall(r"\w+", line)} for line in text_of(path).split("\n")]
    counts = collections.Counter(it for line in lines for it in line)
    weights = [sum(1 / counts[it] for it in line) for line in lines]
    return f"{path}:{weights.index(max(weights)) + 1}: {what}"


def compare(what, wanted, got):
    lib.compare(what if wanted == got else place_of(what, lib.difference(wanted, got)), wanted, got)


def compare_all(what, wanted, got):
    """Two maps, an entry each."""
    for key in {**wanted, **got}:
        compare(f"{what}: {key}", wanted.get(key), got.get(key))
