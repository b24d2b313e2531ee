"""Which outcomes of which asks Linux has shown, of those that FORMAT.md has and a kernel can give."""
import collections
import re

from compare import text_of

ASKS = {"add": "ADD", "newring": "ADD", "print": "READ", "rdescribe": "DESCRIBE", "update": "UPDATE", "link": "LINK",
        "unlink": "UNLINK", "move": "MOVE", "search": "SEARCH", "request": "REQUEST", "setperm": "SETPERM",
        "chown": "CHOWN", "chgrp": "CHOWN", "timeout": "SET_TIMEOUT", "revoke": "REVOKE", "invalidate": "INVALIDATE",
        "clear": "CLEAR", "restrict": "RESTRICT_KEYRING", "id": "GET_ID", "join": "JOIN", "thread": "THREAD",
        "fork": "FORK", "exec": "EXEC", "exit": "EXIT", "hello": "HELLO"}
STEPS = {"look-up": "EINVAL ENOKEY EKEYREVOKED EKEYEXPIRED EACCES", "type-name check": "EINVAL EPERM ENODEV",
         "description check": "EINVAL", "link check": "EPERM EDEADLK ELOOP ENFILE"}
# A kernel has no such contexts, and its memory and serials don't run out here.
OURS = {"ESRCH", "ENOSPC", "ENOMEM"}
ENTERING = {"HELLO", "THREAD", "FORK"}  # their limits are this service's own


def possible():
    """The outcomes of each ask, by its entry in FORMAT.md."""
    page, found = text_of("docs/FORMAT.md"), {}
    for name, text in re.findall(r"^- \*\*\d+ (\w+)\*\*(.*?)(?=^- |\Z)", page, re.M | re.S):
        if name not in ASKS.values():
            continue
        refusals = re.search(r"\*Refusals\*: (.*?)(?=\*\w+\*: |\Z)", text, re.S)
        said = " ".join(refusals[1].split()) if refusals and name not in ENTERING else ""
        said += " ".join(errors for step, errors in STEPS.items() if step in said.lower())
        found[name] = {"ok", *re.findall(r"\bE[A-Z]{3,}\b", said)} - OURS
    return found


def tell(pairs):
    """Prints what was seen, and what never was. `pairs` counts words of scripts and outcomes."""
    seen = collections.Counter()
    for (word, outcome), count in pairs.items():
        if word in ASKS:
            seen[ASKS[word], outcome] += count
    wanted = {(ask, outcome) for ask, outcomes in possible().items() for outcome in outcomes}
    for ask in sorted({ask for ask, _ in wanted}):
        shown = [f"{outcome} {count}" for (it, outcome), count in seen.most_common() if it == ask]
        print(f"{ask}: {', '.join(shown)}")
    print(f"pairs of FORMAT.md that Linux has shown: {len(wanted & set(seen))} of {len(wanted)}")
    never = collections.defaultdict(list)
    for ask, outcome in sorted(wanted - set(seen)):
        never[ask].append(outcome)
    print("never: " + "; ".join(f"{ask} {' '.join(outcomes)}" for ask, outcomes in never.items()))
    others = [f"{ask} {outcome} {seen[ask, outcome]}" for ask, outcome in sorted(set(seen) - wanted)]
    print(f"others: {', '.join(others)}")
