"""planted.py PATH COMMAND ..: runs a command while another user has a key `planted` in a keyring of its own, which all
may link, and whose serial is in the variable PLANTED. Keyrings are nested in that, as deep as may be linked."""
import os
import subprocess
import sys

import keyretain

with keyretain.Client(sys.argv[1]) as other:
    theirs = other.hello(os.geteuid() + 1, os.getegid() + 1)
    shared = other.add(theirs, "keyring", "shared", b"", keyretain.USER)
    for serial in (shared, other.add(theirs, "user", "planted", b"of another user", shared)):
        other.setperm(theirs, serial, 0x3F3F3F3F)
    within = shared
    for _ in range(5):
        within = other.add(theirs, "keyring", "deep", b"", within)
    sys.exit(subprocess.call(sys.argv[2:], env={**os.environ, "PLANTED": str(shared)}))
