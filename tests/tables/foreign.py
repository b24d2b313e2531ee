"""foreign.py: writes docs/printed/C-FUNCTIONS.md, the C functions that the daemon's proof rests on, as the checker
names them; with tests/lib in PYTHONPATH. tests/tables compares the page."""
import os
import re
import shutil
import subprocess
import sys
import textwrap

from rows import TOP, text_of

PAGE = "docs/printed/C-FUNCTIONS.md"
HEAD = """\
# C functions

Printed by `tests/tables/foreign.py`: the functions whose contracts the daemon's proof takes as written, as `tools/rt
check --list-axioms` in `crates/keyretaind` names them. Some come only with leave to use files or sockets.
`KEYRETAIN_AXIOMS=1 tests/tables` compares them, in some minutes.

```text
"""


def listed():
    """Those of the page, by library."""
    block = re.search(r"^```text\n(.*?)^```$", text_of(PAGE), re.M | re.S)[1]
    return {library: names.split() for library, names in re.findall(r"^(\w+): ((?:.|\n )*)", block, re.M)}


def checked():
    """Those that a check of the daemon names, which takes minutes."""
    how = {"cwd": f"{TOP}/crates/keyretaind", "stdout": subprocess.PIPE, "stderr": subprocess.STDOUT, "text": True}
    said = subprocess.run([f"{TOP}/tools/rt", "check", "--list-axioms"], check=False, **how).stdout
    found = {"libc": [], "os": [], "threads": []}
    for library, name in re.findall(r"^\s+(libc|os)::(?:\w+::)*(\w+)\s+reached$", said, re.M):
        found[library].append(name)
    found["threads"] = ",".join(re.findall(r"^logic=proved .*?\bthreads=(\S+)", said, re.M)).split(",")
    return {library: sorted(names) for library, names in found.items()}


def reached():
    """The same where KEYRETAIN_AXIOMS is set; else None."""
    return checked() if os.environ.get("KEYRETAIN_AXIOMS") and shutil.which("rt") else None


def page(found):
    lines = [textwrap.fill(f"{library}: {' '.join(names)}", 116, subsequent_indent="  ", break_on_hyphens=False)
             for library, names in found.items()]
    return HEAD + "\n".join(lines) + "\n```\n"


if __name__ == "__main__":
    if not shutil.which("rt"):
        sys.exit("foreign: no toolchain on the PATH")
    with open(f"{TOP}/{PAGE}", "w", encoding="utf-8") as file:
        file.write(page(checked()))
