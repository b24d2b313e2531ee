"""examples.py PATH FOLDER: compiles the programs in C of libkeyretain(3) with what FOLDER has, runs them, and those in
Python of the package's own page, as they stand, with the daemon at PATH: in no session, and in one that is held
meanwhile. Then those of keyretain-session(1), by its name in FOLDER."""
import os
import re
import shutil
import subprocess
import sys
import tempfile
import textwrap

from compare import TOP, compare, conclude, text_of, write
import keyretain

path, built = sys.argv[1:]


def blocks(name, pattern):
    return re.findall(pattern, text_of(name), re.S)


def programs():
    """The programs, by where they stand."""
    page = "man/libkeyretain.3"
    return [(page, one.replace("\\e", "\\")) for one in blocks(page, r"\.Bd -literal[^\n]*\n(#include.*?)\.Ed")]


def run(words, session="", libraries=built):
    environment = {**os.environ, "KEYRETAIN_SOCKET": path, "LD_LIBRARY_PATH": libraries, "KEYRETAIN_SESSION": session,
                   "PATH": f"{built}:{os.environ['PATH']}", "PYTHONPATH": f"{TOP}/python"}
    ended = subprocess.run(words, env=environment, stdout=subprocess.PIPE, stderr=subprocess.STDOUT, timeout=60,
                           text=True, check=False)
    return ended.returncode, ended.stdout


def try_sessions():
    """The examples of keyretain-session(1), but for the serials. Where the kernel lets no filter be set, that is
    said."""
    page = r"\$ keyretain-session ?([^\n]*?) ?-- sh\n(.*?)\$ exit\n"
    found = blocks("man/keyretain-session.1", page)
    compare("the examples of keyretain-session(1)", ["", "--syscalls", ""], [option for option, _ in found])
    for option, text in found:
        typed = [it[2:] for it in text.splitlines() if it.startswith("$ ")]
        printed = [it for it in text.splitlines() if not it.startswith("$ ")]
        words = [f"{built}/keyretain-session", *option.split(), "--", "sh", "-c", "; ".join(typed)]
        status, said = run(words, libraries="")
        if option and status == 3:
            print(f"skipped: keyretain-session {option}: {said}", end="")
            continue
        wanted, got = ([re.sub(r"^\d+$", "N", it) for it in lines] for lines in (printed, said.splitlines()))
        compare(f"keyretain-session {option}", wanted, got)


def try_everywhere(what, words, wanted):
    """It prints the same outside a session and inside one, to which the user keyring is linked as in a login's."""
    compare(f"{what}: in no session", (0, wanted), run(words))
    with keyretain.Client(path, timeout=20) as client:
        context = client.hello(os.geteuid(), os.getegid())
        serial = client.join(context, "examples")
        client.setperm(context, serial, 0x3F1F0000)
        client.link(context, keyretain.USER, keyretain.SESSION)
        compare(f"{what}: in a session", (0, wanted), run(words, f"{serial}:examples"))


with tempfile.TemporaryDirectory(prefix="keyretain.") as folder:
    compare("programs in the manual page", 2 * ["man/libkeyretain.3"], [where for where, _ in programs()])
    for (where, text), wanted in zip(programs(), ("s3\n", "updated\n")):
        source, program = folder + "/example.c", folder + "/example"
        write(source, text)
        compiled = subprocess.run(["cc", "-Wall", "-Wextra", "-Werror", "-I", f"{TOP}/c/library", source, "-o", program,
                                   "-L", built, "-lkeyretain"], capture_output=True, text=True, check=False)
        compare(f"{where}: its program is compiled", (0, ""), (compiled.returncode, compiled.stderr))
        if compiled.returncode == 0:
            try_everywhere(where, [program], wanted)
            status = run([program], "5:gone")[0]
            compare(f"{where}: in a session that is gone", 1, status)
    examples = [textwrap.dedent(it) for it in re.findall(r"^    import os.*?\n\n", keyretain.__doc__, re.M | re.S)]
    compare("programs in Python", 2, len(examples))
    for text, wanted in zip(examples, ("b's3'\n", "inv\ngc\n")):
        try_everywhere("the package's page", [sys.executable, "-B", "-c", text], wanted)
if shutil.which("keyctl"):
    try_sessions()
else:
    print("skipped: the examples of keyretain-session(1): no keyctl(1)")
conclude()
