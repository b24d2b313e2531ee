"""walk.py PUBLIC PAGE FOLDERS: types the walk of two users of keyretain-guard(8), which is PAGE, into a shell of each,
by the uids 1000 and 1001, and compares what these print, line by line. PUBLIC stands for the path that it names;
FOLDERS have the programs, as a PATH. Run by root."""
import os
import pty
import re
import select
import shutil
import subprocess
import sys
import tempfile

from compare import compare, conclude

public, page, folders = sys.argv[1:]
PATIENCE = 20


class Shell:
    """A shell of a user at a terminal of its own, which gives it and each shell that is started in it one line a
    read."""

    def __init__(self, uid):
        self.keys, terminal = pty.openpty()
        env = {**os.environ, "PATH": f"{folders}:{os.environ['PATH']}", "SHELL": "/bin/sh", "HOME": "/", "PWD": "/"}
        how = {"stdin": terminal, "stdout": subprocess.PIPE, "stderr": subprocess.STDOUT, "start_new_session": True}
        self.process = subprocess.Popen(["/bin/sh"], cwd="/", env=env, user=uid, group=uid, extra_groups=[], **how)
        os.close(terminal)
        os.set_blocking(self.process.stdout.fileno(), False)
        self.said = b""

    def type(self, line):
        os.write(self.keys, f"{line}\n".encode())

    def line(self):
        """The next line that is printed; what there is of it where none comes."""
        while b"\n" not in self.said and select.select([self.process.stdout], [], [], PATIENCE)[0]:
            piece = self.process.stdout.read()
            if not piece:
                break
            self.said += piece
        line, _, self.said = self.said.partition(b"\n")
        return line.decode()

    def end(self):
        """What is left of what it prints, once it and the shell in it, if there is one, have been told the end."""
        for _ in range(2):
            os.write(self.keys, b"\4")
        self.process.wait(PATIENCE)
        os.close(self.keys)
        return (self.said + (self.process.stdout.read() or b"")).decode()


with open(page, encoding="utf-8") as file:
    walk = next(it for it in re.findall(r"^\.Bd -literal\n(.*?)^\.Ed$", file.read(), re.M | re.S) if "bob$" in it)
folder = tempfile.mkdtemp(prefix="keyretain.")
os.chmod(folder, 0o1777)
shells = {"alice": Shell(1000), "bob": Shell(1001)}
who = []
for line in walk.splitlines():
    prompt = re.match(r"(\w*)\$ (.*?)(\s+# .*)?$", line)
    if prompt:
        who = [prompt[1]] if prompt[1] else list(shells)
        for name in who:
            typed = prompt[2].replace("/run/keyretain/keyretain.sock", public)
            shells[name].type(typed.replace("/tmp/token", f"{folder}/token"))
    else:
        compare(f"{who[0]}, {line}", line, shells[who[0]].line())
for name, shell in shells.items():
    compare(f"what else {name} is told", "", shell.end())
shutil.rmtree(folder)
conclude()
