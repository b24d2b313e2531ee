"""The sources that the programs are made from."""
import hashlib
import os

TOP = os.path.dirname(os.path.dirname(os.path.realpath(__file__)))
PROGRAMS = ("keyretain", "keyretaind")


def crates_below(names):
    """These crates and all crates of crates.txt that they stand on, by name."""
    below = {}
    with open(f"{TOP}/crates.txt", encoding="utf-8") as file:
        for line in file:
            head, _, rest = line.partition("#")[0].partition(":")
            if head.strip():
                below[head.split()[0]] = rest.split()
    found, todo = set(), list(names)
    while todo:
        name = todo.pop()
        # the others are the toolchain's own
        if name in below and name not in found:
            found.add(name)
            todo += below[name]
    return sorted(found)


def sum_of(parts, names=PROGRAMS):
    """A sum of what the programs, or the crates of these names, are made from: these folders of each crate, as src, and
    the list of crates."""
    total = hashlib.sha256()
    for crate in crates_below(names):
        for part in parts:
            for folder, folders, files in os.walk(f"{TOP}/crates/{crate}/{part}"):
                folders.sort()
                for file in sorted(files):
                    with open(f"{folder}/{file}", "rb") as text:
                        name = os.path.relpath(f"{folder}/{file}", TOP)
                        total.update(f"{name} {hashlib.sha256(text.read()).hexdigest()}\n".encode())
    for file in ("crates.txt", "HANDLES"):
        with open(f"{TOP}/{file}", "rb") as text:
            total.update(text.read())
    return total.hexdigest()
