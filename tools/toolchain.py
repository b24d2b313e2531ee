"""The toolchain's command rt as a Python module, with two of its parts replaced at run time, for the tools beside this
file.

- `rtlib.Crate.stamp`: each crate is summed up once a question. Some versions sum a library up once for each way down to
  it, which are thousands for the daemon.
- `Crate.build_rlib`, for `rt ci` alone: a library keeps its checked modules, so that the wrong bodies of the crate may
  be tried over its proof.

`rt ci` is also told, by its RT_JOBS, to run each check in one job.

Needed of the toolchain: rt is a file of Python with `main` and `Crate`; a crate has `stamp`, `build_rlib`, `folder`,
`rlib` and `cuts_libraries`; an rlib has `format`, `toolchain/checked.json` and `toolchain/checked.a`. Where one of
these isn't there, `load` raises Unknown, or a check begins at nothing: plain rt then does the same, and the tools say
so in one line.

This file can go once rt itself sums each crate up once, and tries many mutants over one proof. Until then whoever takes
a new toolchain compares one run of plain `rt ci` with the gate's.
"""
import importlib.machinery
import importlib.util
import json
import os
import shutil
import sys
import threading

sys.dont_write_bytecode = True

# A check reads the checked modules that it needs of the libraries below it, also their proofs. The libraries of these
# crates hold statements alone: what stands above krs_store reads no proof of it, and nothing of the crates of asks. The
# wrong bodies of such a crate are tried over no proof of it, and so take longer.
CUT = ("krs_store",)
# These read much for the little that they prove. Each job of a check reads it again: four jobs took three times as much
# of a processor as one, and no less time by the clock.
READ_MUCH = ("krs_store", "krs_serve", "krs_bench")
ONE_JOB = ["--jobs", "1"]
# The memory, in KiB, that the largest check takes.
LARGEST = 3_000_000


class Unknown(Exception):
    """The toolchain has another shape than these tools know."""


def checks_at_once():
    """As many as there are processors to use, fewer where there is little memory."""
    processors = len(os.sched_getaffinity(0))
    with open("/proc/meminfo", encoding="utf-8") as text:
        free = next((int(line.split()[1]) for line in text if line.startswith("MemAvailable:")), LARGEST)
    return max(1, min(processors, free // LARGEST))


def remember_sums(crate):
    """Has the sums of crates that one question asks for made once each."""
    plain, asked = crate.stamp, threading.local()

    def stamp(self):
        known = getattr(asked, "known", None)
        if known is None:
            asked.known = {}
            try:
                return stamp(self)
            finally:
                asked.known = None
        if self.folder not in known:
            known[self.folder] = plain(self)
        return known[self.folder]

    crate.stamp = stamp


def seed(crate, folder):
    """Puts into a folder what the proof of a library left in its rlib, so that checks may begin there. Returns whether
    there is as much: what a check can't use it proves itself."""
    if is_cut(crate):
        return False
    try:
        with open(f"{crate.rlib}/format", encoding="utf-8") as text:
            build = next(line.split()[1] for line in text if line.startswith("rattle-build "))
        with open(f"{crate.rlib}/toolchain/checked.json", encoding="utf-8") as text:
            places = [it for it in map(json.loads, text) if "/" not in it[0]]
        with open(f"{crate.rlib}/toolchain/checked.a", "rb") as archive:
            modules = archive.read()
    except (OSError, StopIteration, ValueError):
        return False
    room = f"{folder}/{build.replace('/', '_')}"
    os.makedirs(room)
    for module, begin, length in places:
        with open(f"{room}/{module}.oantt", "wb") as file:
            file.write(modules[begin : begin + length])
    return True


def is_cut(crate):
    """Whether the crate's library holds statements and no proofs."""
    return crate.name in CUT


def has_one_job(crate):
    """Whether the crate is checked in one job, however many processors are idle."""
    return crate.name in READ_MUCH


def give_one_job():
    """Has each check of `rt ci` run in one job, and as many checks at once as there are processors and memory for: each
    job of a check reads all libraries below it once more. RT_JOBS may give another number of checks."""
    os.environ.setdefault("RT_JOBS", str(checks_at_once()))


def keep_proofs(rt):
    """Has the libraries that `rt ci` builds keep their checked modules, as they do outside the gate, so that the wrong
    bodies of a crate may be tried over its proof; but for those that are cut."""
    build = rt.Crate.build_rlib

    def build_with_proofs(crate, flags, anew):
        crate.cuts_libraries = is_cut(crate)
        return build(crate, flags, anew)

    rt.Crate.build_rlib = build_with_proofs


def build_library(rt, crate, flags):
    """Proves a crate and builds its library, over what earlier checks kept; one that is cut from nothing, unless
    another checkout on this machine has it. Returns the status."""
    if not is_cut(crate) or crate.is_built():
        return crate.build_rlib(flags, False)
    if hasattr(rt, "take_rlib") and rt.take_rlib(crate):
        return 0
    stamp = crate.stamp()
    status = build_statements(rt, crate)
    if not status and stamp == crate.stamp():
        with open(f"{crate.folder}/out/rlib/stamp", "w", encoding="utf-8") as file:
            file.write(stamp)
        if hasattr(rt, "offer"):
            rt.offer(crate, stamp)
    return status


def build_statements(rt, crate):
    """Proves a crate from nothing, over libraries that may rest on work that was kept, and builds a library of its
    statements. Returns the status."""
    shutil.rmtree(f"{crate.folder}/out/rlib", ignore_errors=True)
    os.makedirs(f"{crate.folder}/out/rlib")
    words = [*crate.words(ONE_JOB, keeps=False), "--statements", "-o", crate.rlib]
    return crate.call(rt.rtlib.RATTLE, "build", *words)


def keep_to_checkout(rtlib):
    """Has the crates of another checkout below this one be none of this one's."""
    plain = rtlib.crates_below

    def crates_below(top):
        return [it for it in plain(top) if not it.folder.startswith(f"{top}/")
                or os.path.dirname(it.folder) == f"{top}/crates"]

    rtlib.crates_below = crates_below


def load():
    """The toolchain's rt, which sums each crate up once a question, and keeps to this checkout."""
    path = shutil.which("rt")
    if path is None:
        sys.exit("rt is not on the PATH: README.md says what is needed")
    try:
        loader = importlib.machinery.SourceFileLoader("rt", os.path.realpath(path))
        module = importlib.util.module_from_spec(importlib.util.spec_from_loader("rt", loader))
        sys.modules["rt"] = module
        loader.exec_module(module)
        remember_sums(module.rtlib.Crate)
        keep_to_checkout(module.rtlib)
    except (AttributeError, ImportError, SyntaxError) as error:
        raise Unknown(str(error)) from error
    return module
