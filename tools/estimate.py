"""How long a build takes: what each crate took when it was last measured, and the schedule of tools/build played
through."""

# The part of a check that goes on in one process, however many jobs it has.
ALONE = 0.25
# What a crate must have taken of what was foreseen, to tell how fast the machine is: one that took less had work kept.
LEAST = 0.5
# What the build that was measured counts for beside this one, in seconds.
BEFORE = 120


def read_seconds(path):
    """The processor seconds that each crate took, by its name, and how many times as long as foreseen that build took:
    a line for each, as `krs_types 61`, and `* 1.5` for the second; # begins a comment."""
    try:
        with open(path, encoding="utf-8") as file:
            lines = [line.partition("#")[0].split() for line in file]
    except FileNotFoundError:
        lines = []
    known = {name: float(seconds) for name, seconds in filter(None, lines)}
    return known, known.pop("*", 1.0)


def jobs_for(idle, ready):
    """How many jobs the next crate gets where so many processors are idle, and so many crates ready."""
    return max(1, min(4, idle // ready))


def wall(seconds, jobs):
    """The seconds by the clock of a check that takes so many of a processor, with so many jobs."""
    return seconds * (ALONE + (1 - ALONE) / jobs)


def heights(seconds, below):
    """The seconds of the longest chain of crates that begins with each crate and goes up. seconds: those of each crate
    by its name; below: the names of all crates that each stands on."""
    known = {}
    for name in sorted(seconds, key=lambda it: -len(below[it])):
        known[name] = seconds[name] + max((known[it] for it in known if name in below[it]), default=0)
    return known


def left(seconds, below, most, running):
    """The seconds by the clock until crates are built, `most` jobs at once. seconds: what each takes that isn't built
    yet; running: for those that are begun, their jobs and for how long they have been running."""
    height = heights(seconds, below)
    waiting = sorted((it for it in seconds if it not in running), key=lambda it: -height[it])
    ends = {it: (max(0, wall(seconds[it], jobs) - since), jobs) for it, (jobs, since) in running.items()}
    now, undone = 0, set(seconds)
    while undone:
        while ready := [it for it in waiting if not undone & below[it]]:
            idle = most - sum(jobs for _, jobs in ends.values())
            if idle <= 0:
                break
            jobs = jobs_for(idle, len(ready))
            ends[ready[0]] = now + wall(seconds[ready[0]], jobs), jobs
            waiting.remove(ready[0])
        name = min(ends, key=lambda it: ends[it][0])
        now = ends.pop(name)[0]
        undone.remove(name)
    return now


def pace(taken, before):
    """How many times as long crates take here as was foreseen: as in the build that was measured, and more and more as
    in this one. taken: for each crate that has ended what was foreseen, and what it took."""
    telling = [(foreseen, took) for foreseen, took in taken if took >= LEAST * foreseen > 0]
    return (BEFORE * before + sum(took for _, took in telling)) / (BEFORE + sum(foreseen for foreseen, _ in telling))
