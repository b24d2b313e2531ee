"""kernel.py CONTEXTS KEYRETAIN WORD ..: scripts on the kernel's keyrings and on `keyretain script`, line by line.

  seeds FIRST COUNT LINES     scripts of so many lines, by seeds; a script ends where the two are apart
  probes [NAME ..]            the probe of each rule, which must show just this
  replay FILE                 a script from a file
  traces COUNT                short scripts in which both answer the same, with all answers

--root: among all users of the machine; --calls FOLDER: on the same calls under keyretain-session, where FOLDER has it
and hooks.so, and KEYRETAIN is keyretaind; --jobs N: so many at once; --coverage: what was answered to which ask."""
import argparse
import collections
import concurrent.futures
import os
import sys
import traceback
from typing import NamedTuple

from compare import check, conclude, skipped
import coverage
import play
import rules
import scripts
import sides
from sides import Lost
import traces as traces_of

PACES = 1, 3, 10
OF_NO_SESSION = {"U16"}  # rules that don't show under a session: what takes its place names a user keyring


class Ran(NamedTuple):
    """What became of a script."""
    lines: list
    rules: collections.Counter
    pairs: collections.Counter
    end: str
    fault: str = ""


def named(answer):
    return answer if isinstance(answer, str) else "ok"


def line_of(it, line):
    word, *words = line.split()
    return rules.Line(it.world, word, words)


def is_control(world, line):
    return world.context is None or world.context.ended or line.split()[0] in (
        "hello", "context", "thread", "fork", "exec", "exit", "wait")


def step(it, line, seen, pairs):
    """Plays a line. Returns the rule that explains a difference, and whether the two are apart now."""
    if is_control(it.world, line):
        it.play(line)
        pairs[line.split()[0], "ok"] += 1
        return None, False
    state = line_of(it, line)
    parting = rules.parting(state)
    it.world.strayed |= {parting} - {None}
    try:
        pairs[state.word, named(it.play(line))] += 1
        return None, bool(parting)
    except play.Difference as difference:
        pairs[state.word, named(difference.linux)] += 1
        state = state._replace(linux=difference.linux, here=difference.here, held=it.held)
        rule = rules.explaining(state)
        if rule is None:
            raise
        seen[rule] += 1
        return rule, bool(parting) or not rules.goes_on(it, state)


def begin(given, pace=1):
    kernel = sides.Kernel(given.contexts, given.root)
    try:
        other = (sides.Session(given.contexts, given.calls, given.keyretain) if given.calls
                 else sides.Script(given.keyretain))
    except Exception:
        kernel.end()
        raise
    return play.Play(kernel, other, pace, bool(given.calls))


def run_lines(given, next_line, pace):
    """A script whose lines `next_line` says, until it says none."""
    it, seen, pairs, done = begin(given, pace), collections.Counter(), collections.Counter(), []
    try:
        while (line := next_line(it, len(done))) is not None:
            done.append(line)
            if step(it, line, seen, pairs)[1]:
                return Ran(done, seen, pairs, "apart")
        return Ran(done, seen, pairs, "whole")
    except play.Difference as difference:
        return Ran(done, seen, pairs, "unexplained", str(difference))
    except Lost as lost:
        return Ran(done, seen, pairs, "lost", str(lost))
    except play.Late:
        return Ran(done, seen, pairs, "late")
    finally:
        it.end()


def run_seed(given, seed):
    """The script of a seed; once more and slower where a second went by that it didn't wait for."""
    for pace in PACES:
        drawer = None

        def next_line(it, at):
            nonlocal drawer
            if at >= given.lines:
                return None
            drawer = drawer or scripts.Drawer(it.world, seed, given.root, bool(given.calls), notes=it.has_notes)
            for _ in range(30):
                line = drawer.draw()
                if is_control(it.world, line) or not rules.parting(line_of(it, line)) or drawer.likely(0.01):
                    break
            return line

        try:
            ran = run_lines(given, next_line, pace)
        except Exception:
            return Ran([], collections.Counter(), collections.Counter(), "broken", traceback.format_exc())
        if ran.end != "late":
            break
    return ran


def seeds(given):
    """Many seeds side by side."""
    totals, pairs, ends, lines = collections.Counter(), collections.Counter(), collections.Counter(), 0
    with concurrent.futures.ProcessPoolExecutor(given.jobs) as pool:
        jobs = {pool.submit(run_seed, given, seed): seed for seed in range(given.first, given.first + given.count)}
        for job in concurrent.futures.as_completed(jobs):
            seed, ran = jobs[job], job.result()
            totals += ran.rules
            pairs += ran.pairs
            ends[ran.end] += 1
            lines += len(ran.lines)
            if ran.fault:
                keep(given, seed, ran)
            if ran.end != "late":  # too busy a machine: nothing was found, and nothing is said of it
                check(f"seed {seed}", ran.fault)
    tell(given, totals, pairs, ends, lines)


def keep(given, seed, ran):
    """Leaves what is to be replayed."""
    with open(f"{given.keep}/{seed}", "w", encoding="utf-8") as file:
        file.write("".join(f"{line}\n" for line in ran.lines) + f"# {ran.fault}\n")
    print(f"seed {seed}: {given.keep}/{seed}, after {' | '.join(line[:60] for line in ran.lines[-5:])}")


def tell(given, totals, pairs, ends, lines):
    print(f"{sum(ends.values())} scripts, {lines} lines: {dict(ends)}")
    print("rules met: " + ", ".join(f"{name} {count}" for name, count in totals.most_common()))
    print("rules that no seed needs: " + " ".join(
        name for name, rule in rules.RULES.items()
        if not totals[name] and rule.of_calls <= bool(given.calls) and rule.of_notes <= sides.has_notes()))
    if given.coverage:
        coverage.tell(pairs)


def trace(given, seed):
    """A short script as text, and what it shows; None where the two differ."""
    it, told, pairs = begin(given), [], set()
    drawer = scripts.Drawer(it.world, f"trace {seed}", most=traces_of.CONTEXTS)
    teller = traces_of.Teller(it, play.EPOCH)
    try:
        while len(told) < traces_of.LINES:
            line = traces_of.drawn(drawer)
            if not is_control(it.world, line) and rules.parting(line_of(it, line)):
                continue
            said, word = teller.tell(line), line.split()[0]
            key = it.world.key(line.split()[1]) if word == "print" else None
            it.play(line)
            if said is None:
                continue
            there, here = it.last
            told.append(f"{said} -> {traces_of.reply(word, here, key and key.is_ring, sides.NUMBERS)}")
            pairs.add((said.split()[2], named(here)))
        return told, pairs
    except (play.Difference, play.Late, Lost):
        return None
    finally:
        it.end()


def traces(given):
    count = int(given.words[0])
    with concurrent.futures.ProcessPoolExecutor(given.jobs) as pool:
        drawn = range(count * traces_of.DRAWN)
        found = [it for it in pool.map(trace, [given] * len(drawn), drawn) if it]
    chosen, seen = traces_of.choose(found, count)
    print(traces_of.HEAD)
    for at, told in enumerate(chosen, 1):
        print(f"\ntrace {at}")
        print("\n".join(told))
    sys.stderr.write("".join(f"{ask} {name} {times}\n" for (ask, name), times in sorted(seen.items())))


def replay(given):
    with open(given.words[0], encoding="utf-8") as file:
        lines = [line for line in file.read().splitlines() if not line.startswith("#")]
    print_steps(given, lines)


def print_steps(given, lines):
    it, seen = begin(given), collections.Counter()
    try:
        for line in lines:
            try:
                rule, apart = step(it, line, seen, collections.Counter())
                print(f"{line[:100]} -> {play.show(it.last[0])[:100]}, {play.show(it.last[1])[:100]}", rule or "",
                      "apart" if apart else "")
            except play.Difference as difference:
                print("UNEXPLAINED", difference)
                return
    finally:
        it.end()


def probe(given, name, pace=1):
    """A probe must show its rule, in its last lines, and nothing else."""
    it, seen = begin(given, pace), collections.Counter()
    if it.kernel.inherits and name in OF_NO_SESSION:
        skipped(f"the probe of {name}: a session from above is handed on")
        it.end()
        return None
    try:
        for line in rules.RULES[name].probe.split("; "):
            step(it, line, seen, collections.Counter())
    except play.Difference as difference:
        return f"unexplained: {difference}"
    except play.Late:
        return probe(given, name, 3 * pace) if pace < PACES[-1] else "the machine is too busy for it"
    finally:
        it.end()
    return None if set(seen) == {name} else f"shows {dict(seen)}"


def probes(given):
    notes = sides.has_notes()
    for name in given.words or [name for name, rule in rules.RULES.items()
                                if rule.of_calls == bool(given.calls) and rule.of_notes <= notes]:
        try:
            check(f"the probe of {name}", probe(given, name))
        except Exception:
            check(f"the probe of {name}", traceback.format_exc())


def read_words():
    words = argparse.ArgumentParser()
    words.add_argument("--root", action="store_true")
    words.add_argument("--calls", metavar="FOLDER")
    words.add_argument("--coverage", action="store_true")
    words.add_argument("--jobs", type=int, default=6 * len(os.sched_getaffinity(0)))  # they wait, most of the time
    words.add_argument("--keep", default=os.environ.get("TMPDIR", "/tmp"))
    words.add_argument("contexts")
    words.add_argument("keyretain")
    words.add_argument("what", choices=["seeds", "probes", "replay", "traces"])
    words.add_argument("words", nargs="*")
    given = words.parse_args()
    if given.what == "seeds":
        given.first, given.count, given.lines = map(int, given.words)
    return given


def main():
    given = read_words()
    globals()[given.what](given)
    if given.what in ("seeds", "probes"):
        conclude()


if __name__ == "__main__":
    sys.exit(main())
