"""The wrong bodies that name a function or a line that isn't there, and the wrong lines that do. tests/wrong-bodies
tells that too, once their crate is proved. And how it reads what a check says of three bodies."""
import importlib.machinery
import importlib.util
import os
from types import SimpleNamespace

import rows

# Copies of a function, each with its verdict, and what a check says of them: a goal of the first isn't proved, the
# search for a proof of the second broke off, and of the third only the answer that stands beside each copy is refused.
WANTED = {"refused": [("returns", "")], "stopped": "not judged: the search stopped at `returns`",
          "proved": "it is still proved"}
SOURCE = "mod one;\n" + "".join(f"\nfn {it}() -> u8\n    ensures {{ result ≡ 1 }}\n{{\n    1\n}}\n" for it in WANTED)
SAID = """\
note: src/lib.rt:3:1: it is not proved that what the function ensures holds when it returns (`returns`)
fn tiny::refused: not proved
note: what antt said of a `search` in the proof that rattle made: src/lib.rt:9:4: error: `returns`: give the call less \
to do: list the lemma that is meant, state the step in between, or write the term
  `search` broke off: the call's work took more than 10000000 steps
fn tiny::stopped: not proved
fn tiny::proved: not proved
only=3 proved=0
"""


def program(place="tests/wrong-bodies"):
    """A program of this tree, as a module."""
    loader = importlib.machinery.SourceFileLoader(place.replace("/", "_"), f"{rows.TOP}/{place}")
    module = importlib.util.module_from_spec(importlib.util.spec_from_loader(loader.name, loader))
    loader.exec_module(module)
    return module


def misfits():
    """Each with why it can't be applied."""
    bodies, found = program(), {}
    for name in sorted(it.name for it in os.scandir(f"{rows.TOP}/crates") if it.is_dir()):
        crate = SimpleNamespace(name=name, folder=f"{rows.TOP}/crates/{name}")
        source = bodies.Source(crate)
        functions = {it.name for those in source.functions.values() for it in those}
        for body in bodies.bodies_of(crate):
            is_there = bodies.simple_name(body.function) in functions
            if why := source.misfit(body) if is_there else f"there is no function {body.function}":
                found[str(body)] = why
    return found


def misfit_lines():
    """The wrong lines of what isn't proved that can't be applied any more, each with why."""
    lines = program("tests/wrong-lines/run")
    return {str(it): it.misfit() for it in lines.every_line() if it.misfit()}


def verdicts():
    """Of each copy the goals that refuse it, or why none does."""
    report = program().Report({"src/lib.rt": SOURCE}, [(line, 0) for line in SAID.splitlines(True)], 0, 0)
    return {it: report.goals_of(it)[0] or report.why_not(it) for it in WANTED}
