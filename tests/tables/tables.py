"""tables.py KEYRETAIN [CODEC CALLS]: whether all that lists the asks, the commands or the errors has the rows that the
programs are proved by: FORMAT.md, the manual pages, `keyretain --help` where KEYRETAIN is a program, the completion,
the C and the Python client, the bench and its figures. CODEC is codec.c and CALLS calls.c; without them the tables of C
aren't compared."""
import os
import re
import subprocess
import sys

from compare import attempt, conclude, skipped
import keyretain

import admission
import bodies
import documents
import foreign
from places import compare, compare_all
import rows
import vectors
import wanting

sys.path.insert(0, f"{rows.TOP}/tests/kernel")
import rules as kernel_rules  # noqa: E402

KEYRETAIN, CODEC, CALLS = (*sys.argv[1:], None, None)[:3]
KEYRINGS, TYPES = "@t @p @s @u @us", rows.types()
ASKS, COMMANDS = rows.asks(), rows.commands()


def word_of(name):
    """A name without what joins its parts, which the definitions spell otherwise."""
    return name and name.replace("_", "")


def by_number(found):
    """The rows of asks, as maps from numbers; a number that stands there twice has two."""
    together = {}
    for number, *rest in found:
        together[number] = (*together.get(number, ()), *rest)
    return together


def words_of(names):
    return sorted(map(word_of, names))


def try_definitions():
    compare("the asks of the code", sorted(ask.word for ask in ASKS), rows.variants())
    compare_all("the row of the code", {ask.word: (ask.number, ask.answer, ask.fields, ask.grows, ask.long, ask.tells)
                                        for ask in ASKS}, rows.asks_of_code())
    compare("the types of the code", rows.kinds(), rows.kinds_of_code())
    compare("the forms of fields", {name: said for name, (_, said) in rows.FORMS.items()}, rows.forms())
    compare("the commands of the code", [(command.word, command.usage) for command in COMMANDS],
            rows.commands_of_code())
    compare("commands name asks", [], [command.ask for command in COMMANDS
                                       if command.ask not in {None, *(ask.word for ask in ASKS)}])


# ---- Pages


def try_format():
    table = documents.format_table()
    compare("FORMAT, the table of asks", [(ask.number, ask.word, ask.answer, ask.grows) for ask in ASKS],
            [(number, word_of(name), documents.ANSWERS.get(answer, f"{answer}, which ANSWERS lacks"), grows)
             for number, name, _, answer, grows in table])
    for ask, (number, name, looks, answer, _) in zip(ASKS, table):
        compare(f"FORMAT, whether {name} looks at the context", ask.looks, looks)
        fields, said = documents.format_section(number, name)
        compare(f"FORMAT, the body of {name}", ask.fields, fields)
        compare(f"FORMAT, the answer of {name}", (ask.answer == "nothing", True),
                (said == "nothing", ask.answer == "bytes" or answer in said))
    compare_all("FORMAT, errors", rows.statuses(), documents.format_statuses())


def try_lists():
    """Those that follow from the rows: asks that take no memory, and asks that don't look at the context."""
    wanted = (sorted(ask.word for ask in ASKS if ask.grows == "no"),
              sorted(ask.word for ask in ASKS if ask.grows not in ("yes", "no")))
    for page, got in (("FORMAT", documents.format_without_memory()),
                      ("keyretain-protocol(7)", documents.protocol_without_memory())):
        compare(f"{page}, asks that take no memory", wanted, tuple(map(words_of, got)))
    keeping = documents.section("### ENOSPC and ENOMEM").partition("They are ")[2]
    compare("FORMAT, asks that keep memory: those that take some, but for answers and filters",
            sorted(ask.word for ask in ASKS if ask.grows != "no" and ask.answer != "bytes" and ask.word != "SETFILTER"),
            words_of(documents.listed_asks(keeping)))
    compare("keyretain-protocol(7), asks that don't look at the context",
            sorted(ask.word for ask in ASKS if ask.looks == "no"), words_of(documents.protocol_without_context()))


def try_pages():
    answers = {number: answer for number, _, _, answer, _ in documents.format_table()}
    compare_all("keyretain-protocol(7)", by_number((ask.number, ask.word, ask.fields, answers.get(ask.number))
                                                   for ask in ASKS),
                by_number((number, word_of(name), fields, answer)
                          for number, name, fields, answer in documents.protocol_asks()))
    compare_all("keyretain-protocol(7), errors", rows.statuses(), documents.protocol_statuses())
    compare_all("keyretain(1)", {command.word: command.usage for command in COMMANDS}, documents.page_commands())


# ---- Programs


def offered(command, word):
    """What a completion may offer in the place of a word."""
    if command.word == "watch" and word == "ID":
        return "off"
    if word in ("create", "excl"):
        return word
    return {"KEY": KEYRINGS, "RING": KEYRINGS, "FROM": KEYRINGS, "TO": KEYRINGS, "TYPE": " ".join(TYPES)}.get(word, "")


def try_completion():
    known = [command for command in COMMANDS if command.word not in ("hello", "context", "moment")]
    compare("completion, commands of a single call", sorted(command.word for command in known),
            sorted(documents.completion(KEYRETAIN, '_keyretain_commands "$program"')))
    wanted = {f"{command.word} {place}": offered(command, word.strip("[]"))
              for command in known for place, word in enumerate([*command.usage.split(), ""], 1)}
    compare_all("completion", wanted, documents.completion_places(KEYRETAIN, wanted))
    offered_in_fish = documents.fish_completion(KEYRETAIN)
    if offered_in_fish is None:
        skipped("the completion in fish: no fish, or it can't run here")
    else:
        options = ["--gid", "--help", "--socket", "--uid", "--version"]
        compare("completion in fish", sorted([*(command.word for command in known), *options]), sorted(offered_in_fish))


def try_help():
    compare_all("keyretain --help", {command.word: command.usage for command in COMMANDS},
                documents.help_commands(KEYRETAIN))


# ---- Clients


def client_statuses():
    """The daemon's, and what the guard alone says: keyretain-guard(8), --per-uid."""
    return {**rows.statuses(), 122: "EDQUOT"}


def try_client(name, found, statuses):
    """`found` has number, name, fields and answer of each ask. FORMAT.md has the names, and says what a serial is."""
    table = {number: (name, "serial" if answer == "serial" else documents.ANSWERS.get(answer))
             for number, name, _, answer, _ in documents.format_table()}
    compare_all(name, by_number((ask.number, table[ask.number][0], ask.fields, table[ask.number][1])
                                if ask.number in table else (ask.number,) for ask in ASKS), by_number(found))
    compare_all(f"{name}, errors", client_statuses(), statuses)


def try_python():
    try_client("the Python client", [(ask.number, name, ask.fields, ask.answer)
                                     for name, ask in keyretain.ASKS.items()], keyretain.STATUSES)


def try_c():
    asks, statuses, numbers = [], {}, {}
    for line in subprocess.run([CODEC], text=True, stdout=subprocess.PIPE, check=True).stdout.splitlines():
        kind, number, name, *rest = line.split(" ")
        if kind == "ask":
            asks.append((int(number), name, " ".join(rest[1:]), rest[0]))
        else:
            statuses[int(number)], numbers[name] = name, int(rest[0])
    try_client("the C client", asks, statuses)
    compare_all("errors of this system", {name: number for number, name in client_statuses().items()}, numbers)
    for place in ("c/library/keyretain.h", "man/libkeyretain.3"):
        text = rows.text_of(place)
        for _, name, *_ in asks:
            compare(f"{place}, a function for {name}", True, f"kr_{name.lower()}" in vectors.words_in(text))


def try_calls():
    """The calls that are asks: those of keyctl(2) by its numbers, and two by names. What no ask has stands behind: what
    is told to an upcall, and what a type says of links."""
    named, found = {"add_key": "ADD", "request_key": "REQUEST"}, {}
    words = {ask.number: ask.word for ask in ASKS if ask.number <= keyretain.ASKS["MOVE"].number}
    for line in subprocess.run([CALLS], text=True, stdout=subprocess.PIPE, check=True).stdout.splitlines():
        number, name, answer, refused, *kinds = line.split(" ")
        word = named.get(name) or words.get(int(number))
        if word:
            found[word] = (refused, answer, [kind for kind in kinds if kind in ("id", "text", "blob")])
    for ask in ASKS:
        if ask.word in {*named.values(), *words.values()}:
            wanted = [kind for kind in ask.fields.split() if kind in ("id", "text", "blob")]
            refused, answer, kinds = found.get(ask.word, (None, None, []))
            compare(f"rows.c, the call that is {ask.word}", ("-", "serial" if ask.answer == "number" else "-", wanted),
                    (refused, answer, kinds[:len(wanted)]))


def try_admission():
    compare_all("krs_admission.h, a structure", admission.crate_structures(), admission.header_structures())
    compare_all("krs_admission.h, a function", admission.crate_functions(), admission.header_functions())
    compare_all("krs_admission.h, a place", admission.crate_places(), admission.header_places())
    compare("krs_admission.h, tags", admission.crate_tags(), admission.header_tags())


# ---- The bench


def try_bench():
    operations = documents.bench_operations()
    named, timed = documents.measured()
    compare("bench/results, operations", sorted(operations), sorted(timed))
    counted = [(line, name) for lines in operations.values() for line, name in lines if name]
    compare("bench/results, names of asks", [name for _, name in counted], named)
    asks = {command.word: command.ask for command in COMMANDS}
    for line, name in counted:
        compare(f"what `{line}` counts as {name}", asks.get(line.split(" ")[0]),
                word_of(name.split(",")[0].split(" ")[0]))
    compare("asks that are counted", sorted(ask.word for ask in ASKS),
            sorted({word_of(name.split(",")[0].split(" ")[0]) for name in named}))
    compare("COSTS, asks", sorted(ask.word for ask in ASKS), words_of(documents.costs_asks()))


def try_types():
    """What is told of an unknown type, and how often a page counts the types up."""
    listed = re.compile(f"{', '.join(TYPES[:-1])} (?:and|or) {TYPES[-1]}")
    for place, times in {"crates/krs_ctl/src/advice.rt": 1, "docs/FORMAT.md": 1, "docs/PROFILE.md": 1, "README.md": 1,
                         "man/keyretain.1": 1, "man/keyretaind.8": 1, "man/keyretain-protocol.7": 1,
                         "man/keyretain-keyutils.7": 1, "man/keyretain-syscalls.7": 1}.items():
        plain = " ".join(re.sub(r"^\.Sq |`", "", rows.text_of(place), flags=re.M).split()).replace(" ,", ",")
        compare(f"{place}, the types", times, len(listed.findall(plain)))


def try_profile():
    compare("PROFILE, beside Linux", kernel_rules.table(), documents.profile_table())


# ---- What the proofs rest on


def try_foreign():
    reached = foreign.reached()
    if reached is None:
        skipped("the C functions of the daemon: KEYRETAIN_AXIOMS isn't set, or no toolchain")
    else:
        compare_all("C-FUNCTIONS, those that the daemon reaches", reached, foreign.listed())


def try_waiting():
    """What waits for ever meets every contract, so nothing of what asks on a seat can. The desk waits for the answer to
    a posted call, where no seat is reached."""
    asking = [f"{crate}/src/{name}" for crate in ("krs_desk", "krs_session")
              for name in os.listdir(f"{rows.TOP}/crates/{crate}/src") if name.endswith(".rt")]
    asking += ["krs_serve/src/connection.rt", "krs_serve/src/entry.rt"]
    waiting = [it for it in asking if vectors.words_in(rows.text_of(f"crates/{it}")) & {"Wait", "forever"}]
    wanted = [f"krs_desk/src/{it}.rt" for it in ("awaiting", "bells", "waiting")]
    compare("what waits for ever", wanted, sorted(waiting))


def try_unsafe():
    """What is private is refused to others by types alone, which unsafe code gets past. Symbols for C are marked so."""
    found = [place for place in rows.sources() if re.search(r"\bunsafe\b(?!\(no_mangle\))", rows.text_of(place))]
    compare("unsafe code", [], found)
    lines = [it.partition(":") for it in rows.text_of("crates.txt").splitlines() if not it.startswith("#")]
    own = {it[0].split()[0] for it in lines}
    compare("the toolchain's crates that are used: none takes the number of a descriptor, as libc and os do",
            ["anyhow", "atomic_table", "bitflags", "byteorder", "circular_buffer", "clap", "hex", "indexmap", "slab"],
            sorted({name for it in lines for name in it[2].split()} - own))
    ends = [re.findall(r"^impl\b.* Drop for (\w+)", rows.text_of(place), re.M) for place in rows.sources()]
    compare("what does something as it is let go", ["Blob", "Body", "Desk", "Feed", "Place", "Seat", "Store"],
            sorted(sum(ends, [])))


def try_wanting():
    """Contracts let ENOMEM stand in place of many answers. So who answers it without a callee that did is known."""
    compare_all("who answers that memory ran out", wanting.KNOWN, wanting.makers())


def try_bodies():
    compare("wrong bodies that can't be applied", {}, bodies.misfits())
    compare("wrong lines that can't be applied", {}, bodies.misfit_lines())
    compare("how a check of wrong bodies is read", bodies.WANTED, bodies.verdicts())


for case in (try_definitions, try_format, try_lists, try_profile, try_pages, try_python, try_admission, try_bench,
             try_types, try_foreign, try_waiting, try_unsafe, try_wanting, try_bodies):
    attempt(case)
if os.access(KEYRETAIN, os.X_OK):
    try_help()
    try_completion()
else:
    skipped(f"keyretain --help, and the completion, which reads it: no program {KEYRETAIN}")
if CODEC:
    try_c()
    try_calls()
else:
    skipped("the tables of C: no C compiler")
vectors.try_vectors(CODEC)
conclude()
