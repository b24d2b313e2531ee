"""What the pages, the completion and the bench say of asks and commands, each read into the form of the rows."""
import os
import re
import subprocess

from compare import works
from rows import TOP, text_of

FORMAT = text_of("docs/FORMAT.md")
PROTOCOL = text_of("man/keyretain-protocol.7")
# What the definitions call an answer, by FORMAT.md's word; clients tell serials from other numbers.
ANSWERS = {"serial": "number", "context": "number", "queue": "number", "bytes": "bytes", "nothing": "nothing"}


def section(heading):
    """The text of FORMAT.md from a heading to the next one of its rank or above."""
    rank = heading.split(" ")[0]
    start = FORMAT.index(f"\n{heading}") + 1
    end = re.compile(f"^#{{1,{len(rank)}}} ", re.M).search(FORMAT, start + len(heading))
    return FORMAT[start:end.start() if end else len(FORMAT)]


def cells(text):
    """The rows of the tables of a text, without their heads."""
    rows = [line.strip("|").split("|") for line in re.findall(r"^\|.*\|$", text, re.M)]
    return [[cell.strip() for cell in row] for row in rows if not set(row[0]) <= set(" -:")]


# ---- FORMAT.md


def format_table():
    """The table of asks: number, name, whether it looks at the context, answer, growth."""
    return [(int(number), name, looks, answer, grows)
            for number, name, looks, answer, grows, *_ in cells(section("## 6. "))[1:]]


def format_section(number, name):
    """The fields of an ask's body, and what is said of its answer. What has no such words has no fields or answer."""
    entry = re.search(rf"^- \*\*{number} {name}\*\*(.*?)(?=^- |\Z)", section("## 6. "), re.M | re.S)[1]
    body, *parts = re.split(r"\*(Refusals|Answer|Effect)\*: ", " ".join(entry.split()))
    body = re.sub(r"count `u32`, then that many groups `u32`", "`groups`", body)
    body = re.sub(r"count `u32`, then that many entries of 44 bytes", "`entries`", body)
    fields = " ".join(re.findall(r"`(id|u8|u32|i32|text|blob|groups|entries)`", body))
    return fields, dict(zip(parts[::2], parts[1::2])).get("Answer", "nothing").strip(" .")


def profile_table():
    """The lines of PROFILE.md's table of what Linux does otherwise."""
    return re.findall(r"^\|.*\|$", text_of("docs/PROFILE.md").partition("## 1. ")[2].split("\n## ")[0], re.M)


def listed_asks(text):
    """The names of the asks that a sentence lists, those too of which it says something only at times."""
    return set(re.findall(r"\b[A-Z]{3,}(?:_[A-Z]+)*\b", text)) - {"ENOMEM"}


def format_without_memory():
    """Those that never take memory, by the table of asks, and those that sometimes don't."""
    always = {name for _, name, _, _, grows in format_table() if grows == "no"}
    return always, listed_asks(section("### Asks that take no memory").partition("nor do ")[2])


def format_statuses():
    return {int(number): name for name, number in re.findall(r"\| (E\w+) \| (\d+) (?=\|)", section("## 1. "))}


# ---- Manual pages


def protocol_asks():
    """Of keyretain-protocol(7): number, name, fields and answer of each ask."""
    found = []
    for number, name, body, answer in re.findall(r"^\.It (\d+) ([A-Z_]+)(?: \( (.*?) \))? : (\w+)$", PROTOCOL, re.M):
        body = body.replace("count u32, groups u32 each", "groups").replace("count u32, entries", "entries")
        found.append((int(number), name, " ".join(part.split()[-1] for part in body.split(", ") if part), answer))
    return found


def protocol_statuses():
    text = PROTOCOL.split(".Ss Errors")[1].split(".El")[0]
    return {int(number): name for name, number in re.findall(r"(E\w+) Ta (\d+)", text)}


def protocol_without_context():
    sentence = re.search(r"^\.Pp\n([A-Z_, \nand]+)do not look at\nthe context", PROTOCOL, re.M)[1]
    return listed_asks(sentence)


def protocol_without_memory():
    """The names of those that take none, and of those that sometimes don't."""
    text = PROTOCOL.split(".Sh CAVEATS")[1].split("\nother reason.\n")[1]
    always, _, sometimes = text.partition(", WATCH with")
    return listed_asks(always), listed_asks("WATCH with" + sometimes)


def protocol_frames():
    """The frames that it spells, as hexadecimal digits."""
    block = PROTOCOL.split(".Sh EXAMPLES")[1].split(".Bd -literal\n")[1].split("\n.Ed")[0]
    return ["".join(lines.split()) for lines in re.findall(r"(?:^  [0-9a-f ]+\n?)+", block, re.M)]


def page_commands():
    """Of keyretain(1): the usage of each command."""
    text = text_of("man/keyretain.1").split(".Ss Commands")[1].split("\n.El")[0]
    found = {}
    for word, usage in re.findall(r"^\.It Ic (\w+)(.*)$", text, re.M):
        usage = re.sub(r" Op (?:Ar|Cm) (.*)$", r" [\1]", usage)
        found[word] = usage.replace(" Ar", "").replace(" ...", " ..").strip()
    return found


# ---- Programs


def help_commands(program):
    """What `keyretain --help` says of each command."""
    told = subprocess.run([program, "--help"], stdout=subprocess.PIPE, text=True, timeout=60, check=True).stdout
    text = told.split("Commands of a script")[1].split("\n\n")[0]
    lines = (re.split(r"  +", line.strip())[0].partition(" ") for line in text.splitlines()[1:])
    return {word: usage for word, _, usage in lines}


def completion(program, each, *words):
    """What a command prints once the completion in bash is there; `$program` is the program, and `$@` are the words."""
    script = f'source "$1"; program=$2; shift 2; {each}'
    place = os.path.join(TOP, "contrib/bash-completion/keyretain")
    return subprocess.run(["bash", "-c", script, "bash", place, program, *words], stdout=subprocess.PIPE, text=True,
                          timeout=60, check=True).stdout.splitlines()


def fish_completion(program):
    """What the completion in fish offers behind the program alone: commands and options; None where there is no
    fish that runs."""
    if not works("fish", "--no-config", "-c", "true"):
        return None
    script = "source $argv[1]; complete -C \"$argv[2] \""
    words = ["fish", "--no-config", "-c", script, os.path.join(TOP, "contrib/fish-completion/keyretain.fish"), program]
    return subprocess.run(words, stdout=subprocess.PIPE, text=True, timeout=60, check=True).stdout.splitlines()


def completion_places(program, words):
    """What it offers behind each command, by the number of the place: `add 1` and so on."""
    told = completion(program, 'for one; do echo "$one=$(_keyretain_words "$program" ${one% *} ${one#* })"; done',
                      *words)
    return dict(line.split("=", 1) for line in told)


# ---- Costs


def bench_operations():
    """Of krs_bench: each operation, with the lines of its two asks and what they are counted as; None where that is
    elsewhere."""
    rows = re.findall(r'^ +Operation\("(\w+)", \d+, \d+, \("(.*?)", "(.*?)"\),\s+(?:NONE|\("(.*?)", "(.*?)"\))\),$',
                      text_of("crates/krs_bench/src/operation.rt"), re.M)
    return {word: [(line, None if name in ("-", "") else name) for line, name in (asks[:2], asks[2:])]
            for word, *asks in rows}


def results_section(name):
    """The lines of a section of the newest results, without its head and its columns' names."""
    newest = max(os.listdir(f"{TOP}/bench/results"))
    text = text_of(f"bench/results/{newest}").split(f"\n[{name}]\n")[1].split("\n\n")[0]
    return [it for it in text.splitlines() if not re.match(r"(commit|machine|command): ", it)][1:]


def measured():
    """The names of what instructions are counted of, and the operations that are timed."""
    return ([re.split(r"  +", line)[0] for line in results_section("instructions")],
            [line.split()[0] for line in results_section("nanoseconds")])


def costs_asks():
    """The names of the asks in COSTS.md's table."""
    table = text_of("docs/COSTS.md").split("\n| Ask |")[1].split("\n\n")[0]
    return sorted(name for row in cells(table) for name in row[0].split(", "))
