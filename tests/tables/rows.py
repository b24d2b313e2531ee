"""The rows of all asks and commands, as the definitions have them that the programs are proved by: numbers, fields,
answers and marks of the asks (krs_types), which of them look at the context (krs_model), words of the commands
(krs_commands), numbers of the errors (krs_types). What no proof reaches is compared with these."""
import glob
import re
from typing import NamedTuple

from compare import TOP, text_of


class Ask(NamedTuple):
    """`word` is the ask's name as the definitions spell it, in capitals. `looks` says whether it looks at the context.
    Its marks say when it `grows`, which is to take memory, is `long` and `tells`, in the words of docs/FORMAT.md."""

    word: str
    number: int
    looks: str
    fields: str
    answer: str
    grows: str
    long: str
    tells: str


class Command(NamedTuple):
    """`usage` has the words behind the first one; `ask` is the word of the ask that is asked first, or None."""

    word: str
    usage: str
    ask: str


def sources():
    """The files of Rattle, by their paths."""
    return sorted(glob.glob("crates/*/src/**/*.rt", root_dir=TOP, recursive=True))


def equations(text, function):
    """The left and right sides of a definition's lines: `function (Variant ..) = ..` as (Variant, ..)."""
    found = re.findall(rf"^{function} (?:\((\w+)[^)]*\)|(\w+))(?: \w+)? = (.+)$", text, re.M)
    return {first or second: right for first, second, right in found}


def kinds():
    """The rows of the types of keys, in the definitions' order: variant, number, name and marks."""
    found = re.findall(r'^row_of (\w+) = row (\d+) \(codes "(\w+)"\) (.+)$',
                       text_of("crates/krs_types/specs/Kind.antt"), re.M)
    return [(*row, MASKS.sub(r"OF_\1", marks).upper().split()) for *row, marks in found]


# The mask of a new key, as the definitions name it: `OF_KEY` in the code is `key_mask`.
MASKS = re.compile(r"(\w+)_mask")


def kinds_of_code():
    """The rows that the code's tables of types are made from."""
    found = re.findall(r'^ {12}(\w+) \((\d+) "(\w+)" (.+)\);$', text_of("crates/krs_types/src/kind.rt"), re.M)
    return [(*row, marks.upper().split()) for *row, marks in found]


def types():
    """The names of the types of keys."""
    return [name for _, _, name, _ in kinds()]


# ---- Asks

# The forms of fields that have a name, with what the definitions say of each.
FORMS = {"id_field": ("id", "signed w32"), "text_field": ("text", "sized w16"), "blob_field": ("blob", "sized w32"),
         "groups_field": ("groups", "counted (number w32)"), "entries_field": ("entries", "counted entry_field")}
# The forms of the fields of a row. The id of a watch is no key's.
VALUES = {"Number": "u32", "Id": "id", "Flag": "u8", "Text": "text", "Blob": "blob", "Whom": "u32 u32 groups",
          "Entries": "entries", "Id watch": "i32"}
MARKS = {"true": "yes", "false": "no", "create": "with create", "(has_destination dest)": "with a destination",
         "(not (ends_watch watch))": "where it sets", "(names_keyrings type_name)": "of a keyring"}
MARK = r"(\w+|\((?:[^()]|\([^()]*\))+\))"
ROW = re.compile(rf"^row_of \(?(\w+)[^)=]*\)? =\s+row (\d+) shapes\.(\w+) {MARK} {MARK} {MARK}\s+"
                 r"(\[\]|\(\w[^()]+ ∷ \[\]\))$", re.M)


def fields_of(body):
    """The forms of a row's fields, one after the other."""
    fields = body.strip("()").split(" ∷ ")[:-1]
    return " ".join(VALUES.get(field, VALUES.get(field.split()[0])) for field in fields)


def looks():
    """Whether what an ask comes to is said of the context."""
    text = text_of("crates/krs_model/specs/Step.antt")
    lines = re.findall(r"^outcome_of s client context \(?(\w+).*? = (.+)$", text, re.M)
    return {name: "yes" if "context" in meant.split() else "no" for name, meant in lines}


def asks():
    """All of them, by rising number."""
    looking = looks()
    rows = [Ask(name.upper(), int(number), looking.get(name), fields_of(body), shape.lower(), *map(MARKS.get, marks))
            for name, number, shape, *marks, body in ROW.findall(text_of("crates/krs_types/specs/Rows.antt"))]
    return sorted(rows, key=lambda row: row.number)


def variants():
    """The asks that the code has."""
    body = re.search(r"^pub enum Op \{\n(.*?)^\}", text_of("crates/krs_types/src/ask.rt"), re.M | re.S)[1]
    return sorted(name.upper() for name in re.findall(r"^    (\w+)", body, re.M))


# What a form of a field in asks! is in the rows of the definitions; an id that is a watch's is no key's.
CODE_FORMS = {"number": "u32", "id": "id", "flag": "u8", "type_name": "text", "text": "text", "blob": "blob",
              "caller": "u32 u32 groups", "entries": "entries"}
CODE_MARKS = {"-": "no", "(create)": "with create", "(dest != 0)": "with a destination",
              "(watch != -1)": "where it sets", "(type_name.names_keyrings())": "of a keyring"}


def marks_of_code(marks):
    """When an ask has each mark, of which each stands in its own place."""
    written = re.findall(r"\((?:[^()]|\(\))+\)|\S+", marks)
    return [CODE_MARKS.get(mark, "yes" if mark == name else mark)
            for name, mark in zip(("grows", "long", "tells"), written)]


def asks_of_code():
    """The rows that the code's tables are made from: number, kind of answer, fields and marks of each ask."""
    text = text_of("crates/krs_types/src/ask.rt")
    found = re.findall(r"^ {12}(\w+) (\d+) (\w+) \[(.+)\]\s+[{(](.*)[})];$", text, re.M)
    return {name.upper(): (int(number), shape.lower(), " ".join(
        "i32" if field == "watch" else CODE_FORMS[form] for field, form in re.findall(r"(\w+): (\w+)", fields)),
        *marks_of_code(marks)) for name, number, shape, marks, fields in found}


def forms():
    """What the definitions say of the fields that have a name."""
    text = text_of("crates/krs_wire/specs/Bodies.antt")
    return {name: re.search(rf"^{name} = (.+)$", text, re.M)[1] for name in FORMS}


def statuses():
    """The names of the errors by their numbers."""
    text = text_of("crates/krs_types/specs/Errno.antt")
    names = equations(text, "name_of")
    return {int(number): names[name].removeprefix("codes ").strip('"')
            for name, number in equations(text, "number_of").items()}


# ---- Commands


def ask_of(definition):
    """The first ask that a definition names."""
    found = re.search(r"\bop\.(\w+)|command\.(Rlist|Readq)\b", definition)
    return found and {"Rlist": "READ", "Readq": "READQUEUE"}.get(found[2], (found[1] or "").upper())


def commands():
    """All of them, in the definitions' order."""
    text = text_of("crates/krs_commands/specs/Command.antt")
    found = []
    for word, reader in re.findall(r'^ +(?:∷ )?row \(codes "(\w+)"\) (\w+|\(.+\))$', text, re.M):
        name = re.search(r"\w+", reader)[0]
        head, _, definition = text.partition(f"\nabbrev pub {name} :")
        usages = re.findall(r"`(\w+)((?: [^`]*)?)`", head.rsplit("\n-- ", 1)[1])
        usage = next((usage for spelled, usage in usages if spelled == word), "no usage")
        ask = ask_of(reader if " op." in reader else definition.split("\nabbrev", 1)[0])
        found.append(Command(word, usage.strip(), ask))
    return found


def commands_of_code():
    """Of the code's table: the usage of each command."""
    rows = re.findall(r'^ +"(\w+)" "(.*?) *"$', text_of("crates/krs_commands/src/table.rt"), re.M)
    return [(word, usage.strip()) for word, usage in rows]
