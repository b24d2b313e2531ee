"""What C and the proved rule of sessions have in common: the fields of each structure in their order, the numbers of
places and tags, and the functions with their arguments."""
import re

import rows

HEADER, CRATE = "c/supervisor/krs_admission.h", "crates/krs_admission"
# What a type of the header is in the crate.
TYPES = {"uint32_t": "u32", "uint64_t": "u64", "bool": "bool", "size_t": "usize"}


def type_of(words):
    """The type of a field or an argument, as the crate has it: what is pointed to is a reference there."""
    word = words.replace("const ", "").replace("*", "").strip().removeprefix("struct admission_")
    return ("&" if "*" in words else "") + TYPES.get(word, word.capitalize())


def header_structures():
    """The fields of each structure, as (name, type)."""
    text = re.sub(r"/\*.*?\*/", "", rows.text_of(HEADER), flags=re.S)
    found = {}
    for name, body in re.findall(r"^struct admission_(\w+) \{\n(.*?)^\};", text, re.M | re.S):
        fields = re.findall(r"^ +(struct \w+|\w+) ([\w, ]+);", body, re.M)
        found[name.capitalize()] = [(it, type_of(kind)) for kind, names in fields for it in names.split(", ")]
    return found


def crate_structures():
    text = rows.text_of(f"{CRATE}/src/facts.rt") + rows.text_of(f"{CRATE}/src/giving.rt")
    return {name: re.findall(r"^    pub (\w+): (\w+),", body, re.M)
            for name, body in re.findall(r"^#\[repr\(C\)\]\n[^\n]*\npub struct (\w+) \{\n(.*?)^\}", text, re.M | re.S)}


def header_functions():
    """The types of what each function takes and answers."""
    found = re.findall(r"^(\w+) (krs_admission_c_\w+)\(([^;]*)\);", rows.text_of(HEADER), re.M)
    return {name: ([type_of(it.rpartition(" ")[0] + "*" * it.count("*")) for it in re.split(r",\s+", arguments)],
                   type_of(answer)) for answer, name, arguments in found}


def crate_functions():
    text = rows.text_of("crates/krs_admission_c/src/lib.rt")
    found = re.findall(r'^pub extern "C" fn (\w+)\(([^{]*?)\) -> (\w+)', text, re.M)
    return {name: (re.findall(r"\w+: (&?\w+)", arguments), answer) for name, arguments, answer in found}


def header_places():
    """The numbers of places, by their names without what joins their parts."""
    body = re.search(r"^enum admission_place \{\n(.*?)^\};", rows.text_of(HEADER), re.M | re.S)[1]
    names = re.findall(r"^ +ADMISSION_(\w+)", body, re.M)
    return {name.replace("_", ""): number for number, name in enumerate(names)}


def crate_places():
    text = rows.text_of(f"{CRATE}/specs/Rule.antt")
    return {name.upper(): int(number) for name, number in re.findall(r"^number_of (\w+) = (\d+)$", text, re.M)}


def header_tags():
    """The lowest number of a tag, and the first one behind."""
    base, count = (int(it, 16) for it in re.findall(r"ADMISSION_TAG_\w+ UINT64_C\((\w+)\)", rows.text_of(HEADER)))
    return base, base + count


def crate_tags():
    text = rows.text_of(f"{CRATE}/specs/Rule.antt")
    return tuple(map(int, re.search(r"^is_tag n = nat_le (\d+) n && nat_lt n (\d+)$", text, re.M).groups()))
