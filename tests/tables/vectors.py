"""The frames that FORMAT.md, its printed page and keyretain-protocol(7) spell, by the Python client and the C client,
and each ask by both."""
import re
import subprocess

import keyretain
import versions

import bodies
from documents import protocol_frames, section
from places import compare

SAMPLES = {"id": -5, "u8": 1, "u32": 0xFFFFFFFE, "i32": -1, "text": b"\x01text", "blob": bytes(range(256)),
           "groups": [0, 7, 0xFFFFFFFE], "entries": [tuple(range(11)), tuple(range(0xFFFFFFF5, 0x100000000))]}
LARGEST = {"text": b"t" * 65535, "blob": b"b" * 70000}


def words_in(text):
    """The names in a text."""
    return set(re.findall(r"\w+", text))


def vectors():
    """The frames of asks that are spelled: what, bytes."""
    spelled = re.findall(r"^\| ([A-Z_]{3,}\b.*?) \| `([0-9a-f ]+)` \|", section("### Frame vectors"), re.M)
    spelled += [(ask, frame) for ask, _, frame in bodies.program("tools/frames").rows()]
    return [(what, bytes.fromhex(frame)) for what, frame in spelled]


def read_ask(whole):
    """What an ask's frame says: version, tag, name, context, the values of its fields."""
    version, number = int.from_bytes(whole[4:6], "little"), int.from_bytes(whole[6:8], "little")
    context, tag = int.from_bytes(whole[8:12], "little"), 0
    body = whole[12:]
    if version == 2:
        tag, body = int.from_bytes(body[:8], "little"), body[8:]
    name = keyretain.name_of(number)
    return version, tag, name, context, keyretain.decode_body(name, body)


def word(form, value):
    """A field for the codec program."""
    if form in keyretain.NUMBERS:
        return str(value)
    if form in ("text", "blob"):
        return form[0] + value.hex()
    if form == "groups":
        return "g" + b"".join(number.to_bytes(4, "little") for number in value).hex()
    return "e" + b"".join(keyretain.ENTRY.pack(*entry) for entry in value).hex()


def run_codec(codec, lines):
    asked = subprocess.run([codec, "encode"], input="".join(lines), text=True, stdout=subprocess.PIPE, check=True)
    return asked.stdout.splitlines()


def line_of(tag, name, context, values):
    words = map(word, keyretain.ASKS[name].fields.split(), values)
    return " ".join([f"{tag} {keyretain.ASKS[name].number} {context}", *words]) + "\n"


def compare_clients(codec):
    """Each ask, and texts that fit no frame."""
    asked = [(1 << 33 | 2, name, 9, [SAMPLES[form] for form in ask.fields.split()])
             for name, ask in keyretain.ASKS.items()]
    for (tag, name, context, values), got in zip(asked, run_codec(codec, (line_of(*ask) for ask in asked))):
        compare(f"C and Python, {name}", keyretain.encode_ask(name, context, values, tag).hex(), got)
    too_long = [("JOIN", [LARGEST["text"]]), ("UPDATE", [5, LARGEST["blob"]])]
    for got in run_codec(codec, (line_of(0, name, 0, values) for name, values in too_long)):
        compare("C, an ask that fits no frame", "", got)


def try_vectors(codec):
    """`codec` is None where the C client isn't there."""
    read = [(what, whole, read_ask(whole)) for what, whole in vectors()]
    compare("vectors of all asks but two", sorted({*keyretain.ASKS} - {"DESCRIBE", "LEAVE"}),
            sorted({what.split()[0] for what, *_ in read}))
    spelled = {it.replace(" ", "") for it in re.findall(r"`([0-9a-f ]+)`", section("### Frame vectors"))}
    for frame in protocol_frames():
        compare(f"keyretain-protocol(7), the frame {frame}", True, frame in spelled)
    for what, whole, (version, tag, name, context, values) in read:
        compare(f"vector {what}, its ask", what.split()[0], name)
        compare(f"Python, vector {what}", whole, versions.encode_ask(name, context, values, version, tag))
    if codec:
        for (what, whole, ask), got in zip(read, run_codec(codec, (line_of(*ask[1:]) for _, _, ask in read))):
            compare(f"C, vector {what}", whole, versions.in_version(ask[0], bytes.fromhex(got)))
        compare_clients(codec)
