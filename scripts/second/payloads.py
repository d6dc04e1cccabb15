"""What an entry's payload means by docs/format.md: a state, or the first cause why it can't be read."""
from . import fields
from .jsons import Refused, parsed
from .states import KIND_OF_TAG, KINDS, TABLES

CODE_LIMIT = 67_108_864


def state_of(key, payload):
    """The kind and the state that a payload holds under a key of tag 1 to 7. It raises `Refused` with the cause."""
    kind = KIND_OF_TAG[key.tag]
    text, zero, tail = payload.partition(b"\0")
    if kind == "shader_module" and not zero:
        raise Refused("zero")
    found = object_in(parsed(text), KINDS[kind].member, f"{key.hash:016x}")
    if kind != "shader_module":
        return kind, fields.structure(TABLES[KINDS[kind].structure], found, "")
    head = fields.structure(fields.HEAD, found, "")
    return kind, {"flags": head["flags"], "code": code_of(head, tail)}


def object_in(value, *names):
    """The object of the state within the objects of these names."""
    for name in (None, *names):
        value = value if name is None else value.get(name)
        if not isinstance(value, dict):
            raise Refused("state")
    return value


def code_of(head, tail):
    size, at, count = head["codeSize"], head["varintOffset"], head["varintSize"]
    if size % 4 or size > CODE_LIMIT:
        raise Refused(f"code {size}")
    if at + count > len(tail):
        raise Refused(f"window {at} {count} {len(tail)}")
    return decoded(tail[at : at + count], size // 4)


def decoded(spelled, count):
    """So many words that are spelled as varints, and nothing after them. The first fault by its place is the cause."""
    words, at = [], 0
    while len(words) < count:
        word = 0
        for place in range(5):
            if at == len(spelled):
                raise Refused(f"varint short {at}")
            byte = spelled[at]
            if place == 4 and byte > 0x0F:
                raise Refused(f"varint large {at}")
            word |= (byte & 0x7F) << 7 * place
            at += 1
            if byte < 0x80:
                break
        words.append(word)
    if at < len(spelled):
        raise Refused(f"varint extra {at}")
    return words
