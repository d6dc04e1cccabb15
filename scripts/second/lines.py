"""Capture lines by docs/format.md: the state of each, or the first cause why it can't be read, and the text of `hash`."""
import struct

from . import fields
from .jsons import Refused, parsed
from .runs import failed, told
from .states import KINDS, TABLES, hash_of

# The most bytes of an input.
INPUT_LIMIT = 67_108_864


def lines_of(capture):
    """The numbers and the bytes of the lines that aren't skipped."""
    return [(number, line) for number, line in enumerate(capture.split(b"\n"), 1) if line and line[:1] != b"#"]


def state_of(line):
    """The kind and the state of a line. It raises `Refused` with the cause."""
    word, blank, rest = line.partition(b" ")
    kind = word.decode("latin-1")
    if not blank or kind not in KINDS:
        raise Refused("kind")
    if kind != "shader_module":
        return kind, fields.structure(TABLES[KINDS[kind].structure], parsed(rest), "")
    found = fields.structure(fields.LINE_MODULE, parsed(rest), "")
    code = found["code"]
    if len(code) % 4:
        raise Refused("code")
    return kind, {"flags": found["flags"], "code": list(struct.unpack(f"<{len(code) // 4}I", code))}


def hash_run(capture):
    """What `hash` of a capture has to answer."""
    if len(capture) > INPUT_LIMIT:
        return failed(10, "input too long")
    out, status = [], 0
    for number, line in lines_of(capture):
        try:
            kind, state = state_of(line)
            out.append(f"{number} {kind} {hash_of(kind, state):016x}\n")
        except Refused as cause:
            out.append(f"{number} refused {cause}\n")
            status = 1
    return told(status, "".join(out))
