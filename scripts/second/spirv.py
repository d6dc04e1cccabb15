"""The structure of a SPIR-V module by docs/format.md: its entry points, or the code of its first fault."""
import struct

MAGIC = 0x07230203
HEADER = 5

MEMORY_MODEL, ENTRY_POINT, FUNCTION, FUNCTION_END = 14, 15, 54, 56

BAD_HEADER, BAD_LENGTH, NO_MEMORY_MODEL, BAD_FUNCTIONS, BAD_ENTRY_POINTS = 15, 16, 17, 18, 19


class Faulty(Exception):
    """A module that isn't sound, with its code."""

    def __init__(self, code):
        super().__init__(code)
        self.code = code


def entry_points(words):
    """The pairs of execution model and name, the name as bytes. It raises `Faulty` at the first fault."""
    if len(words) < HEADER or words[0] != MAGIC or words[4] != 0:
        raise Faulty(BAD_HEADER)
    instructions = list(instructions_of(words))
    if sum(instruction[0] % 65536 == MEMORY_MODEL for instruction in instructions) != 1:
        raise Faulty(NO_MEMORY_MODEL)
    if not functions_pair([instruction[0] % 65536 for instruction in instructions]):
        raise Faulty(BAD_FUNCTIONS)
    found = [entry_point(instruction) for instruction in instructions if instruction[0] % 65536 == ENTRY_POINT]
    if not found:
        raise Faulty(BAD_ENTRY_POINTS)
    return found


def instructions_of(words):
    at = HEADER
    while at < len(words):
        count = words[at] >> 16
        if count == 0 or at + count > len(words):
            raise Faulty(BAD_LENGTH)
        yield words[at : at + count]
        at += count


def functions_pair(opcodes):
    """Whether functions begin and end in turns, and the last one ends."""
    marks = [opcode for opcode in opcodes if opcode in (FUNCTION, FUNCTION_END)]
    return len(marks) % 2 == 0 and all(mark == (FUNCTION, FUNCTION_END)[place % 2] for place, mark in enumerate(marks))


def entry_point(instruction):
    name = struct.pack(f"<{len(instruction[3:])}I", *instruction[3:])
    if b"\0" not in name:
        raise Faulty(BAD_ENTRY_POINTS)
    return instruction[1], name.partition(b"\0")[0]
