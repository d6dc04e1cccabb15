#!/usr/bin/env python3
"""Measures how much memory the proved program takes for inputs of which each is large in memory, as a factor of the bytes that it reads.

    scripts/memory_use.py PROGRAM [--rounds MEGABYTES]

Each input is made twice, once with half of the bytes; the factor must not grow with the size. The memory is the most that was resident,
of which about 12 MB are the starting process's.
"""
import os
import struct
import subprocess

from harness import Difference, tried
from second import archive, frames, states
from second.archive import Key

SAMPLER = b'{"samplers":{"0000000000000001":{"x":'


def repeated(head, piece, tail):
    """Inputs of one piece again and again, between a head and a tail."""

    def pieces(size):
        count, chunk = (size - len(head) - len(tail)) // len(piece), 4096
        yield head
        for _ in range(count // chunk):
            yield piece * chunk
        yield piece * (count % chunk) + tail

    return pieces


def numbered(make):
    """Inputs of pieces that differ by their numbers."""

    def pieces(size):
        number = 0
        while size > 0:
            piece = make(number)
            yield piece
            size -= len(piece)
            number += 1

    return pieces


def entry(key, payload):
    return b"%024x%016x" % key + struct.pack("<IIII", len(payload), 1, 0, len(payload)) + payload


def in_payload(key, body):
    """An archive of as few entries as there may be, with payloads of such a body."""

    def pieces(size):
        yield archive.HEADER
        count = -(-size // 16_777_216)
        for number in range(count):
            yield entry((key, number), b"".join(body(size // count)))

    return pieces


def in_frames(body):
    """A session of one Do with the largest payload that fits."""

    def pieces(size):
        payload = b"".join(body(min(size, 16_777_000)))
        yield frames.work(frames.DO, Key(1, 1), payload)

    return pieces


def archive_with(make):
    def pieces(size):
        yield archive.HEADER
        yield from numbered(make)(size - 16)

    return pieces


def huge_module(number):
    """A module that states the largest code and has none of it."""
    head = b'{"shaderModules":{"%016x":{"codeSize":67108864,"flags":0,"varintOffset":0,"varintSize":0}},"version":6}\0' % number
    return entry((4, number), head)


def module(number):
    """A module whose words take a byte each."""
    words = bytes([1]) * 4000
    head = b'{"shaderModules":{"%016x":{"codeSize":16000,"flags":0,"varintOffset":0,"varintSize":4000}},"version":6}\0' % number
    return entry((4, number), head + words)


def layout(number):
    """A pipeline layout that refers to what isn't there."""
    return entry((3, number), b'{"pipelineLayouts":{"%016x":{"setLayouts":["0000000000000000"]}}}' % number)


def line(kind, state):
    return lambda number: states.line_of(kind, {**state, "flags": number})


LISTS = repeated(SAMPLER + b"[", b"[],", b"0]}}}")
NUMBERS = repeated(SAMPLER + b"[", b"0,", b"0]}}}")
OBJECTS = repeated(SAMPLER + b"[", b'{"":0},', b"0]}}}")
TEXTS = repeated(SAMPLER + b"[", b'"",', b"0]}}}")


def members(size):
    """A line with an object of ever other members."""
    yield b"sampler {"
    yield from numbered(lambda number: b'"%x":0,' % number)(size - 14)
    yield b'"x":0}'


INPUTS = {
    "list": {
        "empty entries": archive_with(lambda number: entry((9, number), b"")),
        "one kind of damage": archive_with(lambda number: entry((9, number), b"").replace(struct.pack("<I", 1), struct.pack("<I", 7))),
        "no entry": lambda size: [archive.HEADER, bytes(size)],
    },
    "check": {
        "empty entries": archive_with(lambda number: entry((9, number), b"")),
        "unreadable entries": archive_with(lambda number: entry((1, number), b"{}")),
        "samplers": archive_with(lambda number: entry((1, number), b'{"samplers":{"%016x":{}}}' % number)),
        "layouts of layouts": archive_with(layout),
        "modules": archive_with(module),
        "modules without code": archive_with(huge_module),
        "lists": in_payload(1, LISTS),
        "numbers": in_payload(1, NUMBERS),
        "objects": in_payload(1, OBJECTS),
    },
    "put": {"one payload": lambda size: [bytes(size)]},
    "hash": {
        "short lines": repeated(b"", b"sampler {}\n", b""),
        "refused lines": repeated(b"", b"x\n", b""),
        "lists": repeated(b'sampler {"x":[', b"[],", b"0]}"),
        "numbers": repeated(b'sampler {"x":[', b"0,", b"0]}"),
        "objects": repeated(b'sampler {"x":[', b'{"":0},', b"0]}"),
        "members": members,
        "bindings": repeated(b'set_layout {"bindings":[', b"{},", b"{}]}"),
        "attachments": repeated(b'render_pass {"attachments":[', b"{},", b"{}]}"),
        "stages": repeated(b'graphics_pipeline {"stages":[', b"{},", b"{}]}"),
        "code": repeated(b'shader_module {"code":"', b"AAAA" * 3, b'"}'),
    },
    "record": {
        "short lines": repeated(b"", b"sampler {}\n", b""),
        "refused lines": repeated(b"", b"x\n", b""),
        "samplers": numbered(line("sampler", {})),
        "pipelines": numbered(lambda number: b'graphics_pipeline {"flags":%d}\n' % number),
        "attachments": repeated(b'render_pass {"attachments":[', b"{},", b"{}]}"),
        "subpasses": repeated(b'render_pass {"subpasses":[', b"{},", b"{}]}"),
        "dependencies": repeated(b'render_pass {"dependencies":[', b"{},", b"{}]}"),
        "stages": repeated(b'graphics_pipeline {"stages":[', b"{},", b"{}]}"),
        "code": repeated(b'shader_module {"code":"', b"AAAA" * 3, b'"}'),
    },
    "worker": {"lists": in_frames(LISTS), "numbers": in_frames(NUMBERS), "objects": in_frames(OBJECTS), "texts": in_frames(TEXTS)},
}


def write(path, pieces):
    with open(path, "wb") as file:
        for piece in pieces:
            file.write(piece)
    return os.path.getsize(path)


def most_memory(program, words, given):
    """The status of a run, and the most memory that it had resident."""
    program.runs += 1
    with open(given, "rb") as source:
        # with something to do before it becomes the program, the child isn't measured with the memory of this process
        child = subprocess.Popen([program.path, *words], stdin=source, stdout=subprocess.DEVNULL, stderr=subprocess.DEVNULL, preexec_fn=os.getpid)
        _, status, usage = os.wait4(child.pid, 0)
        child.returncode = os.waitstatus_to_exitcode(status)
    return child.returncode, usage.ru_maxrss * 1024


def factor(trial, command, pieces, size):
    path, other = trial.path("input"), trial.path("a.foz")
    if os.path.exists(other):
        os.remove(other)
    found = write(path, pieces(size))
    files = {"list": [path], "check": [path], "put": [other, "1", "0" * 16], "record": [other]}
    words = [command, *files.get(command, [])]
    status, memory = most_memory(trial.program, words, "/dev/null" if command in ("list", "check") else path)
    if status not in (0, 1, 8):
        raise Difference(f"{command} of {found} bytes ends with status {status}")
    return memory / found


def work(trial, _):
    worst = []
    for command, inputs in INPUTS.items():
        found = {}
        for name, pieces in inputs.items():
            half, whole = (factor(trial, command, pieces, size) for size in (trial.rounds << 19, trial.rounds << 20))
            found[name] = whole
            print(f"{command}, {name}: {whole:.1f} bytes of memory for each byte, {half:.1f} with half of them", flush=True)
            if whole > 1.5 * half and command != "worker":
                raise Difference(f"{command} of {name}: the memory grows from {half:.1f} to {whole:.1f} times the input")
        name = max(found, key=found.get)
        worst.append(f"{command} {found[name]:.0f} ({name})")
    return "most bytes of memory for each byte: " + ", ".join(worst)


def main():
    tried(work, rounds=32, seed=1)


if __name__ == "__main__":
    main()
