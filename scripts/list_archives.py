#!/usr/bin/env python3
"""Lists archives by docs/format.md, and compares the text and the status of `list` with those of the proved program.

    scripts/list_archives.py PROGRAM [--rounds N] [--seed N] [FILES]

The files that are named, or the examples, which have to be as scripts/make_examples.py makes them, and then drawn archives.
"""
import os
import struct
import zlib

from harness import contents, examples, restore, same, tried
from make_examples import files as made
from second import archive


def drawn_archive(draw):
    """An archive with some entries, and maybe a wound."""
    parts = [archive.HEADER]
    for _ in range(draw.randrange(6)):
        payload = draw.randbytes(draw.choice((0, 1, 9, 300)))
        key = draw.randrange(10), draw.randrange(4)
        name = f"0{draw.randrange(16**15):015x}{key[0]:08x}{key[1]:016x}"
        name = name.upper() if draw.random() < 0.3 else name
        form = draw.choice((1, 1, 1, 1, 2, 7))
        crc = draw.choice((0, zlib.crc32(payload), zlib.crc32(payload), 5))
        plain = draw.choice((len(payload), len(payload), len(payload), 77))
        parts.append(name.encode() + struct.pack("<IIII", len(payload), form, crc, plain) + payload)
    parts.append(draw.choice((b"", b"\0", b"\0", b"0", b"garbage")))
    data = bytearray(b"".join(parts))
    wound = draw.randrange(4)
    if wound == 1:
        del data[draw.randrange(len(data)) :]
    elif wound == 2:
        data[draw.randrange(len(data))] = draw.randrange(256)
    elif wound == 3:
        data[draw.randrange(16, len(data) + 1) :] = b"0" * draw.randrange(90)
    return bytes(data)


def work(trial, words):
    path, files = trial.path("a.foz"), words.files or examples()

    def compare(what, data):
        restore(path, data)
        same(what, trial.program.run(["list", path]), archive.list_run(data), file=data)

    for name in files:
        with open(name, "rb") as file:
            compare(name, file.read())
    if not words.files:
        folder = os.path.dirname(files[0])
        same("examples/", {name: contents(os.path.join(folder, name)) for name in made()}, made())
    compare("no file", None)
    for number in range(trial.rounds):
        compare(f"archive {number}", drawn_archive(trial.draw))
    return f"{len(files)} files and {trial.rounds} drawn ones are listed alike"


def main():
    tried(work, rounds=400, arguments=[(["files"], {"nargs": "*"})])


if __name__ == "__main__":
    main()
