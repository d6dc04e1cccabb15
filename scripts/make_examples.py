#!/usr/bin/env python3
"""Writes the files of examples/, which are small enough to be read in a hex dump.

    scripts/make_examples.py FOLDER
"""
import os
import struct
import sys

from second import archive, states
from second.archive import GATE, HEADER, Key

EMPTY = archive.spell(Key(1, 1), b"")
DIGITS = archive.spell(Key(1, 2), b"123456789")

LAYOUT = b'{"pipelineLayouts":{"0000000000000003":{}},"version":6}'
PIPELINE = b'"layout":"0000000000000003","stage":{"module":"0000000000000004","name":"%s","stage":32}}},"version":6}'

# A compute shader that does nothing.
SHADER = [0x07230203, 0x10000, 0, 5, 0, 0x20011, 1, 0x3000E, 0, 1, 0x5000F, 5, 1, 0x6E69616D, 0, 0x60010, 1, 17, 1, 1, 1]
SHADER += [0x20013, 2, 0x30021, 3, 2, 0x50036, 2, 1, 0, 3, 0x200F8, 4, 0x100FD, 0x10038]

CAPTURE = b"""# A capture: one state a line. A sampler, the same one again, and one whose float can't be recorded.
sampler {}
sampler {"magFilter":0}
sampler {"maxLod":1000.0}

set_layout {"bindings":[{"binding":0,"descriptorType":6,"descriptorCount":1,"stageFlags":32}]}
pipeline_layout {"setLayouts":["SETLAYOUT"]}
lens {}
"""


def head(key, size, form, crc, plain):
    """The name and the four numbers of an entry."""
    return b"%024x%016x" % key + struct.pack("<IIII", size, form, crc, plain)


def capture():
    layout = {"bindings": [{"binding": 0, "descriptorType": 6, "descriptorCount": 1, "stageFlags": 32}]}
    return CAPTURE.replace(b"SETLAYOUT", b"%016x" % states.hash_of("set_layout", layout))


def files():
    """The bytes of each example by its name."""
    damaged = [head((1, 2), 9, 1, 0xCBF43927, 9) + b"123456789", head((4, 7), 2, 2, 0, 100) + b"\x78\x9c", EMPTY]
    pipeline = [archive.spell(Key(3, 3), LAYOUT), archive.spell(Key(4, 4), states.payload_under(Key(4, 4), "shader_module", {"code": SHADER}))]
    whole = archive.spell(Key(7, 7), b'{"computePipelines":{"0000000000000007":{' + PIPELINE % b"main")
    flawed = archive.spell(Key(7, 7), b'{"computePipelines":{"0000000000000007":{' + PIPELINE % b"mian")
    based = archive.spell(Key(7, 8), b'{"computePipelines":{"0000000000000008":{"basePipelineHandle":"0000000000000007",' + PIPELINE % b"main")
    return {
        "two.foz": archive.archive_of([EMPTY, DIGITS]),
        "empty.foz": archive.archive_of([]),
        "torn.foz": HEADER + EMPTY + DIGITS[:-1],
        "damaged.foz": archive.archive_of(damaged),
        "duplicate.foz": archive.archive_of([EMPTY, DIGITS, EMPTY]),
        "version7.foz": HEADER[:15] + b"\7" + EMPTY,
        "other-payload.foz": HEADER + b"\1\2\3driver data of another tool",
        "pipeline.foz": archive.archive_of([*pipeline, whole]),
        "flawed.foz": archive.archive_of([*pipeline, flawed, based, archive.spell(Key(1, 1), b"{}"), pipeline[0]]),
        "states.capture": capture(),
    }


def main():
    for name, data in files().items():
        with open(os.path.join(sys.argv[1], name), "wb") as file:
            file.write(data)


if __name__ == "__main__":
    main()
