#!/usr/bin/env python3
"""Brings the proved program to its limits, and compares its answers and its files with those of the second readers.

    scripts/limits.py PROGRAM

Payloads, inputs, archives and numbers of entries as large as they may be, and larger by one. It takes 2 GB of memory and 1 GB of disk.
"""
import os
import struct

from harness import contents, same, tried
from recordings import KEY
from second import archive, recorder, states
from second.archive import COUNT_LIMIT, END_LIMIT, PAYLOAD_LIMIT
from second.lines import INPUT_LIMIT

WORDS = [str(KEY.tag), f"{KEY.hash:016x}"]


def restore(path, data):
    """Makes a file of these bytes, with holes where megabytes are zero, which a disk doesn't have to write."""
    if os.path.exists(path):
        os.remove(path)
    if data is None:
        return
    with open(path, "wb") as file:
        for at in range(0, len(data), 1 << 20):
            piece = data[at : at + (1 << 20)]
            if not any(piece[:100]) and piece.count(0) == len(piece):
                file.seek(len(piece), os.SEEK_CUR)
            else:
                file.write(piece)
        file.truncate(len(data))


def compare_put(trial, path, data, payload):
    restore(path, data)
    wanted, after = recorder.put_run(data, KEY, payload)
    same(f"put of {len(payload)} bytes", trial.program.run(["put", path, *WORDS], payload), wanted)
    if contents(path) != after:
        same("the file after put", "other bytes", f"{len(after or b'')} bytes")
    return wanted


def compare_record(trial, path, data, capture):
    restore(path, data)
    wanted, after = recorder.record_run(data, capture)
    same("record", trial.program.run(["record", path], capture), wanted)
    if contents(path) != after:
        same("the file after record", "other bytes", f"{len(after or b'')} bytes")
    return wanted


def compare_list(trial, path, data):
    restore(path, data)
    wanted = archive.list_run(data)
    same("list", trial.program.run(["list", path]), wanted)
    return wanted


def of_count(count):
    """An archive of so many entries without payloads."""
    return archive.HEADER + b"".join(b"%024x%016x" % (9, number) + struct.pack("<IIII", 0, 1, 0, 0) for number in range(count))


def that_ends(end):
    """An archive that ends there, without checksums."""
    parts, at = [archive.HEADER], len(archive.HEADER)
    while at < end:
        size = min(PAYLOAD_LIMIT, end - at - 56)
        size -= 56 if 0 < end - at - 56 - size < 56 else 0
        parts.append(b"%024x%016x" % (9, at) + struct.pack("<IIII", size, 1, 0, size) + bytes(size))
        at += 56 + size
    return b"".join(parts)


def try_payloads(trial, path):
    """The largest payload, one that is too large, the largest input, and one that is too long."""
    said = [compare_put(trial, path, None, bytes(size)) for size in (PAYLOAD_LIMIT, PAYLOAD_LIMIT + 1, INPUT_LIMIT, INPUT_LIMIT + 1)]
    same("the statuses of large payloads", [run.status for run in said], [0, 1, 1, 10])
    compare_record(trial, path, None, b"#" * (INPUT_LIMIT + 1))
    return len(said) + 1


def try_counts(trial, path):
    """As many entries as there may be, and one more."""
    line = states.line_of("sampler", {})
    full = of_count(COUNT_LIMIT)
    said = [compare_list(trial, path, full), compare_put(trial, path, full, b""), compare_record(trial, path, full, line + b"lens {}\n" + line)]
    said += [compare_put(trial, path, of_count(COUNT_LIMIT - 1), b""), compare_put(trial, path, of_count(COUNT_LIMIT + 1), b"")]
    same("the statuses of many entries", [run.status for run in said], [0, 8, 8, 0, 6])
    return len(said)


def try_ends(trial, path):
    """Archives that end where they may, just before it, and after it."""
    line, need = states.line_of("sampler", {}), 56 + len(states.payload_of("sampler", {}))
    full, roomy = that_ends(END_LIMIT), that_ends(END_LIMIT - 56)
    said = [compare_list(trial, path, full + b"\0"), compare_list(trial, path, full + b"\0\0"), compare_list(trial, path, that_ends(END_LIMIT + 1))]
    said += [compare_put(trial, path, full, b""), compare_put(trial, path, roomy, b""), compare_put(trial, path, roomy, b"x")]
    said += [compare_record(trial, path, that_ends(END_LIMIT - need), line), compare_record(trial, path, that_ends(END_LIMIT - need + 1), line)]
    same("the statuses of long archives", [run.status for run in said], [0, 6, 6, 8, 0, 8, 0, 8])
    return len(said)


def work(trial, _):
    path = trial.path("a.foz")
    count = sum(one(trial, path) for one in (try_payloads, try_counts, try_ends))
    return f"{count} runs at the limits answered alike"


def main():
    tried(work, rounds=1, seed=1)


if __name__ == "__main__":
    main()
