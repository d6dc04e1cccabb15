#!/usr/bin/env python3
"""Times each command on an archive whose keys are made so that their hashes collide in the program's indexes, and on one of as many
other keys.

    scripts/colliding_keys.py PROGRAM [--rounds N] [COUNT ...]

The program's maps hash a key with a function that is fixed and public, so for each tag there is a hash with which keys collide. It prints
figures and judges none.
"""
import struct
import time

from drawn import colliding_key
from harness import restore, tried
from recordings import KEY
from second import archive, states

def archive_of(keys):
    return archive.HEADER + b"".join(b"%024x%016x" % key + struct.pack("<IIII", 0, 1, 0, 0) for key in keys) + b"\0"


def seconds(program, words, given=b""):
    start = time.perf_counter()
    program.run(words, given)
    return time.perf_counter() - start


def work(trial, words):
    path, line = trial.path("a.foz"), states.line_of("sampler", {})
    for count in words.counts or [1 << 10, 1 << 12, 1 << 14]:
        keys = [colliding_key(tag) for tag in range(8, 8 + count)]
        files = {"colliding": archive_of(keys), "other": archive_of([(tag, hash_ ^ tag << 20) for tag, hash_ in keys])}
        for name, data in files.items():
            restore(path, data)
            times = {
                "list": seconds(trial.program, ["list", path]),
                "check": seconds(trial.program, ["check", path]),
                "put": seconds(trial.program, ["put", path, KEY.tag, f"{KEY.hash:016x}"], b"x"),
                "record": seconds(trial.program, ["record", path], line),
            }
            print(f"{count} {name} keys: " + ", ".join(f"{word} {time_:.3f} s" for word, time_ in times.items()), flush=True)
    return "timed"


def main():
    tried(work, rounds=1, seed=1, arguments=[(["counts"], {"type": int, "nargs": "*", "metavar": "COUNT"})])


if __name__ == "__main__":
    main()
