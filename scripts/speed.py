#!/usr/bin/env python3
"""Times `record` of new and of known shader modules on a real file, and an embedded store that is given the payloads ready.

    scripts/speed.py PROGRAM [MODULES [ROUNDS]]

What is new is synced twice for 64 records, which costs what the disk takes for it; what is known isn't written at all. The least
time of the rounds counts, and the sync of this disk is measured first. It prints figures and judges none.
"""
import os
import random
import sqlite3
import subprocess
import sys
import tempfile
import time

from second import states

BATCH = 64
WORDS = 256


def modules(count):
    """Different modules of 1 KB of code, whose words are as large as those of instructions."""
    draw = random.Random(7)
    word = (
        lambda: draw.randrange(200),
        lambda: draw.randrange(1 << 16),
        lambda: draw.randrange(1, 6) << 16 | draw.randrange(400),
    )
    for number in range(count):
        code = [0x07230203, 0x10000, number, 1000, 0]
        code += [draw.choice(word)() for _ in range(WORDS - len(code))]
        yield {"code": code}


def sync_time(path, size):
    """The median time of a sync after a write of so many bytes."""
    times = []
    with open(path, "wb", buffering=0) as file:
        for _ in range(100):
            file.write(bytes(size))
            start = time.perf_counter()
            os.fsync(file.fileno())
            times.append(time.perf_counter() - start)
    return sorted(times)[len(times) // 2]


def seconds(program, words, capture):
    with open(capture, "rb") as text:
        start = time.perf_counter()
        subprocess.run([program, *words], stdin=text, stdout=subprocess.DEVNULL, check=True)
        return time.perf_counter() - start


def stored(path, rows):
    """A table with a row for each key, and a commit that is synced for each batch."""
    start = time.perf_counter()
    with sqlite3.connect(path, isolation_level=None) as store:
        store.execute("pragma journal_mode=wal")
        store.execute("pragma synchronous=full")
        store.execute("create table if not exists entries (tag, hash, payload, primary key (tag, hash)) without rowid")
        for first in range(0, len(rows), BATCH):
            store.execute("begin")
            store.executemany("insert or ignore into entries values (?, ?, ?)", rows[first : first + BATCH])
            store.execute("commit")
    store.close()
    return time.perf_counter() - start


def round_of(program, folder, capture, rows):
    archive, table = os.path.join(folder, "a.foz"), os.path.join(folder, "a.db")
    for path in (archive, table):
        if os.path.exists(path):
            os.unlink(path)
    return {
        "record, all new": seconds(program, ["record", archive], capture),
        "record, all known": seconds(program, ["record", archive], capture),
        "hash": seconds(program, ["hash"], capture),
        "list": seconds(program, ["list", archive], capture),
        "sqlite3, all new": stored(table, rows),
        "sqlite3, all known": stored(table, rows),
    }


def main():
    program = sys.argv[1]
    count, rounds = [int(word) for word in sys.argv[2:4]] + [26000, 5][len(sys.argv[2:4]) :]
    with tempfile.TemporaryDirectory(dir=".") as folder:
        capture = os.path.join(folder, "modules")
        rows = []
        with open(capture, "wb") as text:
            for state in modules(count):
                text.write(states.line_of("shader_module", state))
                hash_ = f"{states.hash_of('shader_module', state):016x}"
                rows.append((states.KINDS["shader_module"].tag, hash_, states.payload_of("shader_module", state)))
        size = sum(56 + len(row[2]) for row in rows)
        sync = sync_time(os.path.join(folder, "sync"), size * BATCH // count)
        print(f"{count} modules, {size / 1e6:.1f} MB of entries, a sync of {sync * 1e3:.2f} ms")
        found = [round_of(program, folder, capture, rows) for _ in range(rounds)]
    best = {name: min(one[name] for one in found) for name in found[0]}
    for name, time_ in best.items():
        print(f"{name:20} {time_:7.3f} s")
    print(f"known to new 1 : {best['record, all new'] / best['record, all known']:.1f}")


if __name__ == "__main__":
    main()
