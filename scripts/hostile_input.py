#!/usr/bin/env python3
"""Gives the proved program archives, captures and frames that were drawn to be hostile, and compares each answer, and each file
afterwards, with those of the second readers and the second recorder.

    scripts/hostile_input.py PROGRAM [--rounds N] [--seed N]

Archives have bits flipped, lengths near 2^32, entries cut, tails of other formats, keys that stand twice. Captures have deep JSON, huge
numbers, members twice, texts with escapes and broken UTF-8, base64 with each fault. Frames have impossible lengths and kinds. `list`,
`check`, `put` and `record` read the archives, `hash` and `record` the captures, `worker` the frames.
"""
import drawn
from harness import contents, restore, same, tried
from second import archive, frames, lines, recorder, replay

NO_CAPTURE = b"#\n"


def try_archive(trial, path, many):
    program, draw, data = trial.program, trial.draw, drawn.file(trial.draw, 300 if many else 7)
    restore(path, data)
    same("list", program.run(["list", path]), archive.list_run(data), file=data)
    same("check", program.run(["check", path]), replay.check_run(data), file=data)
    same("the file that was read", contents(path), data)
    held = archive.entries_of(data)[0]
    key = draw.choice(held).key if held and draw.random() < 0.6 else drawn.key(draw)
    payload = draw.choice([entry.payload for entry in held] + [b"", b"123456789", draw.randbytes(100)])
    wanted, after = recorder.put_run(data, key, payload)
    same("put", program.run(["put", path, key.tag, f"{key.hash:016x}"], payload), wanted, file=data, key=key, payload=payload)
    same("the file after put", contents(path), after, file=data, key=key, payload=payload)
    capture = draw.choice([NO_CAPTURE, drawn.capture(draw, 3, 0.002)])
    restore(path, data)
    wanted, after = recorder.record_run(data, capture)
    same("record", program.run(["record", path], capture), wanted, file=data, capture=capture)
    same("the file after record", contents(path), after, file=data, capture=capture)
    return len(held)


def try_capture(trial, path, many):
    capture = drawn.capture(trial.draw, 300 if many else 8, trial.draw.choice([0, 0.002, 0.02, 0.1]))
    same("hash", trial.program.run(["hash"], capture), lines.hash_run(capture), capture=capture)
    restore(path, None)
    wanted, after = recorder.record_run(None, capture)
    same("record", trial.program.run(["record", path], capture), wanted, capture=capture)
    same("the file after record", contents(path), after, capture=capture)
    return len(lines.lines_of(capture))


def try_stream(trial, _, many):
    stream = drawn.stream(trial.draw, 300 if many else 8)
    same("worker", trial.program.run(["worker"], stream), frames.worker_run(stream), input=stream)
    return len(frames.frames_of(stream)[0])


TRIES = {"archives with {} whole entries": try_archive, "captures with {} lines": try_capture, "streams with {} whole frames": try_stream}


def work(trial, _):
    counts, parts = dict.fromkeys(TRIES, 0), dict.fromkeys(TRIES, 0)
    for _ in range(trial.rounds):
        name = trial.draw.choices(list(TRIES), [2, 2, 1])[0]
        counts[name] += 1
        parts[name] += TRIES[name](trial, trial.path("a.foz"), trial.draw.random() < 0.01)
    return ", ".join(f"{counts[name]} {name.format(parts[name])}" for name in TRIES) + " answered alike"


def main():
    tried(work, rounds=1000)


if __name__ == "__main__":
    main()
