#!/usr/bin/env python3
"""Runs the proved program with ever more memory, from less than it needs to enough, and looks at what it says and leaves.

    scripts/little_memory.py PROGRAM

Out of memory must have the status 7, write nothing on the output (`worker`: a prefix of its answers), and leave a file that is only read
as it is. A file that is written holds the entries from before and whole batches of new ones, and the next run completes it. With enough
memory each run answers as the second readers say.
"""
import resource

import worlds
from harness import Difference, contents, restore, same, tried
from recordings import BATCH, capture, spelled_in
from second import archive, frames, lines, recorder, replay, states
from second.archive import Key

MEGABYTE = 1 << 20
MEMORY = 7


def limited(program, words, given, limit):
    """A run that may take so many bytes of address space, all that there is where the limit is None."""

    def limit_memory():
        if limit is not None:
            resource.setrlimit(resource.RLIMIT_AS, (limit, limit))

    return program.run(words, given, preexec_fn=limit_memory)


def least(program):
    """The least limit, in whole megabytes, with which the program starts at all and refuses words that are no form."""
    for megabytes in range(1, 4096):
        run = limited(program, [], b"", megabytes * MEGABYTE)
        if run.status == 2 and run.errors == b"foz: usage\n":
            return megabytes * MEGABYTE
    raise Difference("the program doesn't start with any limit")


class Command:
    """A command, its input, the file that it starts with, and what it has to answer and leave with ample memory."""

    def __init__(self, program, path, words, given, before, wanted, after):
        self.program, self.path, self.words, self.given = program, path, words, given
        self.before, self.wanted, self.after = before, wanted, after
        self.run_with(None)

    def fail(self, limit, what):
        raise Difference(f"{' '.join(self.words)} with {limit} bytes of memory {what}")

    def run_with(self, limit):
        """Whether the memory was enough."""
        restore(self.path, self.before)
        run = limited(self.program, self.words, self.given, limit)
        if run.status != MEMORY or limit is None:
            same(f"{' '.join(self.words)} with {limit} bytes of memory", run, self.wanted)
            same(f"the file of {' '.join(self.words)} with {limit} bytes of memory", contents(self.path), self.after)
            return True
        if run.errors not in (b"foz: out of memory\n", b""):
            self.fail(limit, f"says {run.errors[:100]}")
        if run.output and not (self.words == ["worker"] and self.wanted.output.startswith(run.output)):
            self.fail(limit, f"writes {run.output[:100]}")
        self.look_at_file(limit)
        return False

    def look_at_file(self, limit):
        left = contents(self.path)
        if left in (self.before, self.after):
            return
        if self.after == self.before:
            self.fail(limit, "changes a file that it only reads")
        held, whole = spelled_in(left), spelled_in(self.after)
        if held != whole[: len(held)] or (len(held) - len(spelled_in(self.before))) % BATCH:
            self.fail(limit, "leaves what are no whole batches of the whole file")
        limited(self.program, self.words, self.given, None)
        if contents(self.path) != self.after:
            self.fail(limit, "leaves a file that the next run doesn't complete")

    def tried(self, start):
        """Limits from the least on, in steps that grow, until the memory was enough twice. Gives how many were too small."""
        limit, step, short, enough = start, 64 * 1024, 0, 0
        while enough < 2:
            if self.run_with(limit):
                enough += 1
            else:
                short += 1
            limit += step
            step += step // 8
        if short == 0:
            self.fail(start, "isn't out of memory")
        return short


def session():
    """Frames of states, of a large payload that is no state, and a Quit."""
    works = [(states.key_of(*one), states.payload_of(*one)) for one in map(lambda n: ("sampler", {"flags": n}), range(2000))]
    works.append((Key(1, 1), b"[" + b"0," * 500_000 + b"0]"))
    works.append((Key(4, 1), states.payload_under(Key(4, 1), "shader_module", {"code": worlds.module([(5, "main")]) * 3000})))
    return b"".join(frames.work(frames.DO, *one) for one in works) + frames.QUIT_FRAME


def work(trial, _):
    program, path = trial.program, trial.path("a.foz")
    text, key, payload, stream = capture(3000), Key(1, 255), b"x" * 300_000, session()
    recorded, held = recorder.record_run(None, text)
    put, added = recorder.put_run(held, key, payload)
    start = least(program)
    commands = [
        Command(program, path, ["list", path], b"", held, archive.list_run(held), held),
        Command(program, path, ["check", path], b"", held, replay.check_run(held), held),
        Command(program, path, ["hash"], text, None, lines.hash_run(text), None),
        Command(program, path, ["record", path], text, None, recorded, held),
        Command(program, path, ["put", path, str(key.tag), f"{key.hash:016x}"], payload, held, put, added),
        Command(program, path, ["worker"], stream, None, frames.worker_run(stream), None),
    ]
    counts = [f"{command.words[0]} {command.tried(start)}" for command in commands]
    return ", ".join(counts) + " limits too small, each left whole"


def main():
    tried(work, rounds=1, seed=1)


if __name__ == "__main__":
    main()
