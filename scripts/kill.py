#!/usr/bin/env python3
"""Kills the proved program in the middle of `put` and of `record`, and looks at what is found afterwards.

    scripts/kill.py PROGRAM [--rounds N] [--seed N]

Each kill must leave the entries from before and some whole batches of the new ones, in order, and the next run must complete the file to
the bytes that the second recorder gives. Where strace is there the program is killed at each of its writes, cuts and syncs of the file;
it is killed at drawn moments too.
"""
import subprocess

from harness import tried
from recordings import puts_and_records

CALLS = ("pwrite64", "ftruncate", "fsync", "fdatasync")


def kill_at_calls(recording):
    """Kills the program at the first, second, .. call of each kind, until it ends by itself."""
    count = 0
    for call in CALLS:
        for number in range(1, 1000):
            recording.fresh()
            inject = f"inject={call}:signal=SIGKILL:when={number}"
            command = ["strace", "-f", "-qq", "-o", "/dev/null", "-e", f"trace={call}", "-e", inject, recording.program.path, *recording.words]
            run = subprocess.run(command, input=recording.given, capture_output=True, timeout=recording.program.LONGEST)
            recording.look(f"killed at {call} {number}")
            if run.returncode == recording.wanted.status:
                break
            count += 1
    return count


def kill_at_moments(recording, draw, rounds):
    """Kills the program at moments that are drawn up to a bit more than what it takes."""
    count, longest = 0, 0.012 if recording.words[0] == "put" else 0.15
    for _ in range(rounds):
        recording.fresh()
        command = [recording.program.path, *recording.words]
        run = subprocess.Popen(command, stdin=subprocess.PIPE, stdout=subprocess.DEVNULL, stderr=subprocess.DEVNULL)
        try:
            run.stdin.write(recording.given)
            run.stdin.close()
        except BrokenPipeError:
            pass
        try:
            run.wait(timeout=draw.random() * longest)
        except subprocess.TimeoutExpired:
            run.kill()
            count += 1
        run.wait()
        recording.look("killed at a drawn moment")
    return count


def work(trial, _):
    by_call = by_time = 0
    strace = trial.needs("strace")
    for recording in puts_and_records(trial, 1000):
        recording.try_undisturbed()
        if strace and (recording.words[0] == "put" or recording.name in ("no file", "a torn archive")):
            by_call += kill_at_calls(recording)
        by_time += kill_at_moments(recording, trial.draw, trial.rounds)
    return f"{by_call} kills at calls and {by_time} at drawn moments left whole batches, which the next run completed"


def main():
    tried(work, rounds=10)


if __name__ == "__main__":
    main()
