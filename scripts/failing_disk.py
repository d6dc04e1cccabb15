#!/usr/bin/env python3
"""Runs `put` and `record` on disks that fail, and looks at what is found afterwards.

    scripts/failing_disk.py PROGRAM [--rounds N] [--seed N]

Calls of the file fail by strace's injection, one after the other; a small file system in memory is full, where one can be mounted; files
have a limit of their size, whose signal kills the program or is ignored. A run must end with status 5, say so on the errors and print
nothing, or die of the signal; the file holds the entries from before and some whole batches of the new ones, and the next run completes
it. Calls of a file that is only read give status 3, and leave it as it is.
"""
import os
import resource
import signal
import subprocess

from harness import Difference, contents, restore, same, tried
from recordings import BATCH, STARTS, Recording, capture, puts_and_records
from second.runs import Run, failed

READING = {"openat": "EACCES", "pread64": "EIO", "read": "EIO", "lseek": "EIO", "statx": "EIO"}
WRITING = {**READING, "pwrite64": "EIO", "write": "ENOSPC", "ftruncate": "EIO", "fsync": "EIO", "fdatasync": "EIO"}


def injected(program, words, given, path, call, error, number):
    """A run in which a call of the file at this path fails, and whether there was such a call."""
    log = path + ".log"
    command = ["strace", "-f", "-qq", "-o", log, "-P", path, "-e", f"trace={call}", "-e", f"inject={call}:error={error}:when={number}"]
    done = subprocess.run([*command, program.path, *words], input=given, capture_output=True, timeout=program.LONGEST)
    program.runs += 1
    with open(log, encoding="latin-1") as file:
        return Run(done.returncode, done.stdout, done.stderr), "(INJECTED)" in file.read()


def fail_calls(recording):
    """Lets the first, second, .. call of each kind fail."""
    count = 0
    for call, error in WRITING.items():
        for number in range(1, 1000):
            recording.fresh()
            run, was_injected = injected(recording.program, recording.words, recording.given, recording.path, call, error, number)
            if not was_injected:
                break
            what = f"{' '.join(recording.words)} from {recording.name}, where {call} {number} fails with {error}"
            same(what, run, failed(5, "disk fault"))
            recording.look(f"where {call} {number} fails with {error},")
            count += 1
    return count


def fail_reads(trial):
    """Lets each call fail by which `list` and `check` read a file."""
    path, count = trial.path("read.foz"), 0
    data = Recording(trial, ["record", path], capture(BATCH), "no file", None).whole
    restore(path, data)
    for word in ("list", "check"):
        for call, error in READING.items():
            for number in range(1, 1000):
                run, was_injected = injected(trial.program, [word, path], b"", path, call, error, number)
                if not was_injected:
                    break
                same(f"{word}, where {call} {number} fails with {error}", run, failed(3, "read fault"))
                same("the file that was read", contents(path), data)
                count += 1
    return count


def limited(recording, limit, ignored):
    """A run whose files may have so many bytes."""

    def limit_size():
        resource.setrlimit(resource.RLIMIT_FSIZE, (limit, limit))
        signal.signal(signal.SIGXFSZ, signal.SIG_IGN if ignored else signal.SIG_DFL)

    return recording.program.run(recording.words, recording.given, preexec_fn=limit_size, restore_signals=False)


def limit_sizes(recording, draw, rounds):
    """Limits of the file's size below what it comes to."""
    count, most = 0, len(recording.whole)
    limits = {0, 1, 16, 17, 18, most - 2, most - 1, *(draw.randrange(most) for _ in range(rounds))}
    for limit in sorted(one for one in limits if 0 <= one < most):
        for ignored in (False, True):
            recording.fresh()
            run = limited(recording, limit, ignored)
            what = f"{' '.join(recording.words)} from {recording.name} with files of at most {limit} bytes"
            wanted = failed(5, "disk fault") if ignored else Run(-signal.SIGXFSZ, b"", b"")
            same(what, run, wanted)
            recording.look(f"with files of at most {limit} bytes")
            count += 1
    return count


class SmallFileSystem:
    """A file system in memory of 256 KB, and a file that leaves as much room in it as is wanted."""

    SIZE, PAGE = 256 * 1024, 4096

    def __init__(self, folder):
        self.folder = folder
        os.mkdir(folder)
        command = ["mount", "-t", "tmpfs", "-o", f"size={self.SIZE}", "none", folder]
        self.mounted = subprocess.run(command, capture_output=True).returncode == 0

    def __enter__(self):
        return self

    def __exit__(self, *_):
        if self.mounted:
            subprocess.run(["umount", self.folder], check=True)

    def leave(self, room):
        self.free()
        with open(os.path.join(self.folder, "filler"), "wb") as file:
            stats = os.statvfs(self.folder)
            file.write(bytes(max(stats.f_bavail * stats.f_frsize - room, 0)))

    def free(self):
        filler = os.path.join(self.folder, "filler")
        if os.path.exists(filler):
            os.remove(filler)


def fill_up(trial, system):
    """Leaves ever more room in the small file system, until it is enough."""
    path, count = os.path.join(system.folder, "a.foz"), 0
    recordings = [Recording(trial, ["put", path, "1", "00000000000000ff"], trial.draw.randbytes(40_000), name, STARTS[name]) for name in STARTS]
    recordings += [Recording(trial, ["record", path], capture(500), name, STARTS[name]) for name in ("no file", "a torn archive")]
    for recording in recordings:
        for pages in range(SmallFileSystem.SIZE // SmallFileSystem.PAGE):
            system.free()
            recording.fresh()
            system.leave(pages * SmallFileSystem.PAGE)
            run = recording.run()
            system.free()
            if run.status == recording.wanted.status:
                same("the file that had room", contents(path), recording.whole)
                break
            same(f"{' '.join(recording.words)} from {recording.name} with room for {pages} pages", run, failed(5, "disk fault"))
            recording.look(f"with room for {pages} pages")
            count += 1
        else:
            raise Difference("no room was enough")
    return count


def work(trial, _):
    said, recordings = [], list(puts_and_records(trial, 300))
    if trial.needs("strace"):
        said.append(f"{sum(map(fail_calls, recordings))} calls that failed in `put` and `record`")
        said.append(f"{fail_reads(trial)} in `list` and `check`")
    said.append(f"{sum(limit_sizes(one, trial.draw, trial.rounds) for one in recordings)} limits of the file's size")
    with SmallFileSystem(trial.path("small")) as system:
        if system.mounted:
            said.append(f"{fill_up(trial, system)} full file systems")
        else:
            trial.skip("full file systems, since none can be mounted")
    return ", ".join(said) + " answered and left as they must be"


def main():
    tried(work, rounds=6)


if __name__ == "__main__":
    main()
