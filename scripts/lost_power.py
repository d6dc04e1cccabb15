#!/usr/bin/env python3
"""Loses the power in `put` and in `record`: the real calls of each run are recorded with strace, and files are made of them that a disk
may have kept (docs/crash-safety.md, section 1).

    scripts/lost_power.py PROGRAM [--rounds N] [--seed N] [--threads N]

Each file must hold the entries that were there at the last sync, or those and the whole batch after it, and these are a prefix of what an
undisturbed run leaves; the second reader judges that, never the program. The next run then completes the file: to the bytes of the
undisturbed run, or, with several threads, to its entries in some order. What `put` and `record` print is printed when all of it is on
the disk. --threads gives `record` its option of that name. That the judge sees anything is tried by leaving out syncs of the calls.
"""
from typing import NamedTuple

from disk_calls import Disk, recorded, shown
from harness import Difference, contents, restore, tried
from recordings import FORGED, Recording, puts_and_records, spelled_in
from second import archive


class Moment(NamedTuple):
    """What the disk may have after so many calls, and the entries that it must hold: one list or the other."""

    number: int
    disk: Disk
    allowed: list


class Recorded(Recording):
    """A recording, the calls of a run, and the disk at each moment of it."""

    def __init__(self, trial, recording, threads):
        super().__init__(trial, recording.words + threads, recording.given, recording.name, recording.before)
        self.draw, self.threads, self.good = trial.draw, bool(threads), set()
        self.fresh()
        self.calls, self.status = recorded(trial.program, self.words, self.given, self.path, trial.path("log"))
        left = contents(self.path)
        if self.status != self.wanted.status or not self.is_whole([], left):
            self.fail(f"it ends with status {self.status} and leaves {shown(left)}")
        self.whole = left
        self.moments = list(self.moments_of(self.calls))
        last = self.moments[-1].disk
        if last.now != self.whole:
            self.fail("the recorded calls don't make the file that is there")
        if not last.is_at_rest():
            self.fail("it ends while the file isn't on the disk")

    def moments_of(self, calls):
        """Follows the calls with a disk."""
        disk = Disk(self.before)
        yield self.moment(0, disk)
        for number, call in enumerate(calls, 1):
            if call.does == "tell" and not disk.is_at_rest():
                self.fail(f"it prints {call.data[:60]} before call {number}, when the file isn't on the disk")
            disk.take(call)
            yield self.moment(number, disk)

    def moment(self, number, disk):
        """The entries that were on the disk at the last sync are a prefix of those that reads give, and these of those at the end."""
        synced, now, final = spelled_in(disk.base), spelled_in(disk.now), spelled_in(self.whole)
        if now[: len(synced)] != synced or final[: len(now)] != now:
            self.fail(f"after call {number} the file holds what is no prefix of the entries at the end, or has lost some that were on the disk")
        return Moment(number, disk.copy(), [synced, now])

    def lose_power(self):
        """Tries a file that a disk may have kept, unless it was tried already."""
        moment = self.draw.choice(self.moments)
        image = moment.disk.image(self.draw, FORGED)
        if image in self.good:
            return False
        held = self.judged(moment, image)
        restore(self.path, image)
        run = self.run()
        if run.status != self.status or not self.is_whole(held, contents(self.path)):
            self.fail(f"after call {moment.number} a disk may have kept this, which the next run, {run}, doesn't complete: {shown(image)}")
        self.good.add(image)
        return True

    def judged(self, moment, image):
        """The entries that a file holds, which a disk may have kept."""
        try:
            held = spelled_in(image)
        except archive.Refused as cause:
            self.fail(f"after call {moment.number} a disk may have kept what is no archive, {cause}: {shown(image)}")
        if held not in moment.allowed:
            counts = " or ".join(str(len(allowed)) for allowed in moment.allowed)
            self.fail(f"after call {moment.number} a disk may have kept {len(held)} entries, and not {counts}: {shown(image)}")
        return held

    def is_whole(self, held, after):
        if not self.threads:
            return after == self.whole
        entries, wanted = spelled_in(after), spelled_in(self.whole)
        return after == archive.archive_of(entries) and entries[: len(held)] == held and sorted(entries) == sorted(wanted)

    def try_without_syncs(self):
        """The judge is no judge unless it finds a wrong file where a sync before an opening of the gate is left out."""
        pairs = enumerate(zip(self.calls, self.calls[1:]))
        openings = [place for place, (call, after) in pairs if call.does == "sync" and after.does == "write" and after.data == archive.OPEN]
        for place in openings:
            moments = list(self.moments_of(self.calls[:place] + self.calls[place + 1 : place + 2]))
            if not any(self.is_wrong(moments[-1]) for _ in range(1000)):
                self.fail(f"that sync {place} is left out goes unnoticed")
        return len(openings)

    def is_wrong(self, moment):
        try:
            self.judged(moment, moment.disk.image(self.draw, FORGED))
            return False
        except Difference:
            return True


def work(trial, words):
    if not trial.needs("strace"):
        return "nothing tried"
    threads = [] if words.threads is None else ["--threads", str(words.threads)]
    if threads and trial.program.run(["record", trial.path("b.foz"), *threads]).status == 2:
        trial.skip("threads, which the program doesn't have")
        return "nothing tried"
    found = [Recorded(trial, one, threads) for one in puts_and_records(trial, 200, True) if not threads or one.words[0] == "record"]
    syncs = sum(one.try_without_syncs() for one in found)
    different = 0
    while different < trial.rounds:
        different += trial.draw.choice(found).lose_power()
    calls = sum(len(one.moments) - 1 for one in found)
    said = f"{different} different files of {calls} calls in {len(found)} runs hold whole batches and were completed"
    return f"{said}; the loss of each of {syncs} syncs is noticed"


def main():
    tried(work, rounds=500, arguments=[(["--threads"], {"type": int, "help": "how many threads `record` is asked for"})])


if __name__ == "__main__":
    main()
