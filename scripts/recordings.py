"""Runs of `put` and `record` that are disturbed: what each may leave, and that the next run completes it.

The second recorder says what an undisturbed run leaves, and the second reader what a disturbed one left.
"""
import worlds
from harness import Difference, contents, restore, same
from second import archive, recorder, states
from second.archive import Key

# After how many records of a capture what was added is written and synced.
BATCH = 64

KEY = Key(1, 255)
OTHER = archive.spell(Key(1, 1), b"123456789")
FORGED = archive.spell(Key(1, 77), b"nobody wrote this")

# What files hold before: nothing since there is none, archives at rest, without the last byte, torn within an entry and with other
# tails, and files that become new archives.
STARTS = {
    "no file": None,
    "an empty file": b"",
    "a file that was cut while it was made": archive.HEADER[:9],
    "an archive without entries": archive.HEADER + b"\0",
    "an archive at rest": archive.HEADER + OTHER + b"\0",
    "an archive without its last byte": archive.HEADER + OTHER,
    "a torn archive": archive.HEADER + OTHER + FORGED[:50],
    "an archive whose tail has an entry": archive.HEADER + OTHER + b"\0" + FORGED[1:] + FORGED,
    "an archive with another tail": archive.HEADER + OTHER + b"a" * 200,
}


def state(number):
    """Different states by their numbers, of several kinds in turn."""
    makers = (
        lambda n: ("sampler", {"flags": n}),
        lambda n: ("set_layout", {"bindings": [{"binding": n, "descriptorCount": 1}]}),
        lambda n: ("pipeline_layout", {"setLayouts": [n]}),
        lambda n: ("shader_module", {"code": worlds.module([(5, "main")], n)}),
        lambda n: ("compute_pipeline", {"stage": {"stage": 32, "module": n, "name": "main"}}),
    )
    return makers[number % len(makers)](number)


def capture(count, mixed=False):
    """So many different states; where it is mixed, some lines are known already and some are refused."""
    lines = []
    for number in range(count):
        lines.append(states.line_of(*state(number)))
        if mixed and number % 6 == 5:
            lines.append(lines[number // 2])
        if mixed and number % 7 == 6:
            lines.append(b"lens {}\n")
    return b"".join(lines)


def spelled_in(data):
    """The entries of a file that is written to, each as its bytes."""
    return [entry.spelled for entry in archive.held(data)[0]]


class Recording:
    """A `put` or a `record`, its input, and what the file holds before and after an undisturbed run."""

    def __init__(self, trial, words, given, name, before):
        self.program, self.words, self.given, self.name, self.before = trial.program, words, given, name, before
        self.path = words[1]
        after = recorder.put_run(before, KEY, given) if words[0] == "put" else recorder.record_run(before, given)
        self.wanted, self.whole = after

    def fail(self, what):
        raise Difference(f"{' '.join(self.words)} from {self.name}: {what}")

    def fresh(self):
        restore(self.path, self.before)

    def run(self):
        return self.program.run(self.words, self.given)

    def try_undisturbed(self):
        self.fresh()
        same(f"{' '.join(self.words)} from {self.name}", self.run(), self.wanted, file=self.before, input=self.given)
        same(f"the file of {' '.join(self.words)} from {self.name}", contents(self.path), self.whole, file=self.before, input=self.given)

    def look(self, moment):
        """What a run left that was disturbed at this moment, and what the next run makes of it."""
        left = contents(self.path)
        try:
            held = spelled_in(left)
        except archive.Refused as cause:
            self.fail(f"{moment} it leaves what is no archive, {cause}: {left[:100].hex()}")
        whole, before = spelled_in(self.whole), len(spelled_in(self.before))
        if held != whole[: len(held)] or len(held) < before:
            self.fail(f"{moment} it leaves {len(held)} entries that aren't a prefix of those of an undisturbed run")
        if held != whole and (len(held) - before) % BATCH:
            self.fail(f"{moment} it leaves {len(held)} entries, which are no whole batches")
        self.complete(moment)

    def complete(self, moment):
        run = self.run()
        if run.status != self.wanted.status or contents(self.path) != self.whole:
            self.fail(f"{moment}: the next run, {run}, leaves another file than an undisturbed one")


def puts_and_records(trial, count, mixed=False):
    """Each command from each start."""
    path = trial.path("a.foz")
    text = capture(count, mixed)
    for name, before in STARTS.items():
        yield Recording(trial, ["put", path, str(KEY.tag), f"{KEY.hash:016x}"], trial.draw.randbytes(3000), name, before)
        yield Recording(trial, ["record", path], text, name, before)
