"""What the scripts that try the built program share: running it, comparing what it does, and how a script ends.

A script's work is given to `tried`. It says at its end what was tried, and what was skipped and why; where the program does
something else than the second readers say, it shows both and ends with status 1.
"""
import argparse
import glob
import os
import random
import shutil
import subprocess
import sys
import tempfile
import time

from second.runs import Run, shown


TOP = os.path.abspath(os.path.join(os.path.dirname(__file__), ".."))


class Difference(Exception):
    """The program does something else than it has to."""


class Program:
    """The built program."""

    # No run of the program takes as long as this; one that does hangs.
    LONGEST = 300

    def __init__(self, path):
        self.path = os.path.abspath(path)
        self.runs = 0

    def run(self, words, given=b"", **options):
        """A run with these words and this input."""
        self.runs += 1
        try:
            done = subprocess.run([self.path, *map(str, words)], input=given, capture_output=True, timeout=self.LONGEST, **options)
        except subprocess.TimeoutExpired:
            raise Difference(f"{' '.join(map(str, words))} takes longer than {self.LONGEST} seconds, with the input {as_hex(given)}") from None
        return Run(done.returncode, done.stdout, done.stderr)


class Trial:
    """A script's run: the program, its drawing, a folder that is gone afterwards, and what was skipped."""

    def __init__(self, program, seed, rounds, folder):
        self.program, self.seed, self.rounds, self.folder = program, seed, rounds, folder
        self.draw, self.skipped = random.Random(seed), []

    def path(self, name):
        return os.path.join(self.folder, name)

    def skip(self, what):
        self.skipped.append(what)

    def needs(self, *tools):
        """Whether these tools are there. What needs them is skipped where one isn't."""
        missing = [tool for tool in tools if shutil.which(tool) is None]
        if missing:
            self.skip(f"what needs {' and '.join(missing)}")
        return not missing


def tried(work, rounds, seed=None, arguments=None):
    """Runs a script: `work` is given the trial and the words of the command line, and gives the sentence that says what was
    tried. Without a seed one is drawn."""
    parser = argparse.ArgumentParser(description=sys.modules["__main__"].__doc__, formatter_class=argparse.RawDescriptionHelpFormatter)
    parser.add_argument("program", help="the built program")
    parser.add_argument("--rounds", type=int, default=rounds, help=f"how much is drawn; without it {rounds}")
    parser.add_argument("--seed", type=int, default=seed, help="the seed of a run to repeat")
    for words, options in arguments or []:
        parser.add_argument(*words, **options)
    words = parser.parse_args()
    seed = random.SystemRandom().getrandbits(32) if words.seed is None else words.seed
    name, began = os.path.basename(sys.argv[0]).removesuffix(".py"), time.monotonic()
    with tempfile.TemporaryDirectory() as folder:
        trial = Trial(Program(words.program), seed, words.rounds, folder)
        try:
            said = work(trial, words)
        except Difference as difference:
            sys.exit(f"{name}, seed {seed}: {difference}")
    print(f"{name}, seed {seed}: {said}; {trial.program.runs} runs of the program, {time.monotonic() - began:.0f} s")
    for what in trial.skipped:
        print(f"{name}: skipped {what}")


def as_hex(data, most=4000):
    return data.hex() if len(data) <= most else f"{data[:most].hex()} and {len(data) - most} bytes more"


def same(what, found, wanted, **inputs):
    """Raises a difference where these are not the same; `inputs` are shown with it."""
    if found == wanted:
        return
    lines = [f"{what}: not as the second reader says"]
    lines += [f"  {name}: {as_hex(data) if isinstance(data, bytes) else data}" for name, data in inputs.items()]
    lines += [f"  the program:       {spelled(found)}", f"  the second reader: {spelled(wanted)}"]
    raise Difference("\n".join(lines))


def spelled(value):
    return shown(value) if isinstance(value, bytes) else str(value)


def examples():
    """The archives in examples/."""
    return sorted(glob.glob(os.path.join(TOP, "examples", "*.foz")))


def contents(path):
    """A file's bytes, or none where there is no such file."""
    try:
        with open(path, "rb") as file:
            return file.read()
    except FileNotFoundError:
        return None


def restore(path, data):
    """Makes a file hold these bytes, or not be there."""
    if data is None:
        if os.path.lexists(path):
            os.remove(path)
        return
    with open(path, "wb") as file:
        file.write(data)
