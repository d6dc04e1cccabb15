#!/usr/bin/env python3
"""Replays archives by `replay` over real processes, and compares its reports with those that docs/format.md and docs/worker.md ask for.

    scripts/replay_archives.py PROGRAM [--rounds N] [--seed N]

By 1, 4 and 16 workers of the program's own: the examples, the realistic capture and drawn archives. By other workers, which FOZ_WORKER
names: the one in examples/, alive and dying over each key; odd ones, which die, are killed or answer wrongly over drawn keys; such as can't be
started; one that is killed from outside, one that doesn't end, and a replay that is killed itself. After each run none of its workers may be
left, and a thousand workers one after the other may cost no file descriptor.
"""
import glob
import json
import os
import resource
import signal
import subprocess
import time

import check_archives
from harness import TOP, Difference, contents, examples, restore, same, tried
from second import archive, replay, states
from second.archive import Key
from second.runs import Run

EXAMPLE_WORKER = os.path.join(TOP, "examples", "worker.py")
ODD_WORKER = os.path.join(TOP, "scripts", "odd_worker.py")
PIPELINE = os.path.join(TOP, "examples", "pipeline.foz")

# What odd workers do over a key that they are to die over.
DEEDS = ["killed", "crashed", "left", "closed", "cut", "garbage", "other kind", "other key", "second hello"]

CREWS = (1, 4, 16)

# The shell command by which a worker says Hello.
HELLO = r"printf '\5\0\0\0\1FOZ\1'"

# Programs that are no workers, as shell scripts.
NO_WORKERS = {
    "ends at once": "exit 0",
    "is killed at once": "kill -9 $$",
    "says half a Hello": r"printf '\5\0\0\0\1FOZ'",
    "says a Hello of another version": r"printf '\5\0\0\0\1FOZ\2'; exec cat",
    "answers before it says Hello": r"printf '\21\0\0\0\4\0\0\0\0\3\0\0\0\3\0\0\0\0\0\0\0'; exec cat",
}


class Crew:
    """A folder in which odd workers leave the names of their processes."""

    def __init__(self, trial, name):
        self.folder = trial.path(name)
        os.mkdir(self.folder)

    def environment(self, deeds):
        told = json.dumps({str(key): deed for key, deed in deeds.items()})
        return {**named(ODD_WORKER), "ODD_FOLDER": self.folder, "ODD_DEEDS": told}

    def left(self, word):
        """The processes that left their names with a word."""
        names = [os.path.basename(path).split(" ") for path in glob.glob(os.path.join(self.folder, "*"))]
        return [int(name[0]) for name in names if " ".join(name[1:]) == word]

    def end(self, what):
        """Nothing may run any more of the processes that were started."""
        for number in self.left(""):
            if runs(number):
                raise Difference(f"{what}: the worker {number} still runs")
        for name in os.listdir(self.folder):
            os.remove(os.path.join(self.folder, name))


def runs(number):
    """Whether a process runs. One that has ended and that nobody has asked for counts as one that runs where its parent does."""
    try:
        with open(f"/proc/{number}/stat", encoding="ascii", errors="replace") as file:
            state, parent = file.read().rpartition(")")[2].split()[:2]
        return state != "Z" or parent != "1"
    except OSError:
        return False


def wait_for(what, found):
    """What comes within half a minute."""
    for _ in range(3000):
        if answer := found():
            return answer
        time.sleep(0.01)
    raise Difference(f"{what}: nothing happens")


def replayed(trial, data, workers, **options):
    path = trial.path("a.foz")
    restore(path, data)
    found = trial.program.run(["replay", path, "--workers", workers], **options)
    same("the archive", contents(path), data)
    return found


def named(path):
    """The environment in which this program is the worker."""
    return {**os.environ, "FOZ_WORKER": path}


def script(trial, name, text):
    """The environment in which a shell script is the worker."""
    path = trial.path(f"worker-{name}")
    with open(path, "w", encoding="ascii") as file:
        file.write(f"#!/bin/sh\n{text}\n")
    os.chmod(path, 0o755)
    return named(path)


def compare_own(trial):
    """By workers of the program's own."""
    archives = [*((os.path.basename(path), contents(path)) for path in examples()), ("the realistic capture", check_archives.realistic())]
    archives += [(f"archive {number}", check_archives.archive_of(trial.draw)) for number in range(trial.rounds)]
    for name, data in archives:
        wanted = replay.replay_run(data)
        for workers in CREWS:
            same(f"{name} by {workers} workers", replayed(trial, data, workers), wanted, file=data)
    same("no such file", trial.program.run(["replay", trial.path("absent.foz")]), Run(6, b"", b"foz: absent\n"))
    return len(archives)


def compare_example(trial):
    """By the worker of the examples, which may die over a key. Its driver refuses nothing."""
    small, environment = contents(PIPELINE), named(EXAMPLE_WORKER)
    for workers in (1, 3):
        same("the example worker", replayed(trial, small, workers, env=environment), replay.replay_run(small))
        for key in (Key(3, 3), Key(4, 4), Key(7, 7)):
            found = replayed(trial, small, workers, env={**environment, "DIE_ON": str(key)})
            same(f"the example worker dies over {key}", found, replay.replay_run(small, {key}))
    large = check_archives.realistic()
    same("the realistic capture by the example worker", replayed(trial, large, 4, env=environment), replay.replay_run(large))


def compare_odd(trial):
    """By odd workers that die, are killed or answer wrongly over drawn keys."""
    crew, done = Crew(trial, "odd"), dict.fromkeys(DEEDS, 0)
    for number in range(trial.rounds):
        data = check_archives.archive_of(trial.draw)
        items = replay.classes_of(archive.read(data)[0])[1]
        deeds = {item.key: trial.draw.choice(DEEDS) for item in trial.draw.sample(items, min(len(items), 12))}
        wanted = replay.replay_run(data, deeds)
        workers = CREWS[number % 3]
        found = replayed(trial, data, workers, env=crew.environment(deeds))
        same(f"odd workers {deeds}", found, wanted, file=data)
        same("how many workers were told to quit", len(crew.left("quit")), workers)
        crew.end(f"odd workers {deeds}")
        for line in wanted.output.decode().splitlines():
            words = line.split()
            if words[3:] == ["blamed"]:
                done[deeds[Key(int(words[1]), int(words[2], 16))]] += 1
    if trial.rounds >= 9 and not all(done.values()):
        raise Difference(f"the drawn runs lack what is not counted here: {done}")
    return sum(done.values())


def compare_starts(trial):
    """Workers that can't be started, from the first on or from the second on."""
    small = contents(PIPELINE)
    nobody = [("there is no such file", named(trial.path("nothing"))), ("it is a folder", named(trial.folder))]
    nobody += [(f"a worker that {what}", script(trial, number, text)) for number, (what, text) in enumerate(NO_WORKERS.items())]
    for what, environment in nobody:
        for workers in (1, 16):
            same(what, replayed(trial, small, workers, env=environment), replay.starved_run(small, workers))
    empty = archive.archive_of([])
    same("nobody for nothing", replayed(trial, empty, 2, env=nobody[0][1]), replay.starved_run(empty, 2))
    crew, key = Crew(trial, "once"), Key(4, 4)
    once = script(trial, "once", f"mkdir '{crew.folder}/once' 2>/dev/null && exec '{ODD_WORKER}'")
    found = replayed(trial, small, 1, env={**crew.environment({key: "killed"}), **once})
    wanted = replay.starved_run(small, 1, {Key(3, 3): "done", key: "blamed"})
    same("a worker that can be started once", found, wanted)
    return 2 * len(nobody) + 2


def begun(trial, data, workers, environment):
    """A replay that goes on while something is done to it."""
    trial.program.runs += 1
    restore(trial.path("a.foz"), data)
    words = [trial.program.path, "replay", trial.path("a.foz"), "--workers", str(workers)]
    return subprocess.Popen(words, stdin=subprocess.DEVNULL, stdout=subprocess.PIPE, stderr=subprocess.PIPE, env=environment)


def compare_kills(trial):
    """A worker that is killed from outside, and a replay that is killed."""
    data, crew = check_archives.realistic(), Crew(trial, "kills")
    key = states.key_of(*trial.draw.choice(states.realistic()))
    for workers in (1, 4):
        child = begun(trial, data, workers, crew.environment({key: "waits"}))
        os.kill(wait_for("a worker that waits", lambda: crew.left("waits"))[0], signal.SIGKILL)
        output, errors = child.communicate(timeout=trial.program.LONGEST)
        same(f"a worker is killed over {key}", Run(child.returncode, output, errors), replay.replay_run(data, {key}))
        crew.end("a worker is killed")
    child = begun(trial, data, 4, crew.environment({key: "waits"}))
    wait_for("a worker that waits", lambda: crew.left("waits"))
    child.kill()
    child.communicate()
    wait_for("a replay is killed, and its workers", lambda: not any(map(runs, crew.left(""))))
    crew.end("a replay is killed")


def compare_stay(trial):
    """A worker that doesn't end when it is told to quit is killed after ten seconds."""
    crew, empty = Crew(trial, "stays"), archive.archive_of([])
    began = time.monotonic()
    environment = script(trial, "stays", f"touch '{crew.folder}'/$$; {HELLO}; exec sleep 1000")
    same("a worker that stays", replayed(trial, empty, 2, env=environment), replay.replay_run(empty))
    took = time.monotonic() - began
    if took < 9.5:
        raise Difference(f"a worker that stays was killed after {took:.1f} seconds")
    crew.end("a worker that stays")


def compare_thousand(trial):
    """A thousand workers, each gone over its first item, with few file descriptors for the replay."""
    keys = [Key(1, number + 1) for number in range(1000)]
    data = archive.archive_of([archive.spell(key, states.payload_under(key, "sampler", {"flags": key.hash})) for key in keys])
    few = {"env": script(trial, "gone", HELLO), "preexec_fn": lambda: resource.setrlimit(resource.RLIMIT_NOFILE, (64, 64))}
    for workers in (1, 4):
        same("a thousand deaths", replayed(trial, data, workers, **few), replay.replay_run(data, set(keys)))


def work(trial, _):
    first = trial.program.run(["replay", PIPELINE])
    if first.status == 2:
        trial.skip("all of it: the program has no command replay")
        return "nothing"
    archives = compare_own(trial)
    compare_example(trial)
    deaths = compare_odd(trial)
    starts = compare_starts(trial)
    compare_kills(trial)
    compare_stay(trial)
    compare_thousand(trial)
    said = f"{archives} archives by {len(CREWS)} crews, the example worker, {deaths} deaths of odd workers, {starts} crews that can't be started"
    return f"{said}, two workers and a replay that are killed, a worker that stays, and 2000 deaths in a row are reported alike"


def main():
    tried(work, rounds=9)


if __name__ == "__main__":
    main()
