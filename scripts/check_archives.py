#!/usr/bin/env python3
"""Replays archives by docs/format.md, and compares the text and the status of `check` with those of the proved program.

    scripts/check_archives.py PROGRAM [--rounds N] [--seed N]

Besides the examples and the realistic capture, archives are drawn: sound states of each kind, a state for each code of the driver
that breaks its rule, states that refer to what isn't there, to what failed and to one another in a circle, payloads that are no
state, damaged entries and duplicates, in any order.
"""
import drawn
import worlds
from harness import Difference, examples, restore, same, tried
from second import archive, replay, states
from second.archive import Key

CODES = range(1, 41)


def circle(world):
    """Pipelines that are based on one another in a circle, one that is based on them, and one that refers to itself."""
    keys = [Key(6, world.draw.getrandbits(64)) for _ in range(4)]
    for key, base in zip(keys, [keys[1], keys[2], keys[0], keys[0]]):
        yield key, "graphics_pipeline", {**world.graphics_pipeline(), "basePipelineHandle": base.hash}
    own = Key(7, world.draw.getrandbits(64))
    yield own, "compute_pipeline", {**world.compute_pipeline(), "basePipelineHandle": own.hash}


# The kind of state that refers to one of each tag, and the member that does where it is the state's own.
WANTS = {
    1: ("set_layout", None),
    2: ("pipeline_layout", None),
    3: ("compute_pipeline", "layout"),
    4: ("compute_pipeline", None),
    5: ("graphics_pipeline", "renderPass"),
    6: ("graphics_pipeline", "basePipelineHandle"),
    7: ("compute_pipeline", "basePipelineHandle"),
}


def wants(world, key):
    """A state that refers to a key: what isn't there, or what failed."""
    kind, member = WANTS[key.tag]
    found = world.sound(kind)
    if key.tag == 1:
        found["bindings"] = [{"descriptorType": 1, "descriptorCount": 2, "immutableSamplers": [world.pick(1), key.hash]}]
    elif key.tag == 2:
        found["setLayouts"] = [world.pick(2), key.hash]
    elif key.tag == 4:
        found["stage"] = {**found["stage"], "module": key.hash}
    else:
        found[member] = key.hash
    return kind, found


def archive_of(draw):
    """The bytes of a drawn archive."""
    world = worlds.World(draw)
    world.fill()
    found = list(world.states)
    for code in CODES:
        kind, state = worlds.breaking(world, code)
        found.append((Key(states.KINDS[kind].tag, draw.getrandbits(64)), kind, state))
    failed = [key for key, _, _ in found[-len(CODES) :]]
    for key in draw.sample(failed, 6) + [Key(draw.randrange(1, 8), draw.getrandbits(64)) for _ in range(3)] + [Key(1, 0), Key(5, 0), Key(6, 0)]:
        kind, state = wants(world, key)
        found.append((Key(states.KINDS[kind].tag, draw.getrandbits(64)), kind, state))
    found += circle(world)
    found += [(Key(states.KINDS[kind].tag, draw.getrandbits(64)), kind, state) for kind, state in (drawn.state(draw) for _ in range(5))]
    spelled = [archive.spell(key, states.payload_under(key, kind, state)) for key, kind, state in found]
    spelled += [drawn.entry(draw, drawn.key(draw)) for _ in range(8)] + draw.sample(spelled, 3)
    if draw.random() < 0.8:
        draw.shuffle(spelled)
    return archive.HEADER + b"".join(spelled) + draw.choice(drawn.TAILS)


def realistic():
    """The realistic capture, each pipeline before what it depends on."""
    return archive.archive_of([archive.spell(states.key_of(*state), states.payload_of(*state)) for state in reversed(states.realistic())])


def work(trial, _):
    path, codes = trial.path("a.foz"), {}

    def compare(what, data):
        restore(path, data)
        wanted = replay.check_run(data)
        same(what, trial.program.run(["check", path]), wanted, file=data)
        for line in wanted.output.decode().splitlines():
            words = line.split()
            if words[3:4] == ["refused"]:
                codes[int(words[4])] = codes.get(int(words[4]), 0) + 1

    for name in examples():
        with open(name, "rb") as file:
            compare(name, file.read())
    compare("the realistic capture", realistic())
    wanted = b"items 130 done 130 refused 0 blamed 0 missing 0 unanswered 0"
    same("the realistic capture", replay.check_run(realistic()).output.splitlines()[-2], wanted)
    for number in range(trial.rounds):
        compare(f"archive {number}", archive_of(trial.draw))
    lacking = [code for code in CODES if code not in codes]
    if lacking and trial.rounds >= 10:
        raise Difference(f"no state was refused with {lacking}")
    said = f"{len(examples())} examples, the realistic capture and {trial.rounds} drawn archives are replayed alike"
    return f"{said}, each of {len(codes)} codes at least {min(codes.values())} times"


def main():
    tried(work, rounds=60)


if __name__ == "__main__":
    main()
