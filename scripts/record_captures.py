#!/usr/bin/env python3
"""Records captures by docs/format.md, and compares texts, statuses and files with those of the proved program.

    scripts/record_captures.py PROGRAM [--rounds N] [--seed N] [--threads N]

The realistic capture twice, lines that can't be read, and drawn captures, each recorded three times, in files that aren't there yet and in
archives of another tool. With --threads it is recorded by so many threads, and judged whether one recorder may reply so to the lines in
some order.
"""
import drawn
from harness import Difference, as_hex, contents, restore, same, tried
from second import archive, recorder, states, threads

# Lines that can't be read, and why.
REFUSED = [
    (b"lens {}", "kind"),
    (b"sampler", "kind"),
    (b"sampler\t{}", "kind"),
    (b"\r", "kind"),
    (b" sampler {}", "kind"),
    (b"sampler ", "json"),
    (b"sampler {} {}", "json"),
    (b"sampler {\"flags\":01}", "json"),
    (b"sampler \xff", "json"),
    (b"sampler {\"x\":" + b"[" * 128 + b"]" * 128 + b"}", "json"),
    (b"sampler {\"maxLod\":1000.0}", "float 10"),
    (b"sampler {\"x\":-0.0}", "float 5"),
    (b"sampler {\"magFilter\":4294967296}", "field magFilter large"),
    (b"sampler {\"magFilter\":18446744073709551616}", "field magFilter number"),
    (b"sampler {\"magFilter\":-1}", "field magFilter number"),
    (b"sampler {\"maxLod\":2}", "field maxLod unit"),
    (b"sampler {\"magFilter\":2,\"pNext\":null}", "field pNext pnext"),
    (b"sampler []", "field  object"),
    (b"set_layout {\"bindings\":{}}", "field bindings list"),
    (b"set_layout {\"bindings\":[{},{\"stageFlags\":\"1\"}]}", "field bindings[1].stageFlags number"),
    (b"set_layout {\"bindings\":[{\"immutableSamplers\":[\"1\"]}]}", "field bindings[0].immutableSamplers[0] hash"),
    (b"compute_pipeline {\"stage\":{\"name\":1}}", "field stage.name text"),
    (b"graphics_pipeline {\"colorBlendState\":{\"blendConstants\":[0]}}", "field colorBlendState.blendConstants length"),
    (b"shader_module {\"code\":\"A\"}", "field code base64"),
    (b"shader_module {\"code\":\"AAA=\"}", "code"),
]


def line_of(state):
    """A capture line without its line feed."""
    return states.line_of(*state)[:-1]


def lines(draw, pool, count):
    found = []
    for _ in range(count):
        pick = draw.random()
        if pick < 0.7:
            found.append(line_of(draw.choice(pool)))
        elif pick < 0.85:
            found.append(draw.choice(REFUSED)[0])
        else:
            found.append(draw.choice((b"", b"#", b"# sampler {}")))
    return found


def of_another_tool(draw, real):
    """An archive with a key that has another payload, one that stands twice, and a tail that is cut off."""
    other = archive.spell(states.key_of(*draw.choice(real)), b"other")
    kept = archive.spell((9, 1), b"kept")
    return archive.HEADER + other + kept + kept + draw.choice((b"", b"\0", b"0" * 60))


class Recorder:
    """Records captures with the program and with the second recorder, in one file."""

    def __init__(self, program, path, count, data=None):
        self.program, self.path, self.count, self.data = program, path, count, data
        restore(path, data)

    def record(self, capture):
        return (self.record_alone if self.count is None else self.record_together)(capture)

    def record_together(self, capture):
        run, before = self.program.run(["record", self.path, "--threads", self.count], capture), self.data
        self.data = contents(self.path)
        try:
            threads.judge(before, capture, self.count, run, self.data)
        except (threads.Wrong, archive.Refused) as cause:
            inputs = f"file: {as_hex(before or b'')}\n  capture: {as_hex(capture)}"
            raise Difference(f"record by {self.count} threads: {cause}\n  {inputs}\n  {run}") from None
        return run.output.decode().splitlines()

    def record_alone(self, capture):
        wanted, after = recorder.record_run(self.data, capture)
        same("record", self.program.run(["record", self.path], capture), wanted, file=self.data, capture=capture)
        same("the file after record", contents(self.path), after, file=self.data, capture=capture)
        self.data = after
        return wanted.output.decode().splitlines()


def record_realistic(trial, count, real):
    book = Recorder(trial.program, trial.path("realistic.foz"), count)
    text = b"".join(states.line_of(*state) for state in real)
    last = [book.record(text)[-1], book.record(text[:-1])[-1]]
    same("the realistic capture", last, ["new 130 known 0 refused 0 entries 130", "new 0 known 130 refused 0 entries 130"])


def record_refused(trial, count):
    """The causes are those that are listed, which the second recorder finds too."""
    found = Recorder(trial.program, trial.path("refused.foz"), count).record(b"\n".join(line for line, _ in REFUSED))
    wanted = [f"{number} refused {cause}" for number, (_, cause) in enumerate(REFUSED, 1)]
    same("lines that can't be read", found[:-1], wanted)


def work(trial, words):
    draw, real, count = trial.draw, states.realistic(), words.threads
    if count and trial.program.run(["record", trial.path("b.foz"), "--threads", count]).status == 2:
        trial.skip("threads, which the program doesn't have")
        return "nothing tried"
    record_realistic(trial, count, real)
    record_refused(trial, count)
    pool = real + [drawn.state(draw) for _ in range(300)]
    for number in range(trial.rounds):
        book = Recorder(trial.program, trial.path(f"{number}.foz"), count, of_another_tool(draw, real) if number % 2 else None)
        for _ in range(3):
            text = b"".join(line + b"\n" for line in lines(draw, pool, draw.randrange(200)))
            book.record(text if draw.random() < 0.5 else text[:-1])
    return f"the realistic capture, {len(REFUSED)} refused lines and {3 * trial.rounds} drawn captures are recorded alike"


def main():
    tried(work, rounds=40, arguments=[(["--threads"], {"type": int, "help": "how many threads `record` is asked for"})])


if __name__ == "__main__":
    main()
