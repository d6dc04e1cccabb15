#!/usr/bin/env python3
"""Reads captures by docs/format.md, and compares the text and the status of `hash` with those of the proved program.

    scripts/hash_captures.py PROGRAM [--rounds N] [--seed N] [--write FILE] [FILES]

The captures listed here, the files named or the example, the realistic capture, drawn states, drawn lines with one member that can't be
read, and drawn captures. --write FILE writes the realistic capture instead.
"""
import json
import os

import drawn
from harness import TOP, Difference, same, tried
from second import lines, states
from second.fields import LINE_MODULE
from second.lines import INPUT_LIMIT
from second.runs import failed, told
from second.states import KINDS, TABLES

LISTED = [
    b'sampler {"magFilter":4294967296}\nlens {}\nsampler {}\n',
    b"",
    b"\n\n# sampler {}\n\nsampler {}",
    b'sampler {"pNext":0}',
    b'set_layout {"bindings":[{"binding":0},{"stageFlags":-1}]}',
    b'shader_module {"code":"AAA="}',
    b'graphics_pipeline {"viewportState":{"viewports":[{"width":1920}]}}',
    b'graphics_pipeline {"colorBlendState":{"blendConstants":[0,0,0]}}',
    b'graphics_pipeline {"colorBlendState":{"blendConstants":[0,1,1.0,0.0]}}\n',
    b"sampler  {}\nsampler\nsampler\t{}\nsampler \n\r\nsampler {}\r\nsampler []\nsampler 0.5\n",
    b'set_layout {"x":' + b"[" * 126 + b"]" * 126 + b"}\n" + b'set_layout {"x":' + b"[" * 127 + b"]" * 127 + b"}\n",
    b'set_layout {"flags":"x","flags":7}\nset_layout {"flags":7,"flags":"x"}\n',
    b'sampler {"magFilter":18446744073709551616}\nsampler {"minLod":4294967296}\nsampler {"magFilter":-0}\n',
    b'sampler {"x":' + b"9" * 308 + b"}\n" + b'sampler {"x":' + b"9" * 309 + b"}\n",
    b'compute_pipeline {"stage":{"name":"\\ud83d\\ude00"}}\ncompute_pipeline {"stage":{"name":"\\ud83d"}}\n',
    b'compute_pipeline {"stage":{"name":"\xf0\x9f\x98\x80"}}\ncompute_pipeline {"stage":{"name":"\xf0\x9f"}}\n',
    b'pipeline_layout {"setLayouts":["00000000000000Af"]}\npipeline_layout {"setLayouts":["00000000000000af"]}\n',
    b'pipeline_layout {"setLayouts":["0000000000000af"]}\npipeline_layout {"setLayouts":["000000000000000g",7]}\n',
    b'shader_module {"code":"AQAAAAIDBAU="}\nshader_module {"code":"AQAAAAIDBAV="}\nshader_module {"code":"AQAAAAIDBAU"}\n',
    b'render_pass {"subpasses":[{"depthStencilAttachment":null},{"depthStencilAttachment":{}}]}\n'
    b'render_pass {"subpasses":[{"depthStencilAttachment":{}}]}\n',
]

# By kinds of members, what can't be read of one and the word for it.
FAULTS = {
    "n": [("x", "number"), (-1, "number"), (2**32, "large"), (2**64, "number"), (None, "number")],
    "unit": [(2, "unit"), (True, "number"), (2**64 - 1, "unit")],
    "text": [(0, "text"), ([], "text")],
    "bytes": [(0, "text"), ("AA=A", "base64"), ("A", "base64")],
    "four units": [(0, "list"), ([0, 0, 0], "length"), ([0] * 5, "length")],
    "ref": [(0, "text"), ("0", "hash"), ("g" * 16, "hash")],
    "list": [({}, "list"), (0, "list")],
    "structure": [(0, "object"), ([], "object"), ({"pNext": 0}, "pnext")],
}


def spots(table, spelled, path):
    """The members that are there, each as its object, its name, its path and its kind of faults."""
    for name, part in table:
        if name not in spelled:
            continue
        here, form = f"{path}.{name}" if path else name, part.rstrip("?")
        if form.startswith("["):
            yield spelled, name, here, "list"
            for place, element in enumerate(spelled[name]):
                if form[1:-1] in TABLES:
                    yield from spots(TABLES[form[1:-1]], element, f"{here}[{place}]")
        elif form in TABLES:
            yield spelled, name, here, "structure"
            yield from spots(TABLES[form], spelled[name], here)
        else:
            yield spelled, name, here, "ref" if form.startswith("ref(") else form


def faulty(draw):
    """A line with one member that can't be read, and its refusal."""
    while True:
        kind, state = drawn.state(draw)
        spelled = states.object_of(kind, state)
        found = list(spots(LINE_MODULE if kind == "shader_module" else TABLES[KINDS[kind].structure], spelled, ""))
        if not found:
            continue
        holder, name, path, form = draw.choice(found)
        holder[name], word = draw.choice(FAULTS[form])
        path += ".pNext" if word == "pnext" else ""
        return f"{kind} {json.dumps(spelled)}\n".encode(), f"refused field {path} {word}"


def compare_states(trial, found):
    """The hash of each state is that of its words."""
    text = b"".join(states.line_of(*state) for state in found)
    wanted = "".join(f"{number} {kind} {states.hash_of(kind, state):016x}\n" for number, (kind, state) in enumerate(found, 1))
    same("hash", trial.program.run(["hash"], text), told(0, wanted), capture=text)


def compare_faults(trial, count):
    """Each line is refused for the member that was spoiled."""
    found = [faulty(trial.draw) for _ in range(count)]
    text = b"".join(line for line, _ in found)
    wanted = "".join(f"{number} {refusal}\n" for number, (_, refusal) in enumerate(found, 1))
    same("hash", trial.program.run(["hash"], text), told(1, wanted), capture=text)


def compare(trial, capture):
    same("hash", trial.program.run(["hash"], capture), lines.hash_run(capture), capture=capture)


def write_realistic(path):
    with open(path, "wb") as file:
        file.writelines(states.line_of(*state) for state in states.realistic())


def work(trial, words):
    if words.write:
        write_realistic(words.write)
        return f"the realistic capture is written to {words.write}"
    captures = list(LISTED)
    for name in words.files or [os.path.join(TOP, "examples", "states.capture")]:
        with open(name, "rb") as file:
            captures.append(file.read())
    for capture in captures + [drawn.capture(trial.draw) for _ in range(trial.rounds)]:
        compare(trial, capture)
    if len({states.key_of(*state) for state in states.realistic()}) != 130:
        raise Difference("the states of the realistic capture don't differ")
    compare_states(trial, states.realistic())
    compare_states(trial, [drawn.state(trial.draw) for _ in range(2 * trial.rounds)])
    compare_faults(trial, 2 * trial.rounds)
    same("an input of line feeds", trial.program.run(["hash"], b"\n" * INPUT_LIMIT), told(0, ""))
    same("an input too long", trial.program.run(["hash"], b"\n" * (INPUT_LIMIT + 1)), failed(10, "input too long"))
    said = f"{len(captures)} captures, the realistic one, {trial.rounds} drawn ones"
    return f"{said}, and {2 * trial.rounds} drawn states and as many refused lines are read alike"


def main():
    tried(work, rounds=1000, arguments=[(["files"], {"nargs": "*"}), (["--write"], {"metavar": "FILE"})])


if __name__ == "__main__":
    main()
