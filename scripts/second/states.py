"""States by docs/format.md, whose tables are taken: structures, words, keys, references, and what is written of a state.

A state is its kind word and a dictionary of members. A missing member has the value that the format gives it.
"""
import base64
import json
import os
import re
import struct
from typing import NamedTuple

from .archive import Key

DOCS = os.path.join(os.path.dirname(os.path.abspath(__file__)), "..", "..", "docs", "format.md")


class Kind(NamedTuple):
    tag: int
    structure: str
    member: str


KINDS = {
    "sampler": Kind(1, "Sampler", "samplers"),
    "set_layout": Kind(2, "SetLayout", "setLayouts"),
    "pipeline_layout": Kind(3, "PipelineLayout", "pipelineLayouts"),
    "shader_module": Kind(4, "ShaderModule", "shaderModules"),
    "render_pass": Kind(5, "RenderPass", "renderPasses"),
    "graphics_pipeline": Kind(6, "GraphicsPipeline", "graphicsPipelines"),
    "compute_pipeline": Kind(7, "ComputePipeline", "computePipelines"),
}
KIND_OF_TAG = {kind.tag: word for word, kind in KINDS.items()}

MEMBER = re.compile(r"`(\w+)`((?: [^,]+)?)(?:, |$)")


def tables():
    """Each structure's members in order, each as its name and its type."""
    found = {}
    with open(DOCS, encoding="utf-8") as docs:
        for line in docs:
            row = re.fullmatch(r"\| (\w+) \| (`.*) \|\n", line)
            if row and row[1][0].isupper():
                found[row[1]] = [(name, kind.strip() or "n") for name, kind in MEMBER.findall(row[2])]
    return found


TABLES = tables()


def nothing(kind):
    """The value of a missing member."""
    if kind.startswith("["):
        return []
    if kind.endswith("?"):
        return None
    if kind == "text":
        return ""
    if kind == "bytes":
        return b""
    if kind == "four units":
        return [0, 0, 0, 0]
    return {} if kind in TABLES else 0


def member(structure, value, name):
    """A member of a structure's value, also where it is missing."""
    return value[name] if name in value else nothing(dict(TABLES[structure])[name])


def words(kind, value):
    if kind.startswith("["):
        return [len(value)] + [word for part in value for word in words(kind[1:-1], part)]
    if kind.endswith("?"):
        return [0] if value is None else [1] + words(kind[:-1], value)
    if kind.startswith("ref("):
        return [value & 0xFFFFFFFF, value >> 32]
    if kind == "text":
        return [len(value.encode())] + list(value.encode())
    if kind == "bytes":
        return [len(value)] + list(value)
    if kind == "four units":
        return list(value)
    if kind in TABLES:
        return [word for name, part in TABLES[kind] for word in words(part, value.get(name, nothing(part)))]
    return [value]


def mixed(found):
    value = 0xCBF29CE484222325
    for word in found:
        value = value * 0x100000001B3 % 2**64 ^ word
    return value


def hash_of(kind, state):
    tag, structure, _ = KINDS[kind]
    return mixed([tag] + words(structure, state))


def key_of(kind, state):
    return Key(KINDS[kind].tag, hash_of(kind, state))


def refs_of(kind, state):
    """The keys that a state refers to, in the order of its members. A base pipeline of hash 0 is none."""
    found = []

    def look(type_, name, value):
        if value is None:
            return
        if type_.startswith("["):
            for part in value:
                look(type_[1:-1], name, part)
        elif type_.startswith("ref("):
            if value or name != "basePipelineHandle":
                found.append(Key(int(type_[4:-1]), value))
        elif type_.rstrip("?") in TABLES:
            for inner, part in TABLES[type_.rstrip("?")]:
                look(part, inner, value.get(inner, nothing(part)))

    look(KINDS[kind].structure, "", state)
    return found


def written(kind, value):
    """The JSON of a value, with each member that the format writes."""
    if kind.startswith("["):
        return [written(kind[1:-1], part) for part in value]
    if kind.endswith("?"):
        return written(kind[:-1], value)
    if kind.startswith("ref("):
        return f"{value:016x}"
    if kind == "bytes":
        return base64.b64encode(value).decode()
    if kind in TABLES:
        parts = [(name, part, value.get(name, nothing(part))) for name, part in TABLES[kind]]
        return {name: written(part, held) for name, part, held in parts if held is not None}
    return value


def object_of(kind, state):
    """The state's object in a capture line."""
    if kind == "shader_module":
        code = state.get("code", [])
        return {"flags": state.get("flags", 0), "code": base64.b64encode(struct.pack(f"<{len(code)}I", *code)).decode()}
    return written(KINDS[kind].structure, state)


def line_of(kind, state):
    """A capture line with its line feed."""
    return f"{kind} {json.dumps(object_of(kind, state))}\n".encode()


def varints(code):
    spelled = bytearray()
    for word in code:
        while word > 0x7F:
            spelled.append(word & 0x7F | 0x80)
            word >>= 7
        spelled.append(word)
    return bytes(spelled)


def compact(value):
    """A JSON text without blanks, with the members in the order of their names."""
    return json.dumps(value, separators=(",", ":"), sort_keys=True, ensure_ascii=False).encode()


def payload_under(key, kind, state):
    """What an entry with this key holds of a state."""
    head, tail = written(KINDS[kind].structure, state), b""
    if kind == "shader_module":
        code = state.get("code", [])
        tail = varints(code)
        head = {"codeSize": 4 * len(code), "flags": state.get("flags", 0), "varintOffset": 0, "varintSize": len(tail)}
        tail = b"\0" + tail
    return compact({KINDS[kind].member: {f"{key.hash:016x}": head}, "version": 6}) + tail


def payload_of(kind, state):
    return payload_under(key_of(kind, state), kind, state)


def graphics_module(model, generator):
    """The words of a SPIR-V module with one entry point `main` that does nothing."""
    head = [0x07230203, 0x10000, generator, 5, 0, 0x20011, 1, 0x3000E, 0, 1, 0x5000F, model, 1, 0x6E69616D, 0]
    return head + [0x20013, 2, 0x30021, 3, 2, 0x50036, 2, 1, 0, 3, 0x200F8, 4, 0x100FD, 0x10038]


def realistic():
    """The states of a small game: modules, layouts, passes and pipelines over them, 130 that differ."""

    def module(number):
        return {"code": graphics_module(0 if number % 2 == 0 else 4, number)}

    def layout(number):
        return {"bindings": [{"descriptorType": 1, "descriptorCount": number + 1, "stageFlags": 16}]}

    def pipeline_layout(number):
        ranges = [{"stageFlags": 17, "offset": 0, "size": 4 * (number + 1)}]
        return {"setLayouts": [hash_of("set_layout", layout(number))], "pushConstantRanges": ranges}

    def render_pass(number):
        attachment = {"format": 37, "samples": 1, "loadOp": 1, "stencilLoadOp": 2, "stencilStoreOp": 1, "finalLayout": 1000001002}
        return {"attachments": [attachment], "subpasses": [{"colorAttachments": [{"attachment": 0, "layout": 2}]}] * (number + 1)}

    def stage(bit, number):
        return {"stage": bit, "module": hash_of("shader_module", module(number)), "name": "main"}

    def pipeline(number):
        first = 2 * (number % 20)
        return {
            "stages": [stage(1, first), stage(16, first + 1)],
            "vertexInputState": {},
            "inputAssemblyState": {"topology": 3},
            "viewportState": {"viewportCount": 1, "scissorCount": 1},
            "rasterizationState": {"cullMode": 2, "lineWidth": 1},
            "multisampleState": {"rasterizationSamples": 1},
            "colorBlendState": {"attachments": [{"colorWriteMask": 15}]},
            "dynamicState": {"dynamicStates": [0, 1]},
            "layout": hash_of("pipeline_layout", pipeline_layout(number % 12)),
            "renderPass": hash_of("render_pass", render_pass(number % 6)),
        }

    states = [("shader_module", module(k)) for k in range(40)]
    states += [("set_layout", layout(j)) for j in range(12)]
    states += [("pipeline_layout", pipeline_layout(j)) for j in range(12)]
    states += [("render_pass", render_pass(p)) for p in range(6)]
    return states + [("graphics_pipeline", pipeline(q)) for q in range(60)]
