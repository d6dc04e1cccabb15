"""Sound states that are drawn for the driver, and such as break one of its rules."""
import struct

from second import spirv, states
from second.archive import Key
from second.driver import MODELS
from second.states import KINDS

# ---- sound states

# Names of entry points: shorter and longer than a word of SPIR-V, and one with characters of two bytes.
NAMES = ["main", "m", "vs_main", "µain", "a_longer_name_of_an_entry_point"]


def entry_point(model, name):
    """The instruction that names an entry point."""
    spelled = name.encode() + b"\0"
    spelled += bytes(-len(spelled) % 4)
    words = [model, 1, *struct.unpack(f"<{len(spelled) // 4}I", spelled)]
    return [(len(words) + 1) << 16 | 15, *words]


def module(entries, generator=0):
    """The words of a module with these entry points."""
    head = [0x07230203, 0x10000, generator, 5, 0, 0x20011, 1, 0x3000E, 0, 1]
    body = [0x20013, 2, 0x30021, 3, 2, 0x50036, 2, 1, 0, 3, 0x200F8, 4, 0x100FD, 0x10038]
    return head + [word for model, name in entries for word in entry_point(model, name)] + body


# The greatest values of a sampler's members that have one.
SAMPLER_LIMITS = {
    "magFilter": 1,
    "minFilter": 1,
    "mipmapMode": 1,
    "addressModeU": 4,
    "addressModeV": 4,
    "addressModeW": 4,
    "compareOp": 7,
    "borderColor": 5,
    "anisotropyEnable": 1,
    "compareEnable": 1,
    "unnormalizedCoordinates": 1,
}

# The hash of a sampler that is always there.
SAMPLER = 11


class World:
    """States that were drawn so far, so that others can refer to them: the hashes of each tag, and what is asked of them."""

    def __init__(self, draw):
        self.draw, self.states = draw, []
        self.hashes = {kind.tag: [] for kind in KINDS.values()}
        self.entries, self.passes = {}, {}

    def add(self, kind, state_):
        """Adds a state that others may refer to, under the key of its words or another one."""
        key = states.key_of(kind, state_) if self.draw.random() < 0.5 else Key(KINDS[kind].tag, self.draw.getrandbits(64))
        self.states.append((key, kind, state_))
        self.hashes[key.tag].append(key.hash)
        if kind == "render_pass":
            self.passes[key.hash] = state_["subpasses"]
        if kind == "shader_module":
            for model, name in spirv.entry_points(state_["code"]):
                self.entries.setdefault(model, []).append((key.hash, name.decode()))

    def fill(self):
        """Sound states of each kind, a sampler under a known hash, and modules for each stage."""
        self.states.append((Key(1, SAMPLER), "sampler", self.sampler()))
        for kind in ("sampler", "set_layout", "pipeline_layout", "render_pass", "shader_module"):
            for _ in range(3):
                self.add(kind, self.sound(kind))
        for model in range(6):
            self.add("shader_module", self.module_with(model, self.draw.choice(NAMES)))
        for kind in ("compute_pipeline", "graphics_pipeline"):
            for _ in range(4):
                self.add(kind, self.sound(kind))

    def sound(self, kind):
        return getattr(self, kind)()

    def some(self, most, make):
        return [make(place) for place in range(self.draw.randrange(most + 1))]

    def pick(self, tag):
        return self.draw.choice(self.hashes[tag])

    def number(self, *others):
        return self.draw.choice([0, 1, 7, 2**32 - 1, self.draw.getrandbits(32), *others])

    def sampler(self):
        draw = self.draw
        found = {name: draw.randrange(most + 1) for name, most in SAMPLER_LIMITS.items()}
        return {**found, "flags": self.number(), "maxLod": draw.randrange(2)}

    def set_layout(self):
        return {"flags": self.number(), "bindings": self.some(3, self.binding)}

    def binding(self, place):
        draw, type_, count = self.draw, self.draw.randrange(11), self.draw.randrange(3)
        fixed = [self.pick(1) for _ in range(count)] if type_ <= 1 and self.hashes[1] and draw.random() < 0.5 else []
        flags = draw.choice([0, 16, 63, 0x7FFFFFFF])
        return {"binding": 5 * place, "descriptorType": type_, "descriptorCount": count, "stageFlags": flags, "immutableSamplers": fixed}

    def pipeline_layout(self):
        layouts = [self.pick(2) for _ in range(self.draw.randrange(3))] if self.hashes[2] else []
        ranges = self.some(2, lambda place: {"stageFlags": 5 << place * 3, "offset": 4 * place, "size": 4})
        return {"setLayouts": layouts, "pushConstantRanges": ranges}

    def shader_module(self):
        entries = [(self.draw.randrange(6), self.draw.choice(NAMES)) for _ in range(self.draw.randrange(1, 4))]
        return {"flags": self.number(), "code": module(entries, self.draw.getrandbits(32))}

    def module_with(self, model, name):
        return {"code": module([(5 - model, "other"), (model, name)], self.draw.getrandbits(32))}

    def render_pass(self):
        draw = self.draw
        attachments = self.some(3, self.attachment)
        subpasses = [self.subpass(len(attachments)) for _ in range(draw.randrange(1, 4))]
        links = self.some(2, lambda _: {"srcSubpass": self.below(len(subpasses)), "dstSubpass": self.below(len(subpasses))})
        return {"flags": self.number(), "attachments": attachments, "subpasses": subpasses, "dependencies": links}

    def attachment(self, _):
        draw = self.draw
        found = {"format": draw.randrange(185), "samples": draw.choice([1, 2, 64]), "loadOp": draw.randrange(3), "storeOp": draw.randrange(2)}
        return {**found, "stencilLoadOp": 2, "stencilStoreOp": 1, "finalLayout": self.number()}

    def subpass(self, count):
        draw, refs = self.draw, lambda: self.some(2, lambda _: {"attachment": self.below(count), "layout": self.number()})
        colour = refs()
        resolved = [{"attachment": self.below(count)} for _ in colour] if draw.random() < 0.5 else []
        depth = {"attachment": self.below(count)} if draw.random() < 0.5 else None
        return {"pipelineBindPoint": draw.randrange(2), "inputAttachments": refs(), "colorAttachments": colour,
                "resolveAttachments": resolved, "depthStencilAttachment": depth, "preserveAttachments": [self.number()]}

    def below(self, count):
        return self.draw.choice([*range(count), 0xFFFFFFFF])

    def info(self):
        if self.draw.random() < 0.5:
            return None
        data = self.draw.randbytes(self.draw.randrange(9))
        half = len(data) // 2
        return {"mapEntries": self.some(2, lambda place: {"constantID": place, "offset": place * half, "size": half}), "data": data}

    def stage(self, bit, model):
        """A stage whose module is there."""
        hash_, name = self.draw.choice(self.entries[model])
        return {"stage": bit, "module": hash_, "name": name, "specializationInfo": self.info()}

    def compute_pipeline(self):
        base = self.pick(7) if self.hashes[7] and self.draw.random() < 0.3 else 0
        return {"flags": self.number(), "stage": self.stage(32, 5), "layout": self.pick(3), "basePipelineHandle": base}

    def graphics_pipeline(self):
        draw, pass_ = self.draw, self.pick(5)
        bits = [1, *draw.choice([[], [16], [8, 16], [2, 4], [4, 16, 2]])]
        draw.shuffle(bits)
        subpass = draw.randrange(len(self.passes[pass_]))
        found = {"stages": [self.stage(bit, MODELS[bit]) for bit in bits], "layout": self.pick(3), "renderPass": pass_, "subpass": subpass}
        if draw.random() < 0.7:
            colour = self.passes[pass_][subpass]["colorAttachments"]
            found["colorBlendState"] = {"attachments": [{"colorWriteMask": 15}] * len(colour), "blendConstants": [0, 1, 0, 1]}
        if draw.random() < 0.7:
            bindings = [{"binding": 3 * place, "stride": self.number()} for place in range(2)]
            found["vertexInputState"] = {"vertexBindingDescriptions": bindings, "vertexAttributeDescriptions": self.some(
                3, lambda place: {"location": 7 * place, "binding": draw.choice([0, 3]), "offset": self.number()})}
        if draw.random() < 0.7:
            found["dynamicState"] = {"dynamicStates": draw.sample(range(9), draw.randrange(4))}
        if draw.random() < 0.5:
            found["rasterizationState"] = {"cullMode": 2, "lineWidth": 1}
        if self.hashes[6] and draw.random() < 0.2:
            found["basePipelineHandle"] = self.pick(6)
        return found


# ---- states that break a rule of the driver


def spoiled(key, *values):
    """Sets a member to one of these."""
    return lambda state_, draw: state_.__setitem__(key, draw.choice(values))


def spoiled_in(list_, first, **members):
    """Sets members of some element of a list, which is this one where the list is empty."""

    def spoil(state_, draw):
        if not state_.get(list_):
            state_[list_] = [dict(first)]
        place = draw.randrange(len(state_[list_]))
        state_[list_][place] = {**state_[list_][place], **{name: draw.choice(values) for name, values in members.items()}}

    return spoil


def twice(list_, first):
    """An element of a list stands in it twice."""

    def spoil(state_, draw):
        held = state_.setdefault(list_, [])
        held += [first] * (not held)
        held.insert(draw.randrange(len(held) + 1), held[0])

    return spoil


def of_code(spoil):
    def change(state_, draw):
        state_["code"] = spoil(list(state_["code"]), draw)

    return change


def inserted(code, words, at=10):
    return code[:at] + words + code[at:]


def without(code, opcode):
    """The module without the first instruction of this opcode."""
    at = 5
    while code[at] % 65536 != opcode:
        at += code[at] >> 16
    return code[:at] + code[at + (code[at] >> 16) :]


def without_entries(code):
    while any(word & 0xFFFF == 15 and word >> 16 < 20 for word in code):
        try:
            code = without(code, 15)
        except IndexError:
            break
    return code


def badly_named(code, draw):
    return inserted(code, draw.choice([[0x3000F, 0, 1], [0x4000F, 5, 1, 0x6E69616D], [0x1000F]]))


def in_stage(spoil):
    """Spoils the stage of a compute pipeline, or some stage of another."""

    def change(state_, draw):
        if "stage" in state_:
            state_["stage"] = {**state_["stage"]}
            return spoil(state_["stage"], draw)
        place = draw.randrange(len(state_["stages"]))
        state_["stages"][place] = {**state_["stages"][place]}
        return spoil(state_["stages"][place], draw)

    return change


def short_of_data(stage, draw):
    data = draw.randbytes(draw.randrange(4))
    place = draw.choice([(0, len(data) + 1), (len(data) + 1, 0), (2**32 - 1, 2**32 - 1), (1, 2**32 - 1)])
    stage["specializationInfo"] = {"mapEntries": [{"offset": place[0], "size": place[1]}], "data": data}


def renamed(stage, draw):
    stage["name"] = draw.choice(["mian", stage["name"] + "x", stage["name"][:-1], "", stage["name"] + "\0", stage["name"].upper()])


def badly_paired(code):
    """Modules in which functions and their ends don't pair."""
    within, after = inserted(code, [0x10036], len(code) - 1), [code + [0x10036], code + [0x10038]]
    return [without(code, 56), without(code, 54), within, *after]


def without_vertices(stages):
    return [one for one in stages if one["stage"] != 1] or [{**stages[0], "stage": 16}]


FIXED = {"binding": 99, "descriptorCount": 1, "immutableSamplers": [SAMPLER]}
BAD_OPERATIONS = [{"loadOp": [3]}, {"stencilLoadOp": [3]}, {"storeOp": [2]}, {"stencilStoreOp": [2]}]
ATTACHMENT = {"format": 37, "samples": 1, "loadOp": 0, "storeOp": 0}
RANGE = {"stageFlags": 1, "offset": 0, "size": 4}


def in_subpass(spoil):
    def change(state_, draw):
        place = draw.randrange(len(state_["subpasses"]))
        state_["subpasses"] = list(state_["subpasses"])
        state_["subpasses"][place] = {**state_["subpasses"][place]}
        spoil(state_["subpasses"][place], draw, len(state_["attachments"]), len(state_["subpasses"]))

    return change


def far_attachment(subpass, draw, attachments, _):
    name = draw.choice(["inputAttachments", "colorAttachments", "depthStencilAttachment"])
    far = {"attachment": draw.choice([attachments, attachments + 1, 2**32 - 2])}
    subpass[name] = far if name == "depthStencilAttachment" else subpass[name] + [far]
    if name == "colorAttachments":
        subpass["resolveAttachments"] = []


def unresolved(subpass, draw, *_):
    subpass["resolveAttachments"] = [{"attachment": 0xFFFFFFFF}] * (len(subpass["colorAttachments"]) + draw.choice([1, 2]))


def far_subpass(state_, draw):
    far = draw.choice([len(state_["subpasses"]), 2**32 - 2])
    state_["dependencies"] = state_["dependencies"] + [{"srcSubpass": 0, "dstSubpass": 0, draw.choice(["srcSubpass", "dstSubpass"]): far}]


def badly_fed(state_, draw):
    fed = {"vertexBindingDescriptions": [{"binding": 1}], "vertexAttributeDescriptions": [{"location": 0, "binding": 1}]}
    fed["vertexAttributeDescriptions"].append(draw.choice([{"location": 0, "binding": 1}, {"location": 1, "binding": 2}]))
    state_["vertexInputState"] = fed


def badly_blended(state_, draw):
    held = state_.get("colorBlendState") or {"attachments": [{}] * 40}
    state_["colorBlendState"] = {**held, "attachments": held["attachments"] + [{}]}


BREAKS = {
    1: ("sampler", lambda s, draw: s.__setitem__(draw.choice(["magFilter", "minFilter"]), draw.choice([2, 2**32 - 1]))),
    2: ("sampler", spoiled("mipmapMode", 2, 2**32 - 1)),
    3: ("sampler", lambda s, draw: s.__setitem__("addressMode" + draw.choice("UVW"), draw.choice([5, 2**31]))),
    4: ("sampler", spoiled("compareOp", 8, 2**32 - 1)),
    5: ("sampler", spoiled("borderColor", 6, 1000287003)),
    6: ("sampler", lambda s, draw: s.__setitem__(draw.choice(["anisotropyEnable", "compareEnable", "unnormalizedCoordinates"]), 2)),
    7: ("set_layout", twice("bindings", {"binding": 9})),
    8: ("set_layout", spoiled_in("bindings", {}, descriptorType=[11, 2**32 - 1], immutableSamplers=[[]])),
    9: ("set_layout", spoiled_in("bindings", {}, stageFlags=[64, 0x7FFFFFFE, 0xFFFFFFFF])),
    10: ("set_layout", lambda s, draw: s["bindings"].append({**FIXED, "descriptorCount": draw.choice([0, 2, 5])})),
    11: ("set_layout", lambda s, draw: s["bindings"].append({**FIXED, "descriptorType": draw.choice([2, 10])})),
    12: ("pipeline_layout", spoiled_in("pushConstantRanges", RANGE, size=[0, 2, 5])),
    13: ("pipeline_layout", lambda s, draw: s["pushConstantRanges"].extend([{**RANGE, "stageFlags": 33}, {**RANGE, "stageFlags": 48}])),
    14: ("pipeline_layout", lambda s, draw: s.__setitem__("pushConstantRanges", [{**RANGE, "stageFlags": draw.choice([0, 64, 0x80000000])}])),
    15: ("shader_module", of_code(lambda code, draw: draw.choice([[], code[:4], [code[0] ^ 1] + code[1:], code[:4] + [1] + code[5:]]))),
    16: ("shader_module", of_code(lambda code, draw: draw.choice([code + [0], code[:-1] + [0x20038], inserted(code, [14])]))),
    17: ("shader_module", of_code(lambda code, draw: draw.choice([without(code, 14), inserted(code, [0x3000E, 0, 1])]))),
    18: ("shader_module", of_code(lambda code, draw: draw.choice(badly_paired(code)))),
    19: ("shader_module", of_code(lambda code, draw: draw.choice([badly_named(code, draw), without_entries(code)]))),
    20: ("render_pass", spoiled_in("attachments", ATTACHMENT, format=[185, 2**32 - 1])),
    21: ("render_pass", spoiled_in("attachments", ATTACHMENT, samples=[0, 3, 128, 65])),
    22: ("render_pass", lambda s, draw: spoiled_in("attachments", ATTACHMENT, **draw.choice(BAD_OPERATIONS))(s, draw)),
    23: ("render_pass", lambda s, draw: s.update(subpasses=[], dependencies=[])),
    24: ("render_pass", in_subpass(far_attachment)),
    25: ("render_pass", in_subpass(unresolved)),
    26: ("render_pass", far_subpass),
    27: ("render_pass", in_subpass(lambda one, draw, *_: one.__setitem__("pipelineBindPoint", draw.choice([2, 2**32 - 1])))),
    28: ("compute_pipeline", in_stage(spoiled("stage", 0, 1, 16, 33, 63))),
    29: ("compute_pipeline", in_stage(renamed)),
    30: ("compute_pipeline", in_stage(short_of_data)),
    31: ("graphics_pipeline", lambda s, draw: s.update(stages=[]) if draw.random() < 0.5 else in_stage(spoiled("stage", 0, 3, 32, 64))(s, draw)),
    32: ("graphics_pipeline", twice("stages", None)),
    33: ("graphics_pipeline", lambda s, draw: s.update(stages=without_vertices(s["stages"]))),
    34: ("graphics_pipeline", in_stage(renamed)),
    35: ("graphics_pipeline", in_stage(short_of_data)),
    36: ("graphics_pipeline", lambda s, draw: s.update(stages=whole_but_tessellation(s["stages"], draw))),
    37: ("graphics_pipeline", spoiled("subpass", 3, 4, 2**32 - 1)),
    38: ("graphics_pipeline", badly_fed),
    39: ("graphics_pipeline", badly_blended),
    40: ("graphics_pipeline", lambda s, draw: s.update(dynamicState={"dynamicStates": [5, 1000000001, draw.choice([5, 1000000001])]})),
}


def whole_but_tessellation(stages, draw):
    """The stages with one of the two that belong together left out."""
    bits = {one["stage"] for one in stages}
    if {2, 4} <= bits:
        gone = draw.choice([2, 4])
        return [one for one in stages if one["stage"] != gone]
    return stages


def breaking(world, code):
    """A state that was sound until this rule was broken, and maybe a later one of its kind too."""
    kind, spoil = BREAKS[code]
    found = world.sound(kind)
    later = [other for other in BREAKS if other > code and BREAKS[other][0] == kind]
    if later and kind != "shader_module" and world.draw.random() < 0.3:
        BREAKS[world.draw.choice(later)][1](found, world.draw)
    spoil(found, world.draw)
    return kind, found
