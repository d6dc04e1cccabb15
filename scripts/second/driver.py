"""The shipped driver by docs/format.md: for each kind its rules in order, each with its code.

A rule says whether a state keeps it. `kept` are the states that were created, by their keys.
"""
from . import spirv
from .archive import Key
from .states import KINDS, TABLES, member, refs_of

ANY = 0xFFFFFFFF
ALL_STAGES = 0x7FFFFFFF
COMPUTE_STAGE, COMPUTE_MODEL = 32, 5
# The graphics stages and their execution models.
MODELS = {1: 0, 2: 1, 4: 2, 8: 3, 16: 4}

NOT_CREATED = 41


class Driver:
    """Creates states and keeps what it created. Of two that were created under one key the later one counts."""

    def __init__(self):
        self.kept = {}

    def create(self, key, kind, state):
        """The code of the first rule that a state breaks, or 0."""
        code = self.code(kind, state)
        if code == 0:
            self.kept[key] = state
        return code

    def code(self, kind, state):
        if any(key not in self.kept for key in refs_of(kind, state)):
            return NOT_CREATED
        if kind == "shader_module":
            return module_code(state)
        view = View(KINDS[kind].structure, state)
        return next((code for code, keeps in RULES[kind] if not keeps(view, self)), 0)

    def starts(self, stage, model):
        """Whether the stage's module has an entry point of this model and name."""
        module = self.kept.get(Key(4, stage.module))
        return module is not None and (model, stage.name.encode()) in spirv.entry_points(module["code"])

    def subpasses(self, hash_):
        render_pass = self.kept.get(Key(5, hash_))
        return [] if render_pass is None else View("RenderPass", render_pass).subpasses


class View:
    """A structure whose members are read by their names."""

    def __init__(self, structure, value):
        self.structure, self.value = structure, value

    def __getattr__(self, name):
        kind = dict(TABLES[self.structure])[name]
        return seen(kind, member(self.structure, self.value, name))


def seen(kind, value):
    if kind.startswith("["):
        return [seen(kind[1:-1], part) for part in value]
    if value is not None and kind.rstrip("?") in TABLES:
        return View(kind.rstrip("?"), value)
    return value


def module_code(state):
    try:
        spirv.entry_points(state.get("code", []))
        return 0
    except spirv.Faulty as fault:
        return fault.code


def distinct(values):
    return len(set(values)) == len(values)


def is_stage_mask(flags):
    return flags <= 63 or flags == ALL_STAGES


def below_or_any(value, count):
    return value < count or value == ANY


def has_data(stage):
    info = stage.specializationInfo
    return info is None or all(entry.offset + entry.size <= len(info.data) for entry in info.mapEntries)


def share_no_bit(masks):
    taken = 0
    for mask in masks:
        if mask & taken:
            return False
        taken |= mask
    return True


def attachment_refs(subpass):
    depth = subpass.depthStencilAttachment
    lists = subpass.inputAttachments + subpass.colorAttachments + subpass.resolveAttachments
    return lists + ([] if depth is None else [depth])


def is_well_fed(pipeline):
    state = pipeline.vertexInputState
    if state is None:
        return True
    attributes = state.vertexAttributeDescriptions
    bindings = {binding.binding for binding in state.vertexBindingDescriptions}
    return distinct([one.location for one in attributes]) and all(one.binding in bindings for one in attributes)


def blends(pipeline, driver):
    state = pipeline.colorBlendState
    if state is None:
        return True
    return len(state.attachments) == len(driver.subpasses(pipeline.renderPass)[pipeline.subpass].colorAttachments)


RULES = {
    "sampler": [
        (1, lambda s, _: max(s.magFilter, s.minFilter) <= 1),
        (2, lambda s, _: s.mipmapMode <= 1),
        (3, lambda s, _: max(s.addressModeU, s.addressModeV, s.addressModeW) <= 4),
        (4, lambda s, _: s.compareOp <= 7),
        (5, lambda s, _: s.borderColor <= 5),
        (6, lambda s, _: max(s.anisotropyEnable, s.compareEnable, s.unnormalizedCoordinates) <= 1),
    ],
    "set_layout": [
        (7, lambda s, _: distinct([one.binding for one in s.bindings])),
        (8, lambda s, _: all(one.descriptorType <= 10 for one in s.bindings)),
        (9, lambda s, _: all(is_stage_mask(one.stageFlags) for one in s.bindings)),
        (10, lambda s, _: all(len(one.immutableSamplers) in (0, one.descriptorCount) for one in s.bindings)),
        (11, lambda s, _: all(not one.immutableSamplers or one.descriptorType <= 1 for one in s.bindings)),
    ],
    "pipeline_layout": [
        (12, lambda s, _: all(one.offset % 4 == 0 and one.size % 4 == 0 and one.size > 0 for one in s.pushConstantRanges)),
        (13, lambda s, _: share_no_bit([one.stageFlags for one in s.pushConstantRanges])),
        (14, lambda s, _: all(one.stageFlags > 0 and is_stage_mask(one.stageFlags) for one in s.pushConstantRanges)),
    ],
    "render_pass": [
        (20, lambda s, _: all(one.format <= 184 for one in s.attachments)),
        (21, lambda s, _: all(one.samples in (1, 2, 4, 8, 16, 32, 64) for one in s.attachments)),
        (22, lambda s, _: all(max(one.loadOp, one.stencilLoadOp) <= 2 and max(one.storeOp, one.stencilStoreOp) <= 1 for one in s.attachments)),
        (23, lambda s, _: s.subpasses != []),
        (24, lambda s, _: all(below_or_any(ref.attachment, len(s.attachments)) for one in s.subpasses for ref in attachment_refs(one))),
        (25, lambda s, _: all(len(one.resolveAttachments) in (0, len(one.colorAttachments)) for one in s.subpasses)),
        (26, lambda s, _: all(below_or_any(place, len(s.subpasses)) for one in s.dependencies for place in (one.srcSubpass, one.dstSubpass))),
        (27, lambda s, _: all(one.pipelineBindPoint <= 1 for one in s.subpasses)),
    ],
    "compute_pipeline": [
        (28, lambda s, _: s.stage.stage == COMPUTE_STAGE),
        (29, lambda s, driver: driver.starts(s.stage, COMPUTE_MODEL)),
        (30, lambda s, _: has_data(s.stage)),
    ],
    "graphics_pipeline": [
        (31, lambda s, _: s.stages != [] and all(one.stage in MODELS for one in s.stages)),
        (32, lambda s, _: distinct([one.stage for one in s.stages])),
        (33, lambda s, _: any(one.stage == 1 for one in s.stages)),
        (34, lambda s, driver: all(driver.starts(one, MODELS[one.stage]) for one in s.stages)),
        (35, lambda s, _: all(has_data(one) for one in s.stages)),
        (36, lambda s, _: len({one.stage for one in s.stages} & {2, 4}) != 1),
        (37, lambda s, driver: s.subpass < len(driver.subpasses(s.renderPass))),
        (38, lambda s, _: is_well_fed(s)),
        (39, blends),
        (40, lambda s, _: s.dynamicState is None or distinct(s.dynamicState.dynamicStates)),
    ],
}
