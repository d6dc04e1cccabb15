#!/usr/bin/env python3
"""Compiles shaders of each stage with glslangValidator, and compares the entry points that `check` finds in them with those
that the disassembler spirv-dis lists. Both tools are in Debian's packages glslang-tools and spirv-tools; without them nothing
is tried.

    scripts/shader_tools.py PROGRAM

Each module is asked for each stage and each name that some module has, and for a few that none has, by a pipeline that names
it so. Such a pipeline must be done where the disassembler lists the entry point, and refused with the code of a missing
entry point where it doesn't. Modules out of which the assembler left what a module must have are refused by their codes.
"""
import base64
import re
import subprocess
from pathlib import Path

from harness import same, tried
from second import lines

TOOLS = ["glslangValidator", "spirv-dis", "spirv-as"]

# The stages by their bits: the execution model, and what glslangValidator calls the stage.
STAGES = {
    1: ("Vertex", "vert"),
    2: ("TessellationControl", "tesc"),
    4: ("TessellationEvaluation", "tese"),
    8: ("Geometry", "geom"),
    16: ("Fragment", "frag"),
    32: ("GLCompute", "comp"),
}

# A shader of each stage, with inputs and outputs, control flow, a function, and a texture.
SHADERS = {
    "vert": """#version 450
layout(location = 0) in vec3 place; layout(location = 0) out vec2 uv;
layout(set = 0, binding = 0) uniform Frame { mat4 view; vec4 tint[4]; } frame;
void main() { gl_Position = frame.view * vec4(place, 1.0); uv = place.xy * frame.tint[gl_VertexIndex & 3].xy; }
""",
    "tesc": """#version 450
layout(vertices = 3) out;
void main() {
  if (gl_InvocationID == 0) { gl_TessLevelInner[0] = 2.0; gl_TessLevelOuter[0] = 1.0; gl_TessLevelOuter[1] = 1.0; gl_TessLevelOuter[2] = 1.0; }
  gl_out[gl_InvocationID].gl_Position = gl_in[gl_InvocationID].gl_Position;
}
""",
    "tese": """#version 450
layout(triangles, equal_spacing, cw) in;
void main() {
  gl_Position = gl_TessCoord.x * gl_in[0].gl_Position + gl_TessCoord.y * gl_in[1].gl_Position + gl_TessCoord.z * gl_in[2].gl_Position;
}
""",
    "geom": """#version 450
layout(triangles) in; layout(triangle_strip, max_vertices = 3) out;
void main() {
  for (int i = 0; i < 3; i++) { gl_Position = gl_in[i].gl_Position; EmitVertex(); }
  EndPrimitive();
}
""",
    "frag": """#version 450
layout(location = 0) in vec2 uv; layout(location = 0) out vec4 colour;
layout(set = 0, binding = 1) uniform sampler2D image;
vec4 blurred(vec2 at, int count) {
  vec4 sum = vec4(0.0);
  for (int i = 0; i < count; i++) { sum += texture(image, at + vec2(float(i) * 0.01, 0.0)); }
  return sum / float(count);
}
void main() { if (uv.x < 0.0) discard; colour = blurred(uv, uv.y > 0.5 ? 4 : 8); }
""",
    "comp": """#version 450
layout(local_size_x = 64) in;
layout(set = 0, binding = 0) buffer Values { uint values[]; };
shared uint sums[64];
void main() {
  sums[gl_LocalInvocationIndex] = values[gl_GlobalInvocationID.x];
  barrier();
  switch (gl_LocalInvocationIndex % 3) { case 0: sums[0] += 1; break; case 1: sums[1] += 2; break; default: break; }
  values[gl_GlobalInvocationID.x] = sums[63 - gl_LocalInvocationIndex];
}
""",
}

# What is left out of a module's text, the first line that begins so, and the code that it is refused with then.
LEFT_OUT = [(r"\s*OpMemoryModel\b.*\n", 17), (r"\s*OpFunctionEnd\b.*\n", 18), (r"\s*OpEntryPoint\b.*\n", 19)]

ENTRY = re.compile(r'^\s*OpEntryPoint (\w+) %\S+ "([^"]*)"', re.M)


class Bench:
    """A folder in which shaders are compiled, taken apart and put together."""

    def __init__(self, program, folder):
        self.program, self.folder, self.count = program, Path(folder), 0

    def path(self, ending):
        self.count += 1
        return self.folder / f"{self.count}.{ending}"

    def tool(self, *words):
        subprocess.run([str(word) for word in words], check=True, stdout=subprocess.DEVNULL)

    def compiled(self, ending, entry, debug):
        source, binary = self.path(ending), self.path("spv")
        source.write_text(SHADERS[ending])
        words = ["glslangValidator", "-V", *(["-g"] if debug else []), "--source-entrypoint", "main", "-e", entry]
        self.tool(*words, "-o", binary, source)
        return binary.read_bytes()

    def assembled(self, text):
        source, binary = self.path("spvasm"), self.path("spv")
        source.write_text(text)
        self.tool("spirv-as", "--preserve-numeric-ids", "--target-env", "spv1.0", "-o", binary, source)
        return binary.read_bytes()

    def disassembled(self, code):
        binary = self.path("spv")
        binary.write_bytes(code)
        words = ["spirv-dis", "--raw-id", "--no-color", str(binary)]
        return subprocess.run(words, check=True, capture_output=True, text=True).stdout

    def foz(self, words, given=b""):
        return self.program.run(words, given, cwd=self.folder)


def modules_of(bench):
    """Sound modules: each stage with one entry point or another name for it, with and without names for debuggers, and one
    with two entry points."""
    modules = []
    for ending in SHADERS:
        modules.append(bench.compiled(ending, "main", False))
        modules.append(bench.compiled(ending, f"{ending}_entry_of_a_long_name", True))
    text = bench.disassembled(modules[-2])
    first = ENTRY.search(text)
    second = first.group(0).replace('"main"', '"second"')
    modules.append(bench.assembled(text.replace(first.group(0), first.group(0) + "\n" + second.lstrip("\n"))))
    return modules


def faulty_modules(bench, code):
    """Modules that aren't sound, each with its code."""
    text = bench.disassembled(code)
    faulty = [(bench.assembled(re.sub(line, "", text, count=1)), code) for line, code in LEFT_OUT]
    faulty.append((code[:16], 15))
    faulty.append((code[:4][::-1] + code[4:], 15))
    faulty.append((code[:20] + bytes(4) + code[24:], 16))
    return faulty


def module_line(code):
    return 'shader_module {"code":"%s"}' % base64.b64encode(code).decode()


def stage_of(module, bit, name):
    return '{"stage":%d,"module":"%s","name":"%s"}' % (bit, module, name)


def pipeline_line(number, hashes, whole, module, bit, name):
    """A pipeline that asks a module for an entry point. Beside it stand stages that are there, as far as it needs others."""
    asked = stage_of(module, bit, name)
    if bit == 32:
        return 'compute_pipeline {"flags":%d,"stage":%s,"layout":"%s"}' % (number, asked, hashes["pipeline_layout"])
    others = {2: [1, 4], 4: [1, 2], 1: []}.get(bit, [1])
    stages = ",".join([stage_of(whole[other], other, "main") for other in others] + [asked])
    return 'graphics_pipeline {"flags":%d,"stages":[%s],"layout":"%s","renderPass":"%s"}' % (
        number, stages, hashes["pipeline_layout"], hashes["render_pass"])


def hashes_of(capture):
    """The hashes of the states of these lines, by the second reader of lines."""
    run = lines.hash_run("\n".join(capture).encode())
    same("the status of a capture", run.status, 0)
    return [line.split()[2] for line in run.output.decode().splitlines()]


def checked(bench, file, capture):
    """The words of `check` for each line of a capture, which is recorded first."""
    run = bench.foz(["record", file], "\n".join(capture).encode())
    recorded = run.output.decode().splitlines()
    same("the status and the lines of a record", (run.status, len(recorded)), (0, len(capture) + 1))
    places = [int(line.split()[-1]) for line in recorded[:-1]]
    run = bench.foz(["check", file])
    verdicts = [" ".join(line.split()[3:]) for line in run.output.decode().splitlines()]
    same("the status of a check", run.status, 1)
    return [verdicts[place] for place in places]


def compare_entry_points(bench):
    modules = modules_of(bench)
    listed = [set(ENTRY.findall(bench.disassembled(code))) for code in modules]
    names = sorted({name for entries in listed for _, name in entries} | {"mai", "main ", "Main", ""})
    capture = ["pipeline_layout {}", 'render_pass {"subpasses":[{}]}'] + [module_line(code) for code in modules]
    found = hashes_of(capture)
    hashes, keys = dict(zip(["pipeline_layout", "render_pass"], found)), found[2:]
    whole = {bit: keys[listed.index({(model, "main")})] for bit, (model, _) in STAGES.items()}
    expected = ["done"] * len(found)
    for module, entries in zip(keys, listed):
        for bit, (model, _) in STAGES.items():
            for name in names:
                capture.append(pipeline_line(len(capture), hashes, whole, module, bit, name))
                missing = "refused 29" if bit == 32 else "refused 34"
                expected.append("done" if (model, name) in entries else missing)
    for line, seen, right in zip(capture, checked(bench, "stages.foz", capture), expected):
        same("an entry point", seen, right, line=line)
    return len(modules), len(capture) - len(found)


def compare_faults(bench):
    faulty = [pair for ending in SHADERS for pair in faulty_modules(bench, bench.compiled(ending, "main", False))]
    for (code, right), seen in zip(faulty, checked(bench, "faults.foz", [module_line(code) for code, _ in faulty])):
        same("a faulty module", seen, f"refused {right}", code=code)
    return len(faulty)


def work(trial, _):
    if not trial.needs(*TOOLS):
        return "nothing tried"
    bench = Bench(trial.program, trial.folder)
    modules, pipelines = compare_entry_points(bench)
    faults = compare_faults(bench)
    return f"{modules} modules, {pipelines} pipelines that ask for an entry point and {faults} faulty modules are seen alike"


def main():
    tried(work, rounds=1, seed=1)


if __name__ == "__main__":
    main()
