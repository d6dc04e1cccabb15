#!/usr/bin/env python3
"""Serves frames by docs/format.md, and compares its sessions with those of the proved program.

    scripts/serve_frames.py PROGRAM [--rounds N] [--seed N]

One session cut at every byte, bad frames with their places, a session in which each reply is awaited, an input and an output that fail,
and drawn sessions in pieces of drawn sizes, in which each code of the driver is answered.
"""
import os
import struct
import subprocess
import threading

import drawn
import worlds
from harness import Difference, same, tried
from second import states
from second.archive import Key
from second.frames import DO, HELLO, LOAD, QUIT_FRAME, Worker, reply, work as frame_of, worker_run
from second.runs import Run

# Payloads that are no state, each under its key.
UNREADABLE = [
    ((1, 1), b""),
    ((1, 1), b"{}"),
    ((1, 1), b"\0" * 200_000),
    ((1, 1), b'{"samplers":{"0000000000000002":{}},"version":6}'),
    ((2, 1), b'{"samplers":{"0000000000000001":{}},"version":6}'),
    ((1, 1), b'{"samplers":{"0000000000000001":{}},"version":6'),
    ((1, 1), b'{"samplers":{"0000000000000001":{"maxLod":0.5}},"version":6}'),
    ((0, 1), b'{"samplers":{"0000000000000001":{}},"version":6}'),
    ((0xFFFFFFFF, 0xFFFFFFFFFFFFFFFF), b'{"samplers":{"ffffffffffffffff":{}},"version":6}'),
]

# Beginnings that no frame has, and where that shows, counted from the first byte of each.
BAD = [
    (b"\0\0\0\0", 0),
    (b"\x02\0\0\0", 0),
    (b"\x0c\0\0\0", 0),
    (b"\x0e\0\0\x01", 0),
    (b"\xff\xff\xff\xff", 0),
    (b"\x01\0\0\0\x03", 4),
    (b"\x0d\0\0\0\x05", 4),
    (b"\x0d\0\0\x01\x04", 4),
    (b"\x11\0\0\0\x04" + bytes(16), 4),
    (HELLO, 0),
]

CODES = [*range(42), 200, 201]


def served(program, pieces):
    """What the program does whose input is given these pieces one by one."""
    program.runs += 1
    child = subprocess.Popen([program.path, "worker"], stdin=subprocess.PIPE, stdout=subprocess.PIPE, stderr=subprocess.PIPE, bufsize=0)
    watch = threading.Timer(program.LONGEST, child.kill)
    watch.start()

    def give():
        try:
            for piece in pieces:
                rest = memoryview(piece)
                while rest:
                    rest = rest[child.stdin.write(rest) :]
        except BrokenPipeError:
            pass
        child.stdin.close()

    giver = threading.Thread(target=give)
    giver.start()
    output, errors = child.stdout.read(), child.stderr.read()
    giver.join()
    status = child.wait()
    watch.cancel()
    return Run(status, output, errors)


def cut_up(draw, stream):
    """The stream in pieces of a drawn size."""
    most = max(draw.choice([1, 7, 100, 70_000, 1 << 30]), len(stream) // 2000)
    pieces, at = [], 0
    while at < len(stream):
        size = draw.randint(1, most)
        pieces.append(stream[at : at + size])
        at += size
    return pieces


def known_states():
    """The realistic capture, whose states are all created where what they refer to was, and samplers with a filter that doesn't exist."""
    return states.realistic() + [("sampler", {"magFilter": 2}), ("sampler", {"minFilter": 3})]



def from_capture(draw, works, refs):
    """Frames of a capture's states, mostly after what they refer to."""
    stream = b""
    for _ in range(draw.randrange(40)):
        pick = draw.random()
        if pick < 0.15:
            key, payload = draw.choice(UNREADABLE)
            stream += frame_of(draw.choice((LOAD, DO)), Key(*key), payload)
            continue
        key = draw.choice(list(works))
        if pick < 0.7:
            for below in refs[key]:
                stream += b"".join(frame_of(LOAD, lowest, works[lowest]) for lowest in refs[below])
                stream += frame_of(LOAD, below, works[below])
        stream += frame_of(draw.choice((LOAD, DO, DO, DO)), key, works[key])
    return stream


def from_world(draw):
    """Frames of sound states, and of such as break a rule of the driver, refer to what isn't there, or take an older one's key."""
    world = worlds.World(draw)
    world.fill()
    stream = b"".join(frame_of(draw.choice((LOAD, DO, DO)), *under(*one)) for one in world.states)
    for code in draw.sample(list(worlds.BREAKS), 12):
        kind, state = worlds.breaking(world, code)
        stream += frame_of(DO, *under(Key(states.KINDS[kind].tag, draw.getrandbits(64)), kind, state))
    for key, kind, _ in draw.sample(world.states, 6):
        stream += frame_of(DO, *under(key, kind, world.sound(kind)))
    for _ in range(3):
        kind, state = drawn.state(draw)
        stream += frame_of(DO, *under(Key(states.KINDS[kind].tag, draw.getrandbits(64)), kind, state))
    return stream


def under(key, kind, state):
    return key, states.payload_under(key, kind, state)


def ended(draw, stream):
    """A stream with a Quit and maybe more, a bad frame, a cut, or a length that may be none."""
    pick = draw.random()
    if pick < 0.4:
        return stream + QUIT_FRAME + draw.randbytes(draw.randrange(3))
    if pick < 0.6:
        return stream + draw.choice(BAD)[0]
    if pick < 0.75:
        return stream[: draw.randrange(len(stream) + 1)]
    if pick < 0.9:
        return stream + struct.pack("<IB", drawn.length(draw), draw.randrange(7))
    return stream


def compare_cuts(program):
    """One session, cut at every byte."""
    layout = Key(3, 3), b'{"pipelineLayouts":{"0000000000000003":{}},"version":6}'
    stream = frame_of(LOAD, Key(1, 1), b"{}") + frame_of(DO, Key(1, 1), b"{}") + frame_of(DO, *layout) + frame_of(DO, Key(1, 1), b"") + QUIT_FRAME
    same("a session", worker_run(stream).output, HELLO + reply((1, 1), 200) + reply((3, 3), 0) + reply((1, 1), 201))
    for cut in range(len(stream) + 1):
        same(f"a session cut at {cut}", served(program, [stream[:cut]]), worker_run(stream[:cut]), input=stream[:cut])
    return len(stream) + 1


def compare_bad(program):
    """Each bad beginning alone and after a frame, with its place."""
    front = frame_of(DO, Key(1, 1), b"{}")
    for bad, at in BAD:
        for before in (b"", front):
            wanted = Run(1, HELLO + (reply((1, 1), 201) if before else b""), f"foz: bad frame {len(before) + at}\n".encode())
            same("a bad frame", worker_run(before + bad), wanted, input=before + bad)
            same("a bad frame", served(program, [before + bad]), wanted, input=before + bad)


def compare_turns(program, works):
    """A session in which each reply is awaited before the next frame is written."""
    program.runs += 1
    child = subprocess.Popen([program.path, "worker"], stdin=subprocess.PIPE, stdout=subprocess.PIPE, bufsize=0)
    watch = threading.Timer(program.LONGEST, child.kill)
    watch.start()
    same("the first bytes", read(child, len(HELLO)), HELLO)
    worker = Worker()
    for key, payload in works.items():
        child.stdin.write(frame_of(DO, key, payload))
        same(f"the reply for {key}", read(child, 21), worker.answer(DO, key, payload))
    child.stdin.write(QUIT_FRAME)
    same("the last bytes", child.stdout.read(), b"")
    same("the status", child.wait(), 0)
    watch.cancel()


def read(child, count):
    found = b""
    while len(found) < count:
        piece = child.stdout.read(count - len(found))
        if not piece:
            break
        found += piece
    return found


def compare_faults(program):
    """An input and an output that fail."""
    folder = os.open("/", os.O_RDONLY)
    done = subprocess.run([program.path, "worker"], stdin=folder, capture_output=True, timeout=program.LONGEST)
    same("an input that fails", (done.returncode, done.stdout, done.stderr), (3, HELLO, b"foz: read fault\n"))
    os.close(folder)
    with open("/dev/full", "wb") as full:
        done = subprocess.run([program.path, "worker"], input=QUIT_FRAME, stdout=full, stderr=subprocess.PIPE, timeout=program.LONGEST)
    same("an output that fails", (done.returncode, done.stderr), (4, b"foz: write fault\n"))


def work(trial, _):
    program, draw = trial.program, trial.draw
    works = {states.key_of(*state): states.payload_of(*state) for state in known_states()}
    refs = {states.key_of(*state): states.refs_of(*state) for state in known_states()}
    cuts = compare_cuts(program)
    compare_bad(program)
    compare_turns(program, works)
    compare_faults(program)
    codes = dict.fromkeys(CODES, 0)
    for number in range(trial.rounds):
        stream = ended(draw, from_world(draw) if number % 2 else from_capture(draw, works, refs))
        wanted = worker_run(stream)
        same(f"session {number}", served(program, cut_up(draw, stream)), wanted, input=stream)
        for at in range(len(HELLO), len(wanted.output), 21):
            codes[int.from_bytes(wanted.output[at + 5 : at + 9], "little")] += 1
    lacking = [code for code, count in codes.items() if count == 0]
    if lacking and trial.rounds >= 100:
        raise Difference(f"the drawn sessions lack the codes {lacking}")
    said = f"{cuts} cuts of a session, {len(BAD)} bad frames, a session in turns, two faults"
    return f"{said} and {trial.rounds} drawn sessions with {len(CODES) - len(lacking)} codes are served alike"


def main():
    tried(work, rounds=200)


if __name__ == "__main__":
    main()
