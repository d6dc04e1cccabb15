"""Frames and the sessions of `worker` by docs/format.md."""
import struct

from . import payloads
from .archive import Key
from .driver import Driver
from .jsons import Refused
from .runs import Run
from .states import KIND_OF_TAG

HELLO = b"\x05\0\0\0\x01FOZ\x01"
QUIT_FRAME = b"\x01\0\0\0\x05"
LOAD, DO, REPLY, QUIT = 2, 3, 4, 5

# The lengths of a Load and of a Do.
LEAST, MOST = 13, 16_777_229

AFTER_FAILED_LOAD, NO_STATE = 200, 201


def work(kind, key, payload):
    """The bytes of a Load or a Do."""
    return struct.pack("<IBIQ", 13 + len(payload), kind, *key) + payload


def reply(key, code):
    return struct.pack("<IBIIQ", 17, REPLY, code, *key)


def can_be_length(begun):
    """Whether bytes, at most four, begin a length that a frame for a worker has."""
    low, step = int.from_bytes(begun, "little"), 256 ** len(begun)
    least = low if low >= LEAST else low + -(-(LEAST - low) // step) * step
    return low == 1 or least <= MOST and least < 2**32


def fits(kind, length):
    return length == 1 if kind == QUIT else kind in (LOAD, DO) and LEAST <= length <= MOST


def frames_of(stream):
    """The Loads and Dos that a stream begins with, and what it comes to: a Quit, a bad frame with its place, or its end."""
    at, frames = 0, []
    while True:
        rest = stream[at : at + 17]
        if not all(can_be_length(rest[:count]) for count in range(1, min(len(rest), 4) + 1)):
            return frames, ("bad", at)
        length = int.from_bytes(rest[:4], "little")
        if len(rest) > 4 and not fits(rest[4], length):
            return frames, ("bad", at + 4)
        if len(rest) < 5 or len(stream) < at + 4 + length:
            return frames, ("end", None)
        if rest[4] == QUIT:
            return frames, ("quit", None)
        kind, tag, hash_ = struct.unpack("<BIQ", rest[4:17])
        frames.append((kind, Key(tag, hash_), stream[at + 17 : at + 4 + length]))
        at += 4 + length


class Worker:
    """What a worker answers to the frames of a session, one after the other."""

    def __init__(self):
        self.driver, self.marked = Driver(), False

    def code(self, key, payload):
        """The driver's code, or none where the payload is no state."""
        if key.tag not in KIND_OF_TAG:
            return None
        try:
            kind, state = payloads.state_of(key, payload)
        except Refused:
            return None
        return self.driver.create(key, kind, state)

    def answer(self, kind, key, payload):
        if kind == LOAD:
            self.marked = self.code(key, payload) != 0 or self.marked
            return b""
        if self.marked:
            self.marked = False
            return reply(key, AFTER_FAILED_LOAD)
        code = self.code(key, payload)
        return reply(key, NO_STATE if code is None else code)


def worker_run(stream):
    """What `worker` has to answer to a stream."""
    frames, (end, at) = frames_of(stream)
    worker = Worker()
    output = HELLO + b"".join(worker.answer(*frame) for frame in frames)
    return Run(1, output, f"foz: bad frame {at}\n".encode()) if end == "bad" else Run(0, output, b"")
