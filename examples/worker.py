#!/usr/bin/env python3
"""A worker for `foz replay`, to be read and to be copied. docs/worker.md says what it does and why.

    FOZ_WORKER=examples/worker.py foz replay examples/pipeline.foz --workers 2

It reads frames from the standard input and answers on the standard output. Where a real worker has a driver create an object, it
keeps the JSON. In DIE_ON it can be told the key of a state over which it dies, written as in the report:

    DIE_ON="4 0000000000000004" FOZ_WORKER=examples/worker.py foz replay examples/pipeline.foz
"""
import json
import os
import signal
import struct
import sys

HELLO, LOAD, DO, REPLY, QUIT = 1, 2, 3, 4, 5
CREATED, AFTER_FAILED_LOAD, UNREADABLE = 0, 200, 201

# Where the payload of a kind has its object, by the tag.
MEMBERS = {
    1: "samplers",
    2: "setLayouts",
    3: "pipelineLayouts",
    4: "shaderModules",
    5: "renderPasses",
    6: "graphicsPipelines",
    7: "computePipelines",
}


class Driver:
    """The place of a real driver."""

    def __init__(self):
        # The objects by their keys, for those that refer to them.
        self.created = {}

    def create(self, tag, name, payload):
        """Creates an object, and gives the code of the answer."""
        if os.environ.get("DIE_ON") == f"{tag} {name}":
            os.kill(os.getpid(), signal.SIGKILL)
        # In a shader module's payload a zero byte and the code follow the JSON.
        text, _, _code = payload.partition(b"\0")
        try:
            state = json.loads(text)[MEMBERS[tag]][name]
        except (ValueError, LookupError, TypeError):
            return UNREADABLE
        # Here vkCreateSampler, vkCreateGraphicsPipelines and so on would be called with what `state` says and with the
        # objects in `created` that it refers to; a VkResult other than VK_SUCCESS would become the code.
        self.created[tag, name] = state
        return CREATED


def frames(source):
    """The kind of each whole frame and what follows it, up to the end of the input."""
    while len(head := source.read(4)) == 4:
        (length,) = struct.unpack("<I", head)
        body = source.read(length)
        if len(body) < length:
            return
        yield body[0], body[1:]


def send(sink, body):
    sink.write(struct.pack("<I", len(body)) + body)
    sink.flush()


def main():
    # The frames get an output of their own, so that nothing that a driver prints comes between them.
    answers = os.fdopen(os.dup(1), "wb")
    os.dup2(2, 1)
    driver, load_failed = Driver(), False
    send(answers, bytes([HELLO]) + b"FOZ" + bytes([1]))
    for kind, rest in frames(sys.stdin.buffer):
        if kind == QUIT:
            return
        tag, hash_ = struct.unpack_from("<IQ", rest)
        if kind == DO and load_failed:
            code, load_failed = AFTER_FAILED_LOAD, False
        else:
            code = driver.create(tag, f"{hash_:016x}", rest[12:])
        if kind == LOAD:
            load_failed = load_failed or code != CREATED
        else:
            send(answers, struct.pack("<BIIQ", REPLY, code, tag, hash_))


if __name__ == "__main__":
    main()
