#!/usr/bin/env python3
"""A worker for the scripts that does odd things. It answers as docs/format.md says, but over the keys that it is told to do otherwise.

ODD_DEEDS is a JSON object from keys, written as in a report, to one of DEEDS. In the folder ODD_FOLDER each process leaves an empty
file with the name of its process id when it starts, another one when it waits over a key, and one when it was told to quit.
"""
import json
import os
import select
import signal
import struct
import sys
import time

from second.archive import Key
from second.frames import DO, HELLO, QUIT, Worker, reply

FOLDER = os.environ["ODD_FOLDER"]


def kill(sign):
    os.kill(os.getpid(), sign)
    time.sleep(60)


def write(data):
    while data:
        data = data[os.write(1, data) :]


def stay():
    """Does nothing until the crew is gone."""
    select.select([0], [], [])
    sys.exit()


def close_output():
    os.close(1)
    stay()


def wait():
    """Stays, and says so in the folder, so that somebody can kill it over the key."""
    leave(f"{os.getpid()} waits")
    stay()


def leave(name):
    """Leaves an empty file in the folder."""
    with open(os.path.join(FOLDER, name), "x", encoding="ascii"):
        pass


def cut_reply(answer):
    write(answer[:13])
    kill(signal.SIGKILL)


# What may be done in place of an answer.
DEEDS = {
    "killed": lambda answer: kill(signal.SIGKILL),
    "crashed": lambda answer: kill(signal.SIGSEGV),
    "left": lambda answer: sys.exit(0),
    "closed": lambda answer: close_output(),
    "cut": cut_reply,
    "garbage": lambda answer: write(b"loading the driver\n"),
    "other kind": lambda answer: write(answer[:4] + b"\x05" + answer[5:]),
    "other key": lambda answer: write(answer[:-1] + bytes([answer[-1] ^ 1])),
    "second hello": lambda answer: write(HELLO),
    "waits": lambda answer: wait(),
}


def frames():
    """The kind, the key and the payload of each frame, up to a Quit."""
    source = sys.stdin.buffer
    while len(head := source.read(4)) == 4:
        body = source.read(*struct.unpack("<I", head))
        if body[:1] == bytes([QUIT]):
            return
        kind, tag, hash_ = struct.unpack_from("<BIQ", body)
        yield kind, Key(tag, hash_), body[13:]
    sys.exit()


def main():
    deeds, worker = json.loads(os.environ["ODD_DEEDS"]), Worker()
    leave(str(os.getpid()))
    write(HELLO)
    for kind, key, payload in frames():
        deed = deeds.get(str(key))
        answer = worker.answer(kind, key, payload)
        if kind != DO:
            continue
        if deed is None:
            write(answer)
        else:
            DEEDS[deed](reply(key, 0))
    # A driver that writes its cache when it is told to quit.
    time.sleep(0.2)
    leave(f"{os.getpid()} quit")


if __name__ == "__main__":
    main()
