"""The calls that a run makes to one file, as strace records them, and what a disk may keep of them when the power is lost.

The disk is that of docs/crash-safety.md: since its last sync that succeeded any part of each write may have reached it, in any order and
with any bytes, the file has any length between the least and the greatest since then, and all other bytes stay what they were.
"""
import os
import re
import subprocess
from typing import NamedTuple

from harness import Difference, as_hex

TRACED = (
    "openat,open,creat,close,dup,dup2,dup3,read,pread64,readv,preadv,write,pwrite64,writev,pwritev,"
    "ftruncate,truncate,fallocate,fsync,fdatasync,lseek,rename,unlink,mmap"
)

CALL = re.compile(r"(\w+)\((.*)\)\s+= (-?\d+)")
TEXT = re.compile(r'"((?:\\x[0-9a-f]{2})*)"')


class Call(NamedTuple):
    """What a call does to the file: create, write (where, what), cut (to where), sync, sync folder, or tell (write on the output)."""

    does: str
    at: int = 0
    data: bytes = b""


def lines_of(text):
    """The whole lines of what strace says, each where its call ended."""
    begun = {}
    for line in text.splitlines():
        pid, _, line = line.partition(" ")
        line = line.lstrip()
        if line.endswith("<unfinished ...>"):
            begun[pid] = line.removesuffix("<unfinished ...>").rstrip()
            continue
        resumed = re.match(r"<\.\.\. \w+ resumed>", line)
        yield begun.pop(pid, "") + line[resumed.end() :] if resumed else line


def text_of(words):
    found = TEXT.search(words)
    return bytes.fromhex(found[1].replace("\\x", "")) if found else b""


class Calls:
    """Reads what strace says about one file and its folder."""

    def __init__(self, path):
        self.path, self.folder = os.fsencode(path), os.fsencode(os.path.dirname(path))
        self.places, self.folders, self.found = {}, set(), []

    def take(self, line):
        call = CALL.match(line)
        if call is None or call[3].startswith("-"):
            return
        name, words, result = call[1], call[2], int(call[3])
        if name in ("openat", "open", "creat"):
            self.open(words, result)
        elif name in ("rename", "unlink", "truncate") and text_of(words) == self.path:
            raise Difference(f"a call that this script doesn't know: {line}")
        elif (fd := re.match(r"(\d+)", words)) is not None:
            self.take_of(name, int(fd[1]), words, result, line)

    def open(self, words, result):
        self.places.pop(result, None)
        self.folders.discard(result)
        if text_of(words) == self.path:
            self.places[result] = 0
            if "O_CREAT" in words:
                self.found.append(Call("create"))
            if "O_TRUNC" in words:
                self.found.append(Call("cut", 0))
        elif text_of(words).rstrip(b"/") == self.folder:
            self.folders.add(result)

    def take_of(self, name, fd, words, result, line):
        if fd == 1 and name == "write":
            self.found.append(Call("tell", 0, text_of(words)))
        elif fd in self.folders and name in ("fsync", "fdatasync"):
            self.found.append(Call("sync folder"))
        elif fd in self.places:
            self.take_of_file(name, fd, words, result, line)

    def take_of_file(self, name, fd, words, result, line):
        last = words.rsplit(",", 1)[-1].strip()
        if name == "pwrite64":
            self.found.append(Call("write", int(last), text_of(words)[:result]))
        elif name == "write":
            self.found.append(Call("write", self.places[fd], text_of(words)[:result]))
            self.places[fd] += result
        elif name == "read":
            self.places[fd] += result
        elif name == "lseek":
            self.places[fd] = result
        elif name == "ftruncate":
            self.found.append(Call("cut", int(last)))
        elif name in ("fsync", "fdatasync"):
            self.found.append(Call("sync"))
        elif name == "close":
            del self.places[fd]
        elif name != "pread64":
            raise Difference(f"a call that this script doesn't know: {line}")


def recorded(program, words, given, path, log):
    """The calls of a run that touch the file at this path, and the run's status."""
    program.runs += 1
    command = ["strace", "-f", "-qq", "-xx", "-s", "999999999", "-e", f"trace={TRACED}", "-o", log, program.path, *map(str, words)]
    done = subprocess.run(command, input=given, capture_output=True, timeout=program.LONGEST)
    calls = Calls(path)
    with open(log, encoding="latin-1") as file:
        for line in lines_of(file.read()):
            calls.take(line)
    return calls.found, done.returncode


class Disk:
    """A file as reads see it, and what is known of what the disk has kept of it."""

    def __init__(self, content):
        self.now = self.base = content
        self.pending, self.named = [], content is not None
        self.least = self.greatest = len(content or b"")

    def copy(self):
        other = Disk(None)
        other.__dict__.update(self.__dict__, pending=list(self.pending))
        return other

    def is_at_rest(self):
        return self.now == self.base and not self.pending and self.least == self.greatest and self.named

    def take(self, call):
        if call.does == "create" and self.now is None:
            self.now = self.base = b""
        elif call.does == "write":
            if call.at > len(self.now):
                raise Difference(f"a write at {call.at} of a file of {len(self.now)} bytes")
            self.now = self.now[: call.at] + call.data + self.now[call.at + len(call.data) :]
            self.pending.append((call.at, call.data))
            self.greatest = max(self.greatest, len(self.now))
        elif call.does == "cut":
            if call.at > len(self.now):
                raise Difference(f"a cut to {call.at} of a file of {len(self.now)} bytes")
            self.now = self.now[: call.at]
            self.least = min(self.least, call.at)
        elif call.does == "sync":
            self.base, self.pending = self.now, []
            self.least = self.greatest = len(self.now)
        elif call.does == "sync folder":
            self.named = self.now is not None

    def image(self, draw, forged):
        """A file that the disk may have kept; none where its name may be lost. `forged` are entries that nobody wrote."""
        if self.now is None or not self.named and draw.random() < 0.3:
            return None
        size = draw.choice([self.least, self.greatest, draw.randint(self.least, self.greatest)])
        kept = bytearray(self.base[:size] + draw.randbytes(max(size - len(self.base), 0)))
        for at, data in draw.sample(self.pending, len(self.pending)):
            data = partly(draw, bytes(kept[at : at + len(data)]), data, forged)
            kept[at : min(at + len(data), size)] = data[: max(size - at, 0)]
        return bytes(kept)


def partly(draw, old, new, forged):
    """What a write may have left in its range: of the old bytes, of the new ones, or of neither."""
    old = old + draw.randbytes(len(new) - len(old))
    pick, at = draw.random(), draw.randrange(len(new) + 1)
    if pick < 0.15:
        return new
    if pick < 0.25:
        return old
    if pick < 0.35:
        return new[:at] + old[at:]
    if pick < 0.45:
        return old[:at] + new[at:]
    if pick < 0.55:
        return b"".join(draw.choice([old, new])[place : place + 512] for place in range(0, len(new), 512))
    if pick < 0.65:
        return bytes(draw.choice([one, other]) for one, other in zip(old, new))
    if pick < 0.75:
        return draw.choice([b"\0", b"0", b"a", b"\xff"]) * len(new)
    if pick < 0.85:
        changed = bytearray(new)
        changed[draw.randrange(len(new))] ^= 1 << draw.randrange(8)
        return bytes(changed)
    if pick < 0.95:
        # as if other entries had been written, with and without the first byte that opens them
        return (forged[draw.randrange(2) :] * (len(new) // len(forged) + 1))[: len(new)]
    return draw.randbytes(len(new))


def shown(image):
    return "no file" if image is None else as_hex(image)
