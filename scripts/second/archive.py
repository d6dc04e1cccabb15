"""Archives by docs/format.md: the entries of a file, why a file is refused, and the text of `list`."""
import re
import struct
import zlib
from functools import lru_cache
from typing import NamedTuple

from .runs import failed, told

HEADER = bytes.fromhex("81464F5353494C495A45444200000006")
# The byte after the last entry of a file at rest, and the one with which an entry begins.
GATE, OPEN = b"\0", b"0"

END_LIMIT = 268_435_456
COUNT_LIMIT = 1_048_576
PAYLOAD_LIMIT = 16_777_216

STORED, DEFLATE = 1, 2

NAME = re.compile(rb"0[0-9A-Fa-f]{39}")


class Key(NamedTuple):
    tag: int
    hash: int

    def __str__(self):
        return f"{self.tag} {self.hash:016x}"


class Entry(NamedTuple):
    """A whole entry: where it begins, its key, the four numbers of its head, and all of its bytes."""

    offset: int
    key: Key
    size: int
    form: int
    crc: int
    plain: int
    spelled: bytes

    @property
    def payload(self):
        return self.spelled[56:]

    def damage(self):
        """What is wrong with it, in the words of `list`; none where it is undamaged."""
        if self.form == DEFLATE:
            return "deflate"
        if self.form != STORED:
            return f"format {self.form}"
        if self.size > PAYLOAD_LIMIT:
            return "too large"
        if self.size != self.plain:
            return f"sizes {self.size} {self.plain}"
        if self.crc == 0:
            return None
        found = zlib.crc32(self.payload)
        return None if self.crc == found else f"checksum {self.crc:08x} {found:08x}"


def entry_at(data, at):
    """The whole entry that begins at a place of the file, or none."""
    head = data[at : at + 56]
    if len(head) < 56 or not NAME.fullmatch(head[:40]):
        return None
    size, form, crc, plain = struct.unpack_from("<IIII", head, 40)
    end = at + 56 + size
    if len(data) < end:
        return None
    key = Key(int(head[16:24], 16), int(head[24:40], 16))
    return Entry(at, key, size, form, crc, plain, data[at:end])


def entries_of(data):
    """The whole entries in a row, and where they end."""
    at, found = len(HEADER), []
    while (entry := entry_at(data, at)) is not None:
        found.append(entry)
        at += len(entry.spelled)
    return found, at


def is_new(data):
    """Whether a file becomes a new archive when it is written to. No file is new, too."""
    return data is None or len(data) <= 17 and not data.startswith(HEADER)


class Refused(Exception):
    """Why a file isn't read as an archive."""


@lru_cache(maxsize=2)
def read(data):
    """The entries of a file, which nobody changes, and where they end. It raises `Refused` where the file is no archive."""
    if data is None:
        raise Refused("absent")
    if data[:15] != HEADER[:15] or len(data) < 16:
        raise Refused(f"bad magic {data[:16].hex() or '-'}")
    if data[15] != HEADER[15]:
        raise Refused(f"bad version {data[15]}")
    entries, end = entries_of(data)
    if len(data) > END_LIMIT + 1 or end > END_LIMIT:
        raise Refused(f"too long {len(data)}")
    if len(entries) > COUNT_LIMIT:
        raise Refused("too many entries")
    return entries, end


def held(data):
    """The entries of a file that is written to: none where it is new."""
    return ([], len(HEADER)) if is_new(data) else read(data)


def standings(entries):
    """The word of each entry in the text of `list`."""
    seen, words = set(), []
    for entry in entries:
        word = entry.damage()
        if word is None:
            word = "duplicate" if entry.key in seen else "ok"
            seen.add(entry.key)
        words.append(word)
    return words


def list_run(data):
    """What `list` of a file has to answer."""
    try:
        entries, end = read(data)
    except Refused as cause:
        return failed(6, cause)
    words = standings(entries)
    lines = [f"{entry.offset} {entry.key} {entry.size} {word}\n" for entry, word in zip(entries, words)]
    rest = data[end:]
    lines.append(f"entries {len(entries)} end {end} rest {len(rest)} {'clean' if rest in (b'', GATE) else 'dropped'}\n")
    return told(1 if any(word != "ok" for word in words) else 0, "".join(lines))


def spell(key, payload):
    """The bytes of an entry as foz writes it."""
    name = f"{0:016x}{key[0]:08x}{key[1]:016x}".encode()
    return name + struct.pack("<IIII", len(payload), STORED, zlib.crc32(payload), len(payload)) + payload


def archive_of(spelled):
    """A file at rest that holds these entries."""
    return HEADER + b"".join(spelled) + GATE
