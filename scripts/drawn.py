"""What is drawn for the built program: any states, capture lines, archives and frames, most of them with a wound."""
import base64
import struct
import zlib

from second import archive, states
from second.archive import Key
from second.fields import LINE_MODULE
from second.states import KINDS, TABLES

# ---- any states


def value(draw, kind, full):
    """A value of a type: with every member, or with some."""
    if kind.startswith("["):
        return [value(draw, kind[1:-1], full) for _ in range(draw.randrange(1 if full else 0, 4))]
    if kind.endswith("?"):
        return value(draw, kind[:-1], full) if full or draw.random() < 0.5 else None
    if kind.startswith("ref("):
        return draw.choice([0, 1, draw.getrandbits(64)])
    if kind == "text":
        return draw.choice(["main", "", "µ\"\\\n", "x" * 40])
    if kind == "bytes":
        return draw.randbytes(draw.randrange(0, 9))
    if kind == "unit":
        return draw.randrange(2)
    if kind == "four units":
        return [draw.randrange(2) for _ in range(4)]
    if kind in TABLES:
        return {name: value(draw, part, full) for name, part in TABLES[kind] if full or draw.random() < 0.7}
    return draw.choice([0, 1, 127, 128, 2**32 - 1, draw.getrandbits(32)])


def state(draw, kind=None):
    kind = kind or draw.choice(list(KINDS))
    return kind, value(draw, KINDS[kind].structure, draw.random() < 0.3)


# ---- JSON texts, lines and captures

WRONG = ["-1", "4294967296", '"x"', "[]", "{}", "null", "0.5", "1e3", "2", "{", '{"pNext":1}', "true", "00", "18446744073709551616", "-0",
         "9" * 308, "9" * 309, '"\\ud800"', '"\\u0000"', "1.00", "0.00", "01", "+1", ".5", "1.", '"', "[[[[", "\u00e9", "'x'", "NaN"]
# Parts of texts, as JSON spells them.
PARTS = ["a", "main", "\\n", "\\u00e9", "\xe9", "0.5", '\\"', "\\\\", "\\ud83d\\ude00"]
LINE_FIELDS = {**TABLES, "ShaderModule": LINE_MODULE}


def json_value(draw, kind, wrong=0.02):
    """The JSON of a value of this kind, now and then of another."""
    if draw.random() < wrong:
        return draw.choice(WRONG)
    if kind[0] == "[":
        return "[" + ",".join(json_value(draw, kind[1:-1], wrong) for _ in range(draw.choice([0, 1, 2, 3]))) + "]"
    if kind[-1] == "?":
        return json_value(draw, kind[:-1], wrong)
    if kind in LINE_FIELDS:
        return json_object(draw, kind, wrong)
    if kind == "n":
        return draw.choice(["0", "1", "7", "0.0", "1.0", "4294967295", str(draw.randrange(2**32))])
    if kind == "unit":
        return draw.choice(["0", "1", "0.0", "1.0"])
    if kind == "four units":
        return "[" + ",".join(draw.choice(["0", "1", "0.0", "1.0"]) for _ in range(4)) + "]"
    if kind.startswith("ref("):
        return '"' + draw.choice(["%016x", "%016X"]) % draw.randrange(2**64) + '"'
    if kind == "text":
        return '"' + "".join(draw.choice(PARTS) for _ in range(draw.randrange(4))) + '"'
    size = draw.choice([0, 4, 8, 12, 40]) if draw.random() < 0.9 else draw.randrange(12)
    spelled = base64.b64encode(draw.randbytes(size)).decode()
    if draw.random() < 0.1:
        spelled = spoiled_base64(draw, spelled)
    return '"' + spelled + '"'


def spoiled_base64(draw, spelled):
    """Text that base64 with its padding may not be: cut, longer, with another sign, or with bits behind its last byte."""
    at = draw.randrange(len(spelled) + 1)
    within = spelled[:at] + draw.choice("=-_ *\u00e9A") + spelled[at:]
    return draw.choice([within, spelled[:-1], spelled + "=", spelled + "AB==", spelled + "AAB=", spelled + "A"])


def json_object(draw, kind, wrong=0.02):
    members = [f'"{name}":{json_value(draw, inner, wrong)}' for name, inner in LINE_FIELDS[kind] if draw.random() < 0.7]
    if draw.random() < 0.1:
        members.append('"other":[1,{"pNext":{}}]')
    if members and draw.random() < 0.05:
        members.append(draw.choice(members).split(":")[0] + ":" + draw.choice(WRONG + ["0", "1"]))
    draw.shuffle(members)
    blank = draw.choice(["", "", " ", "\t"])
    return "{" + blank + ("," + blank).join(members) + "}"


def nested(draw):
    depth = draw.choice([10, 125, 126, 127, 128, 129, 1000, 20000])
    open_, close = draw.choice([("[", "]"), ('{"a":', "}")])
    return '{"x":' + open_ * depth + ("" if open_ == "[" else "0") + close * draw.choice([depth, depth, depth - 1]) + "}"


def line(draw, wrong=0.02):
    pick = draw.random()
    if pick < 0.1:
        return draw.choice(["", "#", "# x", "sampler", "lens {}", "sampler\t{}", " sampler {}", "\r", "sampler {}\r", "Sampler {}"])
    kind = draw.choice(list(KINDS))
    if pick < 0.14:
        return f"{kind} {nested(draw)}"
    return f"{kind} {json_object(draw, KINDS[kind].structure, wrong)}"


def capture(draw, most=6, wrong=0.02):
    """A capture of some lines, with some of its bytes changed now and then."""
    found = "\n".join(line(draw, wrong) for _ in range(draw.randrange(1, most))).encode("utf-8")
    return wounded(draw, found) + draw.choice([b"", b"\n"])


def wounded(draw, data):
    """Bytes, of which now and then some are changed, cut out or put in."""
    data, pick = bytearray(data), draw.random()
    if not data or pick < 0.6:
        return bytes(data)
    at = draw.randrange(len(data))
    if pick < 0.7:
        data[at] = draw.randrange(256)
    elif pick < 0.8:
        data[at] ^= 1 << draw.randrange(8)
    elif pick < 0.86:
        del data[at : at + draw.choice([1, 2, 4, 40])]
    elif pick < 0.92:
        data[at:at] = draw.choice([b"\0", b"\xff", b"\xc3", b"\xed\xa0\x80", b"\xf4\x90\x80\x80", b"\xc0\x80", b"\\u", b'"', b"\\", b"\x7f", b"\x1f"])
    else:
        for _ in range(8):
            data[draw.randrange(len(data))] = draw.randrange(256)
    return bytes(data)


# ---- payloads and archives

NEAR = [0, 1, 55, 56, 16_777_216, 16_777_217, 2**31 - 1, 2**31, 2**32 - 57, 2**32 - 56, 2**32 - 1]


def payload(draw, key):
    """What may stand under a key: a state, one with a wound, or anything."""
    pick = draw.random()
    if pick < 0.15 or key.tag not in states.KIND_OF_TAG:
        return draw.choice([b"", b"{}", b"123456789", b"[" * 128, b"\0", draw.randbytes(30)])
    kind = states.KIND_OF_TAG[key.tag]
    if pick < 0.5:
        return wounded(draw, states.payload_under(key, *state(draw, kind)))
    member, hash_ = KINDS[kind].member, draw.choice([f"{key.hash:016x}"] * 9 + [f"{key.hash:016X}", f"{key.hash + 1:016x}"])
    if kind == "shader_module":
        return module_payload(draw, member, hash_)
    text = '{"%s":{"%s":%s},"version":6}' % (member, hash_, json_object(draw, KINDS[kind].structure))
    return wounded(draw, text.encode() + draw.choice([b"", b"", b"\0", b"\0tail"]))


def module_payload(draw, member, hash_):
    """A shader module whose head may not fit its varints."""
    tail = draw.choice([states.varints([draw.getrandbits(32) for _ in range(draw.randrange(4))]), draw.randbytes(draw.randrange(9)),
                        b"\xff\xff\xff\xff\x0f", b"\xff\xff\xff\xff\x1f", b"\x80\x00", b"\x80", b"\x80\x80\x80\x80\x00", b"\x80\x80\x80\x80\x80\x00"])
    size = draw.choice([4 * sum(byte < 0x80 for byte in tail)] * 6 + [3, 4, 67108864, 67108868, 4294967292, 4294967295])
    at = draw.choice([0] * 8 + [1, 2, 4294967295])
    count = draw.choice([len(tail) - at if at <= len(tail) else 0] * 8 + [0, 1, len(tail) + 1, 4294967295])
    text = '{"%s":{"%s":{"codeSize":%d,"flags":%s,"varintOffset":%d,"varintSize":%d}},"version":6}' % (
        member, hash_, size, json_value(draw, "n"), at, count)
    return wounded(draw, text.encode() + draw.choice([b"\0"] * 9 + [b""]) + tail)


def entry(draw, key):
    """An entry, maybe with numbers in its head that aren't those of its payload."""
    held = payload(draw, key)
    name = f"0{draw.choice([0, draw.randrange(16**15)]):015x}{key.tag:08x}{key.hash:016x}"
    name = name.upper() if draw.random() < 0.2 else name
    size, form, crc, plain = len(held), 1, zlib.crc32(held), len(held)
    pick = draw.random()
    if pick < 0.08:
        crc = draw.choice([0, 5, crc ^ 1])
    elif pick < 0.12:
        form = draw.choice([0, 2, 3, 2**32 - 1])
    elif pick < 0.16:
        plain = draw.choice([plain + 1, 0, 2**32 - 1])
    elif pick < 0.19:
        size = draw.choice(NEAR + [size + 1, max(size - 1, 0)])
    return name.encode() + struct.pack("<IIII", size, form, crc, plain) + held


# What other tools write after the same header, or what a crash or another format leaves at the end.
TAILS = [b"", b"\0", b"0", b"\0\0", b"garbage", b"0" * 39, b"0" * 40, b"0" * 56, b"0" * 90, b"0" * 40 + b"\xff" * 16]
TAILS += [b"PK\x05\x06" + bytes(18), b"\x1f\x8b\x08", b"SQLite format 3\0", b"\x7fELF", archive.HEADER, b"1" + b"0" * 39 + bytes(16), b"\xff" * 60]


def colliding_key(tag):
    """The key of this tag whose hash in the program's maps is that of the other keys that this gives. They hash a key by FoldHasher of
    the toolchain, which is fixed: the tag is folded into the state, and then the key's own hash."""

    def folded(one, other):
        product = one * other
        return product % 2**64 ^ product >> 64

    return Key(tag, folded(0x243F6A8885A308D3 ^ (tag | tag << 32), 0x9E3779B97F4A7C15 ^ 8))


def key(draw):
    if draw.random() < 0.1:
        return colliding_key(draw.randrange(10))
    return Key(draw.choice([0, 1, 2, 3, 4, 5, 6, 7, 8, 9, 2**32 - 1]), draw.choice([0, 1, 2, 2**64 - 1, draw.getrandbits(64)]))


def file(draw, most=7):
    """An archive of some entries, some of them under one key, and maybe with a wound."""
    keys = [key(draw) for _ in range(4 + most // 4)]
    spelled = [entry(draw, draw.choice(keys)) for _ in range(draw.randrange(most))]
    if spelled and draw.random() < 0.2:
        spelled.append(draw.choice(spelled))
    head = archive.HEADER
    if draw.random() < 0.03:
        head = wounded(draw, head)
    whole = head + b"".join(spelled) + draw.choice(TAILS)
    if draw.random() < 0.2:
        whole = whole[: draw.randrange(len(whole) + 1)]
    return wounded(draw, whole)


# ---- frames


def length(draw):
    return draw.choice([0, 1, 2, 5, 12, 13, 14, 17, 16_777_229, 16_777_230, 2**31, 2**32 - 1, draw.getrandbits(32)])


def frame(draw):
    pick = draw.random()
    if pick < 0.05:
        return b"\x01\0\0\0\x05"
    if pick < 0.12:
        return struct.pack("<IB", length(draw), draw.randrange(8)) + draw.randbytes(draw.randrange(20))
    key_ = key(draw)
    held = payload(draw, key_)
    size = 13 + len(held) if pick < 0.95 else length(draw)
    return struct.pack("<IBIQ", size, draw.choice([2, 3]), *key_) + held


def stream(draw, most=8):
    whole = b"".join(frame(draw) for _ in range(draw.randrange(most)))
    return wounded(draw, whole) if draw.random() < 0.3 else whole


