"""What is read of a structure's object by docs/format.md: its value, or the first member that can't be read, with its path."""
import base64

from .jsons import Number, Refused
from .states import TABLES, nothing

# The head of a shader module's object in a payload, in the order in which it is read, and the whole of it in a capture line.
HEAD = [("flags", "n"), ("codeSize", "n"), ("varintOffset", "n"), ("varintSize", "n")]
LINE_MODULE = [("flags", "n"), ("code", "bytes")]

HEX = "0123456789abcdefABCDEF"


def refuse(path, word):
    raise Refused(f"field {path} {word}")


def number(value, path, most, word):
    if not isinstance(value, Number) or not value.is_whole():
        refuse(path, "number")
    if value.value > most:
        refuse(path, word)
    return value.value


def text(value, path):
    if not isinstance(value, str):
        refuse(path, "text")
    return value


def bytes_of(value, path):
    spelled = text(value, path)
    try:
        found = base64.b64decode(spelled.encode("ascii"), validate=True)
    except (ValueError, UnicodeEncodeError):
        refuse(path, "base64")
    if base64.b64encode(found).decode() != spelled:
        refuse(path, "base64")
    return found


def reference(value, path):
    digits = text(value, path)
    if len(digits) != 16 or any(digit not in HEX for digit in digits):
        refuse(path, "hash")
    return int(digits, 16)


def list_of(value, path):
    if not isinstance(value, list):
        refuse(path, "list")
    return value


def units(value, path):
    found = list_of(value, path)
    if len(found) != 4:
        refuse(path, "length")
    return [number(item, f"{path}[{place}]", 1, "unit") for place, item in enumerate(found)]


def value_of(kind, value, path):
    """A member that is there."""
    if kind == "n":
        return number(value, path, 2**32 - 1, "large")
    if kind == "unit":
        return number(value, path, 1, "unit")
    if kind.startswith("ref("):
        return reference(value, path)
    if kind == "text":
        return text(value, path)
    if kind == "bytes":
        return bytes_of(value, path)
    if kind == "four units":
        return units(value, path)
    if kind.startswith("["):
        items = enumerate(list_of(value, path))
        return [value_of(kind[1:-1], item, f"{path}[{place}]") for place, item in items]
    return structure(TABLES[kind.rstrip("?")], value, path)


def structure(table, value, path):
    if not isinstance(value, dict):
        refuse(path, "object")
    inside = path + "." if path else ""
    if "pNext" in value:
        refuse(inside + "pNext", "pnext")
    return {name: value_of(kind, value[name], inside + name) if name in value else nothing(kind) for name, kind in table}
