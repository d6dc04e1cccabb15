"""JSON texts by docs/format.md: `0.0` and `1.0` as whole numbers, no other float, and then RFC 8259."""


class Refused(Exception):
    """Why a text isn't read, in the words of the texts that foz prints."""


class Number:
    """A number without a point or an exponent."""

    def __init__(self, negative, value):
        self.negative, self.value = negative, value

    def is_whole(self):
        return not self.negative and self.value < 2**64


def folded(text):
    """The text with 0.0 and 1.0 as 0 and 1. It raises `Refused` with the place of the first other float."""
    out, at, first = bytearray(), 0, None
    while at < len(text):
        start = at
        if text[at] == 0x22:
            at = end_of_string(text, at)
            out += text[start:at]
        elif text[at] in b"-0123456789":
            while at < len(text) and text[at] in b"0123456789+-.eE":
                at += 1
            token = text[start:at]
            if token in (b"0.0", b"1.0"):
                token = token[:1]
            elif first is None and any(byte in b".eE" for byte in token):
                first = start
            out += token
        else:
            out.append(text[at])
            at += 1
    if first is not None:
        raise Refused(f"float {first}")
    return bytes(out)


def end_of_string(text, at):
    """The place after the string that begins here."""
    at += 1
    while at < len(text) and text[at] != 0x22:
        at += 2 if text[at] == 0x5C else 1
    return min(at + 1, len(text))


def parsed(text):
    """The value of a text of bytes."""
    text = folded(text)
    try:
        return Reader(text.decode("utf-8")).whole()
    except UnicodeDecodeError:
        raise Refused("json") from None


class Reader:
    """A reader of JSON in which at most 127 lists and objects are nested. Of a member that is there twice the last counts."""

    DEPTH = 127
    PLAIN = {'"': '"', "\\": "\\", "/": "/", "b": "\b", "f": "\f", "n": "\n", "r": "\r", "t": "\t"}
    WORDS = {"t": ("true", True), "f": ("false", False), "n": ("null", None)}

    def __init__(self, text):
        self.text, self.at = text, 0

    def bad(self):
        raise Refused("json")

    def peek(self):
        while self.text[self.at : self.at + 1] in (" ", "\t", "\r", "\n"):
            self.at += 1
        return self.text[self.at : self.at + 1]

    def take(self, word):
        if not self.text.startswith(word, self.at):
            self.bad()
        self.at += len(word)

    def whole(self):
        value = self.value(0)
        if self.peek():
            self.bad()
        return value

    def value(self, depth):
        sign = self.peek()
        if sign and sign in "{[":
            if depth == self.DEPTH:
                self.bad()
            return self.members(depth + 1) if sign == "{" else self.items(depth + 1)
        if sign == '"':
            return self.string()
        if sign in self.WORDS:
            word, value = self.WORDS[sign]
            self.take(word)
            return value
        return self.number()

    def number(self):
        start = self.at
        if self.text[self.at : self.at + 1] == "-":
            self.at += 1
        digits = self.at
        while "0" <= self.text[self.at : self.at + 1] <= "9":
            self.at += 1
        spelled = self.text[digits : self.at]
        if not spelled or (spelled[0] == "0" and len(spelled) > 1):
            self.bad()
        # a number that no double holds is no reading; a longer one need not be looked at
        if len(spelled) > 400 or float(spelled) == float("inf"):
            self.bad()
        return Number(start != digits, int(spelled))

    def string(self):
        self.take('"')
        out = []
        while True:
            one = self.text[self.at : self.at + 1]
            self.at += 1
            if not one or one < " ":
                self.bad()
            if one == '"':
                return "".join(out)
            out.append(self.escaped() if one == "\\" else one)

    def escaped(self):
        one = self.text[self.at : self.at + 1]
        self.at += 1
        if one in self.PLAIN:
            return self.PLAIN[one]
        if one != "u":
            self.bad()
        unit = self.unit()
        if 0xDC00 <= unit < 0xE000:
            self.bad()
        if 0xD800 <= unit < 0xDC00:
            self.take("\\u")
            low = self.unit()
            if not 0xDC00 <= low < 0xE000:
                self.bad()
            return chr(0x10000 + (unit - 0xD800) * 0x400 + low - 0xDC00)
        return chr(unit)

    def unit(self):
        digits = self.text[self.at : self.at + 4]
        if len(digits) < 4 or any(digit not in "0123456789abcdefABCDEF" for digit in digits):
            self.bad()
        self.at += 4
        return int(digits, 16)

    def items(self, depth):
        self.take("[")
        found = []
        if self.peek() == "]":
            self.take("]")
            return found
        while True:
            found.append(self.value(depth))
            if self.peek() == "]":
                self.take("]")
                return found
            self.take(",")

    def members(self, depth):
        self.take("{")
        found = {}
        if self.peek() == "}":
            self.take("}")
            return found
        while True:
            if self.peek() != '"':
                self.bad()
            name = self.string()
            self.peek()
            self.take(":")
            found[name] = self.value(depth)
            if self.peek() == "}":
                self.take("}")
                return found
            self.take(",")
