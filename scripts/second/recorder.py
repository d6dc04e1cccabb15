"""Recording by docs/format.md: what `put` and `record` answer, and the file that they leave."""
from . import archive, lines
from .archive import COUNT_LIMIT, END_LIMIT, PAYLOAD_LIMIT
from .jsons import Refused
from .lines import INPUT_LIMIT
from .runs import Run, failed, told
from .states import key_of, payload_of


class Book:
    """The entries of a file, to which others are added."""

    def __init__(self, data):
        entries, self.end = archive.held(data)
        self.spelled = [entry.spelled for entry in entries]
        self.holders = {}
        for place, entry in enumerate(entries):
            if entry.damage() is None:
                self.holders.setdefault(entry.key, (place, entry.spelled))

    def record(self, key, payload):
        """The words of the reply, the first of these that fits."""
        if len(payload) > PAYLOAD_LIMIT:
            return f"too large {len(payload)}"
        if key in self.holders:
            place, spelled = self.holders[key]
            return f"{'known' if spelled[56:] == payload else 'collision'} {place}"
        if self.end + 56 + len(payload) > END_LIMIT:
            return f"full {self.end} {56 + len(payload)}"
        if len(self.spelled) == COUNT_LIMIT:
            return "too many"
        place, spelled = len(self.spelled), archive.spell(key, payload)
        self.spelled.append(spelled)
        self.end += len(spelled)
        self.holders[key] = place, spelled
        return f"new {place}"

    def file(self):
        return archive.archive_of(self.spelled)


def is_there(reply):
    return reply.startswith(("new", "known"))


def has_no_room(reply):
    return reply.startswith(("full", "too many"))


def put_run(data, key, payload):
    """What `put` to a file has to answer, and the file afterwards."""
    if len(payload) > INPUT_LIMIT:
        return failed(10, "input too long"), data
    try:
        book = Book(data)
    except archive.Refused as cause:
        return failed(6, cause), data
    reply = book.record(key, payload)
    if has_no_room(reply):
        return failed(8, "too many entries" if reply == "too many" else reply), book.file()
    return told(0 if is_there(reply) else 1, f"{reply}\n"), book.file()


def record_run(data, capture):
    """What `record` of a capture by one thread has to answer, and the file afterwards."""
    if len(capture) > INPUT_LIMIT:
        return failed(10, "input too long"), data
    try:
        book = Book(data)
    except archive.Refused as cause:
        return failed(6, cause), data
    out, new, known, refused, full = [], 0, 0, 0, False
    for number, line in lines.lines_of(capture):
        try:
            state = lines.state_of(line)
        except Refused as cause:
            refused += 1
            out.append(f"{number} refused {cause}\n")
            continue
        key = key_of(*state)
        reply = book.record(key, payload_of(*state))
        new, known, refused = new + reply.startswith("new"), known + reply.startswith("known"), refused + (not is_there(reply))
        full = full or has_no_room(reply)
        out.append(f"{number} {key} {reply}\n")
    out.append(f"new {new} known {known} refused {refused} entries {len(book.spelled)}\n")
    return Run(8 if full else 1 if refused else 0, "".join(out).encode(), b""), book.file()
