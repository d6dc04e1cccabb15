"""What `record` by several threads may answer: what one recorder replies to the capture's lines in some order, in which the lines of each
thread keep theirs. Line k of the capture, counted from 0, is of thread k modulo the number of threads.
"""
from . import archive, lines
from .archive import COUNT_LIMIT, END_LIMIT, PAYLOAD_LIMIT
from .jsons import Refused
from .recorder import has_no_room, is_there
from .states import key_of, payload_of


class Wrong(Exception):
    """Why no order gives this answer."""


def require(holds, what):
    if not holds:
        raise Wrong(what)


class Judge:
    """The entries before and after, and how many of them each thread has seen at least."""

    def __init__(self, before, after, threads):
        self.held, _ = archive.held(before)
        self.entries, _ = archive.held(after)
        spelled = [entry.spelled for entry in self.entries]
        require(spelled[: len(self.held)] == [entry.spelled for entry in self.held], "the entries from before aren't there")
        require(after == archive.archive_of(spelled), "the file isn't at rest")
        self.holders, self.left = {}, set(range(len(self.held), len(spelled)))
        for place, entry in enumerate(self.entries):
            if entry.damage() is None:
                self.holders.setdefault(entry.key, place)
        self.ends = [entry.offset for entry in self.entries] + [archive.entries_of(after)[1]]
        self.seen = [len(self.held)] * threads

    def take(self, number, key, payload, reply):
        """Takes a line's reply; its thread has seen as many entries as the reply tells of."""
        thread = (number - 1) % len(self.seen)
        word, *numbers = reply.replace("too ", "too_").split()
        require(word in self.REPLIES and all(one.isdigit() for one in numbers), f"{reply!r} is no reply")
        count = self.REPLIES[word](self, self.seen[thread], key, payload, *map(int, numbers))
        require(count >= self.seen[thread], f"line {number} sees fewer entries than an earlier line of its thread")
        self.seen[thread] = count + (word == "new")

    # Each gives the least number of entries, from those that the thread has seen on, of which the reply is one.

    def new(self, seen, key, payload, place):
        require(place in self.left, f"{place} is no added entry, or new twice")
        require(self.entries[place].spelled == archive.spell(key, payload), f"{place} is another entry")
        require(self.holders[key] == place, f"{place} is new, and its key was there")
        self.left.remove(place)
        return place

    def known(self, seen, key, payload, place):
        require(self.holders.get(key) == place and self.entries[place].payload == payload, f"{place} doesn't hold the payload")
        return max(place + 1, seen)

    def collision(self, seen, key, payload, place):
        require(self.holders.get(key) == place and self.entries[place].payload != payload, f"{place} holds no other payload")
        return max(place + 1, seen)

    def too_large(self, seen, key, payload, size):
        require(size == len(payload) > PAYLOAD_LIMIT, "the payload isn't too large")
        return seen

    def full(self, seen, key, payload, end, need):
        require(end in self.ends and need == 56 + len(payload) and end + need > END_LIMIT, "there is room")
        count = self.ends.index(end)
        require(self.holders.get(key, count) >= count, "the key is there")
        return count

    def too_many(self, seen, key, payload):
        require(len(self.entries) == COUNT_LIMIT and key not in self.holders, "there is room")
        return COUNT_LIMIT

    REPLIES = {"new": new, "known": known, "collision": collision, "too_large": too_large, "full": full, "too_many": too_many}


def judge(before, capture, threads, run, after):
    """Raises `Wrong` unless several threads may answer so and leave this file."""
    found, book = iter(run.output.decode().splitlines()), Judge(before, after, threads)
    new = known = refused = full = 0
    for number, line in lines.lines_of(capture):
        said = next(found, "")
        try:
            state = lines.state_of(line)
        except Refused as cause:
            refused += 1
            require(said == f"{number} refused {cause}", f"{said!r} isn't refused with {cause}")
            continue
        head = f"{number} {key_of(*state)} "
        require(said.startswith(head), f"{said!r} isn't of line {number}")
        reply = said.removeprefix(head)
        book.take(number, key_of(*state), payload_of(*state), reply)
        new, known, refused = new + reply.startswith("new"), known + reply.startswith("known"), refused + (not is_there(reply))
        full += has_no_room(reply)
    require(not book.left, f"the entries {book.left} are of no line")
    last = f"new {new} known {known} refused {refused} entries {len(book.entries)}"
    require(list(found) == [last], f"the last line isn't {last}")
    require(run.status == (8 if full else 1 if refused else 0), f"the status is {run.status}")
    require(run.errors == b"", f"the errors are {run.errors}")
