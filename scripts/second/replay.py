"""A replay of an archive by docs/format.md: the class of each entry, what each item depends on, and the texts of `check` and `replay`."""
from . import archive, payloads
from .driver import Driver
from .jsons import Refused
from .runs import Run, failed, told
from .states import KIND_OF_TAG, refs_of


class Item:
    """An entry that is replayed: its number among the entries, its key, its state, and the keys that it refers to."""

    def __init__(self, number, key, kind, state):
        self.number, self.key, self.kind, self.state = number, key, kind, state
        self.refs = refs_of(kind, state)


def classes_of(entries):
    """The word of each entry that is no item, none for an item; and the items."""
    seen, words, items = set(), [], []
    for number, entry in enumerate(entries):
        word = entry.damage()
        if word is None:
            word = word_of(entry, number, seen, items)
            seen.add(entry.key)
        words.append(word)
    return words, items


def word_of(entry, number, seen, items):
    """The word of an undamaged entry; an item is added."""
    if entry.key in seen:
        return "duplicate"
    if entry.key.tag not in KIND_OF_TAG:
        return "kept"
    try:
        items.append(Item(number, entry.key, *payloads.state_of(entry.key, entry.payload)))
        return None
    except Refused as cause:
        return f"unreadable {cause}"


def founded(items):
    """The items in an order in which each stands after all that it depends on; what depends on itself or on no item is left out."""
    order, done, rest = [], set(), items
    while True:
        ready = [item for item in rest if all(ref in done for ref in item.refs)]
        if not ready:
            return order
        order += ready
        done |= {item.key for item in ready}
        rest = [item for item in rest if item.key not in done]


def verdicts_of(items, deadly=()):
    """What each item comes to, by its number: `done`, `refused CODE`, `missing KEY`, or `blamed` where a worker dies over its key."""
    driver, found, succeeded = Driver(), {}, set()
    for item in founded(items):
        absent = next((ref for ref in item.refs if ref not in succeeded), None)
        if absent is not None:
            found[item.number] = f"missing {absent}"
        elif item.key in deadly:
            found[item.number] = "blamed"
        else:
            code = driver.create(item.key, item.kind, item.state)
            found[item.number] = "done" if code == 0 else f"refused {code}"
            if code == 0:
                succeeded.add(item.key)
    for item in items:
        if item.number not in found:
            absent = next(ref for ref in item.refs if ref not in succeeded)
            found[item.number] = f"missing {absent}"
    return found


VERDICTS = ("done", "refused", "blamed", "missing", "unanswered")


def text_of(entries, words, verdicts, restarts, retired):
    """The text of a replay: the words of entries that are no items, and the verdicts of those that are, by their numbers."""
    words = [verdicts[number] if word is None else word for number, word in enumerate(words)]
    lines = [f"{number} {entry.key} {word}\n" for number, (entry, word) in enumerate(zip(entries, words))]
    counts = [word.split()[0] for word in verdicts.values()]
    lines.append(f"items {len(verdicts)} {' '.join(f'{word} {counts.count(word)}' for word in VERDICTS)}\n")
    lines.append(f"deaths {counts.count('blamed')} restarts {restarts} retired {retired}\n")
    if "unanswered" in counts:
        return Run(9, "".join(lines).encode(), b"foz: no workers\n")
    return told(0 if all(word in ("done", "kept") for word in words) else 1, "".join(lines))


def replay_run(data, deadly=()):
    """What `replay` of a file has to answer where each worker that is wanted can be started, and dies over these keys."""
    try:
        entries, _ = archive.read(data)
    except archive.Refused as cause:
        return failed(6, cause)
    words, items = classes_of(entries)
    verdicts = verdicts_of(items, deadly)
    return text_of(entries, words, verdicts, list(verdicts.values()).count("blamed"), 0)


def check_run(data):
    """What `check` of a file has to answer: it replays without a worker that could die."""
    return replay_run(data)


def starved_run(data, workers, verdicts=()):
    """What `replay` of an archive has to answer where, after these verdicts, none of its workers can be started any more."""
    entries, _ = archive.read(data)
    words, items = classes_of(entries)
    found = {item.number: dict(verdicts).get(item.key, "unanswered") for item in items}
    return text_of(entries, words, found, 0, workers)
