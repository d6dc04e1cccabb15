"""What a run of the program is compared by."""
from typing import NamedTuple


class Run(NamedTuple):
    status: int
    output: bytes
    errors: bytes

    def __str__(self):
        return f"status {self.status}, output {shown(self.output)}, errors {shown(self.errors)}"


def shown(data, most=3000):
    """Bytes for a message, cut where they are many."""
    return repr(data) if len(data) <= most else f"{data[:most]!r} and {len(data) - most} bytes more"


def told(status, text):
    return Run(status, text.encode(), b"")


def failed(status, cause):
    return Run(status, b"", f"foz: {cause}\n".encode())
