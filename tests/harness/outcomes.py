"""How runs of a program end."""

import dataclasses


@dataclasses.dataclass(frozen=True)
class Outcome:
    """How a run ended, and what it printed."""

    status: int
    stdout: bytes = b""
    stderr: bytes = b""

    def __str__(self):
        return f"exit {self.status}, {shortened(self.stdout)}, {shortened(self.stderr)}"


SUCCESS = Outcome(0)
NO_MEMORY = Outcome(4, stderr=b"fault 15: out of memory\n")
NOT_READ = Outcome(3, stderr=b"fault 16: cannot read the image\n")
NOT_WRITTEN = Outcome(3, stderr=b"fault 17: cannot write the output\n")


def shortened(data):
    """Bytes as text for a message."""
    return repr(data) if len(data) <= 200 else f"{data[:200]!r} and {len(data) - 200} bytes more"
