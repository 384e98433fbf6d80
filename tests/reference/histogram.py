"""The class histogram that `sqzcompact` prints."""

import typing


class Row(typing.NamedTuple):
    """A row of a class histogram. Objects without a class have no `place`, but a compact index."""

    objects: int
    bytes: int
    place: int | None
    compact: int | None
    name: str | None


def order_of(row):
    """What rows are sorted by: most bytes first, then classes by address, then compact indexes."""
    is_compact = row.place is None
    return -row.bytes, is_compact, row.compact if is_compact else row.place


def report(rows):
    """The text of a class histogram."""
    lines = []
    for row in sorted(rows, key=order_of):
        compact = f"-------- compact {row.compact}"
        label = compact if row.place is None else f"{row.place:08x} {row.name}"
        lines.append(f"{row.objects:10} {row.bytes:12} {label}\n")
    objects, size = (sum(column) for column in list(zip(*rows))[:2])
    lines.append(f"{objects:10} {size:12} total\n")
    return "".join(lines).encode()
