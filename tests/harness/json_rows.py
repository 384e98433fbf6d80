"""Reads rows of JSON that a program printed, and finds where they differ from others."""

import json


def unique(pairs):
    """An object of JSON, whose keys must differ."""
    row = dict(pairs)
    if len(row) != len(pairs):
        raise ValueError(f"a key occurs twice: {pairs}")
    return row


def rows_of(text):
    """The rows of JSON in these bytes, one in each line."""
    return [json.loads(line, object_pairs_hook=unique) for line in text.decode().splitlines()]


def difference(found, expected, where="rows"):
    """Where two values of JSON differ first, the order of keys included, or None."""
    if type(found) is not type(expected):
        return f"{where}: {found!r:.200}, expected: {expected!r:.200}"
    if isinstance(expected, dict):
        if list(found) != list(expected):
            return f"{where}: keys {list(found)}, expected: {list(expected)}"
        parts = [(f"{where}.{key}", found[key], expected[key]) for key in expected]
    elif isinstance(expected, list):
        parts = [(f"{where}[{at}]", *pair) for at, pair in enumerate(zip(found, expected))]
        parts.append((f"length of {where}", len(found), len(expected)))
    else:
        return None if found == expected else f"{where}: {found!r}, expected: {expected!r}"
    differences = (difference(one, other, name) for name, one, other in parts)
    return next((it for it in differences if it is not None), None)
