"""Prints statistics of an image, next to a generated mixed and a fitted one.

Usage: python3 -m bench.measure_image [IMAGE]

The image is that of Debian's package `scratch` if none is named. Measured are its live objects,
once they are compacted: the words of their headers, their sizes and formats, what their traced
fields hold, and how far pointers go, in bytes from the object that holds them to their target.
Class words do not count as pointers.
"""

import collections
import pathlib
import statistics
import sys
import tempfile

from bench.images import MIB, make_image
from tests.harness.squeak_image import find_image
from tests.reference.image import Image
from tests.reference.objects import Format, format_of, has_bytes, is_context, is_method, traced_end

SIZE = 4 * MIB
KINDS = ("pointers", "contexts", "weak", "words", "bytes", "methods")


def kind_of(header):
    """The kind of an object with this base header."""
    kind = format_of(header)
    if is_context(header):
        return "contexts"
    if kind <= Format.WEAK:
        return "weak" if kind == Format.WEAK else "pointers"
    if is_method(header):
        return "methods"
    return "bytes" if has_bytes(header) else "words"


def percent(part, whole):
    return f"{100 * part / whole:.1f} %"


def of_sizes(image):
    """Rows about headers and sizes of objects."""
    headers = collections.Counter(it.base - it.first + 1 for it in image.objects)
    for words in (1, 2, 3):
        yield f"headers of {words} words", percent(headers[words], len(image.objects))
    sizes = sorted(it.end - it.first for it in image.objects)
    yield "words, mean", f"{statistics.mean(sizes):.1f}"
    for part in (50, 90, 99):
        yield f"words, percentile {part}", str(sizes[len(sizes) * part // 100])
    yield "words, most", str(sizes[-1])


def of_kinds(image):
    """Rows about the share of each kind in objects and in words."""
    objects, words = collections.Counter(), collections.Counter()
    for it in image.objects:
        kind = kind_of(image.words[it.base])
        objects[kind] += 1
        words[kind] += it.end - it.first
    for kind in KINDS:
        yield f"{kind}, of objects", percent(objects[kind], len(image.objects))
        yield f"{kind}, of words", percent(words[kind], len(image.words))


def of_pointers(image):
    """Rows about what traced fields hold, and how far pointers go."""
    traced = sum(traced_end(image.words, it) - it.base - 1 for it in image.objects)
    objects, nil = image.objects, image.field(image.special, 0)
    fields = [it for it in image.pointers if it.place > objects[it.owner].base]
    far = [
        4 * (objects[it.target].base - objects[it.owner].base) for it in fields if it.target != nil
    ]
    yield "traced, of words", percent(traced, len(image.words))
    yield "pointers, of traced", percent(len(fields), traced)
    yield "nil, of traced", percent(len(fields) - len(far), traced)
    for name, distances in (
        ("forwards", sorted(it for it in far if it >= 0)),
        ("backwards", sorted(-it for it in far if it < 0)),
    ):
        yield f"{name}, of pointers but nil", percent(len(distances), len(far))
        for part in (50, 90):
            yield f"{name}, percentile {part}", f"{distances[len(distances) * part // 100]:,} bytes"


def rows_of(path):
    """What is measured of an image, by the name of the row."""
    image = Image.read(path.read_bytes())[0].compacted()
    return {
        "bytes of data": f"{image.header[2]:,}",
        "objects": f"{len(image.objects):,}",
        **dict(of_sizes(image)),
        **dict(of_kinds(image)),
        **dict(of_pointers(image)),
    }


def main():
    with tempfile.TemporaryDirectory() as folder:
        path = pathlib.Path(sys.argv[1]) if len(sys.argv) > 1 else find_image(folder)
        if path is None:
            return "name an image, or install the package scratch"
        columns = {"image": rows_of(path)}
        for part in ("mixed", "fitted"):
            generated = pathlib.Path(folder, part)
            make_image(generated, SIZE, part)
            columns[part] = rows_of(generated)
    print(f"{'':30}" + "".join(f" {name:>18}" for name in columns))
    for name in columns["image"]:
        print(f"{name:30}" + "".join(f" {rows[name]:>18}" for rows in columns.values()))
    return 0


if __name__ == "__main__":
    sys.exit(main())
