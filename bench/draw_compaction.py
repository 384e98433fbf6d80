"""Draws a small image and what it is compacted to, word by word, as an SVG on standard output.

Usage: python3 -m bench.draw_compaction [IN OUT] >docs/compaction.svg

If no image is named, it is `images/accepted/dead_array.image`: nil, a dead array, and the special
objects array.
"""

import pathlib
import sys

from tests.harness.worked_images import IMAGES
from tests.reference.fields import SpecialField
from tests.reference.image import Image
from tests.reference.objects import traced_end

# The place of the first word, and a word's width and height; the tops of the two rows and of the
# legend; and the picture's height.
LEFT, WIDE, HIGH = 84, 80, 34
TOPS = (74, 214)
LEGEND, HEIGHT = 312, 340
EXAMPLE = [IMAGES / "accepted" / f"dead_array{end}" for end in (".image", ".out.image")]
# On a page of any colour the picture has its own, which is white.
PAGE, TEXT, LIVE, DEAD, MOVE = "#ffffff", "#24292f", "#0550ae", "#57606a", "#9a4a00"


def middle(place):
    """Where the middle of a word is."""
    return LEFT + WIDE * place + WIDE // 2


def words_at(left, top, words, anchor="middle", fill=TEXT):
    return f'<text x="{left}" y="{top}" text-anchor="{anchor}" fill="{fill}">{words}</text>'


def shown(image, it, place):
    """What is written into a word."""
    word = image.words[place]
    if place <= it.base or place >= traced_end(image.words, it):
        return "header" if place <= it.base else f"{word:X}"
    return str(word >> 1) if word & 1 else f"{word:X}"


def label(image, number, is_live):
    """What an object is called."""
    if number == image.special:
        return "special objects"
    if number == image.field(image.special, SpecialField.NIL):
        return "nil"
    return "array" if is_live else "dead array"


def draw_box(first, end, top, colour, opacity, words):
    """A box around the words from one up to another, and what stands below it.

    What is to go has a border of dashes."""
    left, width = LEFT + WIDE * first + 2, WIDE * (end - first) - 4
    dashes = "" if colour == LIVE else ' stroke-dasharray="5 4"'
    below = words_at(LEFT + WIDE * (first + end) // 2, top + HIGH + 17, words, fill=colour)
    return (
        f'<rect x="{left}" y="{top}" width="{width}" height="{HIGH}" rx="4" '
        f'fill="{colour}" fill-opacity="{opacity}" stroke="{colour}"{dashes}/>{below}'
    )


def draw_free(image, top):
    """What is between objects."""
    ends = [0, *(it.end for it in image.objects)]
    for end, first in zip(ends, [it.first for it in image.objects]):
        if end < first:
            yield draw_box(end, first, top, DEAD, 0, "free chunk")


def draw_object(image, number, is_live, top):
    """The words of an object, their addresses, and what it is called."""
    it, colour = image.objects[number], LIVE if is_live else DEAD
    yield draw_box(it.first, it.end, top, colour, 0.15, label(image, number, is_live))
    for place in range(it.first, it.end):
        yield words_at(middle(place), top + 22, shown(image, it, place))
        yield words_at(LEFT + WIDE * place + 4, top - 6, f"{image.base + 4 * place:X}", "start")


def arc(image, pointer, top):
    """An arrow from a field to the object that it points to, above the words of the first row and
    below those of the second."""
    begin, end = middle(pointer.place) + 24, middle(image.objects[pointer.target].first) + 28
    edge, far = (top - 3, top - 56) if top == TOPS[0] else (top + HIGH + 3, top + HIGH + 72)
    curve = f"M{begin} {edge} C{begin} {far} {end} {far} {end} {edge}"
    return f'<path d="{curve}" fill="none" stroke="{LIVE}" marker-end="url(#live)"/>'


def arrow(begin, end):
    """An arrow from an object's old place to its new one."""
    line = f"M{begin} {TOPS[0] + HIGH + 26} L{end} {TOPS[1] - 24}"
    return (
        f'<path d="{line}" fill="none" stroke="{MOVE}" stroke-width="2" marker-end="url(#move)"/>'
    )


def head_of(name, colour):
    """The head of arrows of this colour."""
    return (
        f'<marker id="{name}" viewBox="0 0 8 8" refX="7" refY="4" markerWidth="8" markerHeight="8" '
        f'markerUnits="userSpaceOnUse" orient="auto"><path d="M0 0 L8 4 L0 8 z" fill="{colour}"/>'
        f"</marker>"
    )


def sample(left, colour, dashes=""):
    """A small box of a colour."""
    return (
        f'<rect x="{left}" y="{LEGEND}" width="22" height="14" rx="3" fill="{colour}" '
        f'fill-opacity="0.15" stroke="{colour}"{dashes}/>'
    )


def short_arrow(left, colour, head, width):
    """A short arrow of a colour."""
    line = f"M{left} {LEGEND + 7} L{left + 22} {LEGEND + 7}"
    style = f'stroke="{colour}" stroke-width="{width}" marker-end="url(#{head})"'
    return f'<path d="{line}" fill="none" {style}/>'


def draw_legend():
    """What boxes and arrows mean."""
    lefts = [LEFT + 2 + 120 * place for place in range(4)]
    yield sample(lefts[0], LIVE)
    yield sample(lefts[1], DEAD, ' stroke-dasharray="5 4"')
    yield short_arrow(lefts[2], LIVE, "live", 1)
    yield short_arrow(lefts[3], MOVE, "move", 2)
    for left, words in zip(lefts, ("live object", "dead object", "pointer", "copied to")):
        yield words_at(left + 30, LEGEND + 12, words, "start")


def draw_row(image, live, top, name):
    """The words of an image, its objects, and the pointers of live ones."""
    yield words_at(LEFT - 12, top + 16, name, "end")
    yield words_at(LEFT - 12, top + 32, f"{4 * len(image.words)} bytes", "end")
    yield from draw_free(image, top)
    for number in range(len(image.objects)):
        yield from draw_object(image, number, live[number], top)
    for pointer in image.pointers:
        if live[pointer.owner]:
            yield arc(image, pointer, top)


def draw(before, after):
    """The picture of an image and of what it is compacted to."""
    width = LEFT + WIDE * len(before.words) + 10
    live = before.live()
    yield (
        f'<svg xmlns="http://www.w3.org/2000/svg" viewBox="0 0 {width} {HEIGHT}" width="{width}" '
        f'height="{HEIGHT}" font-family="sans-serif" font-size="13">'
    )
    yield "<title>An image and what it is compacted to</title>"
    yield f'<rect width="{width}" height="{HEIGHT}" rx="8" fill="{PAGE}"/>'
    yield f"<defs>{head_of('live', LIVE)}{head_of('move', MOVE)}</defs>"
    yield from draw_row(before, live, TOPS[0], "before")
    yield from draw_row(after, after.live(), TOPS[1], "after")
    moved = [it for it, is_live in zip(before.objects, live) if is_live]
    for old, new in zip(moved, after.objects):
        yield arrow(*(LEFT + WIDE * (it.first + it.end) // 2 for it in (old, new)))
    yield from draw_legend()
    yield "</svg>"


def main():
    paths = [pathlib.Path(path) for path in sys.argv[1:3]] or EXAMPLE
    before, after = (Image.read(path.read_bytes())[0] for path in paths)
    print("\n".join(draw(before, after)))


if __name__ == "__main__":
    main()
