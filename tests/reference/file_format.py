"""Words in either byte order, and the one writer of image files."""

import array
import sys

VERSION = 6502
HEADER_WORDS = 16
BASE = 0x1000
# 512 bytes that may stand before an image.
PREFIX = bytes(range(256)) * 2
# The header words after the special objects array, which compaction keeps.
REST = tuple(range(1, HEADER_WORDS - 4))


def words_of(data, order):
    """The words of these bytes."""
    words = array.array("I")
    words.frombytes(data)
    if sys.byteorder != order:
        words.byteswap()
    return words


def bytes_of(words, order):
    """The bytes of these words."""
    if sys.byteorder != order:
        words = words[:]
        words.byteswap()
    return words.tobytes()


def image_file(data, special, *, base=BASE, order="little", prefix=b"", rest=REST):
    """The file of an image with these data words, whose special objects array has this address."""
    header = array.array("I", [VERSION, 4 * HEADER_WORDS, 4 * len(data), base, special, *rest])
    return prefix + bytes_of(header + data, order)
