"""Generates images of arrays of 1 to 20 words, with SmallIntegers and pointers."""

import array
import itertools
import random

from bench.images.connecting import FAR, FIRSTS, LARGEST, Reach, below, choose_live, connect
from tests.reference.file_format import BASE

ANYWHERE = 1 << 30


def array_header(words):
    """The base header of an array that takes `words` words, its base header included."""
    return 3 << 12 | 2 << 8 | words << 2 | 3


def sizes_of_arrays(generator, words):
    """The sizes of objects that fill the words: nil, the special objects array, and others."""
    sizes = list(FIRSTS)
    left = words - sum(sizes)
    while left > 0:
        size = min(1 + below(generator, LARGEST), left)
        sizes.append(size)
        left -= size
    return sizes


def words_of_arrays(words, far):
    """Data words of arrays, of which half of the pointers go near, and the others so far."""
    generator = random.Random(words)
    sizes = sizes_of_arrays(generator, words)
    firsts = [end - size for end, size in zip(itertools.accumulate(sizes), sizes)]
    data = array.array("I", bytes(4 * words))
    for first, size in zip(firsts, sizes):
        data[first] = array_header(size)
    fields = [range(first + 1, first + size) for first, size in zip(firsts, sizes)]
    live = choose_live(generator, len(fields), FIRSTS)
    connect(generator, data, fields, [BASE + 4 * first for first in firsts], live, Reach(0.5, far))
    return data


def near_words(words):
    """Data words of arrays whose pointers go up to a MiB away."""
    return words_of_arrays(words, FAR)


def far_words(words):
    """Data words of arrays whose pointers go anywhere."""
    return words_of_arrays(words, ANYWHERE)
