"""Makes copies of images in which something was changed."""

import functools
import random

from tests.making.named_image import named_file
from tests.making.seed import SEED
from tests.reference.image import Image
from tests.reference.objects import Format, format_of, has_bytes

# How much higher the addresses of an image at another base are.
SHIFT = 0x1000
# The bits of a header with the hash.
HASH = 0xFFF << 17
# The copies with random words, and how many words of each are random.
COPIES, RANDOM_WORDS = 24, 6


def named_image():
    """The image with names of all kinds."""
    return Image.read(named_file())[0]


def with_words(image, words):
    """The image with other data words."""
    return Image(image.header, words, image.order, image.prefix)


def in_reverse(image):
    """The image with its objects in reverse order."""
    end, firsts = len(image.words), []
    for it in image.objects:
        end -= it.end - it.first
        firsts.append(end)
    return Image(*image.laid_out(firsts, len(image.words)), image.order, image.prefix)


def at_base(image, base):
    """The image with this base."""
    header, words, shift = image.header[:], image.words[:], base - image.base
    for place in (3, 4):
        header[place] += shift
    for pointer in image.pointers:
        words[pointer.place] += shift
    return Image(header, words, image.order, image.prefix)


def at_another_base(image):
    """The image with higher addresses."""
    return at_base(image, image.base + SHIFT)


def with_other_hashes(image):
    """The image with other hashes in its headers."""
    words, generator = image.words[:], random.Random(SEED)
    for it in image.objects:
        words[it.base] ^= generator.getrandbits(32) & HASH
    return with_words(image, words)


def with_flipped_bit(image, place):
    """The image in which the lowest bit of the first byte of a data word is flipped."""
    words = image.words[:]
    words[place] ^= 1
    return with_words(image, words)


def with_changed_word(image, generator):
    """As `changed_word`, without the number."""
    return changed_word(image, generator)[0]


def changed_word(image, generator):
    """The image in which one bit of a random word of a live object is flipped, of a field or of the
    hash; and the number of the object."""
    number = generator.choice(live_numbers(image))
    it = image.objects[number]
    place = generator.randrange(it.base, it.end)
    bits = range(17, 29) if place == it.base else range(32)
    words = image.words[:]
    words[place] ^= 1 << generator.choice(bits)
    return with_words(image, words), number


@functools.cache
def live_numbers(image):
    """The numbers of the live objects of an image."""
    return [number for number, is_live in enumerate(image.live()) if is_live]


def with_bad_pointers(image, count):
    """The image with a bad pointer in `count` live objects: an address with one bit flipped, or
    that of a field."""
    kinds = (Format.FIXED, Format.INDEXED)
    chosen = [
        it
        for it, is_live in zip(image.objects, image.live())
        if is_live and format_of(image.words[it.base]) in kinds and it.end > it.base + 1
    ]
    step = len(chosen) // (count + 1)
    words = image.words[:]
    for number, it in enumerate(chosen[step::step][:count]):
        flip = 1 << 20 + number if number % 2 == 0 else 4
        words[it.base + 1] = image.address(it) ^ flip
    return with_words(image, words)


def with_random_words(generator):
    """The image with names of all kinds, in which some words are random."""
    image = named_image()
    words = image.words[:]
    objects = [it for it in image.objects if not has_bytes(words[it.base])]
    addresses = list(image.numbers)
    for _ in range(RANDOM_WORDS):
        it = generator.choice(objects)
        place = generator.choice([it.first, *range(it.base + 1, it.end)])
        word = generator.choice((generator.choice(addresses), generator.getrandbits(32)))
        if place > it.base:
            words[place] = word
        elif it.first < it.base:
            words[place] = word & ~3 | words[place] & 3
    return with_words(image, words)
