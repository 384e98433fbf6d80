"""Generates images of any size, of which a third of the objects is dead. The same size makes the
same image.

In the arrays of `1 MiB` pointers go up to a MiB away at each size, so that its lines differ in the
size alone. In those of `anywhere` they go anywhere, so that the pointers of the larger images miss
the caches more often.
"""

from bench.images.arrays import far_words, near_words
from bench.images.classed import many_classes_words, one_class_words
from bench.images.fitted import fitted_words
from bench.images.mixed import mixed_words
from tests.reference.file_format import BASE, HEADER_WORDS, image_file

MIB = 1 << 20
# What generates the data words, given their number, by the name of the part of a table.
PARTS = {
    "1 MiB": near_words,
    "anywhere": far_words,
    "mixed": mixed_words,
    "fitted": fitted_words,
}
# The parts of a table of class histograms.
CENSUS_PARTS = {**PARTS, "1 class": one_class_words, "many": many_classes_words}


def make_image(path, size, part):
    """Makes a file of `size` bytes with an image of this part."""
    words = CENSUS_PARTS[part](size // 4 - HEADER_WORDS)
    path.write_bytes(image_file(words, BASE + 4))
