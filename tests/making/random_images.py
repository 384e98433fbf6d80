"""Makes random images, most of which have dead and weakly held objects. `SQZ_SEED` chooses them."""

import random

from tests.making.builder import Builder, Ref
from tests.making.seed import SEED
from tests.reference.fields import ClassField
from tests.reference.objects import ZERO, Format

# The number of images, unless a test needs more.
FEW = 20
# The most objects of an image.
LARGEST = 200
FORMATS = (Format.EMPTY, Format.FIXED, Format.INDEXED, Format.INDEXED, Format.WEAK)
# The compact index of all objects.
COMPACT = 1
# The first objects: nil, and the class of all weak objects.
NIL, WEAK_CLASS = Ref(0), Ref(1)
# The field of that class that counts the fixed fields of its instances, if they have none. Each
# fixed field adds 4.
NO_FIXED_FIELDS = 0x405


def random_field(generator, number, count, density):
    """A pointer to one of `count` objects, near object `number` or anywhere, or no pointer."""
    if generator.random() > density:
        return ZERO
    if generator.random() < 0.5:
        return Ref(min(max(0, number + generator.randint(-5, 5)), count - 1))
    return Ref(generator.randrange(count))


def add_random_object(builder, generator, count, density):
    """Adds one of `count` objects, which has up to four fields. One in five is weak."""
    kind = generator.choice(FORMATS)
    size = 0 if kind == Format.EMPTY else generator.randint(1, 4)
    number, a_class = len(builder.items), WEAK_CLASS
    fields = [random_field(generator, number, count, density) for _ in range(size)]
    if kind != Format.WEAK:
        a_class = generator.choice((None, None, Ref(generator.randrange(count))))
    builder.add(kind, a_class, *fields, compact=COMPACT)


def random_file(generator):
    """The file of an image of up to `LARGEST` objects. If few fields are pointers, few objects are
    reachable."""
    count, density = generator.randint(4, LARGEST), generator.uniform(0.3, 1)
    builder = Builder()
    builder.add(Format.EMPTY, None, compact=COMPACT)
    builder.add(Format.FIXED, None, ZERO, ZERO, ZERO, compact=COMPACT)
    for _ in range(count - 3):
        add_random_object(builder, generator, count, density)
    roots = [Ref(generator.randrange(count)) for _ in range(generator.randint(1, 3))]
    builder.special = builder.add(Format.INDEXED, None, NIL, *roots, compact=COMPACT)
    fixed = generator.randrange(3)
    builder.fields_of(WEAK_CLASS)[ClassField.FORMAT] = NO_FIXED_FIELDS + 4 * fixed
    return builder.file()


def random_files(count=FEW):
    """The files of the first `count` random images, by name."""
    generator = random.Random(SEED)
    return {f"{number}.image": random_file(generator) for number in range(count)}
