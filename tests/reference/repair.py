"""Replaces the pointers of live objects that lead nowhere by nil, and frees live objects that
are lost."""

from tests.reference.damage import header_of, is_sound, mend_file
from tests.reference.fields import SpecialField
from tests.reference.file_format import bytes_of
from tests.reference.image import Image
from tests.reference.objects import (
    FREE,
    Format,
    compact_index,
    format_of,
    is_context,
    is_method,
    stated_end,
    traced_end,
)


class Repair:
    """What becomes of an image whose pointers lead nowhere."""

    def __init__(self, image, clear_weak=False):
        self.image, self.words, self.clear_weak = image, image.words, clear_weak
        self.nil = image.field(image.special, SpecialField.NIL)

    def is_untraceable(self, number):
        """Whether an object has no class, or is a bad method or a bad context."""
        it, header = self.image.objects[number], self.image.header_of(number)
        if it.base == it.first and compact_index(header) == 0:
            return True
        if not is_method(header) and not is_context(header):
            return False
        end = stated_end(self.words, it)
        return end == it.base + 1 or end > it.end

    def is_class(self, number):
        """Whether there is an object, and it can be a class and can be traced."""
        if number is None or self.is_untraceable(number):
            return False
        return self.image.can_be_class(number)

    def is_shapeless(self, number):
        """Whether the class of a weak object does not state which of its fields are fixed."""
        it = self.image.objects[number]
        if not self.clear_weak or format_of(self.image.header_of(number)) != Format.WEAK:
            return False
        a_class = self.image.class_of(number, clear_weak=True)
        if not self.is_class(a_class):
            return True
        fixed = self.image.fixed_fields(a_class)
        return fixed < 0 or it.base + 1 + fixed > it.end

    def is_lost(self, number):
        """Whether an object becomes free: it cannot be traced, is a weak object without shape, or
        has no class and does not serve without one."""
        if self.is_untraceable(number) or self.is_shapeless(number):
            return True
        it = self.image.objects[number]
        if it.base == it.first or self.is_class(self.image.class_of(number)):
            return False
        return not self.image.can_be_class(number) and number not in (self.nil, self.image.special)

    def dangles(self, word):
        """Whether a word is neither a SmallInteger nor the address of an object that is not
        lost."""
        if word & 1:
            return False
        number = self.image.numbers.get(word)
        return number is None or self.is_lost(number)

    def patches_of(self, number, nil):
        """The words of an object that are written anew, and what they become."""
        it, words = self.image.objects[number], self.words
        if self.is_lost(number):
            yield it.first, 4 * (it.end - it.first) + FREE
            return
        if it.base > it.first and self.dangles(words[it.base - 1] & ~3):
            yield it.base - 1, nil | words[it.base - 1] & 3
        for place in range(it.base + 1, traced_end(words, it)):
            if self.dangles(words[place]):
                yield place, nil

    def patches(self):
        """All words that are written anew, by object, or None if there is no nil for them."""
        image = self.image
        if self.is_lost(image.special):
            return None
        nil = None
        if self.nil is not None and not self.is_lost(self.nil):
            nil = image.address(image.objects[self.nil])
        live = [number for number, it in enumerate(image.live(self.clear_weak)) if it]
        found = [patch for number in live for patch in self.patches_of(number, nil or 0)]
        return found if nil is not None or all(value & 3 == FREE for _, value in found) else None


def live_size(image, clear_weak):
    """The number of live objects, and their bytes."""
    live = [it for it, is_live in zip(image.objects, image.live(clear_weak)) if is_live]
    return len(live), 4 * sum(it.end - it.first for it in live)


def repaired_file(file, clear_weak=False):
    """The file as it is mended and repaired, or None if that cannot be done; and the words that
    became nil or free."""
    mended = mend_file(file, clear_weak)
    if mended is None:
        return None, []
    order, offset, header = header_of(mended.file)
    data = mended.file[mended.start : mended.start + header[2]]
    image, _ = Image.read(mended.file)
    if header[4] not in image.numbers:
        return None, []
    if is_sound(mended.file, clear_weak):
        return mended.file, []
    patches = Repair(image, clear_weak).patches()
    if patches is None:
        return None, []
    words = image.words[:]
    for place, value in patches:
        words[place] = value
    end = mended.start + len(data)
    repaired = mended.file[: mended.start] + bytes_of(words, order) + mended.file[end:]
    return (repaired, patches) if is_sound(repaired, clear_weak) else (None, [])


def repair_row(file, clear_weak=False):
    """What `check --json` says of the repair of a file as it is mended, or None if that cannot be
    done."""
    repaired, patches = repaired_file(file, clear_weak)
    if repaired is None:
        return None
    before, _ = Image.read(mend_file(file, clear_weak).file)
    after, _ = Image.read(repaired)
    (live_objects, live_bytes), (kept_objects, kept_bytes) = (
        live_size(image, clear_weak) for image in (before, after)
    )
    freed = sum(value & 3 == FREE for _, value in patches)
    return {
        "live_objects": live_objects,
        "kept_objects": kept_objects,
        "live_bytes": live_bytes,
        "kept_bytes": kept_bytes,
        "cleared_pointers": len(patches) - freed,
        "freed_objects": freed,
    }
