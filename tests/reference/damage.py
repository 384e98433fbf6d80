"""The readings of damaged data words: sequences of chunks and gaps.

A word is voted for if some voter is its address. A reading contradicts the votes for words at which
no base header of an object stands. A gap counts as 4 contradicted votes. The best reading
contradicts the fewest votes, and among those that contradict equally many it skips the fewest
words. Every word is a voter for the first reading; then the slots of the reading before are.

If whole words are missing, they may have been lost in the middle: then slots point to where the
objects after the loss stood before it. Zeros take the place of the lost words, and the file is then
mended as any other one.

A file that holds an image without a fault is not damaged, whatever its words vote for.
"""

import array
import operator
import typing

from tests.reference.faults import Defects
from tests.reference.file_format import HEADER_WORDS, VERSION, bytes_of, words_of
from tests.reference.image import Image
from tests.reference.names import Names
from tests.reference.objects import FREE, HEADER_TYPES, Object, traced_end

# What a gap costs, in contradicted votes.
GAP_VOTES = 4
READINGS = 3
# After the place of a loss, the objects that moved are at least this many more than those that
# stayed.
LEAST_MOVED = 16
# The sizes of a header and of what may stand before it, in bytes.
HEADER, PREFIX_SIZE = 4 * HEADER_WORDS, 512


class Gap(typing.NamedTuple):
    """A run of data words that no chunk covers: the index of its first word, and its length."""

    first: int
    words: int


def chunk_at(words, at):
    """The base header and the end of the chunk that begins at this word, or None.

    A free chunk has no base header: its first word stands for it."""
    kind = words[at] & 3
    before = 0 if kind == FREE else HEADER_TYPES.index(kind)
    if at + before >= len(words) or any(word & 3 != kind for word in words[at : at + before + 1]):
        return None
    base = at + before
    size = words[at] >> 2 if kind in (0, FREE) else words[base] >> 2 & 63
    return (base, base + size) if 0 < size <= len(words) - base else None


def votes_of(base, count, voters):
    """Whether each of this many data words is voted for: 1 or 0."""
    votes, end = bytearray(count), base + 4 * count
    for word in voters:
        if base <= word < end and word & 3 == 0:
            votes[(word - base) >> 2] = 1
    return votes


def best_reading(words, votes):
    """The parts of the best reading by these votes: where each begins and ends, and whether it is a
    gap.

    If several readings are best, a chunk comes before a gap, and a gap is short."""
    count = len(words)
    later = array.array("I", bytes(4 * (count + 1)))
    for at in reversed(range(count)):
        later[at] = later[at + 1] + votes[at]
    # The best reading from each word on: its votes and skipped words as one number, the end of its
    # first part, and whether that part is a gap.
    cost, end = array.array("Q", bytes(8 * (count + 1))), array.array("I", bytes(4 * (count + 1)))
    is_gap = bytearray(count + 1)
    # The best way on from a word within a gap: its cost, and the end of the gap.
    within, gap_end = 0, count
    for at in reversed(range(count)):
        skipped = within + (votes[at] << 30) + 1
        best = skipped + (GAP_VOTES << 30), gap_end, True
        chunk = chunk_at(words, at)
        if chunk is not None:
            header, after = chunk
            kept = votes[header] if words[at] & 3 != FREE else 0
            read = cost[after] + ((later[at] - later[after] - kept) << 30)
            if read <= best[0]:
                best = read, after, False
        cost[at], end[at], is_gap[at] = best
        within, gap_end = (best[0], at) if best[0] <= skipped else (skipped, gap_end)
    parts, at = [], 0
    while at < count:
        parts.append((at, end[at], bool(is_gap[at])))
        at = end[at]
    return parts


def objects_among(words, parts):
    """The objects among these parts, in order."""
    for at, end, is_gap in parts:
        if not is_gap and words[at] & 3 != FREE:
            yield Object(at, at + HEADER_TYPES.index(words[at] & 3), end)


def slots_of(words, parts):
    """What the slots of the objects among these parts hold."""
    for it in objects_among(words, parts):
        if it.base > it.first:
            yield words[it.base - 1] & ~3
        yield from words[it.base + 1 : traced_end(words, it)]


def gaps_of(base, words):
    """The gaps of the last reading of these data words, of which the first has this address."""
    voters, parts = words, None
    for _ in range(READINGS):
        before, parts = parts, best_reading(words, votes_of(base, len(words), voters))
        if parts == before:
            break
        voters = slots_of(words, parts)
    return [Gap(at, end - at) for at, end, is_gap in parts if is_gap]


def with_moved(votes, lost):
    """Whether each word is voted for, or the word that is `lost` words after it: 1 or 0.

    There are `lost` fewer words than votes."""
    return bytearray(map(operator.or_, votes, votes[lost:]))


def moved_from(objects, votes, lost):
    """The first word of the first object after a loss of this many words, or None if there is none.

    An object stays if its base header is voted for, and moves if the word that is `lost` words
    after that is. From the best object on, the number of objects that move exceeds the number of
    those that stay by most. If several objects are best, the last one is taken."""
    moved, stayed, most, place = 0, 0, 0, None
    for count, it in enumerate(reversed(objects), 1):
        moved += votes[it.base + lost]
        stayed += votes[it.base]
        if moved - stayed > most:
            most = moved - stayed
            place = it.first if most >= LEAST_MOVED and 2 * moved > count else None
    return place


def place_of_loss(base, words, missing):
    """The data word before which this many bytes are missing, or None if they are the last ones."""
    count, lost = len(words), missing // 4
    if not 0 < missing <= 4 * count or missing % 4:
        return None
    votes = votes_of(base, count + lost, words)
    parts = best_reading(words, with_moved(votes, lost))
    votes = votes_of(base, count + lost, slots_of(words, parts))
    parts = best_reading(words, with_moved(votes, lost))
    return moved_from(list(objects_among(words, parts)), votes, lost)


class Mended(typing.NamedTuple):
    """What becomes of a damaged file: its bytes, the gaps, the bytes that are missing, the data
    word at which zeros stand for them or None if they are the last ones, and where the data
    begin."""

    file: bytes
    gaps: list
    missing: int
    place: int | None
    start: int

    def missing_at(self):
        """Where bytes are missing in the middle, as a line of JSON states it, or None."""
        if self.place is None:
            return None
        return {"word": self.place, "byte": self.start + 4 * self.place, "bytes": self.missing}


def header_of(file):
    """The byte order, the offset and the words of the header, or None if the file has none."""
    for offset in (0, PREFIX_SIZE):
        for order in ("little", "big"):
            if int.from_bytes(file[offset : offset + 4], order) == VERSION:
                header = file[offset : offset + HEADER]
                return (order, offset, words_of(header, order)) if len(header) == HEADER else None
    return None


def is_sound(file, clear_weak):
    """Whether a file, whose header has no fault, holds an image without a fault."""
    order, offset, header = header_of(file)
    data = file[offset + HEADER : offset + HEADER + header[2]]
    if len(data) < header[2]:
        return False
    words, at = words_of(data, order), 0
    while at < len(words):
        chunk = chunk_at(words, at)
        if chunk is None:
            return False
        at = chunk[1]
    image, _ = Image.read(file)
    if header[4] not in image.numbers:
        return False
    live = {number for number, it in enumerate(image.live(clear_weak)) if it}
    return not Defects(Names(image, live, clear_weak)).faults()


def mend_file(file, clear_weak=False):
    """The file as it is mended, or None if its header has a fault."""
    found = header_of(file)
    if found is None:
        return None
    order, offset, header = found
    size, base = header[2], header[3]
    if header[1] != HEADER or size % 4 or base % 4 or base + size > 1 << 32:
        return None
    start = offset + HEADER
    if is_sound(file, clear_weak):
        return Mended(file, [], 0, None, start)
    there = min(size, len(file) - start) // 4 * 4
    words = words_of(file[start : start + there], order)
    missing = max(0, size - (len(file) - start))
    place = place_of_loss(base, words, missing)
    if place is not None:
        at = start + 4 * place
        words[place:place] = array.array("I", bytes(missing))
        file, there = file[:at] + bytes(missing) + file[at:], size
    is_restored = place is not None and is_sound(file, clear_weak)
    gaps = [] if is_restored else gaps_of(base, words)
    if not gaps and not missing:
        return Mended(file, gaps, missing, place, start)
    for gap in gaps:
        words[gap.first] = 4 * gap.words + FREE
    header[2] = there
    data = bytes_of(header, order) + bytes_of(words, order)
    return Mended(file[:offset] + data + file[start + there :], gaps, missing, place, start)


def readable(file):
    """How much can be read of a file whose data cannot be read as they are, or None if no special
    objects array can be read."""
    it = mend_file(file)
    if it is None:
        return None
    order, offset, header = header_of(it.file)
    base, special, at, objects, found = header[3], header[4], 0, 0, False
    words = words_of(it.file[it.start : it.start + header[2]], order)
    while at < len(words):
        place, end = chunk_at(words, at)
        if words[at] & 3 != FREE:
            objects += 1
            found = found or base + 4 * place == special
        at = end
    size = 4 * sum(gap.words for gap in it.gaps)
    known = {
        "unreadable_bytes": size,
        "missing_bytes": it.missing,
        "missing_at": it.missing_at(),
        "objects": objects,
    }
    return known if found else None
