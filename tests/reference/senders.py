"""Which methods mention a selector: their literals point to it, or an instruction sends it."""

from tests.reference.bytecodes import SPECIAL, instructions, method_parts
from tests.reference.fields import SpecialField


class Senders:
    """What methods of an image mention."""

    def __init__(self, image, methods):
        self.image = image
        self.mentioned = {number: set(self.mentions(number)) for number in methods}

    def field(self, number, index):
        """What a field of an object points to, or None."""
        it = self.image.objects[number]
        at = it.base + 1 + index
        return self.image.numbers.get(self.image.words[at]) if at < it.end else None

    def special(self, index):
        """The selector with an index in the array of special selectors, or None."""
        array = self.field(self.image.special, SpecialField.SPECIAL_SELECTORS)
        return None if array is None else self.field(array, 2 * index)

    def sent(self, number, instruction):
        """The selector that an instruction of a method sends, or None."""
        match instruction.operation, instruction.operand:
            case "send" | "send super", ("literal", index):
                return self.field(number, 1 + index)
            case "send", str() as word:
                return self.special(SPECIAL.index(word[1:]))
        return None

    def mentions(self, number):
        """The objects that a method mentions. None may be among them."""
        literals, code = method_parts(self.image, number)
        for index in range(literals):
            yield self.field(number, 1 + index)
        for instruction in instructions(code):
            yield self.sent(number, instruction)

    def of(self, selectors):
        """The methods that mention one of these objects."""
        return {number for number, its in self.mentioned.items() if not its.isdisjoint(selectors)}
