"""Decodes the bytecodes of compiled methods, from the table of codes in the literature alone."""

import typing

SPECIAL = (
    "+ - < > <= >= = ~= * / \\\\ @ bitShift: // bitAnd: bitOr: at: at:put: size next nextPut: atEnd "
    "== class blockCopy: value value: do: new new: x y"
).split()
PUSHED = ("self", "true", "false", "nil", "-1", "0", "1", "2")
RETURNED = ("return self", "return true", "return false", "return nil", "return top")


class Instruction(typing.NamedTuple):
    """An instruction: its place among the bytecodes, its bytes, what it does, what it works on (a
    kind and an index, or a word), its number of arguments, and the place where it jumps."""

    start: int
    code: bytes
    operation: str
    operand: tuple | str | None = None
    arguments: int | None = None
    jumps_to: int | None = None


def variable(kind, index):
    """What the extended codes for variables work on: their two high bits say the kind."""
    return ("instance", "temporary", "literal", "variable")[kind], index


def length_of(code):
    """The number of bytes of an instruction that begins with this byte."""
    if code == 132:
        return 3
    return 2 if code in (128, 129, 130, 131, 133, 134) or 160 <= code <= 175 else 1


def decoded(code, first, second):
    """What an instruction does, without its place: operation, operand, arguments, and how far it
    jumps. `first` and `second` are the bytes after its code."""
    match code:
        case _ if code < 16:
            return "push", ("instance", code)
        case _ if code < 32:
            return "push", ("temporary", code - 16)
        case _ if code < 64:
            return "push", ("literal", code - 32)
        case _ if code < 96:
            return "push", ("variable", code - 64)
        case _ if code < 112:
            return "pop into", variable(code - 96 >> 3, code & 7)
        case _ if code < 120:
            return "push", PUSHED[code - 112]
        case _ if code < 125:
            return (RETURNED[code - 120],)
        case 125:
            return ("return top from block",)
        case 128:
            return "push", variable(first >> 6, first & 63)
        case 129 | 130 if first >> 6 != 2:
            return "store" if code == 129 else "pop into", variable(first >> 6, first & 63)
        case 131:
            return "send", ("literal", first & 31), first >> 5
        case 133:
            return "send super", ("literal", first & 31), first >> 5
        case 134:
            return "send", ("literal", first & 63), first >> 6
        case 132:
            operations = (
                ("send", "literal"),
                ("send super", "literal"),
                ("push", "instance"),
                ("push", "literal"),
                ("push", "variable"),
                ("store", "instance"),
                ("pop into", "instance"),
                ("store", "variable"),
            )
            operation, kind = operations[first >> 5]
            operand = kind, second
            return (operation, operand, first & 31) if first < 64 else (operation, operand)
        case 135:
            return ("pop",)
        case 136:
            return ("duplicate",)
        case 137:
            return "push", "thisContext"
        case _ if 144 <= code < 152:
            return "jump", None, None, code - 143
        case _ if 152 <= code < 160:
            return "jump if false", None, None, code - 151
        case _ if 160 <= code < 168:
            return "jump", None, None, (code - 164) * 256 + first
        case _ if 168 <= code < 172:
            return "jump if true", None, None, (code & 3) * 256 + first
        case _ if 172 <= code < 176:
            return "jump if false", None, None, (code & 3) * 256 + first
        case _ if 176 <= code < 208:
            return "send", f"#{SPECIAL[code - 176]}"
        case _ if code >= 208:
            return "send", ("literal", code & 15), code - 208 >> 4
    return ("unknown",)


def instructions(code):
    """The instructions of some bytecodes. One that is cut short is unknown."""
    start = 0
    while start < len(code):
        length = length_of(code[start])
        its = code[start : start + length]
        if len(its) < length:
            yield Instruction(start, its, "unknown")
        else:
            operation, operand, arguments, distance = (
                *decoded(its[0], *its[1:], *[0] * (3 - length)),
                None,
                None,
                None,
            )[:4]
            target = None if distance is None else start + length + distance
            yield Instruction(start, its, operation, operand, arguments, target)
        start += length


def trailer_length(code):
    """The number of bytes after the bytecodes, which say where the source is."""
    if not code:
        return 0
    flag = code[-1]
    if flag >= 252:
        return 4
    if flag:
        return flag + 1
    before = code[-5:-1]
    zeros = len(before) - len(before.rstrip(b"\0"))
    return 1 + (0 if zeros == 4 else zeros)


def method_parts(image, number):
    """The number of literals of a method, and its bytecodes."""
    it = image.objects[number]
    words = image.words[it.base + 1 : it.end]
    count = words[0] >> 10 & 255 if words and words[0] & 1 else 0
    count = min(count, max(len(words) - 1, 0))
    code = b"".join(word.to_bytes(4, image.order) for word in words[count + 1 :])
    padding = image.header_of(number) >> 8 & 3
    code = code[: len(code) - padding]
    return count, code[: max(len(code) - trailer_length(code), 0)]
