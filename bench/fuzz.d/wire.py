"""The bytes of a datatype: `dtw1` and its form, each old type by its own, numbers with the most significant byte first."""
import datatypes
from kinds import KINDS

HEAD = b"dtw1"
DEEPEST = 64
TAGS = (
    "named dup contiguous vector hvector indexed hindexed indexed_block hindexed_block struct subarray darray resized"
).split()
ORDERS = ("c", "fortran")
DISTRIBUTIONS = (None, "block", "cyclic", "none")


class BadWire(Exception):
    """No text of a datatype."""


def small(*numbers):
    return b"".join(number.to_bytes(4, "big", signed=True) for number in numbers)


def large(number):
    return number.to_bytes(8, "big", signed=True)


def length_of(items):
    return len(items).to_bytes(4, "big")


def arguments_text(combiner, given):
    """The fields of a form before its old type, but for structs."""
    if combiner == "named":
        return bytes([given.number])
    if combiner == "dup":
        return b""
    if combiner in ("contiguous", "vector"):
        return small(*given)
    if combiner == "hvector":
        return small(*given[:2]) + large(given[2])
    if combiner == "indexed":
        return length_of(given) + b"".join(small(*block) for block in given)
    if combiner == "hindexed":
        return length_of(given) + b"".join(small(length) + large(disp) for length, disp in given)
    if combiner == "indexed_block":
        return small(given[0]) + length_of(given[1]) + small(*given[1])
    if combiner == "hindexed_block":
        return small(given[0]) + length_of(given[1]) + b"".join(map(large, given[1]))
    if combiner == "resized":
        return large(given[0]) + large(given[1])
    if combiner == "subarray":
        order, dims = given
        return bytes([ORDERS.index(order)]) + length_of(dims) + b"".join(small(*dim) for dim in dims)
    size, rank, order, dims = given
    rows = b"".join(
        small(gsize) + bytes([DISTRIBUTIONS.index(dist)]) + small(-1 if darg is None else darg, psize)
        for gsize, dist, darg, psize in dims
    )
    return small(size, rank) + bytes([ORDERS.index(order)]) + length_of(dims) + rows


def form_text(made):
    tag = bytes([TAGS.index(made.combiner)])
    if made.combiner == "struct":
        members = zip(made.arguments, made.olds)
        rows = b"".join(small(length) + large(disp) + form_text(old) for (length, disp), old in members)
        return tag + length_of(made.olds) + rows
    return tag + arguments_text(made.combiner, made.arguments) + b"".join(map(form_text, made.olds))


def export(made):
    return HEAD + form_text(made)


class Reader:
    """Reads bytes from left to right."""

    def __init__(self, text):
        self.text = text
        self.at = 0

    def bytes(self, number):
        if self.at + number > len(self.text):
            raise BadWire
        self.at += number
        return self.text[self.at - number : self.at]

    def small(self):
        return int.from_bytes(self.bytes(4), "big", signed=True)

    def large(self):
        return int.from_bytes(self.bytes(8), "big", signed=True)

    def list_of(self, item):
        number = int.from_bytes(self.bytes(4), "big")
        if number > len(self.text):
            raise BadWire  # each item has a byte at least
        return [item() for _ in range(number)]

    def one_of(self, words):
        number = self.bytes(1)[0]
        if number >= len(words) or words[number] is None:
            raise BadWire
        return words[number]

    def distributed(self):
        gsize, dist, darg, psize = self.small(), self.one_of(DISTRIBUTIONS), self.small(), self.small()
        return (gsize, dist, None if darg == -1 else darg, psize)

    def form(self, level):
        """A form as a call that makes its type: inner types first, from left to right."""
        if level > DEEPEST:
            raise BadWire
        combiner = self.one_of(TAGS)
        if combiner == "named":
            kind = self.one_of(KINDS)
            return lambda: datatypes.named(kind)
        if combiner == "struct":
            members = self.list_of(lambda: (self.small(), self.large(), self.form(level + 1)))
            return lambda: datatypes.structure([(length, disp, old()) for length, disp, old in members])
        make = self.arguments(combiner)
        old = self.form(level + 1)
        return lambda: make(old())

    def arguments(self, combiner):
        """The fields before the old type, as a call that takes it."""
        if combiner == "dup":
            return datatypes.dup
        if combiner == "contiguous":
            count = self.small()
            return lambda old: datatypes.contiguous(count, old)
        if combiner == "vector":
            numbers = self.small(), self.small(), self.small()
            return lambda old: datatypes.vector(*numbers, old)
        if combiner == "hvector":
            numbers = self.small(), self.small(), self.large()
            return lambda old: datatypes.hvector(*numbers, old)
        if combiner == "indexed":
            blocks = self.list_of(lambda: (self.small(), self.small()))
            return lambda old: datatypes.indexed(blocks, old)
        if combiner == "hindexed":
            blocks = self.list_of(lambda: (self.small(), self.large()))
            return lambda old: datatypes.hindexed(blocks, old)
        if combiner == "indexed_block":
            block, disps = self.small(), self.list_of(self.small)
            return lambda old: datatypes.indexed_block(block, disps, old)
        if combiner == "hindexed_block":
            block, disps = self.small(), self.list_of(self.large)
            return lambda old: datatypes.hindexed_block(block, disps, old)
        if combiner == "resized":
            numbers = self.large(), self.large()
            return lambda old: datatypes.resized(*numbers, old)
        if combiner == "subarray":
            order, dims = self.one_of(ORDERS), self.list_of(lambda: (self.small(), self.small(), self.small()))
            return lambda old: datatypes.subarray(order, dims, old)
        size, rank, order = self.small(), self.small(), self.one_of(ORDERS)
        dims = self.list_of(self.distributed)
        return lambda old: datatypes.darray(size, rank, order, dims, old)


def reader_of(text):
    """The call that makes the type of a whole text. It may be refused as the constructors are."""
    reader = Reader(text)
    if reader.bytes(len(HEAD)) != HEAD:
        raise BadWire
    make = reader.form(1)
    if reader.at != len(text):
        raise BadWire
    return make
