"""Elements of an operation in a buffer, pack sessions and unpack sessions: positions in a list of bytes (MPI 4.1, section 5.2)."""
import datatypes
from datatypes import Unlistable
from kinds import image, restore


def span_inside(made, count, origin, length):
    """Whether all bytes of all elements lie in the buffer. No elements lie nowhere else."""
    if count == 0 or made.number == 0:
        return True
    last = (count - 1) * made.extent
    return origin + min(0, last) + made.true_lb >= 0 and origin + max(0, last) + made.true_ub <= length


def elements_of(made, count, origin):
    """The pairs (kind, position): copy by copy, entry by entry."""
    if made.number == 0:
        return []
    if made.number * count > datatypes.LISTED:
        raise Unlistable
    return [
        (kind, origin + i * made.extent + disp) for i in range(count) for kind, disp in made.listed()
    ]


def overlap(made, count, origin, length):
    """Whether two elements, all of which lie inside, have a common byte. More bytes than the buffer has must meet somewhere."""
    if made.size * count > length:
        return True
    seen = bytearray(length)
    for kind, position in elements_of(made, count, origin):
        if any(seen[position : position + kind.size]):
            return True
        seen[position : position + kind.size] = b"\x01" * kind.size
    return False


def packed(rep, elements, buffer):
    return b"".join(image(rep, kind, bytes(buffer[at : at + kind.size])) for kind, at in elements)


def done(rep, elements, number):
    """How many leading elements have all their packed bytes among so many."""
    for k, (kind, _) in enumerate(elements):
        number -= kind.packed_size(rep)
        if number < 0:
            return k
    return len(elements)


def whole_copies(one, number):
    """How many copies of so many bytes make this number, or None."""
    if one == 0:
        return 0 if number == 0 else None
    return number // one if number % one == 0 else None


def whole_elements(made, rep, number):
    """How many leading elements of the signature, repeated without end, have all their packed bytes among so many."""
    one = made.packed_size(rep)
    if one == 0:
        return 0
    copies, rest = divmod(number, one)
    found = copies * made.number
    if rest:
        found += done(rep, made.listed(), rest)
    return found


class Pack:
    """A pack session: elements, and how many of their packed bytes have passed."""

    def __init__(self, rep, elements, buffer, total):
        self.rep, self.elements, self.buffer, self.total = rep, elements, buffer, total
        self.passed = 0

    def take(self, buffers, most):
        first = self.passed
        self.passed = min(first + most, self.total)
        return packed(self.rep, self.elements, buffers[self.buffer])[first : self.passed]


class Unpack:
    """An unpack session: elements, how many packed bytes were given, and the last of them that make no whole element yet."""

    def __init__(self, rep, elements, buffer, total, one):
        self.rep, self.elements, self.buffer, self.total, self.one = rep, elements, buffer, total, one
        self.passed = 0
        self.held = b""

    def give(self, buffers, piece):
        """Sets the elements that the piece completes. Answers how many."""
        first = done(self.rep, self.elements, self.passed)
        self.passed += len(piece)
        end = done(self.rep, self.elements, self.passed)
        images = self.held + piece
        buffer = buffers[self.buffer]
        for kind, position in self.elements[first:end]:
            wide = kind.packed_size(self.rep)
            buffer[position : position + kind.size] = restore(self.rep, kind, images[:wide])
            images = images[wide:]
        self.held = images
        return end - first

    def counts(self):
        return self.passed, done(self.rep, self.elements, self.passed), whole_copies(self.one, self.passed)
