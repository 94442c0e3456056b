"""Datatype trees: their text, what they place and cost, what is least, and the datatype that is built from one.

A node is a tuple: ("leaf", kind), ("vector", count, block, stride, node), ("index", block, places, node) or ("struct", parts), where
a part is (block, displacement, node). The copies in a block lie one natural extent apart.
"""
import datatypes
from kinds import PRINTED, named_number

MOST = 1_024  # counts, block lengths, lengths of lists
FARTHEST = 1 << 61  # strides, places, displacements
WIDEST = 1 << 80  # true bounds of a subtree
DEEPEST = 64
LARGEST = 131_072  # nodes, places and parts


class BadText(Exception):
    """No spelling of a tree."""


class Reader:
    """Reads the words of a tree from left to right."""

    def __init__(self, text):
        self.words = text.split(" ")
        self.at = 0
        self.used = 0

    def word(self):
        if self.at == len(self.words):
            raise BadText
        self.at += 1
        return self.words[self.at - 1]

    def number(self, least, greatest):
        value = named_number(self.word(), least, greatest)
        if value is None:
            raise BadText
        return value

    def use(self, number):
        self.used += number
        if self.used > LARGEST:
            raise BadText

    def node(self, level):
        if level > DEEPEST:
            raise BadText
        self.use(1)
        word = self.word()
        if word == "leaf":
            kind = PRINTED.get(self.word())
            if kind is None:
                raise BadText
            return ("leaf", kind)
        if word == "vector":
            count, block = self.number(1, MOST), self.number(1, MOST)
            stride = self.number(-FARTHEST, FARTHEST)
            return ("vector", count, block, stride, self.node(level + 1))
        if word == "index":
            number, block = self.number(1, MOST), self.number(1, MOST)
            self.use(number)
            places = [self.number(-FARTHEST, FARTHEST) for _ in range(number)]
            return ("index", block, places, self.node(level + 1))
        if word == "struct":
            number = self.number(1, MOST)
            self.use(number)
            return ("struct", [self.part(level + 1) for _ in range(number)])
        raise BadText

    def part(self, level):
        return (self.number(1, MOST), self.number(-FARTHEST, FARTHEST), self.node(level))


def read(text):
    """The tree of a text, where the text is the spelling of one that follows the rule."""
    reader = Reader(text)
    node = reader.node(1)
    if reader.at != len(reader.words):
        raise BadText
    reach(node, lambda span: max(abs(span.least), abs(span.end)) > WIDEST)
    return node


class Span:
    """What is known of placed entries without a list: how many, the least displacement, the greatest end, the alignment."""

    def __init__(self, number, least, end, align):
        self.number = number
        self.least = least
        self.end = end
        self.align = align

    @property
    def natural(self):
        wide = self.end - self.least
        return wide + -wide % self.align

    def blocks_at(self, block, places):
        """The span of a block of copies at each of these places, of which the least and the greatest are enough, and their number."""
        number, least, greatest = places
        ends = [at + j * self.natural for at in (least, greatest) for j in (0, block - 1)]
        return Span(number * block * self.number, min(ends) + self.least, max(ends) + self.end, self.align)


def reach(node, refuses):
    """The span of what a node places. Each subtree's is shown to a test that may refuse it."""
    if node[0] == "leaf":
        span = Span(1, 0, node[1].size, node[1].size)
    elif node[0] == "vector":
        _, count, block, stride, child = node
        last = (count - 1) * stride
        span = reach(child, refuses).blocks_at(block, (count, min(0, last), max(0, last)))
    elif node[0] == "index":
        _, block, places, child = node
        span = reach(child, refuses).blocks_at(block, (len(places), min(places), max(places)))
    else:
        spans = [reach(child, refuses).blocks_at(block, (1, disp, disp)) for block, disp, child in node[1]]
        span = Span(
            sum(part.number for part in spans),
            min(part.least for part in spans),
            max(part.end for part in spans),
            max(part.align for part in spans),
        )
    if refuses(span):
        raise BadText
    return span


def elements(node):
    """How many entries a tree places."""
    return reach(node, lambda span: False).number


def natural_extent(entries):
    """The extent that entries have without marks."""
    least = min(disp for _, disp in entries)
    wide = max(disp + kind.size for kind, disp in entries) - least
    return wide + -wide % max(kind.size for kind, _ in entries)


def shifted(entries, by):
    return [(kind, disp + by) for kind, disp in entries]


def run(block, entries):
    """So many copies, one natural extent apart."""
    extent = natural_extent(entries)
    return [entry for j in range(block) for entry in shifted(entries, j * extent)]


def flat(node):
    """The entries that a tree places, in their order."""
    if node[0] == "leaf":
        return [(node[1], 0)]
    if node[0] == "vector":
        _, count, block, stride, child = node
        copies = run(block, flat(child))
        return [entry for i in range(count) for entry in shifted(copies, i * stride)]
    if node[0] == "index":
        _, block, places, child = node
        copies = run(block, flat(child))
        return [entry for at in places for entry in shifted(copies, at)]
    return [entry for block, disp, child in node[1] for entry in shifted(run(block, flat(child)), disp)]


def cost(node, weights):
    leaf, vector, index, place, group, part = weights
    if node[0] == "leaf":
        return leaf
    if node[0] == "vector":
        return vector + cost(node[4], weights)
    if node[0] == "index":
        return index + place * len(node[2]) + cost(node[3], weights)
    return group + sum(part + cost(child, weights) for _, _, child in node[1])


def is_tidy(node):
    """Each node places at least two copies, the first of them at 0; one block has stride 0; no struct is a part once in a struct."""
    if node[0] == "leaf":
        return True
    if node[0] == "vector":
        _, count, block, stride, child = node
        return count * block >= 2 and (count > 1 or stride == 0) and is_tidy(child)
    if node[0] == "index":
        _, block, places, child = node
        return len(places) * block >= 2 and places[0] == 0 and is_tidy(child)
    parts = node[1]
    return (
        parts[0][1] == 0
        and (len(parts) > 1 or parts[0][0] >= 2)
        and all(is_tidy(child) and not (block == 1 and child[0] == "struct") for block, _, child in parts)
    )


def text_of(node):
    if node[0] == "leaf":
        return f"leaf {node[1].name}"
    if node[0] == "vector":
        return f"vector {node[1]} {node[2]} {node[3]} {text_of(node[4])}"
    if node[0] == "index":
        return " ".join(["index", str(len(node[2])), str(node[1]), *map(str, node[2]), text_of(node[3])])
    return " ".join(["struct", str(len(node[1])), *(f"{block} {disp} {text_of(child)}" for block, disp, child in node[1])])


def subtree_type(node):
    """The datatype of a subtree: an hvector, an hindexed_block or a struct for each node."""
    if node[0] == "leaf":
        return datatypes.named(node[1])
    if node[0] == "vector":
        return datatypes.hvector(node[1], node[2], node[3], subtree_type(node[4]))
    if node[0] == "index":
        return datatypes.hindexed_block(node[1], node[2], subtree_type(node[3]))
    return datatypes.structure([(block, disp, subtree_type(child)) for block, disp, child in node[1]])


def built(base, node, marks):
    """The datatype of a base and a tree, or of no tree, with marks or without."""
    if node is None:
        made = datatypes.contiguous(0, datatypes.named(PRINTED["MPI_BYTE"]))
    else:
        made = datatypes.hindexed_block(1, [base], subtree_type(node))
    if marks:
        made = datatypes.resized(marks[0], marks[1] - marks[0], made)
    return made
