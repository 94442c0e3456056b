"""Certificates of least trees: their text, the four rules, what `check` says of a text, and what `migrate` makes of it."""
import tables
import trees
from kinds import PRINTED, named_number

MOST_ENTRIES = 1_024
HEAVIEST = 1_000_000
FARTHEST = 1 << 60
MOST = (1 << 64) - 1


class Fault(Exception):
    """Why a text shows nothing, as the line that `check` writes."""


class Certificate:
    """What a text says. The values are those of the lines, by their segments."""

    def __init__(self):
        self.version = None
        self.weights = None
        self.entries = []
        self.base = None
        self.tree = None
        self.cost = None
        self.values = {}


class Reader:
    """Reads a text line by line. The line that is wrong, or missing, is told by its number."""

    def __init__(self, text):
        *self.lines, self.tail = text.decode("latin-1").split("\n")
        self.at = 0

    def wrong(self):
        return Fault(f"not shown syntax {self.at}")

    def line(self):
        """The next line. Its number counts from then on, also where it is missing or has no end."""
        self.at += 1
        if self.at > len(self.lines):
            raise self.wrong()
        return self.lines[self.at - 1]

    def words(self, first, number):
        """The words of the next line, behind its first one."""
        words = self.line().split(" ")
        if words[0] != first or len(words) != 1 + number:
            raise self.wrong()
        return words[1:]

    def number(self, word, least, greatest):
        value = named_number(word, least, greatest)
        if value is None:
            raise self.wrong()
        return value

    def head(self, found, versions):
        if self.line() not in versions:
            raise self.wrong()
        found.version = int(self.lines[0][-1])
        found.weights = tuple(self.number(word, 0, HEAVIEST) for word in self.words("weights", 6))
        for _ in range(self.number(*self.words("map", 1), 0, MOST_ENTRIES)):
            kind, disp = self.words("entry", 2)
            if kind not in PRINTED:
                raise self.wrong()
            disp = self.number(disp, -FARTHEST, FARTHEST)
            if abs(disp + PRINTED[kind].size) > FARTHEST:
                raise self.wrong()
            found.entries.append((PRINTED[kind], disp))

    def tree(self):
        line = self.line()
        if line == "tree empty":
            return None
        if not line.startswith("tree "):
            raise self.wrong()
        try:
            return trees.read(line[len("tree ") :])
        except trees.BadText:
            raise self.wrong() from None

    def table(self, found):
        """The lines of values, and the last one."""
        segments = tables.Segments(found.entries)
        firsts = first_of_shape(segments) if found.version == 3 else None
        before = (0, -1)
        word = "low" if found.version == 2 else "class"
        while (line := self.line()) != "end":
            words = line.split(" ")
            if words[0] != word or len(words) != 4:
                raise self.wrong()
            i, j = (self.number(it, 0, len(found.entries)) for it in words[1:3])
            value = self.number(words[3], 0, MOST)
            if i >= j or (j - i, i) <= before:
                raise self.wrong()
            if firsts and firsts[segments.shape(i, j)] != i:
                raise self.wrong()
            before = (j - i, i)
            found.values[i, j] = value
        if self.at != len(self.lines) or self.tail:
            self.at += 1
            raise self.wrong()


def first_of_shape(segments):
    """For each shape of a segment the least first entry of one that has it."""
    firsts = {}
    for i, j in segments.all():
        firsts.setdefault(segments.shape(i, j), i)
    return firsts


def read(text, versions=("dtcert 2", "dtcert 3")):
    reader = Reader(text)
    found = Certificate()
    reader.head(found, versions)
    found.base = reader.number(*reader.words("base", 1), -(1 << 63), (1 << 63) - 1)
    found.tree = reader.tree()
    found.cost = reader.number(*reader.words("cost", 1), 0, MOST)
    reader.table(found)
    return found


def places(node):
    """The entries that a tree places, one by one, so that a large tree costs no more than is asked of it."""
    if node[0] == "leaf":
        yield node[1], 0
        return
    if node[0] == "vector":
        _, count, block, stride, child = node
        parts = [(count, block, stride, child)]
    elif node[0] == "index":
        _, block, at, child = node
        parts = [(at, block, None, child)]
    else:
        parts = [([disp], block, None, child) for block, disp, child in node[1]]
    for at, block, stride, child in parts:
        extent = trees.reach(child, lambda span: False).natural
        firsts = (i * stride for i in range(at)) if stride is not None else at
        for first in firsts:
            for j in range(block):
                for kind, disp in places(child):
                    yield kind, first + j * extent + disp


def difference(node, base, entries):
    """The first number where tree and entries differ, or one ends; None where they are the same."""
    at = 0
    if node is not None:
        for kind, disp in places(node):
            if at == len(entries) or entries[at] != (kind, base + disp):
                return at
            at += 1
    return at if at < len(entries) else None


def values_of_segments(found):
    """The value of each segment that has one: its own line's, or that of the class it belongs to."""
    if found.version == 2:
        return found.values
    segments = tables.Segments(found.entries)
    by_shape = {segments.shape(i, j): value for (i, j), value in found.values.items()}
    return {(i, j): by_shape[segments.shape(i, j)] for i, j in segments.all() if segments.shape(i, j) in by_shape}


def judged(found):
    """The cost, where the certificate holds."""
    at = difference(found.tree, found.base, found.entries)
    if at is not None:
        raise Fault(f"not shown map {at}")
    cost = 0 if found.tree is None else trees.cost(found.tree, found.weights)
    if cost != found.cost:
        raise Fault(f"not shown cost {found.cost} {cost}")
    values = values_of_segments(found)
    failing = tables.first_failing(found.entries, found.weights, values)
    if failing:
        raise Fault(f"not shown low {failing[0]} {failing[1]}")
    whole = values.get((0, len(found.entries)), 0)
    if whole < cost:
        raise Fault(f"not shown root {whole} {cost}")
    return cost


def verdict(text):
    """The line of `check`, without its end, and whether the text shows a least tree."""
    try:
        return f"least {judged(read(text))}", True
    except Fault as fault:
        return str(fault), False


def text_of(found):
    """The text of a certificate in version 3."""
    segments = tables.Segments(found.entries)
    greatest = {}
    for i, j in segments.all():
        shape = segments.shape(i, j)
        first, value = greatest.get(shape, ((i, j), 0))
        greatest[shape] = (first, max(value, found.values.get((i, j), 0)))
    return "".join(
        line + "\n"
        for line in [
            "dtcert 3",
            "weights " + " ".join(map(str, found.weights)),
            f"map {len(found.entries)}",
            *(f"entry {kind.name} {disp}" for kind, disp in found.entries),
            f"base {found.base}",
            "tree " + ("empty" if found.tree is None else trees.text_of(found.tree)),
            f"cost {found.cost}",
            *(f"class {i} {j} {value}" for (i, j), value in greatest.values() if value),
            "end",
        ]
    ).encode()


def migration_fault(text, came):
    """Why what `migrate` wrote of a text, and whether it ended as done, isn't what it has to be; None where it is."""
    written, is_done = came
    if text.startswith(b"dtcert 1\n"):
        reader, wanted = Reader(text), Certificate()
        try:
            reader.head(wanted, ("dtcert 1",))
        except Fault as fault:
            return None if came == (f"{fault}\n".encode(), False) else str(fault)
        if not is_done or not written.startswith(b"dtcert 3\n") or not verdict(written)[1]:
            return "a certificate of version 3"
        made = read(written)
        same = made.weights == wanted.weights and made.entries == wanted.entries
        return None if same else "a certificate of these weights and entries"
    line, shown = verdict(text)
    if not shown:
        return None if came == (f"{line}\n".encode(), False) else line
    found = read(text)
    wanted = text if found.version == 3 else text_of(found)
    return None if came == (wanted, True) else wanted.decode()
