"""What the cheapest tree of a list of entries costs, found by trying every way to make a segment; and when a table of values is valid.

Each tree that places the entries places, at each of its nodes, a segment of them, moved. So the least cost of a segment is the least
over its one entry, a vector, an index or a struct, whose copies are again segments.
"""
import trees


class Segments:
    """The segments of a list of entries, by their first entry and the one behind their last."""

    def __init__(self, entries):
        self.entries = entries
        self.number = len(entries)
        self.extents = {}

    def shape(self, i, j):
        """Kinds and displacements, these from the first entry on. Segments are alike where their shapes are equal."""
        first = self.entries[i][1]
        return tuple((kind.number, disp - first) for kind, disp in self.entries[i:j])

    def blocks(self, i, j, length):
        """The first entries of the blocks of a length that divides the segment's."""
        return range(i, j, length)

    def alike(self, i, j, length):
        shape = self.shape(i, i + length)
        return all(self.shape(at, at + length) == shape for at in self.blocks(i, j, length))

    def steps(self, i, j, length):
        """How far each block's first displacement lies from that of the block before."""
        firsts = [self.entries[at][1] for at in self.blocks(i, j, length)]
        return {after - before for before, after in zip(firsts, firsts[1:])}

    def even(self, i, j, length):
        return len(self.steps(i, j, length)) <= 1 and self.alike(i, j, length)

    def stacked(self, i, j, length):
        if (i, i + length) not in self.extents:
            self.extents[i, i + length] = trees.natural_extent(self.entries[i : i + length])
        return self.steps(i, j, length) <= {self.extents[i, i + length]} and self.alike(i, j, length)

    def all(self):
        """All segments, the shorter ones first, and then by their first entry."""
        for length in range(1, self.number + 1):
            for i in range(self.number - length + 1):
                yield i, i + length


def divisors(number):
    return [d for d in range(1, number + 1) if number % d == 0]


def least_run(segments, values, i, j, lengths):
    """The least value of a first block over the splits into stacked blocks of these lengths, or None where there is none."""
    found = [values[i, i + length] for length in lengths if segments.stacked(i, j, length)]
    return min(found, default=None)


class Bound:
    """What one node over the values of shorter segments, or one more node over a run of this one, may cost at most."""

    def __init__(self, segments, weights, values):
        self.segments = segments
        self.weights = weights
        self.values = values
        self.runs = {}  # the least run of each segment
        self.rests = {}  # the least sum over the parts that a segment may be cut into
        self.last = {}  # the same with two or more parts

    def proper_run(self, i, j):
        return least_run(self.segments, self.values, i, j, divisors(j - i)[:-1])

    def candidates(self, i, j, whole):
        """All that bounds the segment's value. The whole is its own value, or None where that isn't known yet."""
        leaf, vector, index, place, group, part = self.weights
        if j - i == 1:
            yield leaf
        own = self.proper_run(i, j)
        self.runs[i, j] = min(value for value in (own, whole) if value is not None) if (own, whole) != (None, None) else None
        for length in divisors(j - i):
            value = self.runs[i, i + length]
            if value is None or not self.segments.alike(i, j, length):
                continue
            yield index + (j - i) // length * place + value
            if self.segments.even(i, j, length):
                yield vector + value
        cuts = [part + self.runs[i, k] + self.rests[k, j] for k in range(i + 1, j)]
        self.last[i, j] = min(cuts, default=None)
        sums = [] if self.runs[i, j] is None else [part + self.runs[i, j]]
        yield from (group + value for value in cuts + sums)

    def settle(self, i, j, value):
        """Takes the segment's value, so that longer ones may use it."""
        part = self.weights[5]
        self.values[i, j] = value
        own = self.runs[i, j]
        self.runs[i, j] = value if own is None else min(own, value)
        cuts = self.last[i, j]
        self.rests[i, j] = part + self.runs[i, j] if cuts is None else min(cuts, part + self.runs[i, j])


def least_costs(entries, weights):
    """The least cost of a tree of each segment."""
    segments = Segments(entries)
    values = {}
    bound = Bound(segments, weights, values)
    for i, j in segments.all():
        bound.settle(i, j, min(bound.candidates(i, j, None)))
    return values


def least_cost(entries, weights):
    return least_costs(entries, weights)[0, len(entries)]


def first_failing(entries, weights, listed):
    """The first segment, shorter ones first, whose value is above what one node could cost over the listed values, or None."""
    segments = Segments(entries)
    values = {segment: listed.get(segment, 0) for segment in segments.all()}
    bound = Bound(segments, weights, values)
    for i, j in segments.all():
        value = values[i, j]
        if any(value > other for other in bound.candidates(i, j, value)):
            return i, j
        bound.settle(i, j, value)
    return None
