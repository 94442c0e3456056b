"""Datatypes as plain lists of entries with marks, and what every constructor gives (MPI 4.1, section 5.1).

An entry is a pair (kind, displacement). Of a type with too many entries to be listed only the sums, least and greatest numbers are
known; wherever the list is there, they are compared with it.
"""
import functools
import itertools

FARTHEST = 1 << 60
DEEPEST = 64
HEAVIEST = 65_536
LISTED = 100_000  # entries of a type, or elements of an operation


class Refused(Exception):
    """A refusal by its number."""

    def __init__(self, number):
        super().__init__(number)
        self.number = number


class Unlistable(Exception):
    """The answer needs a longer list than this model makes."""


class Offsets:
    """Where copies are placed: how many they are, the least and the greatest place, and all of them in their order."""

    def __init__(self, number, least, greatest, places):
        self.number = number
        self.least = least
        self.greatest = greatest
        self.places = places

    @staticmethod
    def of_rows(count, block, far, near):
        """At i*far + j*near, for i below count, and for each of these j below block."""
        if count == 0 or block == 0:
            return Offsets(0, 0, 0, lambda: iter(()))
        corners = [i * far + j * near for i in (0, count - 1) for j in (0, block - 1)]
        return Offsets(
            count * block, min(corners), max(corners), lambda: (i * far + j * near for i in range(count) for j in range(block))
        )

    @staticmethod
    def of_blocks(blocks, near):
        """At first + j*near, for each block (length, first) and each j below its length."""
        ends = [first + j * near for length, first in blocks if length for j in (0, length - 1)]
        number = sum(length for length, _ in blocks)
        return Offsets(
            number,
            min(ends, default=0),
            max(ends, default=0),
            lambda: (first + j * near for length, first in blocks for j in range(length)),
        )


class Datatype:
    """A typemap with marks, and the form that made it: a combiner, its arguments and its old types."""

    def __init__(self, parts, marks, combiner, arguments, olds, weight, depth):
        """The parts are pairs of Offsets and an old type, joined in order; for a kind, its one entry."""
        self.combiner = combiner
        self.arguments = arguments
        self.olds = olds
        self.marks = marks
        self.weight = weight
        self.depth = depth
        if combiner == "named":
            self.of_kind(arguments)
        else:
            self.of_parts(parts)
        if self.entries is not None:
            self.compare_with_list()

    def of_kind(self, kind):
        self.number, self.size, self.ext_size, self.align = 1, kind.size, kind.ext_size, kind.size
        self.true_lb, self.true_ub = 0, kind.size
        self.entries = [(kind, 0)]

    def of_parts(self, parts):
        held = [(offsets, old) for offsets, old in parts if offsets.number and old.number]
        self.number = sum(offsets.number * old.number for offsets, old in held)
        self.size = sum(offsets.number * old.size for offsets, old in held)
        self.ext_size = sum(offsets.number * old.ext_size for offsets, old in held)
        self.align = max((old.align for _, old in held), default=1)
        self.true_lb = min((offsets.least + old.true_lb for offsets, old in held), default=0)
        self.true_ub = max((offsets.greatest + old.true_ub for offsets, old in held), default=0)
        self.entries = None
        if self.number <= LISTED:
            self.entries = [(kind, at + disp) for offsets, old in held for at in offsets.places() for kind, disp in old.entries]

    def compare_with_list(self):
        """That the numbers are those of the list."""
        assert self.number == len(self.entries)
        assert self.size == sum(kind.size for kind, _ in self.entries)
        assert self.ext_size == sum(kind.ext_size for kind, _ in self.entries)
        assert self.align == max((kind.size for kind, _ in self.entries), default=1)
        assert self.true_lb == min((disp for _, disp in self.entries), default=0)
        assert self.true_ub == max((disp + kind.size for kind, disp in self.entries), default=0)

    @property
    def natural_ub(self):
        """The upper bound that the entries have without marks: the extent is rounded up to the alignment."""
        return self.true_ub + (self.true_lb - self.true_ub) % self.align

    @property
    def lb(self):
        return self.marks[0] if self.marks else self.true_lb

    @property
    def ub(self):
        return self.marks[1] if self.marks else self.natural_ub

    @property
    def extent(self):
        return self.ub - self.lb

    @property
    def is_basic(self):
        return self.combiner == "named"

    def packed_size(self, rep):
        return self.size if rep == "native" else self.ext_size

    def listed(self):
        if self.entries is None:
            raise Unlistable
        return self.entries


@functools.lru_cache(maxsize=None)
def named(kind):
    return Datatype(None, None, "named", kind, [], 1, 1)


def placed_marks(parts):
    """The marks of placed copies: the least lower and the greatest upper one, of the copies that have marks."""
    marked = [(offsets, old.marks) for offsets, old in parts if offsets.number and old.marks]
    if not marked:
        return None
    return (min(at.least + marks[0] for at, marks in marked), max(at.greatest + marks[1] for at, marks in marked))


def finished(made):
    """The type, where it is in range, not too deep and not too heavy."""
    bounds = (made.lb, made.ub, made.true_lb, made.true_ub, made.size)
    if any(abs(bound) > FARTHEST for bound in bounds):
        raise Refused(10)
    if made.depth > DEEPEST:
        raise Refused(11)
    if made.weight > HEAVIEST:
        raise Refused(12)
    return made


def over(old, offsets, items, combiner, arguments):
    """The type that places one old type, with its marks."""
    parts = [(offsets, old)]
    return finished(
        Datatype(parts, placed_marks(parts), combiner, arguments, [old], 1 + items + old.weight, 1 + old.depth)
    )


def want_counts(*counts):
    if any(count < 0 for count in counts):
        raise Refused(9)


def contiguous(count, old):
    want_counts(count)
    return over(old, Offsets.of_rows(count, 1, old.extent, 0), 1, "contiguous", (count,))


def vector(count, block, stride, old):
    want_counts(count, block)
    return over(old, Offsets.of_rows(count, block, stride * old.extent, old.extent), 1, "vector", (count, block, stride))


def hvector(count, block, stride, old):
    want_counts(count, block)
    return over(old, Offsets.of_rows(count, block, stride, old.extent), 1, "hvector", (count, block, stride))


def indexed(blocks, old):
    want_counts(*(length for length, _ in blocks))
    at = [(length, disp * old.extent) for length, disp in blocks]
    return over(old, Offsets.of_blocks(at, old.extent), len(blocks), "indexed", tuple(blocks))


def hindexed(blocks, old):
    want_counts(*(length for length, _ in blocks))
    return over(old, Offsets.of_blocks(blocks, old.extent), len(blocks), "hindexed", tuple(blocks))


def indexed_block(block, disps, old):
    want_counts(block)
    at = [(block, disp * old.extent) for disp in disps]
    return over(old, Offsets.of_blocks(at, old.extent), len(disps), "indexed_block", (block, tuple(disps)))


def hindexed_block(block, disps, old):
    want_counts(block)
    at = [(block, disp) for disp in disps]
    return over(old, Offsets.of_blocks(at, old.extent), len(disps), "hindexed_block", (block, tuple(disps)))


def structure(members):
    """Members are triples: block length, displacement, old type."""
    want_counts(*(length for length, _, _ in members))
    parts = [(Offsets.of_blocks([(length, disp)], old.extent), old) for length, disp, old in members]
    olds = [old for _, _, old in members]
    weight = 1 + len(members) + sum(old.weight for old in olds)
    depth = 1 + max((old.depth for old in olds), default=0)
    arguments = tuple((length, disp) for length, disp, _ in members)
    return finished(Datatype(parts, placed_marks(parts), "struct", arguments, olds, weight, depth))


def once(old, marks, combiner, arguments):
    parts = [(Offsets.of_rows(1, 1, 0, 0), old)]
    return finished(Datatype(parts, marks, combiner, arguments, [old], 1 + old.weight, 1 + old.depth))


def resized(lb, extent, old):
    return once(old, (lb, lb + extent), "resized", (lb, extent))


def dup(old):
    return once(old, old.marks, "dup", ())


class Chosen:
    """The indices of one dimension that are chosen, in rising order: their number, the first, the last, and all of them."""

    def __init__(self, number, first, last, indices):
        self.number = number
        self.first = first
        self.last = last
        self.indices = indices


def chosen_of_process(gsize, darg, psize, r):
    """Those whose block, of darg indices, belongs to process r of psize."""

    def by_blocks():
        return (g for first in range(r * darg, gsize, psize * darg) for g in range(first, min(first + darg, gsize)))

    turns, rest = divmod(gsize, darg * psize)
    tail = min(max(rest - r * darg, 0), darg)
    number = turns * darg + tail
    last = (turns * psize + r) * darg + tail - 1 if tail else ((turns - 1) * psize + r + 1) * darg - 1
    if gsize <= 2_000:
        wanted = [g for g in range(gsize) if g // darg % psize == r]
        assert wanted == list(by_blocks()) and number == len(wanted)
        assert not wanted or (wanted[0], wanted[-1]) == (r * darg, last)
    return Chosen(number, r * darg, last, by_blocks)


def array(sizes, chosen, order, old, combiner, arguments):
    """The elements of the array whose indices are all chosen. In C order the last index runs fastest, in Fortran order the first."""
    steps = []
    step = 1
    for size in reversed(sizes) if order == "c" else sizes:
        steps.append(step)
        step *= size
    if order == "c":
        steps.reverse()
    number = 1
    for dimension in chosen:
        number *= dimension.number
    ends = [sum(at * step for at, step in zip(corner, steps)) * old.extent for corner in ends_of(chosen)] if number else [0]

    def places():
        lists = [list(dimension.indices()) for dimension in chosen]
        if order == "c":
            tuples = itertools.product(*lists)
        else:
            tuples = (found[::-1] for found in itertools.product(*reversed(lists)))
        return (sum(at * step for at, step in zip(found, steps)) * old.extent for found in tuples)

    offsets = Offsets(number, min(ends), max(ends), places)
    marks = (0, step * old.extent)
    dimensions = len(sizes)
    return finished(
        Datatype([(offsets, old)], marks, combiner, arguments, [old], 1 + dimensions + old.weight, dimensions + old.depth)
    )


def ends_of(chosen):
    """The tuples of all first and of all last indices: the least and the greatest linear index."""
    return [dimension.first for dimension in chosen], [dimension.last for dimension in chosen]


def subarray(order, dims, old):
    """Dimensions are triples: size, subsize, start."""
    if not dims or any(not (1 <= sub <= size and 0 <= start <= size - sub) for size, sub, start in dims):
        raise Refused(9)
    chosen = [Chosen(sub, start, start + sub - 1, lambda sub=sub, start=start: range(start, start + sub)) for _, sub, start in dims]
    return array([size for size, _, _ in dims], chosen, order, old, "subarray", (order, tuple(dims)))


def darray_is_bad(size, rank, dims):
    product = 1
    for _, _, _, psize in dims:
        product *= psize
    return (
        not dims
        or size < 1
        or any(gsize < 1 or psize < 1 or (darg is not None and darg < 1) for gsize, _, darg, psize in dims)
        or product != size
        or not 0 <= rank < size
        or any(dist == "block" and darg is not None and darg * psize < gsize for gsize, dist, darg, psize in dims)
        or any(dist == "none" and psize != 1 for _, dist, _, psize in dims)
    )


def darray(size, rank, order, dims, old):
    """Dimensions are quadruples: size, distribution, its argument or None, number of processes. Ranks fill the grid row by row."""
    if darray_is_bad(size, rank, dims):
        raise Refused(9)
    chosen = []
    later = size
    for gsize, dist, darg, psize in dims:
        later //= psize
        r = rank // later % psize
        if dist == "none":
            chosen.append(Chosen(gsize, 0, gsize - 1, lambda gsize=gsize: range(gsize)))
            continue
        if darg is None:
            darg = -(-gsize // psize) if dist == "block" else 1
        chosen.append(chosen_of_process(gsize, darg, psize, r))
    return array([gsize for gsize, _, _, _ in dims], chosen, order, old, "darray", (size, rank, order, tuple(dims)))


ORDERS = {"c": 0, "fortran": 1}
DISTRIBUTIONS = {"block": 1, "cyclic": 2, "none": 3}


def contents(made):
    """The integers and the addresses that made the type (MPI 4.1, section 5.1.13)."""
    given = made.arguments
    combiner = made.combiner
    if combiner in ("named", "dup"):
        return [], []
    if combiner in ("contiguous", "vector"):
        return list(given), []
    if combiner == "hvector":
        return list(given[:2]), [given[2]]
    if combiner == "indexed":
        return [len(given), *(length for length, _ in given), *(disp for _, disp in given)], []
    if combiner in ("hindexed", "struct"):
        return [len(given), *(length for length, _ in given)], [disp for _, disp in given]
    if combiner == "indexed_block":
        return [len(given[1]), given[0], *given[1]], []
    if combiner == "hindexed_block":
        return [len(given[1]), given[0]], list(given[1])
    if combiner == "resized":
        return [], list(given)
    if combiner == "subarray":
        order, dims = given
        return [len(dims), *(dim[column] for column in range(3) for dim in dims), ORDERS[order]], []
    size, rank, order, dims = given
    columns = (
        [gsize for gsize, _, _, _ in dims],
        [DISTRIBUTIONS[dist] for _, dist, _, _ in dims],
        [-1 if darg is None else darg for _, _, darg, _ in dims],
        [psize for _, _, _, psize in dims],
    )
    return [size, rank, len(dims), *itertools.chain(*columns), ORDERS[order]], []
