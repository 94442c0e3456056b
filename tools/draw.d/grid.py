"""Where bytes stand on the page: one strip, or rows of cells; and which boxes share bytes."""
import collections

ONE_ROW = 64  # so many bytes stand in one strip
MANY = 2000  # more cells than that are drawn to scale
WIDEST, LEAST = 26, 4  # points that a cell has
BESIDE = 100  # the room for the names of bounds beside rows that are drawn to scale
ROWS = 400
LANES = 4  # boxes with common bytes stand one above another, so many at most

# an element on the page: its bytes, its kind, its number in packing order, and whether it is `set`, `held` in part or still `open`
Box = collections.namedtuple("Box", "low high kind number state")
# what of a box stands in one row: its columns from `left` to `right`
Part = collections.namedtuple("Part", "row left right box lane")


class TooTall(Exception):
    """A picture of more rows than anyone looks at."""


class Grid:
    """The bytes from `first` to `last` in rows of `width`, in a room of so many points."""

    def __init__(self, first, last, width, room):
        span = max(last - first, 0)
        self.first, self.last, self.start = first, last, first
        if width:
            self.width, self.start = width, first // width * width
        elif ONE_ROW < span <= MANY:
            self.width, self.start = 32, first // 32 * 32
        else:
            self.width = max(span, 1)
        self.rows = max(1, -(-(last - self.start) // self.width))
        if self.rows > ROWS:
            raise TooTall(f"{self.rows} rows aren't drawn, at most {ROWS}: give a greater --width")
        self.left = 0
        if self.rows > 1:
            self.left = max(len(str(self.start)), len(str(self.start + self.rows * self.width))) * 5.5 + 8
        self.cell = min(WIDEST, (room - self.left) / self.width)
        self.is_scaled = self.rows * self.width > MANY or self.cell < LEAST
        if self.is_scaled and self.rows > 1:
            self.cell = (room - self.left - BESIDE) / self.width
        self.tops = self.heights = ()

    def move(self, left, room):
        """Makes place at the left, for words beside the rows."""
        self.left = left
        self.cell = min(WIDEST, (room - left) / self.width)
        self.is_scaled = self.is_scaled or self.cell < LEAST

    def across(self, column):
        return self.left + column * self.cell

    def right(self):
        return self.across(self.width)

    def parts(self, low, high):
        """The rows and columns of the bytes from low to high, those that are shown."""
        low, high = max(low, self.start), min(high, self.start + self.rows * self.width)
        while low < high:
            row, column = divmod(low - self.start, self.width)
            end = min(high, self.start + (row + 1) * self.width)
            yield row, column, column + end - low
            low = end

    def place(self, at, is_end):
        """The row and the column of a boundary. An end stands at the end of a row, not at the beginning of the next one."""
        row, column = divmod(at - self.start, self.width)
        if (is_end and column == 0 and row > 0) or row >= self.rows:
            row, column = row - 1, column + self.width
        return row, column


def laned(grid, boxes):
    """The parts of boxes, each on a lane where it meets no other, and how many boxes found none."""
    by_row = collections.defaultdict(list)
    for box in boxes:
        for row, left, right in grid.parts(box.low, box.high):
            by_row[row].append((left, box.number, right, box))
    found, beneath = [], set()
    for row in sorted(by_row):
        ends = []
        for left, number, right, box in sorted(by_row[row], key=lambda each: each[:2]):
            lane = next((lane for lane, end in enumerate(ends) if end <= left), len(ends))
            if lane == LANES:
                beneath.add(number)
                continue
            ends[lane : lane + 1] = [right]
            found.append(Part(row, left, right, box, lane))
    return found, len(beneath)


def overlaps(boxes):
    """The bytes that two or more boxes hold, as spans."""
    steps = collections.Counter()
    for box in boxes:
        steps[box.low] += 1
        steps[box.high] -= 1
    found, depth, begin = [], 0, None
    for at in sorted(steps):
        depth += steps[at]
        if depth > 1 and begin is None:
            begin = at
        elif depth <= 1 and begin is not None:
            found.append((begin, at))
            begin = None
    return found


def runs(boxes):
    """Boxes of one kind and state that lie one behind another, as one box each, with their first and last numbers."""
    found = []
    for box in boxes:
        last = found[-1][0] if found else None
        if last and (last.kind, last.state, last.high) == (box.kind, box.state, box.low):
            found[-1] = (last._replace(high=box.high), box.number)
        else:
            found.append((box, box.number))
    return found
