"""Draws bounds: as brackets above a strip, as flags in the rows of a matrix, and beside rows that are drawn to scale."""
import svg
import words

SIZE = 9.5
BRACKET = 24  # the height of a bracket with its words


def bracket(grid, low, high, base, name, dash, limit=0):
    """A line from bound to bound with ends, on the line `base`, and its words above it, which begin further left where they'd pass the limit."""
    left, right = (grid.across(at - grid.start) for at in (low, high))
    more = {"stroke_width": 1.2, **({"stroke_dasharray": "4 2"} if dash else {})}
    yield svg.line(left, base, right, base, **more)
    for at in (left, right):
        yield svg.line(at, base - 4, at, base + 4, stroke_width=1.6)
    if high < low:  # a negative extent points to the left
        yield svg.path(f"M{svg.number(right + 7)} {svg.number(base - 3.5)}l-6 3.5l6 3.5", fill="none", stroke=svg.INK, stroke_width=1.2)
    if name:
        begin = name_begin(grid, min(left, right), name, limit)
        yield svg.rect(begin - 1, base - 15, svg.width_of(name, SIZE) + 2, 12, fill="#ffffff")
        yield svg.text(begin, base - 6, SIZE, name)


def name_begin(grid, left, name, limit):
    """Where the words of a bracket begin."""
    return max(min(left + 4, limit - svg.width_of(name, SIZE)), grid.left + 4)


def copy_bracket(grid, number, bounds, base):
    """The bracket of a further copy, with its number where it has room."""
    low, high = bounds
    yield from bracket(grid, low, high, base, "", False)
    width = abs(high - low) * grid.cell
    name = f"copy {number}"
    if svg.width_of(name, 8) + 8 < width:
        middle = grid.across((low + high) / 2 - grid.start)
        wide = svg.width_of(name, 8) + 4
        yield svg.rect(middle - wide / 2, base - 5, wide, 10, fill="#ffffff")
        yield svg.text(middle, base + 3, 8, name, text_anchor="middle")


def over_strip(grid, layout, top, bottom, limit):
    """The brackets of bounds and true bounds, with lines down to the strip, and what height they take."""
    pieces = []
    base = top + 18
    if layout.copies:
        pieces += guides(grid, layout.copies[0], base, bottom, None)
        pieces += bracket(grid, *layout.copies[0], base, words.bounds(layout), False, limit)
        for number, bounds in enumerate(layout.copies[1:], 1):
            pieces += copy_bracket(grid, number, bounds, base)
    if layout.copies and layout.info["elements"]:
        true = [layout.info[key] + layout.origin for key in ("true_lb", "true_ub")]
        pieces += guides(grid, true, base + BRACKET, bottom, "2 2")
        pieces += bracket(grid, *true, base + BRACKET, words.true_bounds(layout), True, limit)
    return pieces


def guides(grid, bounds, top, bottom, dash):
    more = {"stroke": svg.SOFT, "stroke_width": 0.8, **({"stroke_dasharray": dash} if dash else {})}
    places = [grid.across(at - grid.start) for at in bounds]
    return [svg.line(place, top, place, bottom, **more) for place in places]


def strip_height(layout):
    """What height the brackets take."""
    if not layout.copies:
        return 0
    return BRACKET * (2 if layout.info["elements"] else 1)


def flags(grid, layout):
    """The names of the bounds of each place: (row, column, is an end) and the words there."""
    found = {}

    def flag(at, is_end, name):
        row, column = grid.place(at, is_end)
        if 0 <= row < grid.rows:
            found.setdefault((row, column, is_end), []).append(name)

    for number, (low, high) in enumerate(layout.copies):
        if number == 0:
            flag(low, False, f"lb {low}")
        elif high != low:
            flag(low, False, f"copy {number}")
        if number in (0, len(layout.copies) - 1):
            flag(high, True, f"ub {high}")
    if layout.copies and layout.info["elements"]:
        low, high = (layout.info[key] + layout.origin for key in ("true_lb", "true_ub"))
        flag(low, False, f"true lb {low}")
        flag(high, True, f"true ub {high}")
    return {key: ", ".join(names) for key, names in sorted(found.items())}


def levels(grid, found):
    """The level of each flag, that those of one row don't meet, and the room that each row needs above it."""
    level, room, taken = {}, [0] * grid.rows, {}
    for (row, column, is_end), name in found.items():
        width, at = svg.width_of(name, 8) + 4, grid.across(column)
        span = (at - width, at) if is_end else (at, at + width)
        if span[0] < 0:
            span = (0, width)
        chosen = 0
        while any(span[0] < high and low < span[1] for low, high in taken.get((row, chosen), [])):
            chosen += 1
        taken.setdefault((row, chosen), []).append(span)
        level[row, column, is_end] = chosen, span
        room[row] = max(room[row], 11 * chosen + 12)
    return level, room


def in_rows(grid, found, level, lift):
    """The flags: a thick line at each bound, and its words above the row. In the first row they stand above the columns' numbers."""
    for key, name in found.items():
        row, column, is_end = key
        at, top = grid.across(column), grid.tops[row]
        chosen, span = level[key]
        base = top - 4 - 11 * chosen - (lift if row == 0 else 0)
        yield svg.line(at, base - 1 if chosen or row == 0 else top - 4, at, top + grid.heights[row], stroke_width=2.6)
        yield svg.text(span[1] - 2 if is_end else span[0] + 2, base, 8, name, text_anchor="end" if is_end else "start")


def beside(grid, found):
    """The flags of rows that are drawn to scale: a line in the row, and the words at the right."""
    last = -20
    for (row, column, _), name in found.items():
        at, top, height = grid.across(column), grid.tops[row], grid.heights[row]
        yield svg.line(at, top - 1, at, top + height + 1, stroke_width=2)
        base = max(top + height / 2 + 3, last + 10)
        last = base
        yield svg.line(grid.right() + 1, top + height / 2, grid.right() + 6, base - 3, stroke=svg.SOFT, stroke_width=0.7)
        yield svg.text(grid.right() + 8, base, 8, name)
