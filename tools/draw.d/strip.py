"""Draws boxes in the rows of a grid: cells, elements with numbers and letters, hatched overlaps, and words above and below the cells."""
import colours
import grid as grids
import svg

SMALL = 8.5  # the size of offsets
FEW = 400  # so many runs of elements have edges when they are drawn to scale
BAR = 480  # the height of all rows that are drawn to scale, about


def row_height(grid, lanes):
    """How high a row is."""
    if grid.is_scaled:
        return max(1.5, min(30, BAR / grid.rows))
    if lanes == 1:
        return 32 if grid.rows <= 16 else 22
    return 25 * lanes


def set_rows(grid, parts, top, above, below):
    """Sets the places of all rows, with room above each (a number for each row) and below; the first one has room for offsets."""
    lanes = [1] * grid.rows
    for part in parts:
        lanes[part.row] = max(lanes[part.row], part.lane + 1)
    grid.tops, grid.heights = [], []
    for row in range(grid.rows):
        grid.tops.append(top + above[row])
        grid.heights.append(row_height(grid, lanes[row]))
        top = grid.tops[-1] + grid.heights[-1] + below
    return top


def step_of(grid, widest):
    """Each so manyth column has its number, that they don't meet."""
    needed = widest * SMALL * svg.LETTER + 4
    step = 1
    while step * grid.cell < needed:
        step *= 2
    return step


def offsets(grid):
    """Numbers above the columns: offsets of bytes in one strip, columns above rows. To scale there are those of the ends alone."""
    base = grid.tops[0] - 3
    shown = grid.start if grid.rows == 1 else 0
    if grid.is_scaled:
        last = shown + grid.width
        yield svg.text(grid.left + 3, base, SMALL, str(shown), fill=svg.SOFT)
        yield svg.text(grid.right() - 3, base, SMALL, str(last), fill=svg.SOFT, text_anchor="end")
    elif grid.last > grid.first:
        step = step_of(grid, max(len(str(shown)), len(str(shown + grid.width - 1))))
        for column in range(grid.width):
            if (shown + column) % step == 0:
                yield svg.text(grid.across(column + 0.5), base, SMALL, str(shown + column), fill=svg.SOFT, text_anchor="middle")
    if grid.rows > 1:
        every = max(1, int(24 / max(grid.heights[0], 0.1) + 0.999)) if grid.is_scaled else 1
        for row in range(0, grid.rows, every):
            middle = grid.tops[row] + min(grid.heights[row] / 2 + 3, 19)
            label = str(grid.start + row * grid.width)
            yield svg.text(grid.left - 5, middle, SMALL, label, fill=svg.SOFT, text_anchor="end")


def cells(grid, within):
    """The ground of all rows: bytes within spans are grey, the others white; a point in each cell, which an element hides."""
    for row in range(grid.rows):
        left = max(grid.first - grid.start - row * grid.width, 0)
        right = min(grid.last - grid.start - row * grid.width, grid.width)
        if right > left:
            place = grid.across(left), grid.tops[row], (right - left) * grid.cell, grid.heights[row]
            yield svg.rect(*place, fill="#ffffff", stroke=svg.PALE, stroke_width=0.4 if grid.is_scaled else 1, stroke_dasharray="2 2")
    ground = []
    for low, high in within:
        for row, left, right in grid.parts(low, high):
            ground.append(svg.box(grid.across(left), grid.tops[row], (right - left) * grid.cell, grid.heights[row]))
    if ground:
        yield svg.path("".join(ground), fill="#e9e9e9", stroke="none")
    if not grid.is_scaled and grid.last > grid.first:
        yield from cell_points(grid)


def cell_points(grid):
    lines, points = [], []
    for row, left, right in grid.parts(grid.first, grid.last):
        height, top = grid.heights[row], grid.tops[row]
        for column in range(left, right):
            if column > left:
                lines.append(f"M{svg.number(grid.across(column))} {svg.number(top)}v{svg.number(height)}")
            points.append(f"M{svg.number(grid.across(column + 0.5))} {svg.number(top + height / 2)}h.01")
    if lines:
        yield svg.path("".join(lines), fill="none", stroke=svg.PALE, stroke_width=0.6)
    yield svg.path("".join(points), fill="none", stroke=svg.SOFT, stroke_width=2.2, stroke_linecap="round")


def lane_of(grid, part):
    """The top and the height of a part's lane."""
    height = grid.heights[part.row]
    if height > 32:
        return grid.tops[part.row] + 25 * part.lane, 25
    return grid.tops[part.row], height


def elements(grid, parts, hues):
    """The boxes of elements, without their words."""
    for part in parts:
        top, height = lane_of(grid, part)
        place = grid.across(part.left), top, (part.right - part.left) * grid.cell, height
        colour = hues[part.box.kind]
        if part.box.state == "set":
            yield svg.rect(*place, fill=colour, stroke=svg.INK)
        else:
            yield svg.rect(*place, fill="#ffffff", stroke="none")
            yield svg.rect(*place, fill=colour, fill_opacity=0.18, stroke=svg.INK, stroke_dasharray="3 2")
        if grid.cell >= 6 and part.right - part.left > 1:
            ticks = [f"M{svg.number(grid.across(column))} {svg.number(top)}v3" for column in range(part.left + 1, part.right)]
            yield svg.path("".join(ticks), fill="none", stroke=svg.INK, stroke_width=0.7)


def labels(grid, parts, hues, hatched, cut):
    """The number of each element in packing order, and below it the letters of its kind. On hatching they have a ground of their own."""
    for part in parts:
        top, height = lane_of(grid, part)
        width, middle = (part.right - part.left) * grid.cell, grid.across((part.left + part.right) / 2)
        words, letters = str(part.box.number), colours.letters(part.box.kind)
        if cut and cut[0] == part.row and part.left < cut[1] < part.right:  # the words stand in the greater half
            low, high = max((part.left, cut[1]), (cut[1], part.right), key=lambda half: half[1] - half[0])
            width, middle = (high - low) * grid.cell - 2, grid.across((low + high) / 2)
        size = min(12, (width - 2) / (len(words) * svg.LETTER))
        if size < 5:
            continue
        is_set = part.box.state == "set"
        ink = colours.ink(hues[part.box.kind]) if is_set else svg.INK
        small = min(8.5, (width - 2) / (len(letters) * svg.LETTER))
        has_letters = height >= 22 and small >= 4.5
        base = top + height / 2 + (0.5 if has_letters else size * 0.36)
        if any(part.box.low < high and begin < part.box.high for begin, high in hatched):
            wide = max(svg.width_of(words, size), svg.width_of(letters, small)) + 3
            yield svg.rect(middle - wide / 2, top + 3.5, wide, height - 5, fill=hues[part.box.kind] if is_set else "#ffffff", rx=2)
        yield svg.text(middle, base, size, words, fill=ink, text_anchor="middle")
        if has_letters:
            yield svg.text(middle, base + 9, small, letters, fill=ink, text_anchor="middle")


def scaled(grid, boxes, hues):
    """Elements to scale: one path for each kind and state, and the numbers of a run where there is room."""
    paths, words = {}, []
    found = grids.runs(boxes)
    least = 1.5 if len(found) <= FEW else 0  # a single element is seen however small it is, and many aren't drawn closer than they lie
    edge = 0.15 if len(found) <= FEW else 0
    for box, last in found:
        for row, left, right in grid.parts(box.low, box.high):
            place = grid.across(left), grid.tops[row], max((right - left) * grid.cell, least), grid.heights[row]
            paths.setdefault((box.kind, box.state), []).append(svg.box(*place))
            name = str(box.number) if box.number == last else f"{box.number} to {last}"
            size = min(10, (place[2] - 4) / (len(name) * svg.LETTER), place[3] - 1)
            if size >= 6 and (left + (row * grid.width) + grid.start) == box.low:
                ink = colours.ink(hues[box.kind]) if box.state == "set" else svg.INK
                words.append(svg.text(place[0] + place[2] / 2, place[1] + place[3] / 2 + 3.5, size, name, fill=ink, text_anchor="middle"))
    for (kind, state), steps in paths.items():
        more = {} if state == "set" else {"fill_opacity": 0.25}
        yield svg.path("".join(steps), fill=hues[kind], stroke=svg.INK, stroke_width=edge, **more)
    yield from words


def hatching(grid, spans):
    steps = []
    for low, high in spans:
        for row, left, right in grid.parts(low, high):
            steps.append(svg.box(grid.across(left), grid.tops[row], (right - left) * grid.cell, grid.heights[row]))
    if steps:
        yield svg.path("".join(steps), fill="url(#overlap)", stroke=svg.INK, stroke_width=0 if grid.is_scaled else 0.6)


def under(grid, words, line, **more):
    """Words below the cells, one for each byte, in that line; nothing where they find no room."""
    widest = max((len(word) for word in words.values()), default=0)
    size = min(8, (grid.cell - 2) / max(widest * svg.LETTER, 0.1))
    if size < 5 or grid.is_scaled:
        return
    for at, word in words.items():
        for row, left, right in grid.parts(at, at + 1):
            base = grid.tops[row] + grid.heights[row] + 9 + 9 * line
            yield svg.text(grid.across((left + right) / 2), base, size, word, **{"fill": svg.SOFT, "text_anchor": "middle", **more})


def drawn(grid, boxes, parts, within, hues, cut=None):
    """All cells and elements of a grid whose rows have their places; a line may stand at a row and column, the cut."""
    hatched = grids.overlaps(boxes)
    yield from cells(grid, within)
    if grid.is_scaled:
        yield from scaled(grid, boxes, hues)
        yield from hatching(grid, hatched)
    else:
        yield from elements(grid, parts, hues)
        yield from hatching(grid, hatched)
        yield from labels(grid, parts, hues, hatched, cut)
