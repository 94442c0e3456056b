"""The picture of one layout: heading, least tree, memory with its bounds, packed bytes. Pieces of SVG, and the room that they take."""
import grid as grids
import marks
import strip
import svg
import treerows
import words

JOINED = 24  # of so many elements at most each is joined to its packed bytes
OFFSETS = 12  # the height of numbers above cells


class Panel:
    """Pieces of a picture, one below another, in a room of so many points."""

    def __init__(self, layout, given, hues, room):
        self.layout, self.given, self.hues, self.room = layout, given, hues, room
        self.pieces, self.height, self.width = [], 0, 0
        self.is_scaled = self.has_overlap = False
        self.beneath = 0
        self.memory = self.memory_boxes = None

    def words(self, text, size, width, left=0, **more):
        """Lines of text."""
        for line in svg.wrapped(text, size, width):
            self.height += size + 3
            self.pieces.append(svg.text(left, self.height - 2, size, line, **more))
            self.width = max(self.width, left + svg.width_of(line, size))


def span(layout):
    """The bytes that are shown: those of elements, bounds of copies and the user's buffer."""
    ends = [at for bounds in layout.copies for at in bounds]
    ends += [layout.whole[key] + layout.origin for key in ("lb", "ub")] if layout.copies else []
    if layout.entries:
        ends += [layout.whole[key] + layout.origin for key in ("true_lb", "true_ub")]
    if layout.buffer is not None:
        ends += [0, len(layout.buffer)]
    return (min(ends), max(ends)) if ends else (layout.origin, layout.origin)


def boxes_of(layout, one):
    """The elements in memory and among the packed bytes: with a cut piece those that it doesn't complete stay open."""
    memory, packed, at = [], [], 0
    for number, entry in enumerate(layout.entries):
        size = one.sizes[entry.kind]
        state = "set" if one.cut is None or number < one.cut.given else "open"
        memory.append(grids.Box(entry.at, entry.at + layout.sizes[entry.kind], entry.kind, number, state))
        packed.append(grids.Box(at, at + size, entry.kind, number, state))
        at += size
    return memory, packed


def draw(layout, given, hues, room):
    """A whole panel."""
    panel = Panel(layout, given, hues, room)
    grid = grids.Grid(*span(layout), given.width, room)
    if layout.tree and grid.rows == 1:
        grid.move(treerows.COLUMN, room)
    text_room = min(room, max(grid.right() + 4, 230))
    panel.words(words.heading(layout), 13, text_room, font_weight="bold")
    panel.words(layout.definition, 10, text_room)
    panel.words(words.sizes(layout) if grid.rows == 1 else words.facts(layout), 9, text_room, fill=svg.SOFT)
    panel.height += 6
    if layout.tree:
        treerows.draw(panel, grid)
    draw_memory(panel, grid)
    for number, one in enumerate(layout.packed):
        draw_packed(panel, one, number)
    return panel


def draw_memory(panel, grid):
    """Memory, with the bounds."""
    layout = panel.layout
    boxes, _ = boxes_of(layout, layout.packed[0])
    parts, panel.beneath = ([], 0) if grid.is_scaled else grids.laned(grid, boxes)
    panel.is_scaled, panel.has_overlap = grid.is_scaled, bool(grids.overlaps(boxes))
    panel.memory, panel.memory_boxes = grid, boxes
    below = 12 if layout.buffer is not None and not grid.is_scaled else 0
    if grid.rows == 1:
        above = [marks.strip_height(layout) + OFFSETS + 2]
        top = panel.height
        end = strip.set_rows(grid, parts, top, above, below)
        limit = max(grid.right(), min(grid.left + 230, panel.room))
        panel.pieces += marks.over_strip(grid, layout, top, grid.tops[0], limit)
        flags = []
        if layout.copies:
            names = [words.bounds(layout)] + ([words.true_bounds(layout)] if layout.info["elements"] else [])
            panel.width = max(panel.width, *(svg.width_of(name, marks.SIZE) + grid.left + 6 for name in names))
    else:
        found = marks.flags(grid, layout)
        level, room = marks.levels(grid, found)
        above = [0 if grid.is_scaled else max(2, each) for each in room]
        above[0] = (0 if grid.is_scaled else room[0]) + OFFSETS
        end = strip.set_rows(grid, parts, panel.height, above, below)
        flags = marks.beside(grid, found) if grid.is_scaled else marks.in_rows(grid, found, level, OFFSETS)
    within = [sorted(bounds) for bounds in layout.copies]
    panel.pieces += strip.offsets(grid)
    panel.pieces += strip.drawn(grid, boxes, parts, within, panel.hues)
    panel.pieces += flags
    if layout.buffer is not None:
        panel.pieces += strip.under(grid, {at: f"{byte:02x}" for at, byte in enumerate(layout.buffer)}, 0)
    panel.height = end
    panel.width = max(panel.width, grid.right() + (grids.BESIDE if grid.is_scaled and grid.rows > 1 else 4))
    if grid.is_scaled:
        panel.height += 4
        panel.words(scale_note(grid), 9, panel.room, fill=svg.INK, font_style="italic")
    if panel.beneath:
        note = f"{words.counted(panel.beneath, 'element')} lie beneath {grids.LANES} others and have no box of their own"
        panel.words(note, 9, panel.room, font_style="italic")


def scale_note(grid):
    cells = grid.rows * grid.width
    return f"drawn to scale: {cells} bytes{f', {grid.width} a row' if grid.rows > 1 else ''}"


def joins(panel, packed_grid, packed_boxes):
    """Lines from the elements in memory to their packed bytes, where both are one strip."""
    memory = panel.memory
    top, bottom = memory.tops[0] + memory.heights[0], packed_grid.tops[0]
    if panel.layout.buffer is not None:
        top += 12
    for one, other in zip(panel.memory_boxes, packed_boxes):
        if one.state != "set":
            continue
        left = memory.across((one.low + one.high) / 2 - memory.start)
        right = packed_grid.across((other.low + other.high) / 2 - packed_grid.start)
        yield svg.line(left, top + 1, right, bottom - 1, stroke=svg.SOFT, stroke_width=0.9)
        yield f'<circle cx="{svg.number(right)}" cy="{svg.number(bottom - 2)}" r="1.6" fill="{svg.SOFT}"/>'


def told(one, is_strip):
    """The lines below packed bytes: their numbers, where no numbers of columns stand above them, and their values or where they come from."""
    lines = [([str(at) for at in range(one.total)], {})] if is_strip else []
    if one.values is not None:
        lines.append(([f"{byte:02x}" for byte in one.values], {"font_style": "italic", "fill": svg.INK}))
    elif one.sources is not None:
        lines.append(([str(at) for at in one.sources], {"font_style": "italic", "fill": svg.INK}))
    return lines


def draw_packed(panel, one, number):
    """The packed bytes of one representation."""
    memory = panel.memory
    if not one.total:
        panel.height += 6
        panel.words(words.packed(one), 9, panel.room, fill=svg.SOFT)
        return
    _, boxes = boxes_of(panel.layout, one)
    grid = grids.Grid(0, one.total, None, panel.room - memory.left if memory.rows == 1 else panel.room)
    if memory.rows == 1 and grid.rows == 1:
        grid.move(memory.left, panel.room)
    if not grid.is_scaled and not memory.is_scaled:
        grid.cell = min(grid.cell, max(memory.cell, 12))
    parts = [] if grid.is_scaled else grids.laned(grid, boxes)[0]
    are_strips = memory.rows == grid.rows == 1 and not memory.is_scaled and not grid.is_scaled
    is_joined = number == 0 and are_strips and len(boxes) <= JOINED and not panel.beneath
    lines = [] if grid.is_scaled else told(one, grid.rows == 1)
    above = [OFFSETS + 2 if grid.rows > 1 or grid.is_scaled else 0] + [2] * (grid.rows - 1)
    below = 10 * len(lines)
    end = strip.set_rows(grid, parts, panel.height + (30 if is_joined else 10), above, below)
    if is_joined:
        panel.pieces += joins(panel, grid, boxes)
    cut = grid.place(one.cut.bytes, True) if one.cut else None
    panel.pieces += strip.drawn(grid, boxes, parts, [], panel.hues, cut)
    if grid.rows > 1 or grid.is_scaled:
        panel.pieces += strip.offsets(grid)
    for line, (texts, more) in enumerate(lines):
        panel.pieces += strip.under(grid, dict(enumerate(texts)), line, **more)
    panel.pieces += cut_line(grid, one)
    panel.height = end
    left = grid.left if grid.rows == 1 else 0
    panel.words(words.packed(one), 9, panel.room - left, left, fill=svg.SOFT)
    panel.width = max(panel.width, grid.right() + 4)
    if one.cut:
        panel.words(words.cut(one), 9, panel.room - left, left)


def cut_line(grid, one):
    """The end of a cut piece, and the bytes that are held of an element."""
    if one.cut is None:
        return
    for row, left, right in grid.parts(one.cut.bytes - one.cut.held, one.cut.bytes):
        place = grid.across(left), grid.tops[row] + grid.heights[row] - 7, (right - left) * grid.cell, 7
        yield svg.rect(*place, fill=svg.INK, fill_opacity=0.75)
    row, column = grid.place(one.cut.bytes, True)
    at, top = grid.across(column), grid.tops[row]
    yield svg.line(at, top - 7, at, top + grid.heights[row] + 7, stroke_width=2.4, stroke_dasharray="5 2")
