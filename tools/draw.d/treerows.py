"""Draws a least tree: each node in a row of its own, its words and cost at the left, and at the right the places that it stands for."""
import grid as grids
import svg

COLUMN = 250  # the room of the words
ROW = 19
INDENT = 11


def label(node):
    most = int((COLUMN - 66 - INDENT * node.depth) / (9 * svg.LETTER))
    text = node.label()
    return text if len(text) <= most else text[: most - 2] + ".."


def branches(nodes, top):
    """The lines from each node to its parts."""
    rows = {id(node): row for row, node in enumerate(nodes)}
    for node in nodes:
        if node.parts:
            at = 4 + INDENT * node.depth
            last = top + ROW * rows[id(node.parts[-1])] + ROW / 2
            yield svg.line(at, top + ROW * rows[id(node)] + ROW - 4, at, last, stroke=svg.SOFT, stroke_width=1)
            for part in node.parts:
                middle = top + ROW * rows[id(part)] + ROW / 2
                yield svg.line(at, middle, at + INDENT - 4, middle, stroke=svg.SOFT, stroke_width=1)


def bars(grid, node, top, hues):
    """The places of a node: one bar for each of its copies, from its first byte to its last."""
    fill = hues[node.words[1]] if node.words[0] == "leaf" else "#d9d9d9"
    steps = []
    for at in node.places:
        for _, left, right in grid.parts(at + node.facts["true_lb"], at + node.facts["true_ub"]):
            steps.append(svg.box(grid.across(left), top + 3, max((right - left) * grid.cell, 0.4), ROW - 6))
    yield svg.path("".join(steps), fill=fill, fill_opacity=0.85, stroke=svg.INK, stroke_width=0.9 if grid.cell > 2 else 0.2)


def draw(panel, memory):
    """All rows, above the strip; above a matrix they have a scale of their own."""
    tree, layout = panel.layout.tree, panel.layout
    grid = memory
    if memory.rows > 1:
        ends = [layout.whole[key] + layout.origin for key in ("true_lb", "true_ub")]
        grid = grids.Grid(*ends, None, panel.room)
        grid.start, grid.width, grid.rows = ends[0], max(ends[1] - ends[0], 1), 1
        grid.left = COLUMN
        grid.cell = min(grids.WIDEST, (panel.room - COLUMN) / grid.width)
    text = f"a least tree, cost {tree.cost}" + (f", from byte {tree.base + layout.origin} on" if tree.nodes else ": no entries, no node")
    panel.words(text, 10, panel.room, font_weight="bold")
    top = panel.height + 2
    panel.pieces += branches(tree.nodes, top)
    for row, node in enumerate(tree.nodes):
        base = top + ROW * row + ROW / 2 + 3
        panel.pieces.append(svg.text(8 + INDENT * node.depth, base, 9, label(node)))
        panel.pieces.append(svg.text(COLUMN - 10, base, 9, f"cost {node.cost}", text_anchor="end"))
        panel.pieces += bars(grid, node, top + ROW * row, panel.hues)
    panel.height = top + ROW * len(tree.nodes) + 10
    panel.width = max(panel.width, grid.right() + 4)
    if memory.rows > 1 and tree.nodes:
        panel.pieces.append(svg.text(grid.left, panel.height - 2, 8.5, str(ends[0]), fill=svg.SOFT))
        panel.pieces.append(svg.text(grid.right(), panel.height - 2, 8.5, str(ends[1]), fill=svg.SOFT, text_anchor="end"))
        panel.height += 8
