"""A whole picture: the panels of layouts, beside one another where there is room, and what their signs mean."""
import colours
import grid as grids
import panel as panels
import svg
import words

WIDE = 760  # a page's width, in points of the web
MARGIN = 16
BETWEEN = 26


def flow(drawn, room):
    """The place of each panel, from the left to the right and then from the top on, and where they end."""
    places, left, top, height, widest = [], 0, 0, 0, 0
    for panel in drawn:
        if left and left + panel.width > room:
            left, top, height = 0, top + height + BETWEEN, 0
        places.append((left, top))
        left += panel.width + BETWEEN
        widest = max(widest, left - BETWEEN)
        height = max(height, panel.height)
    return places, widest, top + height


def legend_items(drawn, hues):
    """What is explained: (what is drawn, its words)."""
    items = [(kind, f"{colours.letters(kind)} {kind}") for kind in hues]
    items.append(("gap", "gap"))
    if any(panel.layout.copies for panel in drawn):
        items.append(("within", "gap from lb to ub"))
    if any(panel.has_overlap for panel in drawn):
        items.append(("overlap", "bytes of several elements"))
    if any(one.cut for panel in drawn for one in panel.layout.packed):
        items += [("open", "not yet set"), ("held", "held")]
    return items


def sample(what, left, top, hues):
    """A small cell that shows a sign."""
    place = left, top, 16, 12
    if what in hues:
        yield svg.rect(*place, fill=hues[what], stroke=svg.INK)
    elif what == "open":
        yield svg.rect(*place, fill=svg.SOFT, fill_opacity=0.18, stroke=svg.INK, stroke_dasharray="3 2")
    elif what == "held":
        yield svg.rect(left, top + 5, 16, 7, fill=svg.INK, fill_opacity=0.75)
    elif what == "overlap":
        yield svg.rect(*place, fill="url(#overlap)", stroke=svg.INK)
    else:
        yield svg.rect(*place, fill="#e9e9e9" if what == "within" else "#ffffff", stroke=svg.PALE, stroke_dasharray="2 2")
        yield svg.path(f"M{svg.number(left + 8)} {svg.number(top + 6)}h.01", stroke=svg.SOFT, stroke_width=2.2, stroke_linecap="round")


def said(drawn):
    """What the numbers are."""
    text = "In boxes: the numbers of the elements, in packing order. Above cells: the numbers of the bytes."
    packed = [one for panel in drawn for one in panel.layout.packed if one.sources]
    if any(one.values is None for one in packed):
        text += " Below packed bytes: their numbers, and slanted the byte of memory that each comes from."
    if any(one.values is not None for one in packed):
        text += " Below bytes of memory: their values. Below packed bytes: their numbers, and slanted their values."
    return text


def legend(drawn, hues, room):
    """The pieces of the explanation, and their height."""
    pieces, left, top = [], 0, 0
    for what, name in legend_items(drawn, hues):
        width = 22 + svg.width_of(name, 9) + 14
        if left and left + width > room:
            left, top = 0, top + 18
        pieces += sample(what, left, top, hues)
        pieces.append(svg.text(left + 21, top + 9.5, 9, name))
        left += width
    lines = svg.wrapped(said(drawn), 9, room)
    for number, line in enumerate(lines):
        pieces.append(svg.text(0, top + 30 + 12 * number, 9, line, fill=svg.SOFT))
    return pieces, top + 32 + 12 * len(lines)


def draw(layouts, given):
    """The picture of layouts, as bytes."""
    hues = colours.chosen(dict.fromkeys(entry.kind for layout in layouts for entry in layout.entries))
    room = WIDE - 2 * MARGIN
    drawn = [panels.draw(layout, given, hues, room) for layout in layouts]
    places, width, height = flow(drawn, room)
    width = max(width, 360)
    pieces = []
    for panel, (left, top) in zip(drawn, places):
        pieces.append(f'<g transform="translate({svg.number(MARGIN + left)} {svg.number(MARGIN + top)})">')
        pieces += panel.pieces
        pieces.append("</g>")
    signs, tall = legend(drawn, hues, width)
    pieces.append(f'<g transform="translate({MARGIN} {svg.number(MARGIN + height + 18)})">')
    pieces += signs
    pieces.append("</g>")
    title = "The layout of " + "; ".join(words.heading(layout) for layout in layouts)
    text = " ".join(words.description(panel.layout, grids.overlaps(panel.memory_boxes)) for panel in drawn)
    return svg.document(width + 2 * MARGIN, MARGIN + height + 18 + tall, title, text, pieces)
