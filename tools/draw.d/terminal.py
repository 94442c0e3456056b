"""The picture as text: a cell for each byte with the number of its element, `.` where none holds it, `#` where several do. `[` stands before
the byte of a lower bound and `]` before that of an upper bound; behind the row of numbers stands one of the kinds' letters, where they differ."""
import colours
import grid as grids
import panel as panels
import words

ROOM = 100  # the letters of a line, about


def held(boxes, kinds):
    """What each byte that elements hold shows: the number, or the kind's letters; `#` for several, brackets for what isn't set."""
    found = {}
    for box in boxes:
        word = colours.letters(box.kind) if kinds else str(box.number)
        for at in range(box.low, box.high):
            found[at] = "#" if at in found else word if box.state == "set" else "-"
    return found


def rows_of(first, last, width, shown, marks, start):
    """Lines of cells. Where each word has one letter nothing stands between them but marks."""
    wide = max((len(word) for word in shown.values()), default=1)
    apart = "" if wide == 1 else " "
    row = width or max(1, min(last - first, 64 if wide == 1 else ROOM // (wide + 1)))
    begin = first // row * row if width else first
    lead = max(len(str(begin)), len(str(last))) + 2
    lines = []
    for low in range(begin, max(last, begin + 1), row):
        line = ""
        for at in range(low, min(low + row, last)):
            word = shown.get(at, "." if at >= first else " ")
            line += marks.get(at, apart) + word.rjust(wide)
        if low + row >= last:
            line += marks.get(last, "")
        lines.append(f"{start}{low:>{lead}}  {line}".rstrip())
    return lines


def bracket_marks(layout):
    """The marks of the bounds of all copies, by the byte that they stand before."""
    marks = {}
    for low, high in layout.copies:
        for at, sign in ((low, "["), (high, "]")):
            marks[at] = marks.get(at, "") + (sign if sign not in marks.get(at, "") else "")
    return marks


def scaled(first, last, boxes):
    """One line to scale: the letters of the first element that begins or lies in each part, `#` where bytes are shared."""
    parts = 64
    shown = ["."] * parts

    def mark(low, high, word):
        for part in range((low - first) * parts // (last - first), ((high - 1 - first) * parts // (last - first)) + 1):
            shown[part] = word if shown[part] == "." or word == "#" else shown[part]

    for box in boxes:
        mark(box.low, box.high, colours.letters(box.kind)[0])
    for low, high in grids.overlaps(boxes):
        mark(low, high, "#")
    return ["".join(shown), f"drawn to scale: bytes {first} to {last}, each letter is {(last - first) / parts:.4g} of them"]


def byte_rows(first, last, boxes, marks, given):
    """The rows of some bytes, and those of the kinds' letters where there are several kinds."""
    if (last - first) > grids.MANY:
        return ["  " + line for line in scaled(first, last, boxes)]
    lines = rows_of(first, last, given.width, held(boxes, False), marks, "  ")
    if len({box.kind for box in boxes}) > 1:
        lines += rows_of(first, last, given.width, held(boxes, True), marks, "  ")
    return lines


def nodes(layout):
    tree = layout.tree
    yield f"least tree, cost {tree.cost}, base {tree.base + layout.origin}"
    for node in tree.nodes:
        places = " ".join(str(at) for at in node.places[:8]) + (" .." if len(node.places) > 8 else "")
        yield f"  {'  ' * node.depth}{node.label()}    cost {node.cost}, at {places}"


def draw(layouts, given):
    """The picture of layouts, as bytes."""
    lines = []
    for layout in layouts:
        lines += [words.heading(layout), "  " + layout.definition, "  " + words.facts(layout), "memory"]
        memory, _ = panels.boxes_of(layout, layout.packed[0])
        lines += byte_rows(*panels.span(layout), memory, bracket_marks(layout), given)
        for one in layout.packed:
            _, packed = panels.boxes_of(layout, one)
            lines.append(words.packed(one))
            if one.total:
                plain = type("Plain", (), {"width": None})
                lines += byte_rows(0, one.total, packed, {one.cut.bytes: "|"} if one.cut else {}, plain)
            if one.cut:
                lines.append("  " + words.cut(one))
        if layout.tree:
            lines += nodes(layout)
        lines.append("")
    return ("\n".join(lines[:-1]) + "\n").encode()
