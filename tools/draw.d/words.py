"""What a picture says in words: facts below its heading, the description for readers of the screen."""

LISTED = 24  # so many elements are described one by one


def counted(number, one, more=None):
    return f"{number} {one if number == 1 else more or one + 's'}"


def heading(layout):
    parts = [layout.name]
    if layout.count != 1:
        parts.append(counted(layout.count, "copy", "copies"))
    if layout.origin:
        parts.append(f"from byte {layout.origin} on")
    return ", ".join(parts)


def bounds_kind(layout):
    """Where the bounds come from: marks, or rounding up."""
    info = layout.info
    if layout.marks is not None:
        return "marks"
    if info["ub"] != info["true_ub"]:
        return f"rounded up from {info['true_ub'] + layout.origin}"
    return ""


def bounds(layout):
    info = layout.info
    kind = bounds_kind(layout)
    text = f"lb {info['lb'] + layout.origin}, ub {info['ub'] + layout.origin}, extent {info['extent']}"
    return f"{text} ({kind})" if kind else text


def true_bounds(layout):
    info = layout.info
    low, high = info["true_lb"] + layout.origin, info["true_ub"] + layout.origin
    return f"true lb {low}, true ub {high}, true extent {high - low}"


def sizes(layout):
    """How many elements and bytes a copy has."""
    info = layout.info
    size = counted(info["size"], "byte")
    if info["ext"] != info["size"]:
        size += f" ({info['ext']} in external32)"
    text = f"{counted(info['elements'], 'element') if info['elements'] else 'no elements'}, {size}"
    return text + (" (each copy)" if layout.count > 1 else "")


def facts(layout):
    """Sizes, and bounds of the first copy."""
    text = f"{sizes(layout)}; {bounds(layout)}"
    return text + (f"; {true_bounds(layout)}" if layout.info["elements"] else "")


def packed(one):
    """The line below packed bytes."""
    return f"packed, {one.rep}: {counted(one.total, 'byte') if one.total else 'no bytes'}"


def cut(one):
    if one.cut is None:
        return ""
    return f"a receiver of {counted(one.cut.bytes, 'byte')}: {one.cut.reply}"


def description(layout, spans):
    """A picture in words: the facts, the places of the elements, what the bytes between them are."""
    text = [f"{heading(layout)}: {layout.definition}.", facts(layout) + "."]
    places = [f"{number} {entry.kind} at {entry.at}" for number, entry in enumerate(layout.entries)]
    if places:
        more = f", and {len(places) - LISTED} more" if len(places) > LISTED else ""
        text.append(f"Elements in packing order: {', '.join(places[:LISTED])}{more}.")
    else:
        text.append("No elements.")
    if spans:
        told = ", ".join(f"{low} to {high}" for low, high in spans[:LISTED])
        text.append(f"Bytes of two or more elements: {told}{' and more' if len(spans) > LISTED else ''}.")
    for one in layout.packed:
        text.append(packed(one).capitalize() + ".")
        if one.cut:
            text.append(cut(one).capitalize() + ".")
    if layout.tree:
        nodes = [f"{node.label()} (cost {node.cost})" for node in layout.tree.nodes[:LISTED]]
        text.append(f"Least tree, cost {layout.tree.cost}: {', '.join(nodes) or 'empty'}.")
    return " ".join(text)
