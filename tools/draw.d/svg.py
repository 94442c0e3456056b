"""Pieces of SVG as text: rectangles, lines, words. Numbers have at most two decimals, so that the same picture has the same bytes."""
from xml.sax.saxutils import escape, quoteattr

LETTER = 0.602  # the width of a letter of a font of one width, in parts of its size
FONT = "'DejaVu Sans Mono', Menlo, Consolas, 'Liberation Mono', monospace"
INK, SOFT, PALE = "#000000", "#555555", "#b8b8b8"


def number(value):
    """A number without needless digits."""
    text = f"{value:.2f}".rstrip("0").rstrip(".")
    return "0" if text == "-0" else text


def attributes(pairs):
    return "".join(f" {key.replace('_', '-')}={quoteattr(str(value))}" for key, value in pairs.items())


def rect(left, top, width, height, **more):
    return f'<rect x="{number(left)}" y="{number(top)}" width="{number(width)}" height="{number(height)}"{attributes(more)}/>'


def line(left, top, right, bottom, **more):
    more = {"stroke": INK, **more}
    return f'<line x1="{number(left)}" y1="{number(top)}" x2="{number(right)}" y2="{number(bottom)}"{attributes(more)}/>'


def path(steps, **more):
    return f'<path d="{steps}"{attributes(more)}/>'


def box(left, top, width, height):
    """A rectangle as steps of a path."""
    return f"M{number(left)} {number(top)}h{number(width)}v{number(height)}h{number(-width)}z"


def text(left, base, size, words, **more):
    """Words whose letters stand on the line `base`."""
    return f'<text x="{number(left)}" y="{number(base)}" font-size="{number(size)}"{attributes(more)}>{escape(words)}</text>'


def width_of(words, size):
    return len(words) * size * LETTER


def wrapped(words, size, width):
    """The lines of a text of that width. A word that is longer than a line is cut."""
    most = max(8, int(width / (size * LETTER)))
    lines = [""]
    for word in words.split():
        while len(word) > most:
            lines += [word[:most], ""]
            word = word[most:]
        if len(lines[-1]) + 1 + len(word) > most and lines[-1]:
            lines.append("")
        lines[-1] = f"{lines[-1]} {word}".strip()
    return [each for each in lines if each]


HATCH = (
    '<defs><pattern id="overlap" width="6" height="6" patternUnits="userSpaceOnUse">'
    '<path d="M-1 7L7 -1M-1 1L1 -1M5 7L7 5" stroke="#000000" stroke-width="1.1"/></pattern></defs>'
)


def document(width, height, title, description, pieces):
    """A whole picture, as bytes."""
    lines = [
        '<?xml version="1.0" encoding="UTF-8"?>',
        f'<svg xmlns="http://www.w3.org/2000/svg" width="{number(width)}" height="{number(height)}" '
        f'viewBox="0 0 {number(width)} {number(height)}" role="img" aria-labelledby="title description" font-family="{FONT}">',
        f'<title id="title">{escape(title)}</title>',
        f'<desc id="description">{escape(description)}</desc>',
        HATCH,
        rect(0, 0, width, height, fill="#ffffff"),
        *pieces,
        "</svg>",
    ]
    return ("\n".join(lines) + "\n").encode()
