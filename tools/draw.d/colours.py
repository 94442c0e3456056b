"""The colour of each kind, and its letters, which say the same in grey. The seven colours are those of Okabe and Ito, which are told apart
by people who see few; a kind has the same one in each picture unless another kind of that picture has it already."""

ORANGE, SKY, GREEN, YELLOW, BLUE, RED, PURPLE = "#e69f00", "#56b4e9", "#009e73", "#f0e442", "#0072b2", "#d55e00", "#cc79a7"
ALL = (SKY, ORANGE, GREEN, YELLOW, PURPLE, RED, BLUE)

# letters and the first choice of a colour
KINDS = {
    "MPI_BYTE": ("B", ORANGE),
    "MPI_CHAR": ("c", YELLOW),
    "MPI_SIGNED_CHAR": ("sc", YELLOW),
    "MPI_UNSIGNED_CHAR": ("uc", YELLOW),
    "MPI_SHORT": ("s", GREEN),
    "MPI_UNSIGNED_SHORT": ("us", GREEN),
    "MPI_INT": ("i", SKY),
    "MPI_UNSIGNED": ("u", SKY),
    "MPI_LONG": ("l", PURPLE),
    "MPI_UNSIGNED_LONG": ("ul", PURPLE),
    "MPI_LONG_LONG": ("ll", RED),
    "MPI_UNSIGNED_LONG_LONG": ("ull", RED),
    "MPI_INT8_T": ("i8", YELLOW),
    "MPI_INT16_T": ("i16", GREEN),
    "MPI_INT32_T": ("i32", SKY),
    "MPI_INT64_T": ("i64", PURPLE),
    "MPI_UINT8_T": ("u8", YELLOW),
    "MPI_UINT16_T": ("u16", GREEN),
    "MPI_UINT32_T": ("u32", SKY),
    "MPI_UINT64_T": ("u64", PURPLE),
    "MPI_AINT": ("a", BLUE),
    "MPI_COUNT": ("n", BLUE),
    "MPI_OFFSET": ("o", BLUE),
}


def letters(kind):
    """The letters of a kind."""
    return KINDS.get(kind, ("?", SKY))[0]


def chosen(kinds):
    """The colour of each kind of a picture. More than seven kinds share colours, and their letters tell them apart."""
    found = {}
    for kind in kinds:
        first = KINDS.get(kind, ("?", SKY))[1]
        free = [colour for colour in (first, *ALL) if colour not in found.values()]
        found[kind] = free[0] if free else first
    return found


def brightness(colour):
    """How bright a colour is, from 0 to 1, as the rules of contrast of the web count it."""
    parts = [int(colour[at : at + 2], 16) / 255 for at in (1, 3, 5)]
    linear = [part / 12.92 if part <= 0.04045 else ((part + 0.055) / 1.055) ** 2.4 for part in parts]
    return 0.2126 * linear[0] + 0.7152 * linear[1] + 0.0722 * linear[2]


def ink(colour):
    """Black or white, whichever is read better on a colour."""
    bright = brightness(colour)
    return "#000000" if (bright + 0.05) / 0.05 >= 1.05 / (bright + 0.05) else "#ffffff"
