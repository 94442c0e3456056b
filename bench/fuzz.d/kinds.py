"""The kinds of elements: sizes, signs and names, and the bytes of an element in both representations (MPI 4.1, section 14.5.2)."""

# name, size in memory, size in external32, whether its numbers have a sign
TABLE = (
    ("MPI_BYTE", 1, 1, False),
    ("MPI_CHAR", 1, 1, True),
    ("MPI_SIGNED_CHAR", 1, 1, True),
    ("MPI_UNSIGNED_CHAR", 1, 1, False),
    ("MPI_SHORT", 2, 2, True),
    ("MPI_UNSIGNED_SHORT", 2, 2, False),
    ("MPI_INT", 4, 4, True),
    ("MPI_UNSIGNED", 4, 4, False),
    ("MPI_LONG", 8, 4, True),
    ("MPI_UNSIGNED_LONG", 8, 4, False),
    ("MPI_LONG_LONG", 8, 8, True),
    ("MPI_UNSIGNED_LONG_LONG", 8, 8, False),
    ("MPI_INT8_T", 1, 1, True),
    ("MPI_INT16_T", 2, 2, True),
    ("MPI_INT32_T", 4, 4, True),
    ("MPI_INT64_T", 8, 8, True),
    ("MPI_UINT8_T", 1, 1, False),
    ("MPI_UINT16_T", 2, 2, False),
    ("MPI_UINT32_T", 4, 4, False),
    ("MPI_UINT64_T", 8, 8, False),
    ("MPI_AINT", 8, 8, True),
    ("MPI_COUNT", 8, 8, True),
    ("MPI_OFFSET", 8, 8, True),
)

LEFT_OUT = frozenset(
    """MPI_FLOAT MPI_DOUBLE MPI_LONG_DOUBLE MPI_WCHAR MPI_C_BOOL MPI_C_COMPLEX MPI_C_FLOAT_COMPLEX MPI_C_DOUBLE_COMPLEX
    MPI_C_LONG_DOUBLE_COMPLEX MPI_PACKED MPI_FLOAT_INT MPI_DOUBLE_INT MPI_LONG_INT MPI_2INT MPI_SHORT_INT MPI_LONG_DOUBLE_INT
    MPI_INTEGER MPI_REAL MPI_DOUBLE_PRECISION MPI_COMPLEX MPI_LOGICAL MPI_CHARACTER""".split()
)


class Kind:
    """One row of the table."""

    def __init__(self, number, row):
        self.number = number
        self.name, self.size, self.ext_size, self.signed = row

    def packed_size(self, rep):
        """How many bytes an element of this kind has in a representation."""
        return self.size if rep == "native" else self.ext_size

    def __repr__(self):
        return self.name


KINDS = tuple(Kind(number, row) for number, row in enumerate(TABLE))
PRINTED = {kind.name: kind for kind in KINDS}
# What a script may write; the last name is printed as the other one.
WRITTEN = {**PRINTED, "MPI_LONG_LONG_INT": PRINTED["MPI_LONG_LONG"]}


def image(rep, kind, memory):
    """The packed bytes of an element, from its bytes in memory: the lowest ones turned round, in external32."""
    return memory if rep == "native" else memory[: kind.ext_size][::-1]


def restore(rep, kind, packed):
    """The bytes in memory of the element that the packed bytes stand for."""
    if rep == "native":
        return packed
    negative = kind.signed and packed[0] >= 0x80
    return packed[::-1] + (b"\xff" if negative else b"\x00") * (kind.size - kind.ext_size)


def word_of(memory):
    """The number that an element's bytes in memory are, without a sign."""
    return int.from_bytes(memory, "little")


def value_of(kind, word):
    """What a word stands for: in two's complement where the kind has a sign."""
    half = 1 << (8 * kind.size - 1)
    return word - 2 * half if kind.signed and word >= half else word


JOINS = {
    "sum": lambda kind, a, b: (a + b) % (1 << 8 * kind.size),
    "prod": lambda kind, a, b: (a * b) % (1 << 8 * kind.size),
    "min": lambda kind, a, b: min(a, b, key=lambda word: value_of(kind, word)),
    "max": lambda kind, a, b: max(a, b, key=lambda word: value_of(kind, word)),
    "and": lambda kind, a, b: a & b,
    "or": lambda kind, a, b: a | b,
    "xor": lambda kind, a, b: a ^ b,
    "first": lambda kind, a, b: a,
    "last": lambda kind, a, b: b,
}


def named_number(word, least, greatest):
    """The number of a word as replies spell it, without leading zeros, or None."""
    digits = word[1:] if word.startswith("-") else word
    if not digits.isascii() or not digits.isdigit() or len(digits) > 40:
        return None
    value = int(word)
    return value if str(value) == word and least <= value <= greatest else None
