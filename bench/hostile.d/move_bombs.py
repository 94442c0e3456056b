"""Copies, reductions, and the bytes of datatypes, of the greatest length."""
import itertools

from measure import Bomb
from script_bombs import COUNTED, MOST, OK, reversed_lines, script, shown, turned_bytes

HEAD = b"dtw1"


def copies():
    """Every byte of the greatest buffer, each a run of its own, to another place; and back, and again."""
    lines = [*reversed_lines(), f"copy {MOST} MPI_BYTE b 0 1 r23 z 0"]
    lines += [f"copy 1 r23 b 0 {MOST} MPI_BYTE z 0"]
    text = "".join(f"{line}\n" for line in [*lines, "show z"]).encode()
    copied = b"copied %d bytes %d\n" % (MOST, MOST)
    replies = [OK * 27 + copied * 2 + b"show %d " % MOST, *(piece.hex().encode() for piece in turned_bytes()), b"\n"]
    return Bomb("copies byte by byte", lambda: [text], lambda: replies, needs=["copy"])


def differing_signatures():
    """Kinds that differ only at the last of very many elements."""
    yield f"buffer b count {MOST}"
    yield f"buffer z zero {MOST}"
    yield f"type c = contiguous {MOST - 2} MPI_BYTE"
    yield f"type d = struct 1@0@c 1@{MOST - 2}@MPI_CHAR"
    yield "commit d"
    for _ in range(5):
        yield (f"copy {MOST - 1} MPI_BYTE b 0 1 d z 0", "refused 20 signature differs")


def reductions():
    """All words of the greatest buffer, byte by byte, under each operation."""
    for line in reversed_lines():
        yield line
    for operation in ("sum", "prod", "min", "max", "and", "or", "xor", "first", "last"):
        yield (f"reduce {operation} 1 r23 b 0 z 0", f"reduced {MOST}")


def reductions_of_ranks():
    """As many ranks as there may be, of as many bytes as these may have together."""
    yield "buffer b count 16384"
    yield "buffer z zero 16384"
    ranks = " b" * 1024
    for how in ("halves", "left"):
        for operation in ("sum", "min", "first"):
            yield (f"reduceall {operation} {how} 16384 MPI_BYTE 0 z{ranks}", "reduced 16384 ranks 1024")
    yield ("show z", "show " + shown(COUNTED[:16_384]))
    yield (f"reduceall sum left 1 MPI_BYTE 0 z{ranks} b", "refused 17 too large")
    yield (f"reduceall sum left 16385 MPI_BYTE 0 z{ranks}", "refused 15 outside")


def doubled(levels):
    """Structs of two copies of the struct before, and their bytes."""
    text = b"\x00\x00"
    for _ in range(levels):
        text = b"\x09" + (2).to_bytes(4, "big") + ((1).to_bytes(4, "big") + bytes(8) + text) * 2
    return HEAD + text


def wires():
    """A type of nearly the greatest weight, told and made again by short lines; its bytes are many more than made it."""
    yield "type s1 = struct 1@0@MPI_BYTE 1@0@MPI_BYTE"
    for level in range(2, 15):
        yield f"type s{level} = struct 1@0@s{level - 1} 1@0@s{level - 1}"
    text = doubled(14)
    for number in range(16):
        yield ("export s14", f"wire {len(text)} {text.hex()}")
        yield f"import w{number} = {text.hex()}"
    tall = HEAD + b"\x01" * 63 + b"\x00\x06"
    yield f"import tall = {tall.hex()}"
    yield (f"import taller = {(HEAD + bytes([1]) * 64 + bytes([0, 6])).hex()}", "refused 22 bad wire")
    yield ("export tall", f"wire {len(tall)} {tall.hex()}")


def wire_of_heavy_parts():
    """Bytes that name more than may be: every part is fine, and the whole is too heavy."""
    text = doubled(18)
    line = b"import a = " + text.hex().encode() + b"\n"
    assert len(line) <= MOST
    return Bomb("a wire of nested parts", lambda: [line], lambda: [b"refused 12 too heavy\n"], 1, needs=["import"])


def of_one_command(name, lines, command):
    return script(name, itertools.chain(lines), needs=[command])


BOMBS = [
    copies(),
    of_one_command("signatures that differ late", differing_signatures(), "copy"),
    of_one_command("reductions byte by byte", reductions(), "reduce"),
    of_one_command("reductions of ranks", reductions_of_ranks(), "reduceall"),
    of_one_command("wires", wires(), "import"),
    wire_of_heavy_parts(),
]
