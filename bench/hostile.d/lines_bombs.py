"""Inputs of the greatest length: many lines, long lines, long words."""
import itertools

from measure import Bomb, repeated

MOST = 1 << 24  # bytes of an input


def filled(line, most=MOST):
    """How often a line has room in an input."""
    return most // len(line)


def every_line(name, line, reply, status=1, before=(), needs=()):
    """One line as often as there is room, behind some lines that are each replied `ok`."""
    head = "".join(it + "\n" for it in before).encode()
    times = filled(line, MOST - len(head))
    return Bomb(
        name,
        lambda: itertools.chain([head], repeated(line, times)),
        lambda: itertools.chain(repeated(b"ok\n", len(before)), repeated(reply, times)),
        status,
        needs=needs,
    )


def one_line(name, before, member, after, replies, status=0, needs=()):
    """One line in which a member stands as often as there is room."""
    times = filled(member, MOST - len(before) - len(after))
    return Bomb(name, lambda: itertools.chain([before], repeated(member, times), [after]), lambda: [replies], status, needs=needs)


INFO = b"info size 4 ext 4 elements 1 align 4 lb 0 ub 4 extent 4 true_lb 0 true_ub 4 committed yes\n"
HEAVY = b"refused 12 too heavy\n"
DEEP = b"refused 11 too deep\n"
BAD = b"refused 22 bad wire\n"



def wire_of(name, before, member, after):
    """A list that says its true length, and is too heavy."""
    head = b"import a = 64747731" + before
    times = filled(member, MOST - len(head) - 8 - len(after) - 1)
    return Bomb(
        name,
        lambda: itertools.chain([head, b"%08x" % times], repeated(member, times), [after + b"\n"]),
        lambda: [HEAVY],
        1,
        needs=["import"],
    )


BOMBS = [
    every_line("blank lines", b"\n", b"", 0),
    one_line("one line of spaces", b"", b" ", b"", b""),
    Bomb("one space too many", lambda: repeated(b" ", MOST + 1), lambda: [], 6),
    one_line("one comment", b"#", b"\xff", b"\n", b""),
    one_line("one word", b"", b"x", b"\n", b"refused 1 syntax\n", 1),
    one_line("one line of words", b"", b"x ", b"\n", b"refused 1 syntax\n", 1),
    every_line("lines that are none", b"x\n", b"refused 1 syntax\n"),
    every_line("unknown names", b"info a\n", b"refused 2 unknown name\n"),
    every_line("names taken", b"buffer b zero 0\n", b"refused 3 name taken\n", 1, ["buffer b zero 0"]),
    every_line("left out kinds", b"map MPI_2INT\n", b"refused 4 unsupported kind\n"),
    every_line("free of a kind", b"free MPI_INT\n", b"refused 6 basic type\n"),
    every_line("bad numbers of weights", b"weights -1 0 0 0 0 0\n", b"refused 9 bad argument\n"),
    every_line("types out of range", b"type a = resized 0 9223372036854775807 MPI_INT\n", b"refused 10 overflow\n"),
    every_line("accepted queries", b"info MPI_INT\n", INFO, 0),
    one_line("a number of zeros", b"elements native ", b"0", b"4 MPI_INT\n", b"elements 1 copies 1\n"),
    one_line("a number of nines", b"elements native ", b"9", b" MPI_INT\n", b"refused 1 syntax\n", 1),
    one_line("a buffer in one word", b"buffer b hex ", b"0f", b"\n", b"ok\n"),
    one_line("displacements", b"type a = indexed_block MPI_BYTE 1", b" 7", b"\n", HEAVY, 1),
    one_line("displacements in bytes", b"type a = hindexed_block MPI_BYTE 1", b" 7", b"\n", HEAVY, 1),
    one_line("blocks", b"type a = indexed MPI_BYTE", b" 1@7", b"\n", HEAVY, 1),
    one_line("blocks in bytes", b"type a = hindexed MPI_BYTE", b" 1@7", b"\n", HEAVY, 1),
    one_line("parts of a struct", b"type a = struct", b" 1@0@a", b"\n", b"refused 2 unknown name\n", 1),
    one_line("parts of a struct of kinds", b"type a = struct", b" 1@0@MPI_INT", b"\n", HEAVY, 1),
    one_line("dimensions", b"type a = subarray c MPI_BYTE", b" 1:1:0", b"\n", DEEP, 1),
    one_line("dimensions of processes", b"type a = darray 1 0 c MPI_BYTE", b" 1:none:-:1", b"\n", DEEP, 1),
    one_line("large dimensions", b"type a = subarray c MPI_BYTE", b" 2147483647:1:0", b"\n", b"refused 10 overflow\n", 1),
    one_line("ranks that don't stand", b"reduceall sum left 1 MPI_INT 0 z", b" x", b"\n", b"refused 2 unknown name\n", 1, ["reduceall"]),
    one_line("ranks", b"buffer x zero 4\nreduceall sum left 1 MPI_INT 0 x", b" x", b"\n", b"ok\nrefused 17 too large\n", 1, ["reduceall"]),
    one_line("a wire of zeros", b"import a = ", b"00", b"\n", BAD, 1, ["import"]),
    one_line("a wire of dups", b"import a = 64747731", b"01", b"\n", BAD, 1, ["import"]),
    wire_of("a wire of a long list", b"0700000001", b"00000000", b"0006"),
    wire_of("a wire of parts", b"09", b"0000000100000000000000000006", b""),
    every_line("short wires", b"import a = -\n", BAD, 1, needs=["import"]),
]
