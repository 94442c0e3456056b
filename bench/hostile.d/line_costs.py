"""What one line costs, where it is said again and again: the dearest line of each command that was found."""
import itertools

import tree_bombs
from measure import Bomb, measured
from script_bombs import MOST, reversed_lines, scattered

PARTS, LENGTH = scattered(32_767)
HEAVY = ["type t = struct " + " ".join(PARTS), "commit t", f"buffer b count {LENGTH}"]
LISTED = ["type i = indexed_block MPI_BYTE 1" + " 7" * 65_534]
REVERSED = list(reversed_lines())
ENTRIES = [tree_bombs.type_of(tree_bombs.shapes()["by threes"])]
LATE = [
    f"buffer z zero {MOST}",
    f"type c = contiguous {MOST - 2} MPI_BYTE",
    f"type o = struct 1@0@c 1@{MOST - 3}@MPI_BYTE",
    f"type d = struct 1@0@c 1@{MOST - 2}@MPI_CHAR",
    "commit o",
    "commit d",
    f"buffer y zero {MOST}",
]
WIRE = [f"type s{n} = struct 1@0@{old} 1@0@{old}" for n, old in enumerate(["MPI_BYTE", *(f"s{n}" for n in range(13))])]


class Line:
    """A line, or a few that go together, behind others, said so many times."""

    def __init__(self, before, lines, times, needs=()):
        self.before, self.lines, self.times, self.needs = before, lines, times, needs

    def script(self, times):
        head = "".join(f"{line}\n" for line in self.before).encode()
        body = "".join(f"{line}\n" for line in self.lines).encode()
        return lambda: itertools.chain([head], [body] * times)


LINES = [
    Line(REVERSED, ["show b"], 20),
    Line(REVERSED, ["bytes native 1 r23 b 0"], 3),
    Line(HEAVY, ["bytes native 1 t b 0"], 100),
    Line(HEAVY, ["pack s native 1 t b 0", "close s"], 100),
    Line([*HEAVY, "pack s native 1 t b 0", "seek s 32766"], ["take s 0"], 2_000),
    Line([*HEAVY, "pack s native 1 t b 0"], ["seek s 32766"], 2_000),
    Line([*REVERSED, "pack s native 1 r23 b 0"], [f"take s {MOST}", "seek s 0"], 3),
    Line(REVERSED, ["unpack s native 1 r23 z 0", "close s"], 3),
    Line(LATE, ["unpack s native 1 o z 0"], 3),
    Line([f"buffer z zero {MOST}"], [f"unpack s native {MOST} MPI_BYTE z 0", "close s"], 100),
    Line(HEAVY, ["elements native 32766 t"], 1_000),
    Line(HEAVY, ["info t"], 1_000),
    Line(HEAVY, ["contents t"], 100),
    Line(LISTED, ["contents i"], 100),
    Line(LISTED, ["type j = indexed_block MPI_BYTE 1" + " 7" * 65_534, "free j"], 20),
    Line([], [HEAVY[0], "free t"], 20),
    Line(["type m = hvector 4096 1 -281474976710656 MPI_UNSIGNED_LONG_LONG"], ["map m"], 100),
    Line(ENTRIES, ["normalise a"], 5),
    Line(ENTRIES, ["rebuild n = a", "free n"], 5),
    Line([], [f"buffer b count {MOST}"], 1),
    Line(REVERSED, [f"copy 1 r23 b 0 {MOST} MPI_BYTE z 0"], 3, ["copy"]),
    Line(LATE, [f"copy {MOST - 1} MPI_BYTE z 0 1 d y 0"], 3, ["copy"]),
    Line(LATE, ["copy 1 o z 0 1 o y 0"], 3, ["copy"]),
    Line(REVERSED, ["reduce max 1 r23 b 0 z 0"], 3, ["reduce"]),
    Line(["buffer b count 16384"], ["reduceall max halves 16384 MPI_BYTE 0 b" + " b" * 1024], 5, ["reduceall"]),
    Line(WIRE, ["export s13"], 20, ["export"]),
    Line([], ["import w = 64747731" + "0900007fff" + "0000000100000000000000000006" * 32_767, "free w"], 10, ["import"]),
]


def cut(text):
    return text if len(text) <= 44 else f"{text[:40]} ..."


def rows(program, without):
    """What the lines cost: the lines, seconds of the processor, bytes of the replies, and the peak of memory; and a fault or none."""
    for line in LINES:
        if without & set(line.needs):
            continue
        once = measured(program, Bomb("", line.script(0), None))
        many = measured(program, Bomb("", line.script(line.times), None))
        fault = once.fault
        if many.fault and "status 1" not in many.fault:
            fault = fault or many.fault
        said = "; ".join(cut(it) for it in line.lines)
        yield said, (many.processor - once.processor) / line.times, (many.written - once.written) // line.times, many.mebibytes, fault
