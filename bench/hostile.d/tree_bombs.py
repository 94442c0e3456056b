"""Searches for least trees, and certificates, of the most entries there may be."""
import random
import subprocess

import machine
import words
from measure import Bomb
from script_bombs import script

ENTRIES = 1_024


def type_of(places, kind="MPI_BYTE"):
    return f"type a = hindexed_block {kind} 1 " + " ".join(map(str, places))


def shapes():
    """Displacements, by the name of how they lie."""
    rng = random.Random(7)
    return {
        "even": [8 * i for i in range(ENTRIES)],
        "at random": [rng.randrange(1 << 30) for _ in range(ENTRIES)],
        "by threes": [16 * i + i % 3 * 4 for i in range(ENTRIES)],
        "all at one place": [0] * ENTRIES,
        "in halves of halves": [3 ** bin(i).count("1") * 64 + i for i in range(ENTRIES)],
        "rising steps": rising(),
        "even but the last": [8 * i for i in range(ENTRIES - 1)] + [8 * ENTRIES + 1],
    }


def rising():
    """Displacements whose steps are all different, so that no two segments of several entries are alike."""
    places = [0]
    for i in range(1, ENTRIES):
        places.append(places[-1] + 1 + i)
    return places


def search(name, places, weights="1 3 2 1 2 2"):
    """One search. Which of several least trees is told isn't fixed; the one that is has to place the entries, and to cost what is told."""
    lines = [type_of(places), f"weights {weights}", "normalise a"]
    text = "".join(f"{line}\n" for line in lines).encode()

    def fault(_, path):
        with open(path) as file:
            *_, reply = file.read().splitlines()
        told = machine.Told(0)
        told.reply = reply
        model = machine.Machine(told)
        try:
            wanted = [model.line(line.encode()) for line in lines]
        except machine.Wrong as wrong:
            return str(wrong)
        return None if wanted[-1] == reply else f"{reply[:100]} in place of {wanted[-1][:100]}"

    return Bomb(f"least tree: {name}", lambda: [text], None, fault=fault)


def checks(program, path):
    """Whether what was written is a certificate that holds, with the cost that the rising steps have."""
    with open(path, "rb") as file:
        came = subprocess.run([program, "check"], stdin=file, capture_output=True).stdout
    return None if came == b"least %d\n" % rising_value(ENTRIES) else f"{came[:100]!r} of what was written"


def totals(program, _):
    """Whether the totals are those of the generated script, run."""
    difference = words.differs_in_totals(program, (1 << 32) - 1)
    return str(difference)[:200] if difference else None


RISING_TREE = "index 1024 1 " + " ".join(map(str, rising())) + " leaf MPI_BYTE"


def rising_value(length):
    """What a segment of so many entries of the rising steps costs least, under the first weights: a leaf, a vector, or an index."""
    return 1 if length == 1 else 4 if length == 2 else length + 3


def certificate(version, last=None, head=True):
    """The certificate of the rising steps with a line for each segment, or each class of segments, and another last value."""
    yield f"dtcert {version}\nweights 1 3 2 1 2 2\nmap 1024\n".encode()
    yield "".join(f"entry MPI_BYTE {place}\n" for place in rising()).encode()
    yield f"base 0\ntree {RISING_TREE}\ncost {rising_value(ENTRIES)}\n".encode()
    word = "low" if version == 2 else "class"
    for length in range(1, ENTRIES + 1):
        value = last if last is not None and length == ENTRIES else rising_value(length)
        starts = 1 if version == 3 and length == 1 else ENTRIES - length + 1
        yield "".join(f"{word} {i} {i + length} {value}\n" for i in range(starts)).encode()
    yield b"end\n"


def checked(name, pieces, reply, status, word="check"):
    return Bomb(name, pieces, lambda: [reply], status, [word])


def cut(pieces, line):
    """The pieces without the last line."""
    whole = b"".join(pieces)
    return [whole[: -len(line)]]


LINES = {2: 3 + ENTRIES + 3 + 524_800 + 1, 3: 3 + ENTRIES + 3 + 524_800 - ENTRIES + 1 + 1}
HEAD = b"dtcert 3\nweights 1 3 2 1 2 2\nmap 1024\n" + b"entry MPI_BYTE 0\n" * ENTRIES + b"base 0\n"
NESTED = b"tree " + b"vector 1024 1 0 " * 63 + b"leaf MPI_BYTE\ncost 190\nend\n"
MANY_PARTS = b"tree struct 1024" + (b" 1 0 struct 60" + b" 1 0 leaf MPI_BYTE" * 60) * 1024 + b"\ncost 0\nend\n"


BOMBS = [
    *(search(name, places) for name, places in shapes().items()),
    search("even, all weights 0", shapes()["even"], "0 0 0 0 0 0"),
    search("by threes, the greatest weights", shapes()["by threes"], "1000000 1000000 1000000 1000000 1000000 1000000"),
    search("rising steps, where indices cost much", rising(), "1 3 1000000 1000000 2 2"),
    *(
        checked(f"a certificate of version {version}", lambda version=version: certificate(version), b"least 1027\n", 0)
        for version in (2, 3)
    ),
    checked("its last value too high", lambda: certificate(3, 1028), b"not shown low 0 1024\n", 1),
    checked("its last value too low", lambda: certificate(3, 1026), b"not shown root 1026 1027\n", 1),
    checked("its last line missing", lambda: cut(certificate(2), b"end\n"), b"not shown syntax %d\n" % LINES[2], 1),
    checked("one line more", lambda: [*certificate(3), b"\n"], b"not shown syntax %d\n" % (LINES[3] + 1), 1),
    Bomb("migrated from version 2", lambda: certificate(2), lambda: certificate(3), 0, ["migrate"]),
    Bomb("migrated from version 3", lambda: certificate(3), lambda: certificate(3), 0, ["migrate"]),
    Bomb("migrated from version 1", lambda: [b"dtcert 1\n", b"".join(certificate(2))[9:]], None, 0, ["migrate"], fault=checks),
    Bomb("certified", lambda: [f"{type_of(rising())}\n".encode()], None, 0, ["certify", "a"], fault=checks),
    checked("a tree of 1,024^63 elements", lambda: [HEAD + NESTED], b"not shown map 1024\n", 1),
    checked("a tree of very many parts", lambda: [HEAD + MANY_PARTS], b"not shown map 1024\n", 1),
    checked("no certificate: one line", lambda: [b"x" * (1 << 20)] * 16, b"not shown syntax 1\n", 1),
    checked("no certificate: empty lines", lambda: [b"\n" * (1 << 20)] * 16, b"not shown syntax 1\n", 1),
    checked("a tree in one line", lambda: [HEAD + b"tree "] + [b"struct 2 1 0 " * 80_000] * 15, b"not shown syntax 1029\n", 1),
    Bomb("gen 4294967295", lambda: [], None, 0, ["gen", "4294967295"], fault=totals),
    script("rebuilt again and again", [(type_of(rising()), "ok")] + [
        (f"rebuild r{i} = a", f"tree cost 1027 base 0 {RISING_TREE}") for i in range(3)
    ]),
]
