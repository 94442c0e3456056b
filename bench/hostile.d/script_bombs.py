"""Scripts of types, buffers and sessions that cost much for their length."""
import itertools
import random

from measure import Bomb, repeated

MOST = 1 << 24  # bytes of a buffer, of all packed bytes, of an input
OK = b"ok\n"
COUNTED = bytes(range(256)) * (MOST // 256)  # a buffer of the greatest length whose byte i is i mod 256


def script(name, lines, needs=()):
    """A script of pairs: a line and its reply, or none of a line that is replied `ok`."""
    pairs = [line if isinstance(line, tuple) else (line, "ok") for line in lines]
    text = "".join(f"{line}\n" for line, _ in pairs).encode()
    replies = "".join(f"{reply}\n" for _, reply in pairs).encode()
    return Bomb(name, lambda: [text], lambda: [replies], 1 if b"refused " in replies else 0, needs=needs)


def info(size, elements, lb, ub, true_lb, true_ub, align=1, committed="no"):
    return (
        f"info size {size} ext {size} elements {elements} align {align} lb {lb} ub {ub} extent {ub - lb}"
        f" true_lb {true_lb} true_ub {true_ub} committed {committed}"
    )


def shown(data):
    return f"{len(data)} {data.hex() or '-'}"


LARGE_COUNTS = [
    "type a1 = contiguous 1073741824 MPI_BYTE",
    "type a2 = contiguous 1073741824 a1",
    ("info a2", info(1 << 60, 1 << 60, 0, 1 << 60, 0, 1 << 60)),
    ("type a3 = contiguous 2 a2", "refused 10 overflow"),
    ("map a2", "refused 14 too many entries"),
    "buffer b zero 8",
    "commit a2",
    ("pack p native 1 a2 b 0", "refused 15 outside"),
    "type z1 = contiguous 0 MPI_INT",
    "type z2 = contiguous 2147483647 z1",
    "type z3 = contiguous 2147483647 z2",
    ("bytes native 2147483647 z3 b 0", "bytes 0 -"),
    "type o = hvector 1073741824 1 0 MPI_INT",
    "commit o",
    ("bytes native 1 o b 0", "refused 17 too large"),
    ("unpack u native 1 o b 0", "refused 16 overlap"),
]


def deep_nests():
    """63 levels over a kind, of each constructor in turn, which places one copy; then one level more."""
    forms = (
        "dup {0}|contiguous 1 {0}|vector 1 1 5 {0}|hvector 1 1 5 {0}|indexed {0} 1@0|hindexed {0} 1@0|indexed_block {0} 1 0"
        "|hindexed_block {0} 1 0|struct 1@0@{0}|resized 0 4 {0}|subarray c {0} 1:1:0|darray 1 0 c {0} 1:none:-:1"
    ).split("|")
    old = "MPI_INT"
    for level in range(64):
        line = f"type t{level} = {forms[level % len(forms)].format(old)}"
        yield line if level < 63 else (line, "refused 11 too deep")
        old = f"t{level}"
    yield "commit t62"
    yield "buffer b count 4"
    yield ("map t62", "map 1 marks 0 4 MPI_INT@0")
    yield ("bytes native 1 t62 b 0", "bytes 4 00010203")
    yield ("normalise t62", "tree cost 1 base 0 leaf MPI_INT")


def deep_products():
    """60 levels that place two copies each: 2^60 bytes."""
    yield "type t0 = contiguous 2 MPI_BYTE"
    for level in range(1, 60):
        yield f"type t{level} = contiguous 2 t{level - 1}"
    yield ("info t59", info(1 << 60, 1 << 60, 0, 1 << 60, 0, 1 << 60))
    yield ("type t60 = contiguous 2 t59", "refused 10 overflow")
    yield ("elements native 1152921504606846975 t59", "elements 1152921504606846975 copies undefined")
    yield ("normalise t59", "refused 14 too many entries")


def heavy_types():
    """As many types as may stand, each of weight 65,535, all over two shared halves."""
    yield "type s1 = struct 1@0@MPI_BYTE 1@1@MPI_BYTE"
    for level in range(2, 14):
        yield f"type s{level} = struct 1@0@s{level - 1} 1@{1 << (level - 1)}@s{level - 1}"
    for number in range(1024 - 13):
        yield f"type h{number} = struct 1@0@s13 1@{8192 + number}@s13 1@{100_000 + number}@MPI_BYTE"
    yield ("type more = dup MPI_INT", "refused 13 too many names")
    yield ("type heavier = struct 1@0@h0 1@0@MPI_INT", "refused 12 too heavy")
    for number in range(1024 - 13):
        yield (f"elements native 16385 h{number}", "elements 16385 copies 1")
        yield (f"map h{number}", "refused 14 too many entries")
    for number in range(1024 - 13):
        yield f"free h{number}"


def crowded_names():
    """All types that may stand, with names of the greatest length that differ in their last letters, each asked for many times."""
    yield "buffer b count 4"
    for number in range(1024):
        yield f"type {'a' * 28}{number:04} = dup MPI_INT"
    for number in range(300_000):
        name = f"{'a' * 28}{number % 1024:04}"
        yield (f"info {name}", info(4, 1, 0, 4, 0, 4, 4, "yes"))


def scattered(number, seed=1):
    """Parts of a struct: bytes at places that follow no rule, one after another in a buffer."""
    rng = random.Random(seed)
    at, parts = 0, []
    for _ in range(number):
        parts.append(f"1@{at}@MPI_BYTE")
        at += rng.randint(2, 4)
    return parts, at


def heavy_sessions():
    """All sessions that may stand, each over a struct of the most parts there can be, at places that follow no rule."""
    parts, length = scattered(32_767)
    yield "type t = struct " + " ".join(parts)
    yield "commit t"
    yield f"buffer b zero {length}"
    for number in range(256):
        word = "pack" if number % 2 else "unpack"
        yield (f"{word} s{number} native 1 t b 0", "ok 32767")
    yield ("pack more native 1 t b 0", "refused 13 too many names")
    for number in range(1, 256, 2):
        yield f"seek s{number} 32766"
        yield (f"take s{number} 1", "bytes 1 00")


def seeks_in_heavy_session():
    """A session over many parts, and each byte of it found anew."""
    parts, length = scattered(32_767)
    yield "type t = struct " + " ".join(parts)
    yield "commit t"
    yield f"buffer b zero {length}"
    yield ("pack s native 1 t b 0", "ok 32767")
    for number in range(2_000):
        yield f"seek s {number * 7919 % 32767}"
        yield ("take s 1", "bytes 1 00")


def takes_in_heavy_session():
    """The same session, byte by byte from its beginning to its end."""
    parts, length = scattered(32_767)
    yield "type t = struct " + " ".join(parts)
    yield "commit t"
    yield f"buffer b zero {length}"
    yield ("pack s native 1 t b 0", "ok 32767")
    for _ in range(32_767):
        yield ("take s 1", "bytes 1 00")


def gives_in_heavy_session():
    """And an unpack session over the same parts."""
    parts, length = scattered(32_767)
    yield "type t = struct " + " ".join(parts)
    yield "commit t"
    yield f"buffer b zero {length}"
    yield ("unpack s native 1 t b 0", "ok 32767")
    for number in range(1, 32_768):
        yield ("give s 00", f"given 1 held 0 bytes {number} elements {number} copies {1 if number == 32_767 else 'undefined'}")


def opened_again_and_again():
    """A session over very many parts, opened and closed."""
    parts, length = scattered(32_767)
    yield "type t = struct " + " ".join(parts)
    yield "commit t"
    yield f"buffer b zero {length}"
    for _ in range(100):
        yield ("pack s native 1 t b 0", "ok 32767")
        yield ("close s", "closed bytes 0 of 32767")


def counts_in_heavy_types():
    """Received bytes that end at the last of very many parts."""
    parts, _ = scattered(32_767)
    yield "type t = struct " + " ".join(parts)
    for _ in range(1_000):
        yield ("elements native 9223372036854775800 t", "elements 9223372036854775800 copies 281483566907400")
        yield ("elements native 9223372036854775807 t", "elements 9223372036854775807 copies undefined")


def most_items():
    """As many displacements as an input has room for, all kept."""
    line = "indexed_block MPI_BYTE 1" + " 7" * 65_534
    for number in range(127):
        yield f"type i{number} = {line}"


def most_parts():
    """As many parts as an input has room for, all kept."""
    yield "type a = dup MPI_BYTE"
    line = "struct" + " 1@7@a" * 21_844
    for number in range(127):
        yield f"type s{number} = {line}"


def crowded_parts():
    """Structs of very many parts, each looked up among all types that may stand, by names that differ in their last letters."""
    for number in range(1024):
        yield f"type {'a' * 28}{number:04} = dup MPI_INT"
    line = "struct " + " ".join(f"1@0@{'a' * 28}{number % 1024:04}" for number in range(21_844))
    for _ in range(19):
        yield (f"type more = {line}", "refused 13 too many names")


def made_and_freed():
    """Types that come and go."""
    for _ in range(300_000):
        yield "type a = contiguous 2 MPI_INT"
        yield "free a"


def all_at_once():
    """What stands at once: lists of displacements, the greatest buffers, all sessions over very many parts, and a search for overlap."""
    parts, length = scattered(32_767)
    yield "type t = struct " + " ".join(parts)
    yield "commit t"
    for number in range(100):
        yield f"type i{number} = indexed_block MPI_BYTE 1" + " 7" * 65_534
    for number in range(3):
        yield f"buffer b{number} count {MOST}"
    for number in range(256):
        yield (f"pack s{number} native 1 t b0 0", "ok 32767")
    yield f"type c = contiguous {MOST - 2} MPI_BYTE"
    yield f"type o = struct 1@0@c 1@{MOST - 3}@MPI_BYTE"
    yield "commit o"
    yield ("close s0", "closed bytes 0 of 32767")
    yield ("unpack u native 1 o b0 0", "refused 16 overlap")
    yield ("show b1", "show " + shown(COUNTED))


def one_byte_pieces(word, times):
    """A session of the greatest length, in pieces of one byte, as many as an input has room for."""
    if word == "take":
        head = f"buffer b zero {MOST}\npack s native {MOST} MPI_BYTE b 0\n".encode()
        line, replies = b"take s 1\n", repeated(b"bytes 1 00\n", times)
    else:
        head = f"buffer b zero {MOST}\nunpack s native {MOST} MPI_BYTE b 0\n".encode()
        line = b"give s 00\n"
        replies = (b"given 1 held 0 bytes %d elements %d copies %d\n" % (n, n, n) for n in range(1, times + 1))
    first = b"ok\nok %d\n" % MOST
    return Bomb(
        f"one byte a {word}", lambda: itertools.chain([head], repeated(line, times)), lambda: itertools.chain([first], replies)
    )


def held_pieces(times):
    """An unpack session of wide elements, each given byte by byte."""
    head = f"buffer b zero {MOST}\nunpack s native {MOST // 8} MPI_LONG b 0\n".encode()

    def replies():
        yield b"ok\nok %d\n" % MOST
        for n in range(1, times + 1):
            copies = b"undefined" if n % 8 else b"%d" % (n // 8)
            yield b"given %d held %d bytes %d elements %d copies %s\n" % (n % 8 == 0, n % 8, n, n // 8, copies)

    return Bomb("held bytes", lambda: itertools.chain([head], repeated(b"give s 00\n", times)), replies)


def sessions_in_turns(rounds):
    """All sessions that may stand, of 65,536 bytes each, one byte from each in turn."""
    head = ["buffer b count 65536"] + [f"pack s{number:03} native 65536 MPI_BYTE b 0" for number in range(256)]
    turn = "".join(f"take s{number:03} 1\n" for number in range(256)).encode()

    def replies():
        yield OK + b"ok 65536\n" * 256
        for n in range(rounds):
            yield b"bytes 1 %02x\n" % (n % 256) * 256

    return Bomb(
        "sessions in turns", lambda: itertools.chain(["\n".join(head).encode() + b"\n"], repeated(turn, rounds)), replies
    )


def reversed_lines():
    """Types whose innermost step is the widest: each byte is a run of its own."""
    yield f"type r0 = hvector 2 1 {MOST // 2} MPI_BYTE"
    for level in range(1, 24):
        yield f"type r{level} = hvector 2 1 {MOST >> (level + 1)} r{level - 1}"
    yield "commit r23"
    yield f"buffer b count {MOST}"
    yield f"buffer z zero {MOST}"


def turned_bytes():
    """What that type packs: the last eight levels step within a round of 256 bytes, and all levels before keep its byte."""
    for round_of in range(256):
        yield bytes([int(f"{round_of:08b}"[::-1], 2)]) * (MOST // 256)


def reversed_pack():
    """All bytes of the greatest buffer, each a run of its own."""
    lines = "".join(f"{line}\n" for line in [*reversed_lines(), "bytes native 1 r23 b 0"]).encode()
    return Bomb(
        "packed byte by byte",
        lambda: [lines],
        lambda: [OK * 27, b"bytes %d " % MOST, *(piece.hex().encode() for piece in turned_bytes()), b"\n"],
    )


def reversed_unpack():
    """All bytes of the greatest buffer, unpacked in one piece of the greatest length that a line has room for."""
    number = (MOST - 4_096) // 2
    head = "".join(f"{line}\n" for line in [*reversed_lines(), "unpack u native 1 r23 z 0"]).encode()

    def pieces():
        yield head + b"give u "
        yield COUNTED[:number].hex().encode()
        yield b"\nclose u\n"

    return Bomb(
        "unpacked byte by byte",
        pieces,
        lambda: [
            OK * 27 + b"ok %d\n" % MOST,
            b"given %d held 0 bytes %d elements %d copies undefined\n" % (number, number, number),
            b"closed bytes %d of %d\n" % (number, MOST),
        ],
    )


def overlaps_found_late():
    """Elements of which only the last two meet, in the greatest buffer: found only by looking at each byte."""
    yield f"buffer z zero {MOST}"
    yield f"type c = contiguous {MOST - 2} MPI_BYTE"
    yield f"type o = struct 1@0@c 1@{MOST - 3}@MPI_BYTE"
    yield "commit o"
    for _ in range(5):
        yield ("unpack u native 1 o z 0", "refused 16 overlap")


def long_replies():
    """The longest replies there are, each from a short line."""
    yield f"buffer b count {MOST}"
    for _ in range(5):
        yield ("show b", "show " + shown(COUNTED))
        yield (f"bytes external32 {MOST} MPI_BYTE b 0", "bytes " + shown(COUNTED))
    displacements = [str(7 * number % 9973) for number in range(65_534)]
    yield "type i = indexed_block MPI_BYTE 1 " + " ".join(displacements)
    for _ in range(5):
        yield ("contents i", "contents integers 65536 65534 1 " + " ".join(displacements) + " addresses 0 types 1 MPI_BYTE")
    yield "type m = hvector 4096 1 -281474976710656 MPI_UNSIGNED_LONG_LONG"
    for _ in range(5):
        places = " ".join(f"MPI_UNSIGNED_LONG_LONG@{-number << 48}" for number in range(4096))
        yield ("map m", f"map 4096 marks none {places}")


def empty_parts():
    """A struct of the most parts there can be, all without entries but the last."""
    yield "type z = contiguous 0 MPI_INT"
    yield "type e = struct " + " ".join(["1@0@z"] * 16_382 + ["1@0@MPI_BYTE"])
    yield "commit e"
    yield "buffer b count 1000"
    for _ in range(200):
        yield ("map e", "map 1 marks none MPI_BYTE@0")
        yield ("bytes native 1000 e b 0", "bytes " + shown(bytes(range(256)) * 3 + bytes(range(232))))
        yield ("elements native 1000 e", "elements 1000 copies 1000")


BOMBS = [
    script("large counts", LARGE_COUNTS),
    script("deep nests", deep_nests()),
    script("deep products", deep_products()),
    script("heavy types", heavy_types()),
    script("crowded names", crowded_names()),
    script("heavy sessions", heavy_sessions()),
    script("seeks in a heavy session", seeks_in_heavy_session()),
    script("takes in a heavy session", takes_in_heavy_session()),
    script("gives in a heavy session", gives_in_heavy_session()),
    script("opened again and again", opened_again_and_again()),
    script("counts in heavy types", counts_in_heavy_types()),
    script("the most displacements", most_items()),
    script("the most parts", most_parts()),
    script("all at once", all_at_once()),
    script("crowded parts", crowded_parts()),
    script("made and freed", made_and_freed()),
    one_byte_pieces("take", (MOST - 100) // 9),
    one_byte_pieces("give", (MOST - 100) // 10),
    held_pieces((MOST - 100) // 10),
    sessions_in_turns((MOST - 20_000) // 256 // 12),
    reversed_pack(),
    reversed_unpack(),
    script("overlaps found late", overlaps_found_late()),
    script("long replies", long_replies()),
    script("empty parts", empty_parts()),
]
