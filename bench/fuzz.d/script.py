"""Random scripts from a seed. Each line is answered by a machine while the script is made, so that later lines fit what stands."""
import random

import lines
import machine
import wire
from datatypes import Unlistable
from lines import OPERATIONS
from picks import LARGE_EDGES, Picks

# How often each command comes, of a plain script.
PLAIN = {
    "type": 30,
    "commit": 8,
    "free": 2,
    "child": 3,
    "info": 6,
    "map": 5,
    "envelope": 2,
    "contents": 3,
    "buffer": 5,
    "show": 4,
    "bytes": 8,
    "pack": 5,
    "unpack": 6,
    "take": 9,
    "seek": 3,
    "give": 10,
    "close": 2,
    "elements": 5,
    "weights": 1,
    "normalise": 4,
    "rebuild": 3,
    "copy": 6,
    "export": 4,
    "import": 5,
    "reduce": 5,
    "reduceall": 4,
}
# What other scripts have more of.
MOODS = {
    "plain": {},
    "shapes": {"type": 90, "info": 20, "map": 20, "child": 8, "contents": 8, "envelope": 6, "bytes": 15},
    "pieces": {"pack": 15, "unpack": 20, "take": 40, "give": 45, "seek": 12, "show": 15, "close": 6, "buffer": 8},
    "trees": {"normalise": 40, "rebuild": 25, "weights": 12, "type": 60},
    "wires": {"export": 30, "import": 50, "type": 40},
    "moves": {"copy": 30, "reduce": 30, "reduceall": 25, "buffer": 10, "show": 15, "commit": 20},
    "syntax": {},
    "names": {},
    "crowd of types": {},
    "crowd of buffers": {},
    "crowd of sessions": {"pack": 30, "unpack": 30, "close": 8, "take": 20, "give": 20},
    "large": {"buffer": 20, "pack": 15, "unpack": 15},
    "deep": {"type": 40, "export": 8, "import": 8},
    "edges": {"type": 60, "info": 30, "elements": 15, "bytes": 15, "map": 10},
    "faults": {},
}
OFTEN = {"plain": 20, "shapes": 12, "pieces": 16, "trees": 12, "wires": 10, "moves": 14, "syntax": 5, "large": 3, "deep": 6, "crowd of sessions": 3, "names": 2, "edges": 10, "faults": 12}
SELDOM = 3
SMALL = 40  # entries of a least tree, for a slow program


class Script:
    """A script that is being made."""

    def __init__(self, seed, without=(), slow=False):
        """Without these commands; for a slow program with no large buffers, and small least trees alone."""
        self.entries = SMALL if slow else machine.MOST_NORMALISED
        self.rng = random.Random(seed)
        self.machine = machine.Machine(machine.own_tree, without)
        self.picks = Picks(self.rng, self.machine)
        self.lines = []
        moods = [mood for mood in MOODS if not (slow and mood == "large")]
        self.mood = self.rng.choices(moods, [OFTEN.get(mood, SELDOM) for mood in moods])[0]
        often = {**PLAIN, **MOODS[self.mood]}
        self.commands = [command for command in often if command not in without]
        self.often = [often[command] for command in self.commands]

    def say(self, line):
        """Adds a line with its end, unless its answer needs a longer list than the model makes."""
        if isinstance(line, str):
            line = line.encode()
        if b"\n" in line:
            return
        line += b"\r\n" if self.mood == "syntax" and self.picks.chance(20) else b"\n"
        (read,) = lines.split(line)
        try:
            if self.is_slow(read):
                return
            self.machine.line(read)
        except Unlistable:
            return
        self.lines.append(line)

    def is_slow(self, line):
        """Whether a least tree of more entries is asked for than are wanted here."""
        words = lines.words_of(line)
        if not words or words[0] not in (b"normalise", b"rebuild"):
            return False
        return self.entries < self.picks.found(words[-1].decode("latin-1")).number <= machine.MOST_NORMALISED

    def text(self, number):
        """The whole script, of about so many lines."""
        self.begin()
        number = max(number, len(self.lines) + 100)
        while len(self.lines) < number:
            command = self.rng.choices(self.commands, self.often)[0]
            line = getattr(self, "say_" + command)()
            if self.picks.chance(40 if self.mood == "syntax" else 1):
                line = self.spoiled(line.encode())
            self.say(line)
        whole = b"".join(self.lines)
        return whole[:-1] if self.picks.chance(10) and len(self.lines[-1]) > 1 else whole

    def begin(self):
        """The first lines: what stands, by the mood."""
        picks = self.picks
        if self.mood == "crowd of types":
            for _ in range(self.one(1_020, 1_024)):
                self.say(f"type {picks.new_name('t', ())} = contiguous {self.rng.randint(0, 5)} {picks.kind()}")
        if self.mood == "crowd of buffers":
            for _ in range(self.one(250, 255, 256)):
                self.say(f"buffer {picks.new_name('b', ())} count {self.rng.randint(0, 40)}")
        for _ in range(self.rng.randint(1, 4)):
            self.say(f"buffer {picks.new_name('b', ())} count {self.rng.randint(8, 120)}")
        if self.mood == "crowd of sessions":
            for _ in range(self.one(254, 255, 256)):
                word = self.one("pack", "unpack")
                self.say(f"{word} {picks.new_name('s', ())} native {self.rng.randint(0, 3)} MPI_BYTE {picks.buffer_word()} 0")
        if self.mood == "deep":
            self.deep()
        if self.mood == "edges":
            picks.edge = self.one(4, 10, 25, 50)
        if self.mood == "faults" or self.mood.startswith("crowd") and picks.chance(50):
            picks.fault = self.one(5, 15, 30)
        if self.mood == "trees":
            picks.room = self.one(12, 24, 24, 40, 40, self.one(60, 200, 900))

    def deep(self):
        """Types near the limits of levels and of weight."""
        picks = self.picks
        word = self.one("MPI_INT", picks.type_word())
        deepens = self.one("dup", "contiguous 1", "resized 0 4", "subarray c", "struct")
        dimensions = self.one(1, 2, 3, 5)
        for _ in range(self.rng.randint(58, 66) // (dimensions if deepens == "subarray c" else 1)):
            name = picks.new_name("t", ())
            tail = f"1@0@{word}" if deepens == "struct" else word + " 1:1:0" * dimensions if deepens == "subarray c" else word
            self.say(f"type {name} = {deepens} {tail}")
            word = name if name in self.machine.types else word
        word = picks.kind()
        for _ in range(self.rng.randint(10, 17)):
            name = picks.new_name("t", ())
            self.say(f"type {name} = struct {self.one('0', '1')}@0@{word} {self.one('0', '1')}@{picks.small()}@{word}")
            word = name if name in self.machine.types else word
        for _ in range(self.rng.randint(0, 5)):
            name = picks.new_name("t", ())
            self.say(f"type {name} = {self.one('dup', 'resized 0 8')} {word}")
            word = name if name in self.machine.types else word

    def one(self, *choices):
        return self.rng.choice(choices)

    def rep(self):
        return self.one("native", "external32") if self.mood == "pieces" else self.one("native", "native", "external32")

    # One line for each command

    def say_type(self):
        picks = self.picks
        if self.mood == "names" and picks.machine.types and picks.chance(50):
            return f"type {picks.standing(picks.machine.types)} = {picks.constructor()}"
        if self.mood == "edges" and picks.chance(15):
            name = picks.new_name("t", ())
            self.say(f"type {name} = {self.brink()}")
            return f"rebuild {picks.new_name('t', ())} = {name}" if picks.chance(40) else f"info {name}"
        if self.mood == "trees" and picks.chance(30):
            return f"type {picks.new_name('t', picks.machine.types)} = {self.repeated()}"
        return f"type {picks.new_name('t', picks.machine.types)} = {picks.constructor()}"

    def brink(self):
        """A type at a limit, or one step off it: of its bounds, of what can be rebuilt, or of the entries that are listed."""
        by = self.one(-1, 0, 0, 1)
        far, half = (1 << 60) + by, (1 << 59) + by
        marked = [name for name, (old, _) in self.machine.types.items() if old.marks and old.size == 1] or ["MPI_BYTE"]
        return self.one(
            f"hvector 2 1 {half - 1} MPI_BYTE",
            f"struct 1@{-(half >> 1)}@MPI_BYTE 1@{half - (half >> 1) - 1}@MPI_BYTE",
            f"hindexed_block MPI_INT 1 {far - 4}",
            f"hindexed_block MPI_BYTE 1 {-far}",
            f"resized {-far} {2 * far + self.one(-1, 0, 1)} MPI_BYTE",
            f"struct 1@{(1 << 60) - 17}@MPI_LONG 1@{(1 << 60) - 1}@{self.one(*marked)}",
            f"struct 1@{(1 << 60) - 16}@MPI_LONG 1@{(1 << 60) - 1}@{self.one(*marked)}",
            f"contiguous {self.one(1 << 28, (1 << 28) + by)} {self.picks.type_word(5)}",
            f"contiguous {1024 + by} {self.one('MPI_BYTE', 'MPI_LONG')}",
            f"contiguous {4096 + by} {self.one('MPI_BYTE', 'MPI_LONG')}",
            "resized 0 1 MPI_BYTE",
            f"contiguous {1 << 30} {self.picks.type_word(5)}",
        )

    def repeated(self):
        """A type of which parts are repeated, with a slip now and then."""
        step = self.rng.randint(4, 12)
        block = self.rng.randint(1, 3)
        places = []
        at = self.rng.randint(-20, 20)
        for i in range(self.rng.randint(2, max(self.picks.room // block, 3))):
            places += [at + j * self.one(4, 4, 4, 8) for j in range(block)]
            at += step * 4 if not self.picks.chance(8) else step * 4 + 1
        return f"hindexed_block {self.one('MPI_INT', 'MPI_SHORT', 'MPI_BYTE')} 1 " + " ".join(map(str, places))

    def type_line(self, command, fresh=20):
        return f"{command} {self.picks.type_word(fresh)}"

    def say_commit(self):
        waiting = [name for name, (_, committed) in self.machine.types.items() if not committed]
        return f"commit {self.rng.choice(waiting)}" if waiting and self.picks.chance(85) else self.type_line("commit")

    def say_free(self):
        return self.type_line("free")

    def say_info(self):
        return self.type_line("info")

    def say_map(self):
        return self.type_line("map")

    def say_envelope(self):
        return self.type_line("envelope")

    def say_contents(self):
        return self.type_line("contents")

    def say_normalise(self):
        return self.type_line("normalise", 5)

    def say_export(self):
        return self.type_line("export")

    def say_rebuild(self):
        picks = self.picks
        return f"rebuild {picks.new_name('t', picks.machine.types)} = {picks.type_word(5)}"

    def say_child(self):
        picks = self.picks
        word = picks.type_word(5)
        olds = len(picks.found(word).olds)
        return f"child {picks.new_name('t', picks.machine.types)} = {word} {self.rng.randint(-1 if picks.chance(10) else 0, olds if picks.chance(10) else max(olds - 1, 0))}"

    def say_import(self):
        picks = self.picks
        text = self.wire_text()
        return f"import {picks.new_name('t', picks.machine.types)} = {text.hex() or '-'}"

    def wire_text(self):
        """The text of a type, mostly with some bytes turned, cut off or put in."""
        if self.picks.chance(10 if self.mood == "deep" else 1):
            levels = self.rng.randint(60, 66)
            return wire.HEAD + self.one(b"\x01", b"\x02\x00\x00\x00\x01") * levels + self.one(b"\x00\x06", b"\x09\x00\x00\x00\x00")
        text = bytearray(wire.export(self.picks.found(self.picks.type_word())))
        roll = self.rng.randrange(100)
        if roll < 25:
            return bytes(text)
        for _ in range(1 if roll < 80 else self.rng.randint(2, 4)):
            at = self.rng.randrange(len(text))
            change = self.rng.randrange(6)
            if change < 2:
                text[at] = self.one(0, 1, 2, 3, 6, 9, 12, 13, 22, 23, 0x7F, 0x80, 0xFF)
            elif change == 2:
                text[at] ^= 1 << self.rng.randrange(8)
            elif change == 3:
                del text[at:]
            elif change == 4:
                text[at:at] = bytes(self.rng.randrange(4) for _ in range(self.rng.randint(1, 4)))
            else:
                text[4:4] = self.one(b"\x01", b"\x02\x00\x00\x00\x02", b"\x02\xff\xff\xff\xff", b"\x0c" + bytes(15) + b"\x08")
            if not text:
                break
        return bytes(text)

    def say_buffer(self):
        picks = self.picks
        name = picks.new_name("b", picks.machine.buffers)
        if self.mood == "large":
            left = machine.MOST_BYTES_TOGETHER - sum(map(len, self.machine.buffers.values()))
            if left <= machine.MOST_BYTES and picks.chance(50):
                return f"buffer {name} zero {left + self.one(-1, 0, 0, 1)}"
            return f"buffer {name} {self.one('zero', 'count')} {self.one(1 << 24, (1 << 24) - 1, (1 << 24) + 1, 1 << 23, 65_536, 3)}"
        if picks.chance(30):
            return f"buffer {name} hex {picks.data(self.rng.randint(0, 40))}"
        return f"buffer {name} {self.one('zero', 'count')} {picks.count(120)}"

    def say_show(self):
        name = self.picks.buffer_word()
        small = [it for it, buffer in self.machine.buffers.items() if len(buffer) <= 5_000]
        if len(self.machine.buffers.get(name, b"")) > 5_000 and small:
            name = self.picks.standing(small)
        return f"show {name}"

    def operation(self, fresh=25, committed=False):
        """Count, type, buffer and origin. The type is mostly a committed one, where that is asked."""
        picks = self.picks
        word = picks.type_word(fresh)
        ready = [name for name, (_, flag) in self.machine.types.items() if flag]
        if committed and ready and not picks.chance(20):
            word = picks.standing(ready)
        made = picks.found(word)
        count = picks.count(4)
        name = picks.buffer_word()
        length = len(self.machine.buffers.get(name, b""))
        wide = made.true_ub - made.true_lb
        if wide > length and not picks.chance(10):
            name = self.rng.choice([it for it, buffer in self.machine.buffers.items() if len(buffer) >= wide] or [name])
            length = len(self.machine.buffers.get(name, b""))
        if count > 1 and not picks.chance(10) and abs(made.extent) * (count - 1) + wide > length:
            count = 1 + (length - wide) // abs(made.extent) if made.extent and length >= wide else 1
        return count, word, name, picks.origin(word, count, length)

    def say_bytes(self):
        return f"bytes {self.rep()} " + " ".join(map(str, self.operation()))

    def opening(self, command):
        name = self.picks.new_name("s", self.machine.sessions)
        count, word, buffer, origin = self.operation(35, True)
        return f"{command} {name} {self.rep()} {count} {word} {buffer} {origin}"

    def say_pack(self):
        return self.opening("pack")

    def say_unpack(self):
        return self.opening("unpack")

    def session_of(self, sort):
        """A session, mostly one of a sort that isn't at its end."""
        open_ones = [
            name for name, it in self.machine.sessions.items() if isinstance(it, sort) and (it.passed < it.total or self.picks.chance(10))
        ]
        if open_ones and not self.picks.slips(5):
            return self.picks.standing(open_ones)
        return self.picks.session_word() if self.picks.slips(15) else None

    def left(self, name):
        session = self.machine.sessions.get(name)
        return session.total - session.passed if session else 5

    def say_take(self):
        name = self.session_of(machine.sessions.Pack)
        if name is None:
            return self.say_pack()
        left = min(self.left(name), 4_000)
        most = self.one(0, 1, 2, 3, 5, 8, left, left + 1, left - 1, self.rng.randint(0, left + 1), self.picks.count(20))
        return f"take {name} {most}"

    def say_seek(self):
        name = self.session_of(machine.sessions.Pack)
        if name is None:
            return self.say_pack()
        session = self.machine.sessions.get(name)
        total = session.total if session else 8
        byte = self.rng.randint(0, total) if self.picks.chance(70) else self.one(0, total, total + 1, -1, *LARGE_EDGES)
        return f"seek {name} {byte}"

    def say_give(self):
        name = self.session_of(machine.sessions.Unpack)
        if name is None:
            return self.say_unpack()
        left = min(self.left(name), 400)
        length = self.one(0, 1, 2, 3, 5, 8, left, left, self.rng.randint(0, left))
        if length > left and not self.picks.chance(15):
            length = left
        if self.picks.chance(4):
            length = left + 1
        return f"give {name} {self.picks.data(length)}"

    def say_close(self):
        return f"close {self.picks.session_word()}"

    def say_elements(self):
        picks = self.picks
        word = picks.type_word(15)
        one = picks.found(word).size
        number = self.one(0, 1, 4, 7, 8, one, one + 1, 3 * one, 3 * one - 1, self.rng.randint(0, 4 * min(one, 100) + 4), picks.large())
        return f"elements {self.rep()} {min(max(number, -(1 << 63)), (1 << 63) - 1)} {word}"

    def say_weights(self):
        weights = [self.rng.randint(0, 6) for _ in range(6)]
        if self.picks.chance(20):
            weights[self.rng.randrange(6)] = self.one(0, 1_000_000, 1_000_001, -1, 999_999, 20)
        if self.picks.chance(15):
            weights = self.one([0] * 6, [1, 3, 2, 1, 2, 2], [1_000_000] * 6, [0, 1, 1, 1, 1, 1], [1, 0, 0, 0, 0, 0])
        return "weights " + " ".join(map(str, weights))

    def say_copy(self):
        picks = self.picks
        count, word, name, origin = self.operation(35, True)
        target = picks.buffer_word() if picks.chance(60) else self.other_than(name)
        length = len(self.machine.buffers.get(target, b""))
        roll = self.rng.randrange(100)
        old = picks.found(word)
        kinds = {kind.name for kind, _ in old.entries or ()}
        if roll < 10 and old.number * count <= 1_000:
            target_count, target_word = old.number * count, picks.kind()
        elif roll < 40:
            target_count, target_word = max(count + self.one(0, 0, 0, 1, -1), 0), word
        elif roll < 80 and len(kinds) == 1:
            target_word = kinds.pop()
            target_count = max(old.number * count + self.one(0, 0, 0, 1, -1), 0)
        else:
            target_count, target_word, _, _ = self.operation(35, True)
        if target_count > 1 << 20:
            target_count = 1
        return f"copy {count} {word} {name} {origin} {target_count} {target_word} {target} {picks.origin(target_word, target_count, length)}"

    def other_than(self, name):
        others = [it for it in self.machine.buffers if it != name]
        return self.rng.choice(others) if others else self.picks.buffer_word()

    def say_reduce(self):
        count, word, name, origin = self.operation(40, True)
        target = self.picks.buffer_word() if self.picks.chance(15) else self.other_than(name)
        length = len(self.machine.buffers.get(target, b""))
        return f"reduce {self.one(*OPERATIONS)} {count} {word} {name} {origin} {target} {self.picks.origin(word, count, length)}"

    def say_reduceall(self):
        count, word, name, origin = self.operation(40, True)
        length = len(self.machine.buffers.get(name, b""))
        fitting = [it for it, buffer in self.machine.buffers.items() if length <= len(buffer) <= 4_000]
        ranks = [self.rng.choice(fitting) if fitting and not self.picks.slips(5) else self.picks.buffer_word() for _ in range(self.rng.randint(1, 5))]
        if self.picks.chance(3):
            ranks *= self.one(200, 341, 1024)
            ranks = ranks[:1_030]
        return f"reduceall {self.one(*OPERATIONS)} {self.one('halves', 'left')} {count} {word} {origin} {name} {' '.join(ranks)}"

    # Lines that are no line, or hardly one

    def spoiled(self, line):
        """The line with a change that mostly makes it a line of no form."""
        words = line.split(b" ")
        at = self.rng.randrange(len(words))
        change = self.rng.randrange(14)
        if change == 0:
            del words[at]
        elif change == 1:
            words.insert(at, self.one(b"1", b"=", b"MPI_INT", b"-", b"x"))
        elif change == 2:
            words[at] += self.one(b"\x00", b"\xff", b"\x0b", b"\x7f", b"\r", b"\xc3\xa9", b"@", b":", b"_")
        elif change == 3:
            words[at] = self.one(b"+1", b"-", b"--1", b"1.0", b"0x10", b"2147483648", b"-2147483649", b"9223372036854775808", b"99" * 30)
        elif change == 4:
            words[at] = words[at].swapcase()
        elif change == 5:
            words[at] = self.one(b"abc", b"0g", b"000", b"1@", b"@1", b"1@2@3@4", b"1:2", b"1:2:3:4", b"2:block:-:1", b"a" * 32, b"a" * 33)
        elif change == 6:
            return b"\t".join(words)
        elif change == 7:
            return b"  " + b" \t ".join(words) + b" "
        elif change == 8:
            return self.one(b"", b" ", b"\t", b"#", b"# \xff\x00", b"  #x", b"\r", b"#\r", b" \r", b"x", b"type", b"=")
        elif change == 9:
            return line[: self.rng.randrange(len(line) + 1)]
        elif change == 10:
            spot = self.rng.randrange(len(line))
            return line[:spot] + bytes([self.one(32, 9, 45, 48, 64, 58, 61, 35, self.rng.randrange(256))]) + line[spot + 1 :]
        elif change == 11:
            return line + self.one(b" ", b"\t", b"\r", b" #", b" 1", b"#")
        elif change == 12:
            return b"#" + line
        return b" ".join(words).replace(b"\n", b"")
