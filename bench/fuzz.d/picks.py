"""Random numbers, words and constructors of a script, with a liking for the edges."""
import datatypes
import lines
from kinds import KINDS, LEFT_OUT, WRITTEN

SMALL_EDGES = (0, 1, -1, 2, 64, 255, 256, 1023, 1024, 1025, 4096, 65535, 65536, lines.SMALL[0], lines.SMALL[1], lines.SMALL[1] - 1)
LARGE_EDGES = tuple(
    sign * value + by
    for value in (1 << 31, 1 << 32, 1 << 59, 1 << 60, 1 << 61, 1 << 62)
    for sign in (1, -1)
    for by in (-8, -1, 0, 1, 8)
) + (lines.LARGE[0], lines.LARGE[1])
NEVER = ("nobody", "MPI_NOTHING", "MPI_int", "MPI_", "MPI_INTEGER4", "mpi_int")
ROOM = 60  # entries of a type, as a rule


class Picks:
    """What is drawn from one seed over the state of a machine."""

    def __init__(self, rng, machine):
        self.rng = rng
        self.machine = machine
        self.made = 0
        self.room = ROOM
        self.edge = 3  # how often a number is one at an edge, in percent
        self.fault = 1  # how much more often than else a word is a wrong one

    def chance(self, percent):
        return self.rng.randrange(100) < percent

    def slips(self, percent):
        """Whether a word is to be a wrong one."""
        return self.chance(min(percent * self.fault, 60))

    def one(self, *choices):
        return self.rng.choice(choices)

    # Numbers

    def count(self, most=6):
        """A count or a block length: mostly small, at times negative or at an edge."""
        if self.slips(3):
            return -self.rng.randint(1, 3)
        if self.chance(self.edge - 1):
            return self.one(*SMALL_EDGES)
        return self.rng.randint(0, max(most, 1))

    def small(self, near=8):
        if self.chance(self.edge):
            return self.one(*SMALL_EDGES)
        return self.one(0, 1, 1, 2, self.rng.randint(-near, 3 * near))

    def large(self, near=64):
        if self.chance(self.edge):
            return self.one(*LARGE_EDGES, *SMALL_EDGES)
        if self.chance(30):
            return 4 * self.rng.randint(-near // 4, near // 2)
        if self.chance(12):
            return self.rng.randint(-3, 3)
        return self.rng.randint(-near, 2 * near)

    def spelled(self, number):
        """The number, now and then with zeros before it."""
        if self.chance(2):
            return ("-" if number < 0 else self.one("", "-") if number == 0 else "") + "0" * self.rng.randint(1, 25) + str(abs(number))
        return str(number)

    def data(self, length):
        text = bytes(self.rng.randrange(256) for _ in range(length)).hex()
        return (text.upper() if self.chance(5) else text) or "-"

    # Words

    def new_name(self, letter, standing):
        """A name to be made: mostly a new one."""
        if self.slips(3) and standing:
            return self.standing(standing)
        if self.slips(1):
            return self.one("MPI_INT", "MPI_FLOAT", "MPI_mine", "c", "fortran", "native", "zero", "A" * 32)
        self.made += 1
        return f"{letter}{self.made}"

    def standing(self, names):
        """One of the names that stand, a late one rather than an early one."""
        names = list(names)
        if self.chance(50):
            names = names[-5:]
        return self.rng.choice(names)

    def kind(self):
        if self.chance(40):
            return self.one("MPI_INT", "MPI_BYTE", "MPI_SHORT", "MPI_LONG", "MPI_UNSIGNED_LONG")
        return self.rng.choice(list(WRITTEN) if self.chance(20) else [kind.name for kind in KINDS])

    def type_word(self, fresh=45):
        if self.slips(1):
            return self.rng.choice(sorted(LEFT_OUT))
        if self.slips(1):
            return self.one(*NEVER, f"t{self.rng.randint(1, self.made + 1)}")
        if self.machine.types and not self.chance(fresh):
            return self.standing(self.machine.types)
        return self.kind()

    def buffer_word(self):
        if not self.machine.buffers or self.slips(1):
            return self.one(*NEVER, f"b{self.rng.randint(1, self.made + 1)}")
        return self.standing(self.machine.buffers)

    def session_word(self):
        if not self.machine.sessions or self.slips(2):
            return self.one(*NEVER, f"s{self.rng.randint(1, self.made + 1)}")
        return self.standing(self.machine.sessions)

    def found(self, word):
        """The type of a word, or that of a byte where it stands for none."""
        if word in self.machine.types:
            return self.machine.types[word][0]
        return datatypes.named(WRITTEN.get(word, KINDS[0]))

    def origin(self, word, count, length):
        """Where an operation may begin: mostly inside a buffer of that length, often at its very ends, at times outside."""
        made = self.found(word)
        last = (count - 1) * made.extent if count > 0 else 0
        first = -(min(0, last) + made.true_lb)
        end = length - (max(0, last) + made.true_ub)
        at = self.large() if self.slips(2) else self.one(first - 1, end + 1) if self.slips(3) else None
        if at is None:
            at = self.one(first, end) if first > end or self.chance(30) else self.rng.randint(first, end)
        return max(lines.LARGE[0], min(at, lines.LARGE[1]))

    def listed(self, most):
        """How many members a list has: at times very many."""
        if self.chance(1):
            return self.rng.randint(50, 300)
        return self.rng.randint(0, most)

    # Constructors

    def shares(self, old, number):
        """Counts whose product times the old type's entries stays small, as a rule."""
        most = max(self.room // max(old.number, 1), 1)
        found = []
        for _ in range(number):
            count = self.count(min(6, most))
            found.append(self.spelled(count))
            most = max(most // max(count, 1), 1)
        return found

    def constructor(self, name=None):
        """The words of a constructor."""
        name = name or self.rng.choice(list(lines.CONSTRUCTORS))
        if name == "struct":
            return " ".join(["struct", *(self.member() for _ in range(self.listed(4)))])
        word = self.type_word()
        old = self.found(word)
        near = 2 * abs(old.extent) + 4 if abs(old.extent) < 1000 else 64
        if name == "contiguous":
            return " ".join([name, *self.shares(old, 1), word])
        if name in ("vector", "hvector"):
            stride = self.small() if name == "vector" else self.large(near)
            return " ".join([name, *self.shares(old, 2), self.spelled(stride), word])
        if name in ("indexed", "hindexed"):
            disps = [self.small() if name == "indexed" else self.large(near) for _ in range(self.listed(5))]
            blocks = [f"{self.count(min(3, 12 // max(old.number, 1)))}@{self.spelled(disp)}" for disp in disps]
            return " ".join([name, word, *blocks])
        if name in ("indexed_block", "hindexed_block"):
            disps = [self.small() if name == "indexed_block" else self.large(near) for _ in range(self.listed(6))]
            return " ".join([name, word, str(self.count(3)), *map(self.spelled, disps)])
        if name == "resized":
            return f"resized {self.large(16)} {self.large(32)} {word}"
        if name == "dup":
            return f"dup {word}"
        order = self.one("c", "fortran")
        if name == "subarray":
            if self.chance(self.edge // 3):
                return " ".join([name, order, word] + ["1:1:0"] * self.rng.randint(20, 66))
            return " ".join([name, order, word, *(self.subarray_dimension() for _ in range(self.one(0, 1, 1, 2, 2, 2, 3, 3, 4)))])
        return self.darray(order, word)

    def member(self):
        word = self.type_word()
        most = max(20 // max(self.found(word).number, 1), 1)
        return f"{self.count(min(3, most))}@{self.spelled(self.large(48))}@{word}"

    def subarray_dimension(self):
        size = self.rng.randint(1, 5) if not self.chance(self.edge) else self.one(*SMALL_EDGES)
        if self.slips(3):
            return f"{size}:{self.small()}:{self.small()}"
        sub = self.rng.randint(1, max(1, min(size, 4)))
        return f"{size}:{sub}:{self.rng.randint(0, max(size - sub, 0))}"

    def darray(self, order, word):
        """Mostly a grid that fits the number of processes."""
        dims, product = [], 1
        for _ in range(self.one(0, 1, 1, 2, 2, 2, 3, 3)):
            dist = self.one("block", "cyclic", "none")
            psize = 1 if dist == "none" and not self.slips(2) else self.rng.randint(1, 3)
            gsize = self.rng.randint(1, 7) if not self.chance(self.edge) else self.one(*SMALL_EDGES)
            least = -(-gsize // psize) if dist == "block" else 1
            darg = "-" if self.chance(40) else str(least + self.rng.randint(-1 if self.slips(5) else 0, 2))
            dims.append(f"{gsize}:{dist}:{darg}:{psize}")
            product *= psize
        size = product if not self.slips(3) else self.one(0, -1, product + 1, product - 1)
        rank = self.rng.randint(0, max(size - 1, 0)) if not self.slips(3) else self.one(-1, size, size + 1)
        return " ".join(["darray", str(size), str(rank), order, word, *dims])
